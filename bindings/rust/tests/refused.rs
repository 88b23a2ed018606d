//! Each call with each request for memory refused in turn: those of the library, and those of this
//! crate that grow with a page, with names or with calls. A call that was refused one answers
//! `Memory`, and called again what it answered at first. When all is dropped, no memory is left.
// the tests may need a later Rust than the crate
#![allow(clippy::incompatible_msrv)]
#![cfg(all(target_os = "linux", target_env = "gnu"))]
use bikleinu::{Data, Language, Limits, LiquidError, Partials, Template, Value};
use std::alloc::{GlobalAlloc, Layout};
use std::cell::Cell;
use std::ffi::c_void;
use std::fmt::Debug;
use std::{fs, io, ptr};

extern "C" {
    fn __libc_malloc(size: usize) -> *mut c_void;
    fn __libc_realloc(old: *mut c_void, size: usize) -> *mut c_void;
    fn __libc_memalign(alignment: usize, size: usize) -> *mut c_void;
    fn __libc_free(old: *mut c_void);
    fn __errno_location() -> *mut i32;
}

thread_local! {
    /// The request that is refused, from 1; none where it is 0.
    static REFUSED: Cell<usize> = const { Cell::new(0) };
    /// How many requests there were, where they count.
    static REQUESTS: Cell<Option<usize>> = const { Cell::new(None) };
    /// How many pieces of memory are taken and not given back.
    static BLOCKS: Cell<isize> = const { Cell::new(0) };
}

/// From so many bytes on a request of Rust's own is refused too. Below, Rust ends the program.
const LONG: usize = 1024;
const OUT_OF_MEMORY: i32 = 12;
/// What `malloc` aligns.
const ALIGNED: usize = 16;
/// Of a call that makes more requests, so many are refused, spread over all.
const MOST: usize = 300;

fn is_refused() -> bool {
    let Some(requests) = REQUESTS.get() else { return false };
    REQUESTS.set(Some(requests + 1));
    if requests + 1 != REFUSED.get() {
        return false;
    }
    unsafe { *__errno_location() = OUT_OF_MEMORY };
    true
}

fn counted<T>(made: *mut T, more: isize) -> *mut T {
    BLOCKS.set(BLOCKS.get() + if made.is_null() { 0 } else { more });
    made
}

#[no_mangle]
extern "C" fn malloc(size: usize) -> *mut c_void {
    let made = if is_refused() { ptr::null_mut() } else { unsafe { __libc_malloc(size) } };
    counted(made, 1)
}

#[no_mangle]
unsafe extern "C" fn realloc(old: *mut c_void, size: usize) -> *mut c_void {
    let made = if is_refused() { ptr::null_mut() } else { __libc_realloc(old, size) };
    counted(made, isize::from(old.is_null()))
}

#[no_mangle]
unsafe extern "C" fn free(old: *mut c_void) {
    __libc_free(counted(old, -1))
}

/// Rust's own memory, which is the system's.
struct Own;

unsafe impl GlobalAlloc for Own {
    unsafe fn alloc(&self, layout: Layout) -> *mut u8 {
        if layout.size() >= LONG && is_refused() {
            return ptr::null_mut();
        }
        counted(__libc_memalign(layout.align().max(ALIGNED), layout.size()).cast(), 1)
    }

    unsafe fn dealloc(&self, old: *mut u8, _: Layout) {
        __libc_free(counted(old, -1).cast());
    }
}

#[global_allocator]
static OWN: Own = Own;

/// What a call answers where that request of it is refused, and how many it made.
fn refusing<T>(at: usize, call: impl Fn() -> T) -> (T, usize) {
    REFUSED.set(at);
    REQUESTS.set(Some(0));
    let made = call();
    (made, REQUESTS.replace(None).unwrap_or(0))
}

/// Requests of so many: all, or some that are spread over them.
fn places(count: usize) -> impl Iterator<Item = usize> {
    let step = count / MOST + 1;
    (1..=count).step_by(step)
}

fn each<T: PartialEq + Debug>(what: &str, call: impl Fn() -> Result<T, LiquidError>) {
    each_by(what, false, call);
}

/// The same of a call that may get by without what it was refused: after a round that lists fewer
/// calls of a filter comes another.
fn each_by<T: PartialEq + Debug>(
    what: &str,
    gets_by: bool,
    call: impl Fn() -> Result<T, LiquidError>,
) {
    let (wanted, count) = refusing(0, &call);
    assert!(count > 0, "{what}: it makes no request");
    for at in places(count) {
        let (made, requests) = refusing(at, &call);
        let is_well = match &made {
            Err(fault) if requests >= at && fault.is_memory() => true,
            _ => (gets_by || requests < at) && made == wanted,
        };
        assert!(is_well, "{what}, request {at} of {count}: {made:?}");
        assert_eq!(call(), wanted, "{what}, after request {at} of {count}");
    }
}

/// Makes a check, after which no memory is left behind.
fn without_rest(check: impl Fn() -> Result<(), LiquidError>) -> Result<(), LiquidError> {
    let before = BLOCKS.get();
    check()?;
    assert_eq!(BLOCKS.get(), before, "pieces of memory are left behind");
    Ok(())
}

const SOURCE: &str = "{% for p in products %}{{ p.title | upcase }}{% render 'foot', p: p %}\
                      {% endfor %}{{ shop | size }}";

/// Data of a page of some thousand bytes.
fn long_json() -> String {
    let title = "Tea ".repeat(30);
    let products = (0..40).map(|n| format!("{{\"title\":\"{title}\",\"n\":{n}}}"));
    let products = products.collect::<Vec<_>>().join(",");
    format!("{{\"products\":[{products}],\"shop\":\"Leaf\"}}")
}

fn partials(language: &Language) -> Result<Partials, LiquidError> {
    let mut partials = Partials::new()?;
    partials.insert("foot", language.parse("[{{ p.n }}]")?)?;
    Ok(partials)
}

#[test]
fn what_pages_are_made_of() -> Result<(), LiquidError> {
    without_rest(|| {
        let language = Language::new()?;
        let json = long_json();
        each("a language", || Language::new().map(|_| ()));
        each("jekyll's language", || Language::jekyll().map(|_| ()));
        each("a template", || language.parse(SOURCE).map(|_| ()));
        each("a refused source", || language.parse("{{ a | nope }}").map(|_| ()));
        each("data", || Data::from_json(&json).map(|_| ()));
        each("refused data", || Data::from_json("{\"a\":1.5}").map(|_| ()));
        each("partials", || partials(&language).map(|_| ()));
        each("a filter", || Language::new()?.filter("money", |it, _| Ok(it.clone())));
        Ok(())
    })
}

#[test]
fn pages() -> Result<(), LiquidError> {
    without_rest(|| {
        let language = Language::new()?;
        let (template, partials) = (language.parse(SOURCE)?, partials(&language)?);
        let json = long_json();
        let data = Data::from_json(&json)?;
        assert!(template.render(&data, &partials, 32)?.text.len() > 4 * LONG);
        each("a page", || template.render(&data, &partials, 32));
        let limits = Limits::default().max_bytes(3000).max_turns(90);
        let within = || template.render_within(&data, &partials, 32, limits);
        each("a page within limits", within);
        each("a page with a fault", || language.parse("{{ a }}")?.render_text(&Data::none()));
        each("names", || template.names(&partials));
        each("paths", || Ok(template.paths(&partials)?.texts().to_vec()));
        let paths = template.paths(&partials)?;
        let rendered = |data: Data| template.render(&data, &partials, 32);
        let lacking = Data::from_json("{\"products\":[{}]}")?;
        let lenient = Limits::default().missing_is_nil();
        each("a page in which what is missing is nil", || template.render_within(&lacking, &partials, 32, lenient));
        each("data for a template", || rendered(Data::from_json_for(&json, &paths)?));
        Ok(())
    })
}

#[test]
fn long_names() -> Result<(), LiquidError> {
    without_rest(|| {
        let name = "name".repeat(200);
        let source: String = (0..50).map(|n| format!("{{{{ {name}{n} }}}}")).collect();
        let (template, none) = (Language::new()?.parse(&source)?, Partials::new()?);
        assert_eq!(template.names(&none)?.len(), 50);
        each("long names", || template.names(&none));
        each("long paths", || Ok(template.paths(&none)?.texts().len()));
        Ok(())
    })
}

/// A template with a filter whose calls and answers are long.
fn with_filter() -> Result<Template, LiquidError> {
    let mut language = Language::new()?;
    let twice = |it: &Value, _: &[Value]| {
        let text = it.as_text().ok_or("a text is wanted")?;
        Ok([text, text].concat().into())
    };
    language.filter("twice", twice)?;
    let loops = "{% for p in products %}{{ p.title | twice }}{% endfor %}";
    language.parse(&[loops, "{{ shop | twice | twice }}"].concat())
}

#[test]
fn pages_with_filters() -> Result<(), LiquidError> {
    without_rest(|| {
        let data = Data::from_json(&long_json())?;
        // the answers of the filter are the program's own, so they stay below what is refused
        each_by("a page with a filter", true, || with_filter()?.render_text(&data));
        let kept = with_filter()?;
        each_by("a page with kept answers", true, || kept.render_text(&data));
        let faulty = Data::from_json("{\"products\":[],\"shop\":7}")?;
        each_by("a filter's error", true, || with_filter()?.render_text(&faulty));
        Ok(())
    })
}

#[test]
fn partials_of_a_folder() -> io::Result<()> {
    let room = std::env::temp_dir().join(format!("bikleinu-refused-{}", std::process::id()));
    fs::create_dir_all(&room)?;
    fs::write(room.join("a.liquid"), format!("{}{{{{ x }}}}", "text ".repeat(500)))?;
    let language = Language::new().expect("there is memory");
    let call = || Partials::from_folder(&room, &language).map(|_| ());
    let (read, count) = refusing(0, call);
    read?;
    for at in places(count) {
        let (read, requests) = refusing(at, call);
        let kind = read.err().map(|error| error.kind());
        let wanted = (requests >= at).then_some(io::ErrorKind::OutOfMemory);
        assert_eq!(kind, wanted, "request {at} of {count}");
        call()?;
    }
    fs::remove_dir_all(&room)
}
