//! A process that may hold little memory: a page whose values double is refused memory, and the
//! next one is whole.
#![cfg(target_os = "linux")]
use bikleinu::{Data, Kind, Language, LiquidError, Partials};
use std::fs;
use std::io;

#[repr(C)]
struct Bounds {
    now: u64,
    most: u64,
}

extern "C" {
    fn setrlimit(what: i32, bounds: *const Bounds) -> i32;
}

/// The address space of a process, as setrlimit calls it.
const ADDRESS_SPACE: i32 = 9;
const PAGE: u64 = 4096;
const ROOM: u64 = 64 << 20;

/// From here on the process may hold little more than it does.
fn bound_memory() -> io::Result<()> {
    let statm = fs::read_to_string("/proc/self/statm")?;
    let pages: u64 = statm.split(' ').next().and_then(|it| it.parse().ok()).unwrap_or(0);
    let bounds = Bounds { now: pages * PAGE + ROOM, most: u64::MAX };
    match unsafe { setrlimit(ADDRESS_SPACE, &bounds) } {
        0 => Ok(()),
        _ => Err(io::Error::last_os_error()),
    }
}

#[test]
fn values_that_double_are_refused_memory() -> Result<(), LiquidError> {
    let language = Language::new()?;
    let loops = "x{% for i in (1..100) %}{% assign s = s | append: s %}{% endfor %}y";
    let doubles = language.parse(loops)?;
    let hello = language.parse("Hello {{ name }}!")?;
    let data = Data::from_json("{\"s\":\"ab\",\"name\":\"Ada\"}")?;
    let partials = Partials::new()?;
    bound_memory().expect("a bound of the system's");
    for _ in 0..3 {
        let refused = doubles.render(&data, &partials, 32);
        assert_eq!(refused.map_err(|fault| fault.kind()), Err(Kind::Memory));
        assert_eq!(hello.render(&data, &partials, 32)?.text, "Hello Ada!");
    }
    Ok(())
}
