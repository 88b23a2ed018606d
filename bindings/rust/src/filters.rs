//! Filters of the caller's: functions, and tables of their answers that the library renders with.
use crate::error::{call_refused, LiquidError, INVALID_INPUT, LACKING};
use crate::ffi::{
    bikleinu_answer, bikleinu_answers, bikleinu_answers_filter, bikleinu_answers_jekyll, bikleinu_answers_set, bikleinu_data,
    bikleinu_refuse, Owner, TEXT,
};
use crate::language::FilterSet;
use crate::shared::{Lent, Shared};
use crate::value::{Json, Reader, Value};
use std::collections::BTreeMap;
use std::error::Error;
use std::sync::Arc;

/// The error of a filter's function.
pub type FilterError = Box<dyn Error + Send + Sync>;
pub(crate) type Function = dyn Fn(&Value, &[Value]) -> Result<Value, FilterError> + Send + Sync;

/// In how many rounds a page asks its filters at most.
pub const ROUNDS: u32 = 100;
/// How many answers a table holds before another one is begun.
const ANSWERS: usize = 10_000;
/// How many characters of what an error says go into the message of a fault.
const SHOWN: usize = 300;

/// Where a site of Jekyll's is.
#[derive(Clone)]
struct Site {
    address: String,
    base: String,
}

/// Functions by their names, and the site over which the library itself answers Jekyll's filters.
#[derive(Clone, Default)]
pub(crate) struct Filters {
    functions: Arc<BTreeMap<String, Arc<Function>>>,
    site: Option<Arc<Site>>,
    set: Option<Arc<KnownSet>>,
}

/// A set of filters that the library has itself, with the paths of what they know of data.
struct KnownSet {
    number: u32,
    paths: Shared,
}

impl Filters {
    pub(crate) fn add(&mut self, name: &str, function: Arc<Function>) {
        Arc::make_mut(&mut self.functions).insert(name.to_owned(), function);
    }

    pub(crate) fn set_site(&mut self, address: &str, base: &str) {
        self.site = Some(Arc::new(Site { address: address.to_owned(), base: base.to_owned() }));
    }

    pub(crate) fn set_of(&mut self, set: FilterSet, paths: Owner) {
        self.set = Some(Arc::new(KnownSet { number: set.number(), paths: Shared::new(paths) }));
    }

    /// The paths of what filters of a set know of data, where they are of one.
    pub(crate) fn known(&self) -> Option<&Shared> {
        self.set.as_ref().map(|set| &set.paths)
    }

    pub(crate) fn is_empty(&self) -> bool {
        self.functions.is_empty() && self.site.is_none() && self.set.is_none()
    }

    /// The number that a run ended by, and its page, when each call that it lacked is answered. The table is kept, unless a function
    /// refused a call: that one is asked again by the next page.
    pub(crate) fn page(
        &self,
        kept: &mut Option<Table>,
        data: &Lent<'_>,
        render: impl Fn(&Table, &Owner) -> u32,
    ) -> Result<(u32, Owner, Errors), LiquidError> {
        let mut table = match kept.take() {
            Some(table) if table.answers <= ANSWERS => table,
            _ => Table::new(self)?,
        };
        table.settle(self, data)?;
        let mut errors = Errors(Vec::new());
        for asked in 0..=ROUNDS {
            let page = Owner::new();
            let number = render(&table, &page);
            if number != LACKING {
                *kept = errors.0.is_empty().then_some(table);
                return Ok((number, page, errors));
            }
            if asked < ROUNDS {
                self.answer_all(&mut table, &page, &mut errors)?;
            }
        }
        let message = format!("the page still lacks answers of its filters after {ROUNDS} rounds of calls");
        Err(LiquidError::new(LACKING, "RoundsReached".to_owned(), message, None))
    }

    fn answer_all(&self, table: &mut Table, calls: &Owner, errors: &mut Errors) -> Result<(), LiquidError> {
        let all = match Reader::read(&calls.part(TEXT)?)? {
            Some(Value::List(all)) => all,
            _ => return Err(LiquidError::new(LACKING, "Calls".to_owned(), "the calls can't be read".to_owned(), None)),
        };
        for (number, call) in all.iter().enumerate() {
            match self.answer(call).and_then(readable) {
                Ok(data) => table.put(calls, number, &data?)?,
                Err(error) => {
                    let message = one_line(&error.to_string());
                    table.refuse(calls, number, &message)?;
                    errors.0.push((message, error.into()));
                }
            }
        }
        Ok(())
    }

    /// The answer to a call, which is a list of the filter's name, the input and the arguments.
    fn answer(&self, call: &Value) -> Result<Value, FilterError> {
        match call.as_list() {
            Some([Value::Text(name), input, arguments @ ..]) => {
                let function = self.functions.get(name).ok_or("no such filter")?;
                function(input, arguments)
            }
            _ => Err("a call that can't be read".into()),
        }
    }
}

/// The errors of functions, each by what the page tells of it.
pub(crate) struct Errors(Vec<(String, Arc<dyn Error + Send + Sync>)>);

impl Errors {
    /// The fault with the error that it comes of.
    pub(crate) fn explained(&self, fault: LiquidError) -> LiquidError {
        let of = self.0.iter().filter(|(message, _)| fault.message.contains(message));
        match of.max_by_key(|(message, _)| message.len()) {
            Some((_, error)) => fault.because(error.clone()),
            None => fault,
        }
    }
}

/// Answers of filters, each to one input and its arguments.
pub(crate) struct Table {
    owner: Owner,
    answers: usize,
}

impl Table {
    fn new(filters: &Filters) -> Result<Table, LiquidError> {
        let owner = Owner::new();
        // SAFETY: the handle is an owner's.
        settled(unsafe { bikleinu_answers(owner.at()) })?;
        for name in filters.functions.keys() {
            // SAFETY: the handle is an owner's, and the bytes are a text's.
            settled(unsafe { bikleinu_answers_filter(owner.at(), name.as_ptr(), name.len()) })?;
        }
        Ok(Table { owner, answers: 0 })
    }

    pub(crate) fn owner(&self) -> &Owner {
        &self.owner
    }

    /// Lets the library answer its own filters, for a page over data.
    fn settle(&self, filters: &Filters, data: &Lent<'_>) -> Result<(), LiquidError> {
        if let Some(set) = &filters.set {
            let empty = Owner::new();
            if data.is_empty() {
                // SAFETY: the handle is an owner's, and the bytes are a text's.
                settled(unsafe { bikleinu_data("{}".as_ptr(), 2, empty.at()) })?;
            }
            let data = if data.is_empty() { empty.at() } else { data.at() };
            // SAFETY: the handles are two owners'.
            settled(unsafe { bikleinu_answers_set(self.owner.at(), set.number, data) })?;
        }
        if let Some(site) = &filters.site {
            let (address, base) = (site.address.as_bytes(), site.base.as_bytes());
            // SAFETY: the handle is an owner's, and the bytes are two texts'.
            settled(unsafe {
                bikleinu_answers_jekyll(self.owner.at(), address.as_ptr(), address.len(), base.as_ptr(), base.len())
            })?;
        }
        Ok(())
    }

    fn put(&mut self, calls: &Owner, number: usize, data: &Owner) -> Result<(), LiquidError> {
        self.answers += 1;
        // SAFETY: the handles are owners', three of them.
        settled(unsafe { bikleinu_answer(self.owner.at(), calls.at(), number, data.at()) })
    }

    fn refuse(&mut self, calls: &Owner, number: usize, message: &str) -> Result<(), LiquidError> {
        let (at, length) = (message.as_ptr(), message.len());
        // SAFETY: both handles are owners', two of them, and the bytes are a text's.
        settled(unsafe { bikleinu_refuse(self.owner.at(), calls.at(), number, INVALID_INPUT, at, length) })
    }
}

/// The answer as data. Refused memory ends the page, and any other fault is that of the answer.
fn readable(answer: Value) -> Result<Result<Owner, LiquidError>, FilterError> {
    match answer_data(&answer) {
        Err(fault) if !fault.is_memory() => Err(fault.into()),
        read => Ok(read),
    }
}

/// Data whose member `answer` is the answer.
fn answer_data(answer: &Value) -> Result<Owner, LiquidError> {
    let mut json = Json::default();
    json.push_str("{\"answer\":");
    answer.write_json(&mut json);
    json.push_str("}");
    let json = json.into_text()?;
    let data = Owner::new();
    // SAFETY: the handle is an owner's, and the bytes are a text's.
    let read = unsafe { bikleinu_data(json.as_ptr(), json.len(), data.at()) };
    data.settled(read)
}

pub(crate) fn settled(number: u32) -> Result<(), LiquidError> {
    match number {
        0 => Ok(()),
        _ => Err(call_refused(number)
            .unwrap_or_else(|| LiquidError::new(number, String::new(), String::new(), None))),
    }
}

/// What an error says, on one line.
fn one_line(said: &str) -> String {
    let words: Vec<&str> = said.split_whitespace().collect();
    words.join(" ").chars().filter(|it| !it.is_control()).take(SHOWN).collect()
}
