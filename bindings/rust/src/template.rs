//! Templates and their pages.
use crate::error::{out_of_memory, LiquidError, MEMORY, NO_TEXT, OTHER_PATHS, TOO_MANY_LEVELS};
use crate::ffi::{
    bikleinu_data_for, bikleinu_names, bikleinu_paths, bikleinu_render_with, bikleinu_render_within, bikleinu_seen_key, Handle, Owner,
    RawLimits, TEXT,
};
use crate::filters::{Filters, Table};
use crate::shared::{locked, Lent, Shared};
use crate::value::Reader;
use crate::{Data, Partials, Value};
use std::fmt;
use std::sync::Mutex;

/// How many partials may stand in one another where nothing is said.
const USUAL_DEPTH: u32 = 32;

/// What a run is allowed. By default it is what is usual: 400 levels, any number of bytes and turns, and no missing value.
#[derive(Clone, Copy, Debug, Default, PartialEq, Eq)]
pub struct Limits(RawLimits);

impl Limits {
    /// At most so many levels; 0 for what is usual.
    #[must_use]
    pub fn levels(self, levels: u32) -> Limits {
        Limits(RawLimits { levels, ..self.0 })
    }

    /// At most so many bytes: those of each text that the page writes, also into the body of a `capture` or an `ifchanged`, of each
    /// answer of a filter, of each value that `assign` stores or a pair passes and of each list beyond the data that a loop goes over,
    /// and 32 for each item and pair in these.
    #[must_use]
    pub fn max_bytes(self, bytes: u64) -> Limits {
        Limits(RawLimits { bytes, ..self.0 })
    }

    /// At most so many turns: one each time that a text, an output or a tag runs, one more for each filter, comparison, value of a
    /// `when` and pair of a partial in it, and one for an empty body.
    #[must_use]
    pub fn max_turns(self, turns: u64) -> Limits {
        Limits(RawLimits { turns, ..self.0 })
    }

    /// What is missing is nil, and no fault: it writes nothing, and the page goes on.
    ///
    /// ```
    /// use bikleinu::{Data, Language, Limits, Partials};
    ///
    /// let template = Language::new()?.parse("{% for p in products %}{{ p.title }};{% endfor %}")?;
    /// let data = Data::from_json(r#"{"products": [{"title": "Tea"}, {}]}"#)?;
    /// assert!(template.render_text(&data).is_err());
    /// let limits = Limits::default().missing_is_nil();
    /// assert_eq!(template.render_within(&data, &Partials::new()?, 32, limits)?.into_text()?, "Tea;;");
    /// # Ok::<(), bikleinu::LiquidError>(())
    /// ```
    #[must_use]
    pub fn missing_is_nil(self) -> Limits {
        Limits(RawLimits { missing: 1, ..self.0 })
    }
}

/// What a template shows: the text up to the fault, and the fault that it ended by, where there is one.
#[derive(Clone, Debug, PartialEq, Eq)]
#[must_use]
pub struct Page {
    /// The text up to the fault, or all of it.
    pub text: String,
    /// The fault that the page ended by.
    pub fault: Option<LiquidError>,
}

impl Page {
    /// The whole text.
    ///
    /// # Errors
    ///
    /// The fault that the page ended by.
    pub fn into_text(self) -> Result<String, LiquidError> {
        match self.fault {
            None => Ok(self.text),
            Some(fault) => Err(fault),
        }
    }
}

/// A template, which can be rendered any number of times.
pub struct Template {
    owner: Shared,
    filters: Filters,
    /// The answers of its filters that are kept for further pages: a table for each of the pages that are rendered at a time.
    tables: Mutex<Vec<Table>>,
}

impl Template {
    pub(crate) fn of(owner: Owner, filters: Filters) -> Template {
        Template { owner: Shared::new(owner), filters, tables: Mutex::new(Vec::new()) }
    }

    /// The only handle on it, so that a call can move it.
    pub(crate) fn only(&mut self) -> &Owner {
        self.owner.only()
    }

    /// The names that the template and these partials mention, ascending: a page depends on no other names of the data.
    ///
    /// # Errors
    ///
    /// Refused memory.
    pub fn names(&self, partials: &Partials) -> Result<Vec<String>, LiquidError> {
        let (lent, others, made) = (self.owner.lend()?, partials.owner.lend()?, Owner::new());
        // SAFETY: the handles are owners', three of them.
        let number = unsafe { bikleinu_names(lent.at(), others.at(), made.at()) };
        texts(&made.settled(number)?)
    }

    /// What the template and these partials ask of data.
    ///
    /// ```
    /// use bikleinu::{Language, Partials};
    ///
    /// let template = Language::new()?.parse("{{ shop.name }}{% for p in products %}{{ p.title }};{% endfor %}")?;
    /// let paths = template.paths(&Partials::new()?)?;
    /// assert_eq!(paths.texts(), ["products[].title", "shop.name"]);
    /// # Ok::<(), bikleinu::LiquidError>(())
    /// ```
    ///
    /// # Errors
    ///
    /// Refused memory.
    pub fn paths(&self, partials: &Partials) -> Result<Paths, LiquidError> {
        let (lent, others, made) = (self.owner.lend()?, partials.owner.lend()?, Owner::new());
        // SAFETY: the handles are owners', three of them.
        let number = unsafe { bikleinu_paths(lent.at(), others.at(), made.at()) };
        let made = made.settled(number)?;
        Ok(Paths { texts: texts(&made)?, owner: Shared::new(made) })
    }

    /// A key of what the template and these partials see of the data in a text of JSON: pages over data of one key are the same. So it, or
    /// a digest of it, is an `ETag`, or drops equal jobs of a queue, before anything is rendered.
    ///
    /// ```
    /// use bikleinu::{Language, Partials};
    ///
    /// let template = Language::new()?.parse("{% for p in products %}{{ p.title }};{% endfor %}")?;
    /// let key = |json| template.seen_key(json, &Partials::new()?);
    /// let (one, other) = (r#"{"products": [{"title": "Tea", "stock": 3}]}"#, r#"{"products": [{"title": "Tea", "stock": 2}]}"#);
    /// assert_eq!(key(one)?, key(other)?);
    /// # Ok::<(), bikleinu::LiquidError>(())
    /// ```
    ///
    /// # Errors
    ///
    /// What is wrong in the text, with its place, or refused memory.
    pub fn seen_key(&self, json: &str, partials: &Partials) -> Result<String, LiquidError> {
        let paths = self.paths(partials)?;
        let mut key = key_of(json, &paths.owner)?;
        if let Some(known) = self.filters.known() {
            let more = key_of(json, known)?;
            key.try_reserve(more.len() + 1).map_err(|_| out_of_memory())?;
            key.push('\n');
            key.push_str(&more);
        }
        Ok(key)
    }

    /// Another handle on it, for a call.
    pub(crate) fn lend(&self) -> Result<Lent<'_>, LiquidError> {
        self.owner.lend()
    }

    /// The page of the template over this data, with these partials, of which at most `depth` may be nested.
    ///
    /// # Errors
    ///
    /// Refused memory, and a run that could reach more than 400 levels. Any other fault is the page's.
    pub fn render(&self, data: &Data, partials: &Partials, depth: u32) -> Result<Page, LiquidError> {
        self.render_within(data, partials, depth, Limits::default())
    }

    /// The whole text of the page over this data, without partials.
    ///
    /// # Errors
    ///
    /// The fault of the page, or as [`render`](Template::render).
    pub fn render_text(&self, data: &Data) -> Result<String, LiquidError> {
        self.render_by(data, Owner::new().at(), USUAL_DEPTH, Limits::default())?.into_text()
    }

    /// The whole text of the page over this data, with these partials, of which at most 32 may be nested.
    ///
    /// # Errors
    ///
    /// The fault of the page, or as [`render`](Template::render).
    pub fn render_text_with(&self, data: &Data, partials: &Partials) -> Result<String, LiquidError> {
        self.render(data, partials, USUAL_DEPTH)?.into_text()
    }

    /// As [`render`](Template::render), within limits: fewer levels for a smaller stack, or more for a larger one.
    ///
    /// # Errors
    ///
    /// Refused memory, and a run that could reach more levels than are allowed. Any other fault is the page's.
    pub fn render_within(
        &self,
        data: &Data,
        partials: &Partials,
        depth: u32,
        limits: Limits,
    ) -> Result<Page, LiquidError> {
        let others = partials.owner.lend()?;
        self.render_by(data, others.at(), depth, limits)
    }

    fn render_by(&self, data: &Data, partials: *mut Handle, depth: u32, limits: Limits) -> Result<Page, LiquidError> {
        let limits = std::ptr::addr_of!(limits.0);
        let (lent, data) = (self.owner.lend()?, data.0.lend()?);
        let given = (lent.at(), data.at(), partials);
        if self.filters.is_empty() {
            let page = Owner::new();
            // SAFETY: the handles are owners', four of them, and the limits are there for as long as the call.
            let number = unsafe { bikleinu_render_within(given.0, given.1, given.2, depth, limits, page.at()) };
            return shown(number, &page);
        }
        let mut kept = locked(&self.tables).pop();
        let run = self.filters.page(&mut kept, &data, |table, page| {
            let table = table.owner().at();
            // SAFETY: the handles are owners', five of them, and the limits are there for as long as the call.
            unsafe { bikleinu_render_with(given.0, given.1, given.2, depth, limits, table, page.at()) }
        });
        locked(&self.tables).extend(kept);
        let (number, page, errors) = run?;
        let page = shown(number, &page)?;
        Ok(Page { text: page.text, fault: page.fault.map(|fault| errors.explained(fault)) })
    }
}

/// What a template asks of data, as paths: of a page nothing else is seen.
pub struct Paths {
    owner: Shared,
    texts: Vec<String>,
}

impl Paths {
    /// The paths, ascending: `customer.name` asks for a whole value, `customer?` only whether there is one, `products[].title` for the
    /// title of each item that a loop goes over, and `products[]?` for how many there are.
    #[must_use]
    pub fn texts(&self) -> &[String] {
        &self.texts
    }
}

impl fmt::Debug for Paths {
    fn fmt(&self, f: &mut fmt::Formatter<'_>) -> fmt::Result {
        f.debug_list().entries(&self.texts).finish()
    }
}

impl Data {
    /// As [`from_json`](Data::from_json), but no more is built than the paths ask for. Of a long text of which a template sees little that
    /// takes less time and memory. The page of a template and partials whose paths these are is the same as over all of the data, up to
    /// the words of a fault; a template that asks for more is refused ([`Kind::OtherPaths`](crate::Kind::OtherPaths)).
    ///
    /// ```
    /// use bikleinu::{Data, Language, Partials};
    ///
    /// let template = Language::new()?.parse("{% for p in products %}{{ p.title }};{% endfor %}")?;
    /// let paths = template.paths(&Partials::new()?)?;
    /// let data = Data::from_json_for(r#"{"products": [{"title": "Tea", "text": "Green"}]}"#, &paths)?;
    /// assert_eq!(template.render_text(&data)?, "Tea;");
    /// # Ok::<(), bikleinu::LiquidError>(())
    /// ```
    ///
    /// # Errors
    ///
    /// What is wrong in the text, also where no path leads, with its place; or refused memory.
    pub fn from_json_for(json: &str, paths: &Paths) -> Result<Data, LiquidError> {
        let (asked, made) = (paths.owner.lend()?, Owner::new());
        // SAFETY: the handles are owners', two of them, and the bytes are a text's.
        let number = unsafe { bikleinu_data_for(json.as_ptr(), json.len(), asked.at(), made.at()) };
        made.settled(number).map(Data::of)
    }
}

/// The key of what paths ask of a text of JSON.
fn key_of(json: &str, paths: &Shared) -> Result<String, LiquidError> {
    let (asked, made) = (paths.lend()?, Owner::new());
    // SAFETY: the handles are owners', two of them, and the bytes are a text's.
    let number = unsafe { bikleinu_seen_key(json.as_ptr(), json.len(), asked.at(), made.at()) };
    made.settled(number)?.part(TEXT)
}

/// The texts of a list in JSON.
fn texts(list: &Owner) -> Result<Vec<String>, LiquidError> {
    let mut found = Vec::new();
    if let Some(Value::List(all)) = Reader::read(&list.part(TEXT)?)? {
        found.try_reserve_exact(all.len()).map_err(|_| out_of_memory())?;
        found.extend(all.into_iter().filter_map(Value::into_text));
    }
    Ok(found)
}

/// The page that a run ended with, or the error where there is none.
fn shown(number: u32, page: &Owner) -> Result<Page, LiquidError> {
    match number {
        MEMORY | NO_TEXT..=TOO_MANY_LEVELS | OTHER_PATHS => Err(page.fault(number)),
        0 => Ok(Page { text: page.part(TEXT)?, fault: None }),
        _ => Ok(Page { text: page.part(TEXT)?, fault: Some(page.fault(number)) }),
    }
}

impl fmt::Debug for Template {
    fn fmt(&self, f: &mut fmt::Formatter<'_>) -> fmt::Result {
        f.debug_struct("Template").finish_non_exhaustive()
    }
}
