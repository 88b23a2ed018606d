//! Languages.
use crate::error::{no_values, LiquidError};
use crate::ffi::{
    bikleinu_escape_html, bikleinu_jekyll_language, bikleinu_language, bikleinu_parse, bikleinu_paths, bikleinu_register,
    bikleinu_register_block_given, bikleinu_register_jekyll, bikleinu_register_tag_given, bikleinu_set_language, Handle,
    Owner,
};
use crate::filters::{settled, FilterError, Filters};
use crate::shared::Shared;
use crate::{Template, Value};
use std::fmt;
use std::ops::RangeInclusive;
use std::sync::Arc;

/// How what stands after the name of a tag or a block of the caller's is read.
#[derive(Clone, Copy, Debug, PartialEq, Eq)]
pub enum TagStyle {
    /// As values, with commas between them or none.
    Items,
    /// As a path without quotes, and then values.
    Path,
    /// All of it as one text; as no value where nothing stands there.
    Text,
}

impl TagStyle {
    fn number(self) -> u32 {
        match self {
            TagStyle::Items => 0,
            TagStyle::Path => 1,
            TagStyle::Text => 2,
        }
    }
}

/// A set of filters that the library has itself.
#[derive(Clone, Copy, Debug, PartialEq, Eq)]
pub enum FilterSet {
    /// Over exact decimals: `decimal_plus` and so on.
    Decimals,
    /// Jekyll's, with `where_exp`.
    Jekyll,
    /// Shopify's.
    Shopify,
}

impl FilterSet {
    pub(crate) fn number(self) -> u32 {
        match self {
            FilterSet::Decimals => 1,
            FilterSet::Jekyll => 2,
            FilterSet::Shopify => 3,
        }
    }

    /// What its filters know of the data of a page, as a template that shows it.
    fn known(self) -> &'static str {
        match self {
            FilterSet::Decimals => "",
            FilterSet::Jekyll => "{{ site.url }}{{ site.baseurl }}",
            FilterSet::Shopify => {
                "{{ shop.money_format }}{{ shop.money_with_currency_format }}{{ collection.handle }}{{ current_tags }}"
            }
        }
    }
}

/// A language: its tags, blocks and filters.
pub struct Language {
    owner: Shared,
    filters: Filters,
}

impl Language {
    /// The standard language.
    ///
    /// # Errors
    ///
    /// Refused memory.
    pub fn new() -> Result<Language, LiquidError> {
        let made = Owner::new();
        // SAFETY: the handle is an owner's.
        let number = unsafe { bikleinu_language(made.at()) };
        made.settled(number).map(Language::of)
    }

    /// The standard language with the tag `include` and the filter `sort` of Jekyll in place of its own, with its block `highlight`, and
    /// without the white space of blocks that write nothing.
    ///
    /// # Errors
    ///
    /// Refused memory.
    pub fn jekyll() -> Result<Language, LiquidError> {
        let made = Owner::new();
        // SAFETY: the handle is an owner's.
        let number = unsafe { bikleinu_jekyll_language(made.at()) };
        made.settled(number).map(Language::of)
    }

    /// The language of a set of filters that the library has itself. What they know of a site or a shop is what the data of each page have:
    /// `site.url` and `site.baseurl`, or `shop.money_format`, `shop.money_with_currency_format`, `collection.handle` and `current_tags`.
    ///
    /// ```
    /// use bikleinu::{Data, FilterSet, Language};
    ///
    /// let template = Language::with_filters(FilterSet::Decimals)?.parse("{{ price | decimal_times: 3 }}")?;
    /// assert_eq!(template.render_text(&Data::from_json(r#"{"price": "19.99"}"#)?)?, "59.97");
    /// # Ok::<(), bikleinu::LiquidError>(())
    /// ```
    ///
    /// # Errors
    ///
    /// Refused memory.
    pub fn with_filters(set: FilterSet) -> Result<Language, LiquidError> {
        let made = Owner::new();
        // SAFETY: the handle is an owner's.
        let number = unsafe { bikleinu_set_language(set.number(), made.at()) };
        let mut language = made.settled(number).map(Language::of)?;
        let known = language.parse(set.known())?;
        let (lent, none, paths) = (known.lend()?, Owner::new(), Owner::new());
        // SAFETY: the handles are owners', three of them.
        let number = unsafe { bikleinu_paths(lent.at(), none.at(), paths.at()) };
        language.filters.set_of(set, paths.settled(number)?);
        Ok(language)
    }

    /// Escapes for HTML what outputs and `cycle` write, but not an output that ends with `| raw`, in what is parsed from now on. A
    /// captured text is escaped already, and needs it.
    ///
    /// ```
    /// use bikleinu::{Data, Language};
    ///
    /// let mut language = Language::new()?;
    /// language.autoescape()?;
    /// let template = language.parse("{{ a }}{{ a | raw }}")?;
    /// assert_eq!(template.render_text(&Data::from_json(r#"{"a": "<b>"}"#)?)?, "&lt;b&gt;<b>");
    /// # Ok::<(), bikleinu::LiquidError>(())
    /// ```
    ///
    /// # Errors
    ///
    /// Refused memory.
    pub fn autoescape(&mut self) -> Result<(), LiquidError> {
        // SAFETY: the handle is an owner's.
        settled(unsafe { bikleinu_escape_html(self.owner.only().at()) })
    }

    fn of(owner: Owner) -> Language {
        Language { owner: Shared::new(owner), filters: Filters::default() }
    }

    /// Adds a filter that takes any number of arguments, in place of any other of that name, for what is parsed from now on.
    ///
    /// The function gets the input and the arguments. It is to be a function of these alone: it is called before the page is rendered,
    /// possibly for a call that the page doesn't come to, and its answer is kept for further pages. Its error ends a page that makes
    /// the call, by a fault whose [`source`](std::error::Error::source) it is.
    ///
    /// ```
    /// use bikleinu::{Data, Language, Value};
    ///
    /// let mut language = Language::new()?;
    /// language.filter("money", |input, arguments| {
    ///     let cents = input.as_integer().ok_or("cents are wanted")?;
    ///     let currency = arguments.first().and_then(Value::as_text).unwrap_or("EUR");
    ///     let (sign, cents) = (if cents < 0 { "-" } else { "" }, cents.unsigned_abs());
    ///     Ok(format!("{sign}{}.{:02} {currency}", cents / 100, cents % 100).into())
    /// })?;
    /// let template = language.parse("{{ 1999 | money }}, {{ 5 | money: 'USD' }}")?;
    /// assert_eq!(template.render_text(&Data::none())?, "19.99 EUR, 0.05 USD");
    /// # Ok::<(), bikleinu::LiquidError>(())
    /// ```
    ///
    /// # Errors
    ///
    /// Refused memory.
    pub fn filter<F>(&mut self, name: &str, function: F) -> Result<(), LiquidError>
    where
        F: Fn(&Value, &[Value]) -> Result<Value, FilterError> + Send + Sync + 'static,
    {
        self.filter_of(name, 0..=usize::MAX, function)
    }

    /// As [`filter`](Language::filter), with how many arguments a template may give it.
    ///
    /// # Errors
    ///
    /// Refused memory.
    pub fn filter_of<F>(&mut self, name: &str, arguments: RangeInclusive<usize>, function: F) -> Result<(), LiquidError>
    where
        F: Fn(&Value, &[Value]) -> Result<Value, FilterError> + Send + Sync + 'static,
    {
        let (least, most) = arguments.into_inner();
        // SAFETY: the handle is an owner's, and the bytes are a text's.
        settled(unsafe { bikleinu_register(self.owner.only().at(), name.as_ptr(), name.len(), least, most) })?;
        self.filters.add(name, Arc::new(function));
        Ok(())
    }

    /// Adds Jekyll's own filters, which the library answers over a site of this address and this base path, for what is parsed from now
    /// on. A filter that is added afterwards stands in place of the one of its name.
    ///
    /// ```
    /// use bikleinu::{Data, Language};
    ///
    /// let mut language = Language::jekyll()?;
    /// language.jekyll_filters("https://example.org", "/blog")?;
    /// let template = language.parse("{{ '/a b' | absolute_url }}")?;
    /// assert_eq!(template.render_text(&Data::none())?, "https://example.org/blog/a%20b");
    /// # Ok::<(), bikleinu::LiquidError>(())
    /// ```
    ///
    /// # Errors
    ///
    /// Refused memory: then some of them may be there.
    pub fn jekyll_filters(&mut self, address: &str, base: &str) -> Result<(), LiquidError> {
        // SAFETY: the handle is an owner's.
        settled(unsafe { bikleinu_register_jekyll(self.owner.only().at()) })?;
        self.filters.set_site(address, base);
        Ok(())
    }

    /// Adds a tag, in place of any other of that name that was added, for what is parsed from now on: `{% name a, b %}` writes what the
    /// function answers to the values `a` and `b`, of which a template gives as many as `arguments` has. The rules are those of
    /// [`filter`](Language::filter).
    ///
    /// ```
    /// use bikleinu::{Data, Language, TagStyle, Value};
    ///
    /// let mut language = Language::new()?;
    /// language.tag("link", TagStyle::Text, 1..=1, |values| {
    ///     let path = values[0].as_text().unwrap_or_default();
    ///     Ok(format!("/{}.html", path.trim_end_matches(".md")).into())
    /// })?;
    /// language.block("box", TagStyle::Items, 0..=1, |body, values| {
    ///     let class = values.first().and_then(Value::as_text).unwrap_or("plain");
    ///     Ok(format!("<div class=\"{class}\">{}</div>", body.as_text().unwrap_or_default()).into())
    /// })?;
    /// let template = language.parse("{% box 'tea' %}{% link tea.md %}{% endbox %}")?;
    /// assert_eq!(template.render_text(&Data::none())?, "<div class=\"tea\">/tea.html</div>");
    /// # Ok::<(), bikleinu::LiquidError>(())
    /// ```
    ///
    /// # Errors
    ///
    /// A name that no tag can have ([`Kind::NoWord`](crate::Kind::NoWord), [`Kind::ReservedName`](crate::Kind::ReservedName)) or that is
    /// one of the language's own ([`Kind::TakenName`](crate::Kind::TakenName)), or refused memory.
    pub fn tag<F>(&mut self, name: &str, style: TagStyle, arguments: RangeInclusive<usize>, function: F) -> Result<(), LiquidError>
    where
        F: Fn(&[Value]) -> Result<Value, FilterError> + Send + Sync + 'static,
    {
        self.tag_given(name, style, arguments, &[], move |values, _| function(values))
    }

    /// As [`tag`](Language::tag), with values that the function gets too, each as a template names it: nil where the page's data have
    /// nothing there.
    ///
    /// ```
    /// use bikleinu::{Data, Language, TagStyle, Value};
    ///
    /// let mut language = Language::new()?;
    /// language.tag_given("canonical", TagStyle::Items, 0..=0, &["site.url", "page.path"], |_, given| {
    ///     let text = |at: usize| given[at].as_text().unwrap_or_default();
    ///     Ok(format!("{}{}", text(0), text(1)).into())
    /// })?;
    /// let template = language.parse("{% canonical %}")?;
    /// assert_eq!(template.render_text(&Data::from_json(r#"{"site": {"url": "https://example.org"}}"#)?)?, "https://example.org");
    /// # Ok::<(), bikleinu::LiquidError>(())
    /// ```
    ///
    /// # Errors
    ///
    /// As of [`tag`](Language::tag), and [`Kind::NoValues`](crate::Kind::NoValues) where one of them is no value, or has a comma.
    pub fn tag_given<F>(
        &mut self,
        name: &str,
        style: TagStyle,
        arguments: RangeInclusive<usize>,
        given: &[&str],
        function: F,
    ) -> Result<(), LiquidError>
    where
        F: Fn(&[Value], &[Value]) -> Result<Value, FilterError> + Send + Sync + 'static,
    {
        let (count, texts) = (given.len(), joined(given)?);
        let filter = self.filter_of_tag(name, arguments, count, move |_, all| {
            let (values, given) = all.split_at(all.len() - count);
            function(values, given)
        })?;
        self.registered(bikleinu_register_tag_given, name, &filter, style, &texts)
    }

    /// Adds a block in the same way, which ends with `end` and its name. The function gets the text of the body, and then the values.
    ///
    /// # Errors
    ///
    /// As of [`tag`](Language::tag).
    pub fn block<F>(&mut self, name: &str, style: TagStyle, arguments: RangeInclusive<usize>, function: F) -> Result<(), LiquidError>
    where
        F: Fn(&Value, &[Value]) -> Result<Value, FilterError> + Send + Sync + 'static,
    {
        self.block_given(name, style, arguments, &[], move |body, values, _| function(body, values))
    }

    /// As [`block`](Language::block), with given values, as [`tag_given`](Language::tag_given) has them.
    ///
    /// # Errors
    ///
    /// As of [`tag_given`](Language::tag_given).
    pub fn block_given<F>(
        &mut self,
        name: &str,
        style: TagStyle,
        arguments: RangeInclusive<usize>,
        given: &[&str],
        function: F,
    ) -> Result<(), LiquidError>
    where
        F: Fn(&Value, &[Value], &[Value]) -> Result<Value, FilterError> + Send + Sync + 'static,
    {
        let (count, texts) = (given.len(), joined(given)?);
        let filter = self.filter_of_tag(name, arguments, count, move |body, all| {
            let (values, given) = all.split_at(all.len() - count);
            function(body, values, given)
        })?;
        self.registered(bikleinu_register_block_given, name, &filter, style, &texts)
    }

    /// Registers a tag or a block that calls this filter, with the texts of its given values.
    fn registered(
        &mut self,
        register: Register,
        name: &str,
        filter: &str,
        style: TagStyle,
        given: &str,
    ) -> Result<(), LiquidError> {
        // SAFETY: the handle is an owner's, and the bytes are texts'.
        settled(unsafe {
            register(
                self.owner.only().at(),
                name.as_ptr(),
                name.len(),
                filter.as_ptr(),
                filter.len(),
                style.number(),
                given.as_ptr(),
                given.len(),
            )
        })
    }

    /// Adds the filter that a tag calls, and answers its name. It is no word, so no template calls it otherwise, and a fault shows the tag
    /// by it.
    fn filter_of_tag<F>(
        &mut self,
        name: &str,
        arguments: RangeInclusive<usize>,
        given: usize,
        function: F,
    ) -> Result<String, LiquidError>
    where
        F: Fn(&Value, &[Value]) -> Result<Value, FilterError> + Send + Sync + 'static,
    {
        let (least, most) = arguments.into_inner();
        let filter = format!("{{% {name} %}}");
        self.filter_of(&filter, least.saturating_add(given)..=most.saturating_add(given), function)?;
        Ok(filter)
    }

    /// The template that a source is.
    ///
    /// # Errors
    ///
    /// A fault of the source, with its place, or refused memory.
    pub fn parse(&self, source: &str) -> Result<Template, LiquidError> {
        let (lent, made) = (self.owner.lend()?, Owner::new());
        // SAFETY: both handles are owners', two of them, and the bytes are a text's.
        let number = unsafe { bikleinu_parse(lent.at(), source.as_ptr(), source.len(), made.at()) };
        made.settled(number).map(|owner| Template::of(owner, self.filters.clone()))
    }
}

/// What registers a tag or a block of the caller's with given values.
type Register = unsafe extern "C" fn(*mut Handle, *const u8, usize, *const u8, usize, u32, *const u8, usize) -> u32;

/// Given values as the library reads them, one for each text.
fn joined(given: &[&str]) -> Result<String, LiquidError> {
    match given.iter().any(|it| it.trim().is_empty() || it.contains(',')) {
        true => Err(no_values()),
        false => Ok(given.join(", ")),
    }
}

impl fmt::Debug for Language {
    fn fmt(&self, f: &mut fmt::Formatter<'_>) -> fmt::Result {
        f.debug_struct("Language").finish_non_exhaustive()
    }
}
