//! Tags and blocks of the caller's.
use bikleinu::{Data, Kind, Language, LiquidError, Partials, TagStyle, Value};
use std::error::Error;

fn text(value: &Value) -> String {
    match value {
        Value::Text(text) => text.clone(),
        Value::Integer(number) => number.to_string(),
        _ => String::new(),
    }
}

fn with_tags() -> Result<Language, LiquidError> {
    let mut language = Language::new()?;
    language.tag("link", TagStyle::Text, 1..=1, |values| Ok(format!("[{}]", text(&values[0])).into()))?;
    language.tag("inc", TagStyle::Path, 1..=9, |values| Ok(values.iter().map(text).collect::<Vec<_>>().join("+").into()))?;
    language.block("box", TagStyle::Items, 0..=2, |body, values| Ok(format!("<{}|{}>", values.len(), text(body)).into()))?;
    Ok(language)
}

#[test]
fn a_block_gets_its_text_and_a_tag_its_values() -> Result<(), LiquidError> {
    let language = with_tags()?;
    let mut partials = Partials::new()?;
    partials.insert("p", language.parse("{% box x %}{{ x }}{% endbox %}")?)?;
    let template = language.parse("{% box 1, 2 %}{% link a, 'b' %}{% box %}{% render 'p', x: 3 %}{% endbox ever %}{% endbox %}")?;
    assert_eq!(template.render_text_with(&Data::none(), &partials)?, "<2|[a, 'b']<0|<1|3>>>");
    assert_eq!(language.parse("{% inc a/b.html 1, 'c' %}")?.render_text(&Data::none())?, "a/b.html+1+c");
    Ok(())
}

#[test]
fn a_source_that_gets_a_tag_wrong_is_refused_at_its_place() -> Result<(), LiquidError> {
    let language = with_tags()?;
    let rows = [
        ("a{% box %}b", Kind::MissingEnd, 2, "endbox"),
        ("{% link %}", Kind::FilterArguments, 1, "`link` takes 1 argument"),
        ("{% box 1 2 3 %}{% endbox %}", Kind::FilterArguments, 1, "`box` takes at most 2"),
        ("{% link a", Kind::Unclosed, 1, ""),
        ("{{ 1 | box }}", Kind::UnknownFilter, 8, "box"),
    ];
    for (source, kind, column, words) in rows {
        let fault = language.parse(source).expect_err(source);
        assert_eq!((fault.kind(), fault.location.as_ref().map(|at| at.column)), (kind, Some(column)), "{source}: {fault}");
        assert!(fault.message.contains(words), "{source}: {fault}");
    }
    Ok(())
}

#[test]
fn the_error_of_a_tag_is_the_source_of_the_fault() -> Result<(), LiquidError> {
    let mut language = Language::new()?;
    language.tag("parsed", TagStyle::Items, 1..=1, |values| Ok(text(&values[0]).parse::<i64>()?.into()))?;
    let template = language.parse("{% parsed 7 %} {% parsed 'seven' %}")?;
    let fault = template.render(&Data::none(), &Partials::new()?, 32)?.fault.expect("seven is no number");
    assert_eq!((fault.kind(), fault.location.as_ref().map(|at| at.column)), (Kind::InvalidInput, Some(16)));
    assert!(fault.message.starts_with("`{% parsed %}`: invalid digit"), "{fault}");
    let source = fault.source().expect("it comes of another error");
    assert!(source.is::<std::num::ParseIntError>(), "{source}");
    Ok(())
}

#[test]
fn jekyll_has_highlight() -> Result<(), LiquidError> {
    let source = "{% highlight ruby %}a & b{% endhighlight %}";
    let page = Language::jekyll()?.parse(source)?.render_text(&Data::none())?;
    assert_eq!(page, "<figure class=\"highlight\"><pre><code class=\"language-ruby\" data-lang=\"ruby\">a &amp; b</code></pre></figure>");
    assert_eq!(Language::new()?.parse(source).expect_err("a tag of Jekyll's").kind(), Kind::UnknownTag);
    Ok(())
}

#[test]
fn names_that_no_tag_has_are_refused() -> Result<(), LiquidError> {
    let mut language = Language::new()?;
    for (name, kind) in [("a b", Kind::NoWord), ("endless", Kind::ReservedName), ("for", Kind::TakenName)] {
        let refused = language.tag(name, TagStyle::Items, 0..=0, |_| Ok(Value::Nil)).expect_err(name);
        assert_eq!((refused.kind(), refused.message.is_empty()), (kind, false), "{refused}");
        let refused = language.block(name, TagStyle::Items, 0..=0, |_, _| Ok(Value::Nil)).expect_err(name);
        assert_eq!(refused.kind(), kind, "{refused}");
    }
    Ok(())
}

#[test]
fn a_function_is_given_values_of_the_data_and_nil_where_they_have_none() -> Result<(), LiquidError> {
    let mut language = Language::new()?;
    language.tag_given("about", TagStyle::Items, 0..=2, &["page.title", "site.author"], |values, given| {
        Ok(format!("{} {} {:?}", values.len(), text(&given[0]), given[1]).into())
    })?;
    language.block_given("frame", TagStyle::Text, 0..=1, &["site.name"], |body, values, given| {
        Ok(format!("{}{}{}", text(&given[0]), values.len(), text(body)).into())
    })?;
    let template = language.parse("{% about %}|{% about 1, 2 %}|{% frame a b %}c{% endframe %}")?;
    let data = Data::from_json(r#"{"page": {"title": "T"}, "site": {"name": "N"}}"#)?;
    assert_eq!(template.render_text(&data)?, "0 T Nil|2 T Nil|N1c");
    assert_eq!(template.paths(&Partials::new()?)?.texts(), ["page.title", "site.author", "site.name"]);
    assert_eq!(language.parse("{% about 1, 2, 3 %}").unwrap_err().kind(), Kind::FilterArguments);
    for given in ["a b", "a, b", " ", "a | size"] {
        let refused = language.tag_given("x", TagStyle::Items, 0..=0, &[given], |_, _| Ok(Value::Nil)).unwrap_err();
        assert_eq!((refused.kind(), refused.message.is_empty()), (Kind::NoValues, false));
    }
    Ok(())
}
