//! Filters of the caller's, Jekyll's language, and names.
use bikleinu::{Data, FilterSet, Kind, Language, LiquidError, Partials, Value};
use std::error::Error;
use std::sync::atomic::{AtomicUsize, Ordering};
use std::sync::Arc;
use std::thread;

#[test]
fn a_filter_is_asked_once_for_each_call() -> Result<(), LiquidError> {
    let asked = Arc::new(AtomicUsize::new(0));
    let counted = asked.clone();
    let mut language = Language::new()?;
    language.filter("twice", move |input, _| {
        counted.fetch_add(1, Ordering::Relaxed);
        Ok(input.as_integer().map(|number| number * 2).into())
    })?;
    let template = language.parse("{% for i in (1..3) %}{{ i | twice }},{{ 2 | twice }};{% endfor %}")?;
    for _ in 0..2 {
        assert_eq!(template.render_text(&Data::none())?, "2,4;4,4;6,4;");
    }
    assert_eq!(asked.load(Ordering::Relaxed), 3);
    Ok(())
}

#[test]
fn a_filter_gets_and_answers_values() -> Result<(), LiquidError> {
    let mut language = Language::new()?;
    language.filter("same", |input, _| Ok(input.clone()))?;
    language.filter("all", |input, arguments| {
        let mut all = vec![input.clone()];
        all.extend_from_slice(arguments);
        Ok(Value::List(all))
    })?;
    let data = Data::from_json(r#"{"a": {"b": ["x", null, true, -3], "c\"": "é\n"}}"#)?;
    let template = language.parse("{{ a.b | same | last }}{% assign s = a | same %}{{ s.b | join: '-' }}{{ s['c\"'] }}")?;
    assert_eq!(template.render(&data, &Partials::new()?, 32)?.into_text()?, "-3x--true--3é\n");
    assert_eq!(language.parse("{{ 1 | all: 'b', true | join: '-' }}")?.render_text(&data)?, "1-b-true");
    Ok(())
}

#[test]
fn the_error_of_a_filter_is_the_source_of_the_fault() -> Result<(), LiquidError> {
    let mut language = Language::new()?;
    language.filter_of("parsed", 0..=0, |input, _| {
        let number: i64 = input.as_text().unwrap_or_default().parse()?;
        Ok(number.into())
    })?;
    let template = language.parse("{{ '7' | parsed }} {{ 'seven' | parsed }}")?;
    let page = template.render(&Data::none(), &Partials::new()?, 32)?;
    let fault = page.fault.expect("seven is no number");
    assert_eq!((page.text.as_str(), fault.kind()), ("7 ", Kind::InvalidInput));
    assert!(fault.message.contains("invalid digit found in string") && fault.message.contains("parsed"), "{fault}");
    let source = fault.source().expect("it comes of another error");
    assert!(source.is::<std::num::ParseIntError>(), "{source}");
    let refused = language.parse("{{ 'x' | parsed: 1 }}").expect_err("it takes no argument");
    assert_eq!(refused.kind(), Kind::FilterArguments);
    Ok(())
}

#[test]
fn rounds_have_an_end() -> Result<(), LiquidError> {
    let mut language = Language::new()?;
    language.filter("next", |input, _| Ok((input.as_integer().unwrap_or(0) + 1).into()))?;
    let count = |times: usize| language.parse(&format!("{{% assign x = 0 %}}{{% for i in (1..{times}) %}}{{% assign x = x | next %}}{{% endfor %}}{{{{ x }}}}"));
    assert_eq!(count(40)?.render_text(&Data::none())?, "40");
    assert_eq!(count(400)?.render_text(&Data::none()).unwrap_err().kind(), Kind::RoundsReached);
    Ok(())
}

#[test]
fn names_and_jekyll() -> Result<(), LiquidError> {
    let language = Language::jekyll()?;
    let mut partials = Partials::new()?;
    partials.insert("end", language.parse("{{ inner }}")?)?;
    let template = language.parse("{{ outer.a }}{% render 'end' %}")?;
    let names = template.names(&partials)?;
    assert!(["inner", "outer"].iter().all(|it| names.iter().any(|name| name == it)), "{names:?}");
    partials.insert("card.html", Language::jekyll()?.parse("[{{ include.a }}]")?)?;
    let page = language.parse("{% include card.html a='b' %}")?;
    assert_eq!(page.render(&Data::none(), &partials, 32)?.into_text()?, "[b]");
    Ok(())
}

#[test]
fn ten_thousand_mails_on_four_threads() -> Result<(), LiquidError> {
    let mut language = Language::new()?;
    let money = |cents: &Value, _: &[Value]| {
        let cents = cents.as_integer().ok_or("cents are wanted")?;
        Ok(format!("{}.{:02} EUR", cents / 100, cents % 100).into())
    };
    language.filter("money", money)?;
    let template = language.parse("Dear {{ name }}: {{ cents | money }}")?;
    let run = |first: i64| {
        let mut faults = Vec::new();
        for number in (first..=10_000).step_by(4) {
            let cents = if number % 1000 == 0 { "\"free\"".to_owned() } else { (number % 500).to_string() };
            let data = Data::from_json(&format!("{{\"name\":{number},\"cents\":{cents}}}")).unwrap();
            match template.render_text(&data) {
                Ok(text) => {
                    let price = format!("{}.{:02}", number % 500 / 100, number % 100);
                    assert_eq!(text, format!("Dear {number}: {price} EUR"));
                }
                Err(fault) => faults.push((number, fault.location.map(|at| at.column), fault.message)),
            }
        }
        faults
    };
    let mut faults = thread::scope(|threads| {
        let all: Vec<_> = (1..=4).map(|first| threads.spawn(move || run(first))).collect();
        all.into_iter().flat_map(|thread| thread.join().unwrap()).collect::<Vec<_>>()
    });
    faults.sort();
    let numbers: Vec<i64> = faults.iter().map(|(number, ..)| *number).collect();
    assert_eq!(numbers, (1..=10).map(|it| it * 1000).collect::<Vec<_>>());
    assert!(faults.iter().all(|(_, column, message)| *column == Some(29) && message.contains("cents are wanted")), "{faults:?}");
    Ok(())
}

#[test]
fn a_set_of_filters_knows_what_the_data_of_each_page_say() -> Result<(), LiquidError> {
    let shop = Language::with_filters(FilterSet::Shopify)?.parse("{{ 1999 | money }}")?;
    let page = |json| shop.render_text(&Data::from_json(json)?);
    assert_eq!(page(r#"{"shop": {"money_format": "EUR {{amount}}"}}"#)?, "EUR 19.99");
    assert_eq!(page(r#"{"shop": {"money_format": "{{amount}} EUR"}}"#)?, "19.99 EUR");
    assert_eq!(shop.render_text(&Data::none())?, "$ 19.99");
    let key = |json| shop.seen_key(json, &Partials::new()?);
    assert_ne!(key(r#"{"shop": {"money_format": "a"}}"#)?, key(r#"{"shop": {"money_format": "b"}}"#)?);
    let site = Language::with_filters(FilterSet::Jekyll)?.parse("{{ '/t' | absolute_url }} {{ xs | where_exp: 'x', 'x.a > 1' | size }}")?;
    let data = r#"{"xs": [{"a": 1}, {"a": 2}], "site": {"url": "https://example.org", "baseurl": "/b"}}"#;
    assert_eq!(site.render_text(&Data::from_json(data)?)?, "https://example.org/b/t 1");
    let mut decimals = Language::with_filters(FilterSet::Decimals)?;
    decimals.filter("shout", |input, _| Ok(format!("{}!", input.as_text().unwrap_or_default()).into()))?;
    decimals.autoescape()?;
    assert_eq!(decimals.parse("{{ '19.99' | decimal_times: 3 | shout }}{{ '<' }}")?.render_text(&Data::none())?, "59.97!&lt;");
    Ok(())
}
