//! What is data and what isn't.
use bikleinu::Language;
use bikleinu_serde::{data, data_with_decimals};
use serde::Serialize;
use std::collections::BTreeMap;
use std::error::Error;

#[derive(Serialize)]
enum Kind {
    Plain,
    Named(u8),
    Pair(u8, u8),
    Full { a: Option<char> },
}

#[derive(Serialize)]
struct Wrapped(i64);

#[derive(Serialize)]
struct Row {
    name: String,
    kinds: Vec<Kind>,
    wrapped: Wrapped,
    pair: (bool, ()),
    map: BTreeMap<String, u64>,
}

#[derive(Serialize)]
struct Price {
    rows: Vec<BTreeMap<&'static str, f64>>,
}

fn shown<T: Serialize>(value: &T, source: &str) -> Result<String, Box<dyn Error>> {
    Ok(Language::new()?.parse(source)?.render_text(&data(value)?)?)
}

fn refused<T: Serialize>(value: &T) -> String {
    data(value).unwrap_err().to_string()
}

#[test]
fn values_are_what_they_are_in_json() -> Result<(), Box<dyn Error>> {
    let row = Row {
        name: "\"A\\da\"\n\u{1}é😀".to_owned(),
        kinds: vec![Kind::Plain, Kind::Named(7), Kind::Pair(1, 2), Kind::Full { a: Some('x') }, Kind::Full { a: None }],
        wrapped: Wrapped(i64::MIN),
        pair: (true, ()),
        map: BTreeMap::from([("one two".to_owned(), 1)]),
    };
    assert_eq!(shown(&row, "{{ name }}")?, row.name);
    let kinds = "{{ kinds[0] }} {{ kinds[1].Named }} {{ kinds[2].Pair | join: '+' }} {{ kinds[3].Full.a }}{{ kinds[4].Full.a }}";
    assert_eq!(shown(&row, kinds)?, "Plain 7 1+2 x");
    assert_eq!(shown(&row, "{{ wrapped }} {{ pair[0] }}{{ pair[1] }} {{ map['one two'] }}")?, "-9223372036854775808 true 1");
    Ok(())
}

#[test]
fn what_the_language_doesnt_read_has_its_path() -> Result<(), Box<dyn Error>> {
    let price = Price { rows: vec![BTreeMap::from([("unit price", 2.0)]), BTreeMap::from([("price", 19.99)])] };
    let whole = "and numbers are whole here: give a whole number of a smaller unit, as cents, a text, or call data_with_decimals";
    assert_eq!(refused(&price), format!("rows[0][\"unit price\"]: 2 is a float, {whole}"));
    let text = data_with_decimals(&price)?;
    assert_eq!(Language::new()?.parse("{{ rows[1].price }}")?.render_text(&text)?, "19.99");
    let one = |value: u64| BTreeMap::from([("a", value)]);
    assert_eq!(refused(&one(1 << 63)), "a: 9223372036854775808 has more than 64 bits: give a text");
    assert!(data(&one((1 << 63) - 1)).is_ok());
    assert_eq!(refused(&BTreeMap::from([("a", f64::NAN)])), "a: NaN is no number of JSON: give a text or none");
    assert_eq!(refused(&BTreeMap::from([("a", BTreeMap::from([(3, 4)]))])), "a: has a number as a key, and names are texts");
    assert!(refused(&[1]).contains("the data is a list"), "{}", refused(&[1]));
    Ok(())
}

#[derive(Serialize)]
struct Nested {
    #[serde(skip_serializing_if = "Option::is_none")]
    a: Option<Box<Nested>>,
}

#[test]
fn levels_are_bounded() {
    let nested = |levels: usize| (1..levels).fold(Nested { a: None }, |inner, _| Nested { a: Some(Box::new(inner)) });
    assert!(data(&nested(127)).is_ok());
    assert!(refused(&nested(128)).ends_with("a: more than 127 lists and maps stand in one another here"));
}
