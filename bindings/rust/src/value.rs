//! Values of filters: what JSON has, with whole numbers.
use crate::error::{out_of_memory, LiquidError};
use std::collections::TryReserveError;
use std::fmt::{self, Write};

/// What a filter gets and answers.
#[derive(Clone, Debug, PartialEq, Eq)]
pub enum Value {
    /// nil
    Nil,
    /// true or false
    Bool(bool),
    /// a number
    Integer(i64),
    /// a text
    Text(String),
    /// a list
    List(Vec<Value>),
    /// a map, by the order of its names
    Map(Vec<(String, Value)>),
}

impl Value {
    /// The number that it is.
    #[must_use]
    pub fn as_integer(&self) -> Option<i64> {
        match self {
            Value::Integer(number) => Some(*number),
            _ => None,
        }
    }

    /// The text that it is.
    #[must_use]
    pub fn as_text(&self) -> Option<&str> {
        match self {
            Value::Text(text) => Some(text),
            _ => None,
        }
    }

    /// The same, without a copy.
    pub(crate) fn into_text(self) -> Option<String> {
        match self {
            Value::Text(text) => Some(text),
            _ => None,
        }
    }

    /// The members of the list that it is.
    #[must_use]
    pub fn as_list(&self) -> Option<&[Value]> {
        match self {
            Value::List(values) => Some(values),
            _ => None,
        }
    }

    /// The value that the map has at a name.
    #[must_use]
    pub fn get(&self, name: &str) -> Option<&Value> {
        match self {
            Value::Map(members) => members.iter().find(|(it, _)| it == name).map(|(_, value)| value),
            _ => None,
        }
    }

    /// Writes it as JSON.
    pub(crate) fn write_json(&self, json: &mut Json) {
        match self {
            Value::Nil => json.push_str("null"),
            Value::Bool(is) => json.push_str(if *is { "true" } else { "false" }),
            Value::Integer(number) => drop(write!(json, "{number}")),
            Value::Text(text) => write_text(text, json),
            Value::List(values) => {
                json.push_str("[");
                for (at, value) in values.iter().enumerate() {
                    json.push_str(if at > 0 { "," } else { "" });
                    value.write_json(json);
                }
                json.push_str("]");
            }
            Value::Map(members) => {
                json.push_str("{");
                for (at, (name, value)) in members.iter().enumerate() {
                    json.push_str(if at > 0 { "," } else { "" });
                    write_text(name, json);
                    json.push_str(":");
                    value.write_json(json);
                }
                json.push_str("}");
            }
        }
    }
}

fn write_text(text: &str, json: &mut Json) {
    json.push_str("\"");
    for it in text.chars() {
        match it {
            '"' => json.push_str("\\\""),
            '\\' => json.push_str("\\\\"),
            it if it < ' ' => drop(write!(json, "\\u{:04x}", u32::from(it))),
            it => json.push_str(it.encode_utf8(&mut [0; 4])),
        }
    }
    json.push_str("\"");
}

/// A text of JSON in the making, up to the first piece for which there is no memory.
#[derive(Default)]
pub(crate) struct Json {
    text: String,
    is_starved: bool,
}

impl Json {
    pub(crate) fn push_str(&mut self, piece: &str) {
        self.is_starved = self.is_starved || self.text.try_reserve(piece.len()).is_err();
        if !self.is_starved {
            self.text.push_str(piece);
        }
    }

    pub(crate) fn into_text(self) -> Result<String, LiquidError> {
        if self.is_starved {
            return Err(out_of_memory());
        }
        Ok(self.text)
    }
}

impl Write for Json {
    fn write_str(&mut self, piece: &str) -> fmt::Result {
        self.push_str(piece);
        Ok(())
    }
}

impl From<bool> for Value {
    fn from(is: bool) -> Value {
        Value::Bool(is)
    }
}

impl From<i64> for Value {
    fn from(number: i64) -> Value {
        Value::Integer(number)
    }
}

impl From<&str> for Value {
    fn from(text: &str) -> Value {
        Value::Text(text.to_owned())
    }
}

impl From<String> for Value {
    fn from(text: String) -> Value {
        Value::Text(text)
    }
}

impl<T: Into<Value>> From<Vec<T>> for Value {
    fn from(values: Vec<T>) -> Value {
        Value::List(values.into_iter().map(Into::into).collect())
    }
}

impl<T: Into<Value>> From<Option<T>> for Value {
    fn from(value: Option<T>) -> Value {
        value.map_or(Value::Nil, Into::into)
    }
}

/// Reads JSON that the library wrote.
pub(crate) struct Reader<'t> {
    text: &'t str,
    /// Whether there was no memory for a value.
    is_starved: bool,
}

impl<'t> Reader<'t> {
    fn new(text: &'t str) -> Reader<'t> {
        Reader { text, is_starved: false }
    }

    /// The value that a text begins with, or None where it isn't as the library writes it.
    pub(crate) fn read(text: &'t str) -> Result<Option<Value>, LiquidError> {
        let mut reader = Reader::new(text);
        let value = reader.value();
        if reader.is_starved {
            return Err(out_of_memory());
        }
        Ok(value)
    }

    /// The next value, or None where the text isn't as the library writes it, or memory is refused.
    fn value(&mut self) -> Option<Value> {
        match self.peek()? {
            '[' => self.items(Reader::value).map(Value::List),
            '{' => self.items(Reader::member).map(Value::Map),
            '"' => self.string().map(Value::Text),
            'n' => self.takes("null").then_some(Value::Nil),
            't' => self.takes("true").then_some(Value::Bool(true)),
            'f' => self.takes("false").then_some(Value::Bool(false)),
            _ => self.number(),
        }
    }

    fn peek(&mut self) -> Option<char> {
        self.text = self.text.trim_start();
        self.text.chars().next()
    }

    fn takes(&mut self, word: &str) -> bool {
        self.peek();
        match self.text.strip_prefix(word) {
            Some(rest) => {
                self.text = rest;
                true
            }
            None => false,
        }
    }

    /// What stands between brackets, with commas between.
    fn items<T>(&mut self, mut next: impl FnMut(&mut Self) -> Option<T>) -> Option<Vec<T>> {
        let close = if self.takes("[") { "]" } else { "}" };
        let mut found = Vec::new();
        if close == "}" && !self.takes("{") {
            return None;
        }
        if self.takes(close) {
            return Some(found);
        }
        loop {
            let it = next(self)?;
            self.has(found.try_reserve(1))?;
            found.push(it);
            if self.takes(close) {
                return Some(found);
            }
            if !self.takes(",") {
                return None;
            }
        }
    }

    fn member(&mut self) -> Option<(String, Value)> {
        let name = self.string()?;
        if !self.takes(":") {
            return None;
        }
        Some((name, self.value()?))
    }

    fn number(&mut self) -> Option<Value> {
        let end = self.text.find(|it: char| it != '-' && !it.is_ascii_digit()).unwrap_or(self.text.len());
        let (digits, rest) = self.text.split_at(end);
        self.text = rest;
        digits.parse().ok().map(Value::Integer)
    }

    fn string(&mut self) -> Option<String> {
        if !self.takes("\"") {
            return None;
        }
        let (mut made, mut chars) = (String::new(), self.text.chars());
        loop {
            match chars.next()? {
                '"' => {
                    self.text = chars.as_str();
                    return Some(made);
                }
                '\\' => self.push(&mut made, escaped(&mut chars)?)?,
                it => self.push(&mut made, it)?,
            }
        }
    }

    fn push(&mut self, made: &mut String, it: char) -> Option<()> {
        self.has(made.try_reserve(it.len_utf8()))?;
        made.push(it);
        Some(())
    }

    /// Whether there is room. That there was none is remembered.
    fn has(&mut self, room: Result<(), TryReserveError>) -> Option<()> {
        self.is_starved |= room.is_err();
        room.ok()
    }
}

/// The character that an escape stands for.
fn escaped(chars: &mut std::str::Chars<'_>) -> Option<char> {
    Some(match chars.next()? {
        'n' => '\n',
        't' => '\t',
        'r' => '\r',
        'b' => '\u{8}',
        'f' => '\u{c}',
        'u' => {
            let first = unit(chars)?;
            if !(0xd800..0xdc00).contains(&first) {
                return char::from_u32(first);
            }
            let (slash, u, second) = (chars.next()?, chars.next()?, unit(chars)?);
            if (slash, u) != ('\\', 'u') || !(0xdc00..0xe000).contains(&second) {
                return None;
            }
            char::from_u32(0x10000 + ((first - 0xd800) << 10) + (second - 0xdc00))?
        }
        it => it,
    })
}

/// Four digits in base 16.
fn unit(chars: &mut std::str::Chars<'_>) -> Option<u32> {
    (0..4).try_fold(0, |number, _| Some(number * 16 + chars.next()?.to_digit(16)?))
}

#[cfg(test)]
mod tests {
    use super::*;

    #[test]
    fn json_is_read_as_it_is_written() {
        let json = r#"{"a":[1,-9223372036854775808,null,true,false,[],{}],"b\"":"\\ \u0001 é😀"}"#;
        let value = Reader::new(json).value().expect("it is JSON");
        let mut written = Json::default();
        value.write_json(&mut written);
        assert_eq!(written.into_text().as_deref(), Ok(json));
        assert_eq!(value.get("a").and_then(Value::as_list).map(<[Value]>::len), Some(7));
    }

    #[test]
    fn escapes_and_spaces_are_read() {
        let value = Reader::new(" [ \"\\n\\t\\/\\ud83d\\ude00\\u00e9\" , 7 ] ").value();
        assert_eq!(value, Some(Value::List(vec!["\n\t/😀é".into(), 7.into()])));
        for wrong in ["", "[", "[1", "[1 2]", "{\"a\"}", "\"", "\"\\ud83d\"", "nul", "1.5.", "{1:2}"] {
            let mut reader = Reader::new(wrong);
            let read = reader.value();
            assert!(read.is_none() || !reader.text.is_empty(), "{wrong}: {read:?}");
        }
    }
}
