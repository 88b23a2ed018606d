//! Writes values as JSON, and knows the path to the value at hand.
use crate::compound::Compound;
use crate::DataError;
use serde::{ser, Serialize};
use std::fmt::Write;

/// How many lists and maps may stand in one another.
const LEVELS: usize = 127;

/// A step to a value.
pub(crate) enum Step {
    Name(String),
    Index(usize),
}

pub(crate) struct Writer {
    json: String,
    path: Vec<Step>,
    levels: usize,
    has_decimals: bool,
}

impl Writer {
    pub(crate) fn new(has_decimals: bool) -> Writer {
        Writer { json: String::new(), path: Vec::new(), levels: 0, has_decimals }
    }

    pub(crate) fn json(&self) -> &str {
        &self.json
    }

    pub(crate) fn push(&mut self, text: &str) {
        self.json.push_str(text);
    }

    pub(crate) fn text(&mut self, text: &str) {
        self.json.push('"');
        for it in text.chars() {
            match it {
                '"' => self.json.push_str("\\\""),
                '\\' => self.json.push_str("\\\\"),
                it if it < ' ' => drop(write!(self.json, "\\u{:04x}", u32::from(it))),
                it => self.json.push(it),
            }
        }
        self.json.push('"');
    }

    /// Writes the value that a step leads to.
    pub(crate) fn inner<T: Serialize + ?Sized>(&mut self, step: Step, value: &T) -> Result<(), DataError> {
        self.path.push(step);
        let written = value.serialize(&mut *self);
        // a value's own error knows no path
        let written = written.map_err(|error| match error.path.as_str() {
            "" => DataError { path: self.path_text(), ..error },
            _ => error,
        });
        self.path.pop();
        written
    }

    /// Begins a list or a map.
    pub(crate) fn open(&mut self, bracket: &str) -> Result<(), DataError> {
        if self.levels == LEVELS {
            return Err(self.refused(format!("more than {LEVELS} lists and maps stand in one another here")));
        }
        self.levels += 1;
        self.push(bracket);
        Ok(())
    }

    /// Ends a list or a map.
    pub(crate) fn close(&mut self, bracket: &str) {
        self.levels -= 1;
        self.push(bracket);
    }

    pub(crate) fn refused(&self, message: String) -> DataError {
        DataError::at(self.path_text(), message)
    }

    /// The path as a template would write it.
    fn path_text(&self) -> String {
        let mut text = String::new();
        for step in &self.path {
            match step {
                Step::Index(at) => drop(write!(text, "[{at}]")),
                Step::Name(name) if is_word(name) && text.is_empty() => text.push_str(name),
                Step::Name(name) if is_word(name) => drop(write!(text, ".{name}")),
                Step::Name(name) => drop(write!(text, "[\"{}\"]", name.escape_debug())),
            }
        }
        text
    }

    fn number(&mut self, number: i128) -> Result<(), DataError> {
        match i64::try_from(number) {
            Ok(number) => {
                self.push(&number.to_string());
                Ok(())
            }
            Err(_) => Err(self.refused(format!("{number} has more than 64 bits: give a text"))),
        }
    }

    fn float(&mut self, number: f64, shown: &str) -> Result<(), DataError> {
        if !number.is_finite() {
            return Err(self.refused(format!("{shown} is no number of JSON: give a text or none")));
        }
        if !self.has_decimals {
            let advice = "give a whole number of a smaller unit, as cents, a text, or call data_with_decimals";
            return Err(self.refused(format!("{shown} is a float, and numbers are whole here: {advice}")));
        }
        self.text(shown);
        Ok(())
    }
}

fn is_word(name: &str) -> bool {
    let first = name.chars().next();
    first.is_some_and(|it| it == '_' || it.is_alphabetic()) && name.chars().all(|it| it == '_' || it.is_alphanumeric())
}

/// The calls for numbers that an `i128` holds, which differ in their types alone.
macro_rules! numbers {
    ($($call:ident $number:ty),*) => {$(
        fn $call(self, number: $number) -> Result<(), DataError> {
            self.number(number.into())
        }
    )*};
}

impl<'w> ser::Serializer for &'w mut Writer {
    type Ok = ();
    type Error = DataError;
    type SerializeSeq = Compound<'w>;
    type SerializeTuple = Compound<'w>;
    type SerializeTupleStruct = Compound<'w>;
    type SerializeTupleVariant = Compound<'w>;
    type SerializeMap = Compound<'w>;
    type SerializeStruct = Compound<'w>;
    type SerializeStructVariant = Compound<'w>;

    fn serialize_bool(self, is: bool) -> Result<(), DataError> {
        self.push(if is { "true" } else { "false" });
        Ok(())
    }

    numbers! {
        serialize_i8 i8, serialize_i16 i16, serialize_i32 i32, serialize_i64 i64,
        serialize_u8 u8, serialize_u16 u16, serialize_u32 u32, serialize_u64 u64
    }

    fn serialize_i128(self, number: i128) -> Result<(), DataError> {
        self.number(number)
    }

    fn serialize_u128(self, number: u128) -> Result<(), DataError> {
        match i128::try_from(number) {
            Ok(number) => self.number(number),
            Err(_) => Err(self.refused(format!("{number} has more than 64 bits: give a text"))),
        }
    }

    fn serialize_f32(self, number: f32) -> Result<(), DataError> {
        self.float(number.into(), &number.to_string())
    }

    fn serialize_f64(self, number: f64) -> Result<(), DataError> {
        self.float(number, &number.to_string())
    }

    fn serialize_char(self, it: char) -> Result<(), DataError> {
        self.text(it.encode_utf8(&mut [0; 4]));
        Ok(())
    }

    fn serialize_str(self, text: &str) -> Result<(), DataError> {
        self.text(text);
        Ok(())
    }

    fn serialize_bytes(self, _: &[u8]) -> Result<(), DataError> {
        Err(self.refused("bytes, which JSON doesn't have: give a text".to_owned()))
    }

    fn serialize_none(self) -> Result<(), DataError> {
        self.serialize_unit()
    }

    fn serialize_some<T: Serialize + ?Sized>(self, value: &T) -> Result<(), DataError> {
        value.serialize(self)
    }

    fn serialize_unit(self) -> Result<(), DataError> {
        self.push("null");
        Ok(())
    }

    fn serialize_unit_struct(self, _: &'static str) -> Result<(), DataError> {
        self.serialize_unit()
    }

    fn serialize_unit_variant(self, _: &'static str, _: u32, variant: &'static str) -> Result<(), DataError> {
        self.serialize_str(variant)
    }

    fn serialize_newtype_struct<T: Serialize + ?Sized>(self, _: &'static str, value: &T) -> Result<(), DataError> {
        value.serialize(self)
    }

    fn serialize_newtype_variant<T: Serialize + ?Sized>(
        self,
        _: &'static str,
        _: u32,
        variant: &'static str,
        value: &T,
    ) -> Result<(), DataError> {
        let mut map = Compound::map(self, None)?;
        map.member(variant.to_owned(), value)?;
        map.finish();
        Ok(())
    }

    fn serialize_seq(self, _: Option<usize>) -> Result<Compound<'w>, DataError> {
        Compound::list(self, None)
    }

    fn serialize_tuple(self, _: usize) -> Result<Compound<'w>, DataError> {
        Compound::list(self, None)
    }

    fn serialize_tuple_struct(self, _: &'static str, _: usize) -> Result<Compound<'w>, DataError> {
        Compound::list(self, None)
    }

    fn serialize_tuple_variant(
        self,
        _: &'static str,
        _: u32,
        variant: &'static str,
        _: usize,
    ) -> Result<Compound<'w>, DataError> {
        Compound::list(self, Some(variant))
    }

    fn serialize_map(self, _: Option<usize>) -> Result<Compound<'w>, DataError> {
        Compound::map(self, None)
    }

    fn serialize_struct(self, _: &'static str, _: usize) -> Result<Compound<'w>, DataError> {
        Compound::map(self, None)
    }

    fn serialize_struct_variant(
        self,
        _: &'static str,
        _: u32,
        variant: &'static str,
        _: usize,
    ) -> Result<Compound<'w>, DataError> {
        Compound::map(self, Some(variant))
    }
}
