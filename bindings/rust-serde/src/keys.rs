//! Keys of maps, which are texts.
use crate::DataError;
use serde::ser::{Impossible, Serializer};
use serde::Serialize;

/// Reads a key, which is a text, a character, or the name of a variant.
pub(crate) struct Key;

fn refused<T>(what: &str) -> Result<T, DataError> {
    Err(DataError::at(String::new(), format!("has {what} as a key, and names are texts")))
}

/// The methods that refuse a key of one type.
macro_rules! refuse {
    ($($name:ident: $type:ty, $what:literal;)*) => {
        $(fn $name(self, _: $type) -> Result<String, DataError> {
            refused($what)
        })*
    };
}

impl Serializer for Key {
    type Ok = String;
    type Error = DataError;
    type SerializeSeq = Impossible<String, DataError>;
    type SerializeTuple = Impossible<String, DataError>;
    type SerializeTupleStruct = Impossible<String, DataError>;
    type SerializeTupleVariant = Impossible<String, DataError>;
    type SerializeMap = Impossible<String, DataError>;
    type SerializeStruct = Impossible<String, DataError>;
    type SerializeStructVariant = Impossible<String, DataError>;

    refuse! {
        serialize_bool: bool, "a bool";
        serialize_i8: i8, "a number";
        serialize_i16: i16, "a number";
        serialize_i32: i32, "a number";
        serialize_i64: i64, "a number";
        serialize_i128: i128, "a number";
        serialize_u8: u8, "a number";
        serialize_u16: u16, "a number";
        serialize_u32: u32, "a number";
        serialize_u64: u64, "a number";
        serialize_u128: u128, "a number";
        serialize_f32: f32, "a float";
        serialize_f64: f64, "a float";
        serialize_bytes: &[u8], "bytes";
        serialize_unit_struct: &'static str, "a unit";
    }

    fn serialize_char(self, it: char) -> Result<String, DataError> {
        Ok(it.to_string())
    }

    fn serialize_str(self, text: &str) -> Result<String, DataError> {
        Ok(text.to_owned())
    }

    fn serialize_none(self) -> Result<String, DataError> {
        refused("none")
    }

    fn serialize_some<T: Serialize + ?Sized>(self, value: &T) -> Result<String, DataError> {
        value.serialize(self)
    }

    fn serialize_unit(self) -> Result<String, DataError> {
        refused("a unit")
    }

    fn serialize_unit_variant(self, _: &'static str, _: u32, variant: &'static str) -> Result<String, DataError> {
        Ok(variant.to_owned())
    }

    fn serialize_newtype_struct<T: Serialize + ?Sized>(self, _: &'static str, value: &T) -> Result<String, DataError> {
        value.serialize(self)
    }

    fn serialize_newtype_variant<T: Serialize + ?Sized>(
        self,
        _: &'static str,
        _: u32,
        _: &'static str,
        _: &T,
    ) -> Result<String, DataError> {
        refused("a variant with a value")
    }

    fn serialize_seq(self, _: Option<usize>) -> Result<Self::SerializeSeq, DataError> {
        refused("a list")
    }

    fn serialize_tuple(self, _: usize) -> Result<Self::SerializeTuple, DataError> {
        refused("a list")
    }

    fn serialize_tuple_struct(self, _: &'static str, _: usize) -> Result<Self::SerializeTupleStruct, DataError> {
        refused("a list")
    }

    fn serialize_tuple_variant(
        self,
        _: &'static str,
        _: u32,
        _: &'static str,
        _: usize,
    ) -> Result<Self::SerializeTupleVariant, DataError> {
        refused("a list")
    }

    fn serialize_map(self, _: Option<usize>) -> Result<Self::SerializeMap, DataError> {
        refused("a map")
    }

    fn serialize_struct(self, _: &'static str, _: usize) -> Result<Self::SerializeStruct, DataError> {
        refused("a map")
    }

    fn serialize_struct_variant(
        self,
        _: &'static str,
        _: u32,
        _: &'static str,
        _: usize,
    ) -> Result<Self::SerializeStructVariant, DataError> {
        refused("a map")
    }
}
