//! Lists and maps, member by member.
use crate::keys::Key;
use crate::writer::{Step, Writer};
use crate::DataError;
use serde::{ser, Serialize};

/// A list or a map that is being written, alone or as the one member of a map by the name of a variant.
pub(crate) struct Compound<'w> {
    writer: &'w mut Writer,
    close: &'static str,
    is_variant: bool,
    count: usize,
    key: Option<String>,
}

impl<'w> Compound<'w> {
    pub(crate) fn list(writer: &'w mut Writer, variant: Option<&str>) -> Result<Compound<'w>, DataError> {
        Compound::open(writer, variant, "[", "]")
    }

    pub(crate) fn map(writer: &'w mut Writer, variant: Option<&str>) -> Result<Compound<'w>, DataError> {
        Compound::open(writer, variant, "{", "}")
    }

    fn open(
        writer: &'w mut Writer,
        variant: Option<&str>,
        open: &str,
        close: &'static str,
    ) -> Result<Compound<'w>, DataError> {
        if let Some(name) = variant {
            writer.open("{")?;
            writer.text(name);
            writer.push(":");
        }
        writer.open(open)?;
        Ok(Compound { writer, close, is_variant: variant.is_some(), count: 0, key: None })
    }

    fn item<T: Serialize + ?Sized>(&mut self, value: &T) -> Result<(), DataError> {
        self.comma();
        self.writer.inner(Step::Index(self.count - 1), value)
    }

    pub(crate) fn member<T: Serialize + ?Sized>(&mut self, name: String, value: &T) -> Result<(), DataError> {
        self.comma();
        self.writer.text(&name);
        self.writer.push(":");
        self.writer.inner(Step::Name(name), value)
    }

    fn comma(&mut self) {
        self.writer.push(if self.count > 0 { "," } else { "" });
        self.count += 1;
    }

    pub(crate) fn finish(self) {
        self.writer.close(self.close);
        if self.is_variant {
            self.writer.close("}");
        }
    }
}

/// serde has a trait for each form of list and of struct, which differ in names alone.
macro_rules! lists {
    ($($form:ident $call:ident),*) => {$(
        impl ser::$form for Compound<'_> {
            type Ok = ();
            type Error = DataError;

            fn $call<T: Serialize + ?Sized>(&mut self, value: &T) -> Result<(), DataError> {
                self.item(value)
            }

            fn end(self) -> Result<(), DataError> {
                self.finish();
                Ok(())
            }
        }
    )*};
}

macro_rules! structs {
    ($($form:ident),*) => {$(
        impl ser::$form for Compound<'_> {
            type Ok = ();
            type Error = DataError;

            fn serialize_field<T: Serialize + ?Sized>(&mut self, name: &'static str, value: &T) -> Result<(), DataError> {
                self.member(name.to_owned(), value)
            }

            fn end(self) -> Result<(), DataError> {
                self.finish();
                Ok(())
            }
        }
    )*};
}

lists!(
    SerializeSeq serialize_element,
    SerializeTuple serialize_element,
    SerializeTupleStruct serialize_field,
    SerializeTupleVariant serialize_field
);
structs!(SerializeStruct, SerializeStructVariant);

impl ser::SerializeMap for Compound<'_> {
    type Ok = ();
    type Error = DataError;

    fn serialize_key<T: Serialize + ?Sized>(&mut self, key: &T) -> Result<(), DataError> {
        let refused = |message: String| self.writer.refused(message);
        self.key = Some(key.serialize(Key).map_err(|error| refused(error.message))?);
        Ok(())
    }

    fn serialize_value<T: Serialize + ?Sized>(&mut self, value: &T) -> Result<(), DataError> {
        let name = self.key.take().unwrap_or_default();
        self.member(name, value)
    }

    fn end(self) -> Result<(), DataError> {
        self.finish();
        Ok(())
    }
}
