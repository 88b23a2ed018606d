//! Data for the templates of Bikleinu from whatever serde serializes.
//!
//! ```
//! use bikleinu::Language;
//! use serde::Serialize;
//!
//! #[derive(Serialize)]
//! struct Order {
//!     name: &'static str,
//!     cents: Vec<u32>,
//! }
//!
//! let data = bikleinu_serde::data(&Order { name: "Ada", cents: vec![199, 250] })?;
//! let template = Language::new()?.parse("{{ name }}: {{ cents | join: ', ' }}")?;
//! assert_eq!(template.render_text(&data)?, "Ada: 199, 250");
//! # Ok::<(), Box<dyn std::error::Error>>(())
//! ```
#![warn(missing_docs)]

mod compound;
mod keys;
mod writer;

use bikleinu::{Data, LiquidError};
use serde::{ser, Serialize};
use std::error::Error;
use std::fmt;
use writer::Writer;

/// The data that a value is: a struct, or a map from texts.
///
/// # Errors
///
/// A value in it that the language doesn't read, with its path: a float, bytes, a number past 64 bits, a key that is no text, more
/// than 127 levels. Or what the library says of the data, such as a list in place of a map.
pub fn data<T: Serialize + ?Sized>(value: &T) -> Result<Data, DataError> {
    written(value, Writer::new(false))
}

/// The same, where a float becomes the text that Rust shows of it.
///
/// # Errors
///
/// As [`data`], but for floats that are finite.
pub fn data_with_decimals<T: Serialize + ?Sized>(value: &T) -> Result<Data, DataError> {
    written(value, Writer::new(true))
}

fn written<T: Serialize + ?Sized>(value: &T, mut writer: Writer) -> Result<Data, DataError> {
    value.serialize(&mut writer)?;
    Data::from_json(writer.json()).map_err(|error| DataError {
        path: String::new(),
        message: error.to_string(),
        source: Some(Box::new(error)),
    })
}

/// Why a value is no data.
#[derive(Debug)]
pub struct DataError {
    /// Where the value stands, as a template would name it; empty for all of the data.
    pub path: String,
    /// What is wrong, in one line.
    pub message: String,
    source: Option<Box<LiquidError>>,
}

impl DataError {
    pub(crate) fn at(path: String, message: String) -> DataError {
        DataError { path, message, source: None }
    }
}

impl fmt::Display for DataError {
    fn fmt(&self, f: &mut fmt::Formatter<'_>) -> fmt::Result {
        let path = if self.path.is_empty() { "the data" } else { &self.path };
        write!(f, "{path}: {}", self.message)
    }
}

impl Error for DataError {
    fn source(&self) -> Option<&(dyn Error + 'static)> {
        self.source.as_ref().map(|source| &**source as &(dyn Error + 'static))
    }
}

impl ser::Error for DataError {
    fn custom<T: fmt::Display>(message: T) -> DataError {
        DataError::at(String::new(), message.to_string())
    }
}
