//! Liquid templates over data in JSON, by the library of Bikleinu.
//!
//! ```
//! use bikleinu::{Data, Language, Partials};
//!
//! let language = Language::new()?;
//! let template = language.parse("Hello {{ name }}!{% render 'end' %}")?;
//! let mut partials = Partials::new()?;
//! partials.insert("end", language.parse(" Yours, B.")?)?;
//! let data = Data::from_json(r#"{"name": "Ada"}"#)?;
//! let page = template.render(&data, &partials, 32)?;
//! assert_eq!(page.text, "Hello Ada! Yours, B.");
//! assert_eq!(page.fault, None);
//! # Ok::<(), bikleinu::LiquidError>(())
//! ```
//!
//! A page that ends by a fault has its text up to there. [`Page::into_text`] gives the whole text, or the fault:
//!
//! ```
//! use bikleinu::{Data, Kind, Language};
//!
//! let template = Language::new()?.parse("Hello {{ name }}!")?;
//! let fault = template.render_text(&Data::none()).unwrap_err();
//! assert_eq!(fault.kind(), Kind::UnknownVariable);
//! assert!(fault.to_string().starts_with("UnknownVariable: line 1, column 10: `name` has no value"));
//! # Ok::<(), bikleinu::LiquidError>(())
//! ```
//!
//! Templates, data and partials are `Send` and `Sync`: any number of threads may render one template at a time, over the same data and with
//! the same partials. Nothing is copied for that, and no thread waits for another's page.
//!
//! A run takes stack of its thread: at most 2.75 KiB for each level, where a page is one and each block and each partial in it is one
//! more, and 136 KiB for what stands in the deepest. [`Template::render`] begins no run that could reach more than 400 levels, so a
//! stack of 1 MiB is enough for a depth of up to 120, and one of 1.5 MiB for any: a thread of [`std::thread::spawn`] has 2.
//! [`Template::render_within`] takes another bound.
#![warn(missing_docs)]

mod error;
mod ffi;
mod filters;
mod folder;
mod inputs;
mod language;
mod shared;
mod template;
mod value;

pub use error::{Kind, LiquidError, Location, Origin};
pub use filters::{FilterError, ROUNDS};
pub use inputs::{Data, Partials};
pub use language::{FilterSet, Language, TagStyle};
pub use template::{Limits, Page, Paths, Template};
pub use value::Value;
