//! Why there is no page, or why it ended.
use std::error::Error;
use std::fmt;
use std::sync::Arc;

pub(crate) const INVALID_INPUT: u32 = 2;
pub(crate) const MEMORY: u32 = 17;
pub(crate) const NO_TEXT: u32 = 101;
pub(crate) const OTHER_HANDLE: u32 = 102;
pub(crate) const TOO_MANY_LEVELS: u32 = 103;
pub(crate) const BYTES_REACHED: u32 = 104;
pub(crate) const TURNS_REACHED: u32 = 105;
pub(crate) const LACKING: u32 = 106;
const NO_WORD: u32 = 110;
const RESERVED_NAME: u32 = 111;
const TAKEN_NAME: u32 = 112;
const NO_VALUES: u32 = 114;
pub(crate) const OTHER_PATHS: u32 = 116;

/// What kind of fault it is. The guide for writers of templates says what each one means.
#[derive(Clone, Copy, Debug, PartialEq, Eq, Hash)]
#[non_exhaustive]
pub enum Kind {
    /// A name or a path has no value.
    UnknownVariable,
    /// A filter's input, or the data, can't be what they are.
    InvalidInput,
    /// A filter's argument can't be what it is.
    InvalidArgument,
    /// A value of another kind is wanted.
    UnexpectedValue,
    /// A number is out of its range.
    NumberRange,
    /// A number is divided by 0.
    DivideByZero,
    /// A number isn't whole, or is past 64 bits.
    Float,
    /// A `cycle` stands past its values.
    CycleBounds,
    /// A table of no columns.
    ZeroColumns,
    /// A range has too many numbers.
    RangeTooLong,
    /// No partial has this name.
    UnknownPartial,
    /// A partial's name is no text.
    PartialName,
    /// More partials are nested than is allowed.
    TooDeep,
    /// The pattern of a date is refused.
    DateFormat,
    /// An offset is out of its range.
    TimezoneRange,
    /// The language has it, and no value for it is there.
    Unsupported,
    /// No memory was to be had.
    Memory,
    /// A piece of the source isn't closed.
    Unclosed,
    /// A piece of the source can't be read.
    BadItem,
    /// A number of the source can't be read.
    NumberLiteral,
    /// A number of the source isn't whole.
    FloatLiteral,
    /// A word that stands for a state, where a value is wanted.
    StateWord,
    /// No tag has this name.
    UnknownTag,
    /// No filter has this name.
    UnknownFilter,
    /// A filter doesn't take so many arguments.
    FilterArguments,
    /// Something else is wanted in the source.
    Expected,
    /// A block has no end.
    MissingEnd,
    /// Blocks are nested too deep.
    TooNested,
    /// Bytes that are no UTF-8.
    NoText,
    /// A run that could reach more levels than are allowed.
    TooManyLevels,
    /// The page takes more bytes than [`Limits::max_bytes`](crate::Limits::max_bytes).
    BytesReached,
    /// The page ran more than [`Limits::max_turns`](crate::Limits::max_turns).
    TurnsReached,
    /// The page still lacks answers of its filters after [`ROUNDS`](crate::ROUNDS) rounds of calls.
    RoundsReached,
    /// A name of a tag that is no word.
    NoWord,
    /// A name of a tag that blocks have a use of, as `else` and what begins with `end`.
    ReservedName,
    /// A name at which the language has a tag or a block of its own.
    TakenName,
    /// A given value of a tag that is none, as `page.title`.
    NoValues,
    /// Data that were read for the paths of another template, of which this one uses more.
    OtherPaths,
    /// A kind that this version of the crate doesn't know.
    Other,
}

const KINDS: [(u32, Kind); 38] = [
    (1, Kind::UnknownVariable),
    (INVALID_INPUT, Kind::InvalidInput),
    (3, Kind::InvalidArgument),
    (4, Kind::UnexpectedValue),
    (5, Kind::NumberRange),
    (6, Kind::DivideByZero),
    (7, Kind::Float),
    (8, Kind::CycleBounds),
    (9, Kind::ZeroColumns),
    (10, Kind::RangeTooLong),
    (11, Kind::UnknownPartial),
    (12, Kind::PartialName),
    (13, Kind::TooDeep),
    (14, Kind::DateFormat),
    (15, Kind::TimezoneRange),
    (16, Kind::Unsupported),
    (MEMORY, Kind::Memory),
    (21, Kind::Unclosed),
    (22, Kind::BadItem),
    (23, Kind::NumberLiteral),
    (24, Kind::FloatLiteral),
    (25, Kind::StateWord),
    (26, Kind::UnknownTag),
    (27, Kind::UnknownFilter),
    (28, Kind::FilterArguments),
    (29, Kind::Expected),
    (30, Kind::MissingEnd),
    (31, Kind::TooNested),
    (NO_TEXT, Kind::NoText),
    (TOO_MANY_LEVELS, Kind::TooManyLevels),
    (BYTES_REACHED, Kind::BytesReached),
    (TURNS_REACHED, Kind::TurnsReached),
    (LACKING, Kind::RoundsReached),
    (NO_WORD, Kind::NoWord),
    (RESERVED_NAME, Kind::ReservedName),
    (TAKEN_NAME, Kind::TakenName),
    (NO_VALUES, Kind::NoValues),
    (OTHER_PATHS, Kind::OtherPaths),
];

/// Which text a fault stands in.
#[derive(Clone, Debug, PartialEq, Eq)]
pub enum Origin {
    /// The template itself.
    Template,
    /// The partial of this name.
    Partial(String),
    /// The data.
    Data,
}

/// Where a fault stands.
#[derive(Clone, Debug, PartialEq, Eq)]
pub struct Location {
    /// In which text.
    pub origin: Origin,
    /// Its line there, from 1.
    pub line: usize,
    /// Its column in the line, in characters, from 1.
    pub column: usize,
}

impl fmt::Display for Location {
    fn fmt(&self, f: &mut fmt::Formatter<'_>) -> fmt::Result {
        match &self.origin {
            Origin::Template => {}
            Origin::Partial(name) => write!(f, "in the partial `{name}`: ")?,
            Origin::Data => f.write_str("in the data: ")?,
        }
        write!(f, "line {}, column {}", self.line, self.column)
    }
}

/// Why there is no page, or why it ended: the kind by number and name, and what it says. Where there
/// is no memory for these, the number alone.
#[derive(Clone, Debug)]
pub struct LiquidError {
    /// The number of its kind.
    pub number: u32,
    /// The name of its kind, as `UnknownVariable`.
    pub name: String,
    /// What happened, in one line.
    pub message: String,
    /// Where it stands, where that is known.
    pub location: Option<Location>,
    source: Option<Arc<dyn Error + Send + Sync>>,
}

impl LiquidError {
    pub(crate) fn new(number: u32, name: String, message: String, location: Option<Location>) -> LiquidError {
        LiquidError { number, name, message, location, source: None }
    }

    /// The same error, which comes of another one.
    pub(crate) fn because(self, source: Arc<dyn Error + Send + Sync>) -> LiquidError {
        LiquidError { source: Some(source), ..self }
    }

    /// Its kind.
    #[must_use]
    pub fn kind(&self) -> Kind {
        KINDS.iter().find(|(number, _)| *number == self.number).map_or(Kind::Other, |(_, kind)| *kind)
    }

    /// Whether no memory was to be had.
    #[must_use]
    pub fn is_memory(&self) -> bool {
        self.number == MEMORY
    }

    /// Whether a limit on bytes or turns ended the page.
    #[must_use]
    pub fn is_limit(&self) -> bool {
        matches!(self.number, BYTES_REACHED | TURNS_REACHED)
    }

    /// Whether the run wasn't begun, since it could reach more levels than are allowed.
    #[must_use]
    pub fn is_too_many_levels(&self) -> bool {
        self.number == TOO_MANY_LEVELS
    }
}

/// Two errors are the same where all that they say is, whatever they come of.
impl PartialEq for LiquidError {
    fn eq(&self, other: &LiquidError) -> bool {
        self.number == other.number && self.name == other.name && self.message == other.message && self.location == other.location
    }
}

impl Eq for LiquidError {}

impl fmt::Display for LiquidError {
    fn fmt(&self, f: &mut fmt::Formatter<'_>) -> fmt::Result {
        match self.name.as_str() {
            "" => write!(f, "fault {}", self.number)?,
            name => f.write_str(name)?,
        }
        if let Some(location) = &self.location {
            write!(f, ": {location}")?;
        }
        match self.message.as_str() {
            "" => Ok(()),
            message => write!(f, ": {message}"),
        }
    }
}

impl Error for LiquidError {
    fn source(&self) -> Option<&(dyn Error + 'static)> {
        self.source.as_ref().map(|source| &**source as &(dyn Error + 'static))
    }
}

const NO_MEMORY: &str = "no memory was to be had";

/// The error where this program has no memory for what it reads or writes.
pub(crate) fn out_of_memory() -> LiquidError {
    LiquidError::new(MEMORY, words("Memory"), words(NO_MEMORY), None)
}

/// The error of a given value that is none.
pub(crate) fn no_values() -> LiquidError {
    call_refused(NO_VALUES).unwrap_or_else(out_of_memory)
}

/// The words of an error, or none where there is no memory for them.
pub(crate) fn words(of: &str) -> String {
    let mut made = String::new();
    if made.try_reserve_exact(of.len()).is_ok() {
        made.push_str(of);
    }
    made
}

/// The error of a call that can't be, which no fault tells of.
pub(crate) fn call_refused(number: u32) -> Option<LiquidError> {
    let (name, message) = match number {
        MEMORY => return Some(out_of_memory()),
        NO_TEXT => ("NoText", "the bytes are no UTF-8"),
        OTHER_HANDLE => ("OtherHandle", "an object of another kind than the call needs"),
        TOO_MANY_LEVELS => ("TooManyLevels", "blocks and partials could stand in one another deeper than is allowed"),
        NO_WORD => ("NoWord", "a tag's name is a word: a letter or `_`, then letters, digits, `_` and `-`"),
        RESERVED_NAME => {
            ("ReservedName", "blocks have a use of `else`, `elsif`, `when` and what begins with `end`, so no tag has such a name")
        }
        TAKEN_NAME => ("TakenName", "the language has a tag or a block of this name; give yours another"),
        NO_VALUES => ("NoValues", "a given value is one value as it stands in a tag, as `page.title`"),
        OTHER_PATHS => {
            ("OtherPaths", "the data were read for another template, and this one uses more of them; read them for this one")
        }
        _ => return None,
    };
    Some(LiquidError::new(number, words(name), words(message), None))
}
