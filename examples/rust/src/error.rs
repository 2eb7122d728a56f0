//! Why a call fails.

use std::fmt;
use std::ops::Range;

/// The cause of an error. `graphql_proved.h` has the same names.
#[derive(Clone, Copy, Debug, PartialEq, Eq, Hash)]
#[non_exhaustive]
pub enum Cause {
    /// There is no valid token at the position.
    BadToken,
    /// No document continues with this token.
    UnexpectedToken,
    /// No document ends here.
    UnexpectedEnd,
    /// Too many brackets are open: more than 1000 for `format`, and more than 50 for the other calls.
    TooDeep,
    /// An integer is outside the range of `i64`.
    IntOutOfRange,
    /// The exponent of a float has no digit.
    MalformedFloat,
    /// An escape in a string denotes no character.
    BadEscape,
    /// A directive definition names a location that does not exist.
    UnknownLocation,
    /// A schema names an operation twice.
    DuplicateOperation,
    /// A schema names an operation that does not exist.
    UnknownOperation,
    /// An extension adds nothing.
    EmptyExtension,
    /// The source has more than `usize::MAX / 16` bytes.
    TextTooLong,
    /// An allocation failed. Nothing is known about the source.
    OutOfMemory,
    /// The deepest level takes more than `u32::MAX` spaces of indentation.
    TooWide,
    /// The source is not valid UTF-8.
    NotUtf8,
    /// A status of a later version of the library.
    Other(u32),
}

impl From<u32> for Cause {
    /// The cause that has this number in `graphql_proved.h`.
    fn from(status: u32) -> Self {
        match status {
            1 => Cause::BadToken,
            2 => Cause::UnexpectedToken,
            3 => Cause::UnexpectedEnd,
            4 => Cause::TooDeep,
            5 => Cause::IntOutOfRange,
            6 => Cause::MalformedFloat,
            7 => Cause::BadEscape,
            8 => Cause::UnknownLocation,
            9 => Cause::DuplicateOperation,
            10 => Cause::UnknownOperation,
            11 => Cause::EmptyExtension,
            12 => Cause::TextTooLong,
            13 => Cause::OutOfMemory,
            14 => Cause::TooWide,
            15 => Cause::NotUtf8,
            _ => Cause::Other(status),
        }
    }
}

/// The position of an error. `Display` writes `line:column`.
#[derive(Clone, Copy, Debug, PartialEq, Eq, PartialOrd, Ord, Hash)]
pub struct Position {
    /// The line, from 1.
    pub line: usize,
    /// The column in characters, from 1. A tab is one character.
    pub column: usize,
}

impl fmt::Display for Position {
    fn fmt(&self, f: &mut fmt::Formatter<'_>) -> fmt::Result {
        write!(f, "{}:{}", self.line, self.column)
    }
}

/// Why a call failed, and where. `Display` writes the message without its last line end, and names the position once.
///
/// ```
/// let error = graphql_proved::check_query("{ hero(id: 99999999999999999999) }").unwrap_err();
/// assert_eq!(error.cause, graphql_proved::Cause::IntOutOfRange);
/// assert_eq!(error.to_string(), "query parse error: Parse error at 1:12\nnumber too large");
/// ```
#[derive(Clone, Debug, PartialEq, Eq, Hash)]
pub struct Error {
    /// The cause.
    pub cause: Cause,
    /// The position, if the error has one.
    pub position: Option<Position>,
    /// The bytes of the source that are wrong, if the error has a position.
    pub span: Option<Range<usize>>,
    /// The message of the library, with its line ends. It is empty if there was no memory for it.
    pub message: String,
}

impl fmt::Display for Error {
    fn fmt(&self, f: &mut fmt::Formatter<'_>) -> fmt::Result {
        let text = self.message.strip_suffix('\n').unwrap_or(&self.message);
        match self.position {
            Some(position) if !text.contains(&format!(" at {position}\n")) => write!(f, "{position}: {text}"),
            _ => f.write_str(text),
        }
    }
}

impl std::error::Error for Error {}
