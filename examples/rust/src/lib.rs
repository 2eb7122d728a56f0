//! Formats and checks GraphQL documents, and writes them as JSON, with code that is proved correct.
//!
//! This crate links a static library. No function here is `unsafe`, and threads can call at once.
//!
//! ```
//! use graphql_proved::{check, format, Options};
//!
//! let formatted = format("{ hero(id: 1) { name } } # One.", Options::default())?;
//! assert_eq!(formatted, "{\n  hero(id: 1) {\n    name\n  }\n} # One.\n");
//! assert_eq!(check("{ hero }")?, []);
//! # Ok::<(), graphql_proved::Error>(())
//! ```

mod diagnostic;
mod error;
mod json;
mod place;
mod raw;
mod width;

pub use diagnostic::Diagnostic;
pub use error::{Cause, Error, Position};
use std::fmt;

/// How [`format`] formats a document.
#[derive(Clone, Copy, Debug, PartialEq, Eq, Hash)]
pub struct Options {
    /// The spaces for each level. A large number makes a large output.
    pub indent: u32,
    /// The columns that a line can take, where that is possible.
    pub width: u32,
}

impl Default for Options {
    /// Two spaces for each level, and lines of 80 columns.
    fn default() -> Self {
        Options { indent: 2, width: 80 }
    }
}

/// How [`normalize_query`] and [`normalize_schema`] format a document.
#[derive(Clone, Copy, Debug, PartialEq, Eq, Hash)]
pub struct Style {
    /// The spaces for each level. A large number makes a large output.
    pub indent: u32,
    /// Whether each argument, list item and object field is on its own line.
    pub multiline: bool,
}

impl Default for Style {
    /// Two spaces for each level, and arguments on one line.
    fn default() -> Self {
        Style { indent: 2, multiline: false }
    }
}

/// The version of the library. `Display` writes the three numbers with points between them.
#[repr(C)]
#[derive(Clone, Copy, Debug, PartialEq, Eq, PartialOrd, Ord, Hash)]
pub struct Version {
    /// The first number.
    pub major: u32,
    /// The second number.
    pub minor: u32,
    /// The third number.
    pub patch: u32,
}

impl fmt::Display for Version {
    fn fmt(&self, f: &mut fmt::Formatter<'_>) -> fmt::Result {
        write!(f, "{}.{}.{}", self.major, self.minor, self.patch)
    }
}

/// The version of the library that is linked.
///
/// ```
/// assert_eq!(graphql_proved::library_version().to_string(), env!("CARGO_PKG_VERSION"));
/// ```
pub fn library_version() -> Version {
    raw::version()
}

/// Formats a document with its comments, as `gqlfmt` does. It can have operations and types.
///
/// # Errors
///
/// If the source is not valid, nests too deep or is too long, or an allocation fails.
///
/// ```
/// use graphql_proved::{format, Options};
///
/// let options = Options { indent: 4, ..Options::default() };
/// assert_eq!(format("enum E { A # first\n B }", options)?, "enum E {\n    A # first\n    B\n}\n");
/// # Ok::<(), graphql_proved::Error>(())
/// ```
pub fn format(source: &str, options: Options) -> Result<String, Error> {
    raw::format(source.as_bytes(), options)
}

/// Lists the errors of a source: the first, and those of the definitions after it. It is not validated against a schema.
///
/// # Errors
///
/// If the source is too long, or an allocation fails.
pub fn check(source: &str) -> Result<Vec<Diagnostic>, Error> {
    raw::check(source.as_bytes())
}

/// Formats a query document without its comments.
///
/// # Errors
///
/// If the source is not a valid query document, the output would be too wide, or an allocation fails.
///
/// ```
/// use graphql_proved::{normalize_query, Style};
///
/// assert_eq!(normalize_query("{ a # none\n}", Style::default())?, "{\n  a\n}\n");
/// # Ok::<(), graphql_proved::Error>(())
/// ```
pub fn normalize_query(source: &str, style: Style) -> Result<String, Error> {
    raw::normalize_query(source.as_bytes(), style)
}

/// Formats a schema document without its comments.
///
/// # Errors
///
/// If the source is not a valid schema document, the output would be too wide, or an allocation fails.
pub fn normalize_schema(source: &str, style: Style) -> Result<String, Error> {
    raw::normalize_schema(source.as_bytes(), style)
}

/// Writes the tokens of a source. Only two that are not punctuators, and a number and `...`, have a space between them.
///
/// # Errors
///
/// If the source has an invalid token, nests too deep or is too long, or an allocation fails. The grammar is not
/// checked.
///
/// ```
/// assert_eq!(graphql_proved::minify("query { a , b }")?, "query{a b}");
/// # Ok::<(), graphql_proved::Error>(())
/// ```
pub fn minify(source: &str) -> Result<String, Error> {
    raw::minify(source.as_bytes())
}

/// Splits a source after the first definition of a query document and the spaces, commas and comments behind it.
///
/// # Errors
///
/// If the source does not begin with a definition, or an allocation fails. The rest is not checked.
///
/// ```
/// assert_eq!(graphql_proved::first_definition("{ a } where a > 1")?, ("{ a } ", "where a > 1"));
/// # Ok::<(), graphql_proved::Error>(())
/// ```
pub fn first_definition(source: &str) -> Result<(&str, &str), Error> {
    raw::first_definition(source.as_bytes()).map(|offset| source.split_at(offset))
}

/// Checks that a source is a query document. It is not validated against a schema.
///
/// # Errors
///
/// If the source is not a valid query document, or an allocation fails.
pub fn check_query(source: &str) -> Result<(), Error> {
    raw::check_query(source.as_bytes())
}

/// Checks that a source is a schema document. Its types are not validated.
///
/// # Errors
///
/// If the source is not a valid schema document, or an allocation fails.
pub fn check_schema(source: &str) -> Result<(), Error> {
    raw::check_schema(source.as_bytes())
}

/// Writes a query document or a schema document as JSON, in the form of the AST of graphql-js.
///
/// # Errors
///
/// If the source is neither a query document nor a schema document, or an allocation fails.
///
/// ```
/// let json = graphql_proved::to_json("scalar A")?;
/// assert!(json.starts_with(r#"{"kind":"Document","definitions":[{"kind":"ScalarTypeDefinition","#));
/// # Ok::<(), graphql_proved::Error>(())
/// ```
pub fn to_json(source: &str) -> Result<String, Error> {
    raw::to_json(source.as_bytes())
}

/// Writes a query document as JSON, in the form of the AST of graphql-js.
///
/// # Errors
///
/// If the source is not a valid query document, or an allocation fails.
///
/// ```
/// let json = graphql_proved::query_to_json("{ a }")?;
/// assert!(json.starts_with(r#"{"kind":"Document","definitions":[{"kind":"OperationDefinition","#));
/// # Ok::<(), graphql_proved::Error>(())
/// ```
pub fn query_to_json(source: &str) -> Result<String, Error> {
    raw::query_to_json(source.as_bytes())
}

/// Writes a schema document as JSON, in the form of the AST of graphql-js.
///
/// # Errors
///
/// If the source is not a valid schema document, or an allocation fails.
pub fn schema_to_json(source: &str) -> Result<String, Error> {
    raw::schema_to_json(source.as_bytes())
}

/// The same functions for bytes. They also return an error if the source is not UTF-8.
///
/// ```
/// use graphql_proved::{bytes, Cause};
///
/// assert_eq!(bytes::minify(b"{ a, b }")?, "{a b}");
/// assert_eq!(bytes::check_query(b"{ a \xff }").unwrap_err().cause, Cause::NotUtf8);
/// # Ok::<(), graphql_proved::Error>(())
/// ```
pub mod bytes {
    use crate::{raw, Error};

    pub use raw::{check, check_query, check_schema, format, minify, normalize_query, normalize_schema};
    pub use raw::{query_to_json, schema_to_json, to_json};

    /// As [`crate::first_definition`]. The rest can be any bytes.
    ///
    /// # Errors
    ///
    /// If the source does not begin with a definition, or an allocation fails.
    pub fn first_definition(source: &[u8]) -> Result<(&[u8], &[u8]), Error> {
        raw::first_definition(source).map(|offset| source.split_at(offset))
    }
}
