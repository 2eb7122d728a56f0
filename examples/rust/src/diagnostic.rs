//! The errors of a source.

use crate::error::Position;
use crate::json::Value;
use crate::width::width_of;
use std::fmt;
use std::ops::Range;

/// How many characters of a line are shown before the error, and from the error on.
const REACH: usize = 60;

/// An error of a source. `Display` writes what `gqlfmt` writes after the name of the file, without the last line end:
/// the position, the message, the line of the source, and carets under what is wrong.
///
/// ```
/// let [error] = &graphql_proved::check("type Hero {\n  name String\n}")?[..] else { panic!() };
/// assert_eq!(error.span, 19..25);
/// assert_eq!(error.to_string(), "2:8: expected `(` or `:`, found the name `String`\n  name String\n       ^^^^^^");
/// # Ok::<(), graphql_proved::Error>(())
/// ```
#[derive(Clone, Debug, PartialEq, Eq, Hash)]
pub struct Diagnostic {
    /// The position. LF, CR LF and CR each end a line.
    pub position: Position,
    /// The bytes of the source that are wrong. None at its end.
    pub span: Range<usize>,
    /// What was expected and what was found, and often a hint.
    pub message: String,
    /// All that can come there, in words. None if the error is not one of syntax.
    pub expected: Vec<String>,
    /// The line of the source, and the carets.
    excerpt: String,
}

impl Diagnostic {
    /// The error of a source that an object of the library's JSON describes.
    pub(crate) fn new(source: &str, mut object: Value) -> Self {
        let mut number = |name| object.take(name).into_number();
        let position = Position { line: number("line"), column: number("column") };
        let (offset, length) = (number("offset"), number("length"));
        let expected = object.take("expected").into_list();
        Diagnostic {
            position,
            span: offset..offset + length,
            message: object.take("message").into_text(),
            expected: expected.into_iter().map(Value::into_text).collect(),
            excerpt: excerpt_of(&source[..offset], &source[offset..], length),
        }
    }
}

impl fmt::Display for Diagnostic {
    fn fmt(&self, f: &mut fmt::Formatter<'_>) -> fmt::Result {
        write!(f, "{}: {}\n{}", self.position, self.message, self.excerpt)
    }
}

impl std::error::Error for Diagnostic {}

fn is_line_end(character: char) -> bool {
    matches!(character, '\n' | '\r')
}

/// A character as it is shown, in one line.
fn visible(character: char) -> char {
    if character.is_control() && character != '\t' {
        char::REPLACEMENT_CHARACTER
    } else {
        character
    }
}

/// A mark below each column of a character. A tab is below a tab.
fn marks_of(character: char, mark: &str) -> String {
    match character {
        '\t' => "\t".to_owned(),
        _ => mark.repeat(width_of(visible(character))),
    }
}

/// The line of a source with an error of this many bytes, and below it carets. The source is given before the error and
/// from there on. Of a long line only the part around the position is shown.
fn excerpt_of(front: &str, rest: &str, length: usize) -> String {
    let before = &front[front.rfind(is_line_end).map_or(0, |index| index + 1)..];
    let skipped = before.chars().count().saturating_sub(REACH);
    let (mut line, mut marks) = if skipped > 0 { ("...".to_owned(), "   ".to_owned()) } else { Default::default() };
    for character in before.chars().skip(skipped) {
        line.push(visible(character));
        marks += &marks_of(character, " ");
    }
    let from = &rest[..rest.find(is_line_end).unwrap_or(rest.len())];
    for (index, character) in from.char_indices().take(REACH) {
        line.push(visible(character));
        if index < length {
            marks += &marks_of(character, "^");
        }
    }
    if from.chars().count() > REACH {
        line += "...";
    }
    if !marks.contains('^') {
        marks.push('^');
    }
    format!("{line}\n{marks}")
}
