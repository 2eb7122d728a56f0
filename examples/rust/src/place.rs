//! Where an error is in a source. The functions of the library count a tab between tokens as 8 columns; here it is 1.

use crate::error::Position;

const TAB: usize = 8;

fn is_of_word(character: char) -> bool {
    character.is_ascii_alphanumeric() || character == '_'
}

/// The length of a comment with its line end.
fn comment_len(text: &str) -> usize {
    let Some(end) = text.find(['\n', '\r']) else { return text.len() };
    end + if text[end..].starts_with("\r\n") { 2 } else { 1 }
}

/// The length of a block string. `None` if it does not end.
fn block_string_len(text: &str) -> Option<usize> {
    let mut end = 3;
    loop {
        let quotes = end + text.get(end..)?.find("\"\"\"")?;
        end = quotes + 3;
        if !text[..quotes].ends_with('\\') {
            return Some(end);
        }
    }
}

/// The length of a string in quotes. `None` if an LF or the end comes first.
fn string_len(text: &str) -> Option<usize> {
    let mut is_escaped = false;
    for (index, character) in text.char_indices().skip(1) {
        match character {
            '\n' => return None,
            '"' if !is_escaped => return Some(index + 1),
            _ => is_escaped = character == '\\' && !is_escaped,
        }
    }
    None
}

/// The length of a number.
fn number_len(text: &str) -> usize {
    let mut previous = '-';
    let is_end = |&(index, character): &(usize, char)| {
        let is_sign = matches!(character, '+' | '-') && matches!(previous, 'e' | 'E');
        previous = character;
        index > 0 && !is_of_word(character) && character != '.' && !is_sign
    };
    text.char_indices().find(is_end).map_or(text.len(), |(index, _)| index)
}

/// The length of what a text begins with: a comment, a string, a number, a name, or another token or character.
fn element_len(text: &str) -> usize {
    let Some(first) = text.chars().next() else { return 0 };
    match first {
        '#' => comment_len(text),
        '"' if text.starts_with("\"\"\"") => block_string_len(text).unwrap_or(1),
        '"' => string_len(text).unwrap_or(1),
        '-' | '0'..='9' => number_len(text),
        '.' if text.starts_with("...") => 3,
        _ if is_of_word(first) => text.find(|character| !is_of_word(character)).unwrap_or(text.len()),
        _ => first.len_utf8(),
    }
}

/// The position after an element at this position, as the library counts.
fn after(Position { line, column }: Position, element: &str) -> Position {
    match element {
        "\t" => Position { line, column: column + TAB },
        "\r" | "\u{FEFF}" => Position { line, column },
        _ if element.starts_with('#') && element.ends_with(['\n', '\r']) => Position { line: line + 1, column: 1 },
        _ if element.starts_with('#') => Position { line, column },
        _ => match element.rsplit_once('\n') {
            Some((before, last)) => {
                Position { line: line + 1 + before.matches('\n').count(), column: 1 + last.chars().count() }
            }
            None => Position { line, column: column + element.chars().count() },
        },
    }
}

/// The offset of the token that is at this position of the library, or of the end of the text.
pub fn offset_of(text: &str, position: Position) -> usize {
    let (mut found, mut rest) = (Position { line: 1, column: 1 }, text);
    while !rest.is_empty() {
        let is_ignored = rest.starts_with(['\t', '\n', '\r', ' ', ',', '\u{FEFF}', '#']);
        if found == position && !is_ignored {
            break;
        }
        let (element, after_it) = rest.split_at(element_len(rest));
        found = after(found, element);
        rest = after_it;
    }
    text.len() - rest.len()
}

/// The position after a text, where each character is one column.
pub fn position_after(text: &str) -> Position {
    let lines = text.replace("\r\n", "\n").replace('\r', "\n");
    let last = lines.rsplit('\n').next().unwrap_or_default();
    Position { line: lines.matches('\n').count() + 1, column: last.chars().count() + 1 }
}

/// The length of an error at the beginning of a text: of a token, or of a character if no token begins there.
pub fn error_len(text: &str, is_token: bool) -> usize {
    if is_token {
        element_len(text)
    } else {
        text.chars().next().map_or(0, char::len_utf8)
    }
}

#[cfg(test)]
mod tests {
    use super::{element_len, offset_of, position_after};
    use crate::error::Position;

    #[test]
    fn elements_end_where_tokens_do() {
        for element in [
            "\"\r\"",
            "#a\r\n",
            "#a\r",
            "\"\"\"a\\\"\"\"\n\"\"\"",
            "\"\"",
            "\"\\\\\"",
            "\"\\\"\t\"",
            "-1.5e+3",
            "a_1",
            "...",
            "é",
            "\t",
        ] {
            assert_eq!(element_len(&format!("{element} \"")), element.len(), "{element}");
        }
        assert_eq!((element_len("\"a\n\""), element_len("\"\"\"a"), element_len("#a"), element_len("")), (1, 1, 2, 0));
    }

    #[test]
    fn offsets_are_those_of_tokens() {
        let text = "\u{FEFF}\t{ a(b: \"\t\") # c\r\td \"\"\"\n\t\"\"\"e";
        for (line, column, token) in [(1, 9, "{"), (1, 16, "\"\t\""), (2, 9, "d"), (3, 5, "e"), (9, 9, "")] {
            let offset = offset_of(text, Position { line, column });
            assert!(text[offset..].starts_with(token) && (offset == text.len()) == token.is_empty(), "{token}");
        }
        assert_eq!(position_after("a\r\n\té\rb"), Position { line: 3, column: 2 });
    }
}
