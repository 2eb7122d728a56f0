//! The recorded cases of this repository, through the library for C, and those of a folder that the variable
//! `GRAPHQL_PROVED_VECTORS` names.

use graphql_proved::{bytes, check, check_query, check_schema, first_definition, format, minify, normalize_query};
use graphql_proved::{
    normalize_schema, query_to_json, schema_to_json, to_json, Cause, Error, Options, Position, Style,
};
use std::path::{Path, PathBuf};
use std::{env, fs};

/// What is wanted of a text.
#[derive(Debug)]
enum Wanted {
    Output(String),
    Accepted,
    Refused(Option<String>),
}

/// Bytes that are read from the front.
struct Rest<'a>(&'a [u8]);

impl<'a> Rest<'a> {
    fn line(&mut self) -> &'a str {
        let end = self.0.iter().position(|&byte| byte == b'\n').expect("a line ends");
        let line = std::str::from_utf8(&self.0[..end]).expect("a line is UTF-8");
        self.0 = &self.0[end + 1..];
        line
    }

    /// A text of so many bytes with LF after it.
    fn sized(&mut self, length: &str) -> &'a str {
        let length: usize = length.parse().expect("a length");
        let text = std::str::from_utf8(&self.0[..length]).expect("a text is UTF-8");
        assert_eq!(self.0[length], b'\n');
        self.0 = &self.0[length + 1..];
        text
    }

    fn wanted(&mut self) -> Wanted {
        let line = self.line();
        match line.split_once(' ') {
            Some(("ok", length)) => Wanted::Output(self.sized(length).to_owned()),
            Some(("refused", length)) => Wanted::Refused(Some(self.sized(length).to_owned())),
            _ if line == "refused" => Wanted::Refused(None),
            _ => Wanted::Accepted,
        }
    }
}

/// A message as it is compared. The recorded messages count tabs, CR, byte order marks and comments in another way than
/// this crate. If a text has one of these, the first line of a message, which has the position, is left out.
fn recorded<'a>(text: &str, message: &'a str) -> &'a str {
    match message.split_once('\n') {
        Some((_, rest)) if text.contains(['\t', '\r', '\u{FEFF}', '#']) => rest,
        _ => message,
    }
}

/// Whether a case is for these calls. If it is, their results must be the wanted ones.
fn replayed(word: &str, indent: u32, text: &str, wanted: &Wanted) -> bool {
    let multiline = word.ends_with("lines");
    let style = Style { indent, multiline };
    let (answer, checked) = match word {
        "query" | "lines" => (normalize_query(text, style), Some(check_query(text))),
        "schema" | "schema-lines" => (normalize_schema(text, style), Some(check_schema(text))),
        "minify" => (minify(text), None),
        _ => return false,
    };
    match (wanted, &answer) {
        (Wanted::Output(output), Ok(found)) => assert_eq!(found, output, "of {word}: {text}"),
        (Wanted::Accepted, Ok(_)) | (Wanted::Refused(None), Err(_)) => {}
        (Wanted::Refused(Some(message)), Err(error)) => {
            assert_eq!(recorded(text, &error.message), recorded(text, message), "of {word}: {text}")
        }
        (wanted, answer) => panic!("of {word}: {text}\nwanted {wanted:?}, found {answer:?}"),
    }
    // A check returns the error of the formatting call, except if the output would be too wide.
    match (&answer, checked) {
        (Err(error), Some(checked)) if error.cause != Cause::TooWide => {
            assert_eq!(checked.as_ref().err(), Some(error), "of {word}: {text}")
        }
        (_, Some(checked)) => assert_eq!(checked, Ok(()), "of {word}: {text}"),
        (_, None) => {}
    }
    true
}

fn repository() -> PathBuf {
    Path::new(env!("CARGO_MANIFEST_DIR")).join("../..")
}

#[test]
fn recorded_cases_agree() {
    let bytes = fs::read(repository().join("crates/vectors/stdin")).expect("the recorded cases");
    let (mut rest, mut count) = (Rest(&bytes), 0);
    while !rest.0.is_empty() {
        let line = rest.line();
        if line.starts_with('#') {
            continue;
        }
        let mut words = line.split(' ');
        let (word, length) = (words.next().expect("a word"), words.next().expect("a length"));
        let indent = words.next().map_or(2, |indent| indent.parse().expect("an indentation"));
        let (text, wanted) = (rest.sized(length), rest.wanted());
        count += u32::from(replayed(word, indent, text, &wanted));
    }
    assert!(count > 900, "{count} cases");
    println!("{count} recorded cases agree");
}

#[test]
fn cases_of_a_folder_agree() {
    let Ok(folder) = env::var("GRAPHQL_PROVED_VECTORS") else {
        println!("GRAPHQL_PROVED_VECTORS names no folder: skipped");
        return;
    };
    for word in ["query", "schema", "minify"] {
        let bytes = fs::read(Path::new(&folder).join(word).with_extension("cases")).expect("a file of cases");
        let (mut rest, mut count) = (Rest(&bytes), 0);
        while !rest.0.is_empty() {
            let length = rest.line();
            let (text, wanted) = (rest.sized(length), rest.wanted());
            count += u32::from(replayed(word, 2, text, &wanted));
        }
        println!("{count} cases of {word} agree");
    }
}

#[test]
fn hero_is_laid_out() {
    let text =
        "query Hero($id: ID! = \"1\") @cached { h: hero(id: $id) { name ... on Droid { parts(first: 2) } ...More } }\n";
    let lines = concat!(
        "query Hero($id: ID! = \"1\") @cached {\n  h: hero(id: $id) {\n    name\n",
        "    ... on Droid {\n      parts(first: 2)\n    }\n    ...More\n  }\n}\n",
    );
    assert_eq!(normalize_query(text, Style::default()).as_deref(), Ok(lines));
    let shortest = "query Hero($id:ID!=\"1\")@cached{h:hero(id:$id){name...on Droid{parts(first:2)}...More}}";
    assert_eq!(minify(text).as_deref(), Ok(shortest));
}

#[test]
fn documents_are_written_as_json() {
    let query = concat!(
        r#"{"kind":"Document","definitions":[{"kind":"OperationDefinition","position":{"line":1,"column":1},"#,
        r#""operation":"query","variableDefinitions":[],"directives":[],"#,
        r#""selectionSet":{"kind":"SelectionSet","position":{"line":1,"column":1},"#,
        r#""endPosition":{"line":1,"column":14},"selections":[{"kind":"Field","position":{"line":1,"column":3},"#,
        r#""name":{"kind":"Name","value":"a"},"arguments":[{"kind":"Argument","name":{"kind":"Name","value":"b"},"#,
        r#""value":{"kind":"StringValue","value":"\"é"}}],"directives":[]}]}}]}"#,
    );
    assert_eq!(query_to_json(r#"{ a(b:"\"é") }"#).as_deref(), Ok(query));
    let schema = concat!(
        r#"{"kind":"Document","definitions":[{"kind":"ScalarTypeDefinition","position":{"line":2,"column":1},"#,
        r#""name":{"kind":"Name","value":"A"},"directives":[]}]}"#,
    );
    assert_eq!(schema_to_json("\nscalar A").as_deref(), Ok(schema));
    assert_eq!((to_json(r#"{ a(b:"\"é") }"#).as_deref(), to_json("\nscalar A").as_deref()), (Ok(query), Ok(schema)));
    // Of several errors, `to_json` returns that by the specification, and else that of the language that goes further.
    let error = to_json("type A { b }").expect_err("no document");
    assert_eq!(error.message, "expected `(` or `:`, found `}`");
    let error = to_json("{ a(b:\t99999999999999999999) }").expect_err("too large");
    assert_eq!(
        (error.cause, error.position, error.span),
        (Cause::IntOutOfRange, Some(Position { line: 1, column: 8 }), Some(7..27))
    );
    let error = query_to_json("scalar A").expect_err("no query");
    assert_eq!(Some(&error), check_query("scalar A").as_ref().err());
    assert_eq!(bytes::schema_to_json(b"scalar \xff").expect_err("not UTF-8").cause, Cause::NotUtf8);
}

#[test]
fn refusals_have_places() {
    let error = normalize_query("{ hero(id: 99999999999999999999) }", Style::default()).expect_err("too large");
    assert_eq!((error.cause, error.position), (Cause::IntOutOfRange, Some(Position { line: 1, column: 12 })));
    assert_eq!(error.message, "query parse error: Parse error at 1:12\nnumber too large\n");
    assert_eq!(error.to_string(), "query parse error: Parse error at 1:12\nnumber too large");
    let source = "{\r\n\té(a: \"\t\") { # 日\r b(c:\t-99999999999999999999) } }";
    let error = check_query(&source.replace('é', "e")).expect_err("too large");
    assert_eq!(error.position, Some(Position { line: 3, column: 7 }));
    assert_eq!(&source.replace('é', "e")[error.span.expect("a span")], "-99999999999999999999");
    assert!(error.message.starts_with("query parse error: Parse error at 3:7\n"));
    let error = check_schema("\nschema { query: A query: B }").expect_err("twice");
    assert_eq!((error.cause, error.position), (Cause::DuplicateOperation, Some(Position { line: 2, column: 1 })));
    let error = minify("{ a ; }").expect_err("no token");
    assert_eq!((error.cause, error.position), (Cause::BadToken, Some(Position { line: 1, column: 5 })));
    // The message of the library does not name the position.
    assert_eq!(error.to_string(), "1:5: query minify error: Unexpected unexpected character ';'");
    let error = check_query("").expect_err("empty");
    assert_eq!(error.cause, Cause::UnexpectedEnd);
}

#[test]
fn failures_have_no_place() {
    let error = normalize_query("{ a { b } }", Style { indent: u32::MAX, multiline: false }).expect_err("too wide");
    assert_eq!((error.cause, error.position), (Cause::TooWide, None));
    assert_eq!(error.message, "format error: indentation too wide");
    let error = bytes::normalize_query(b"{ a \xff }", Style::default()).expect_err("not UTF-8");
    assert_eq!((error.cause, error.position), (Cause::NotUtf8, None));
}

#[test]
fn bytes_are_taken_as_strings_are() {
    let style = Style { indent: 3, multiline: true };
    for text in ["{ a(b: 1) }", "enum E { A }", "{ \"é\" }", "{ a ; }", ""] {
        let source = text.as_bytes();
        assert_eq!(bytes::normalize_query(source, style), normalize_query(text, style));
        assert_eq!(bytes::normalize_schema(source, style), normalize_schema(text, style));
        assert_eq!(bytes::format(source, Options::default()), format(text, Options::default()));
        assert_eq!(bytes::check(source), check(text));
        assert_eq!(bytes::minify(source), minify(text));
        assert_eq!(bytes::check_query(source), check_query(text));
        assert_eq!(bytes::check_schema(source), check_schema(text));
        assert_eq!(bytes::query_to_json(source), query_to_json(text));
        assert_eq!(bytes::schema_to_json(source), schema_to_json(text));
        let parts =
            |(definition, rest): (&str, &str)| (definition.to_owned().into_bytes(), rest.to_owned().into_bytes());
        let split = bytes::first_definition(source).map(|(definition, rest)| (definition.to_vec(), rest.to_vec()));
        assert_eq!(split, first_definition(text).map(parts));
    }
    assert_eq!(bytes::first_definition(b"{ a } b\xff"), Ok((&b"{ a } "[..], &b"b\xff"[..])));
}

#[test]
fn a_status_of_a_later_version_is_kept() {
    assert_eq!(Cause::from(15), Cause::NotUtf8);
    assert_eq!(Cause::from(99), Cause::Other(99));
    let error = Error { cause: Cause::Other(99), position: None, span: None, message: "new\n".to_owned() };
    assert_eq!(error.to_string(), "new");
    assert_eq!(Position { line: 3, column: 14 }.to_string(), "3:14");
}

#[test]
fn outputs_longer_than_the_first_buffer_are_whole() {
    let mut text = String::new();
    for _ in 0..40 {
        text.push_str("{a ");
    }
    text.push_str(&"}".repeat(40));
    let wide = normalize_query(&text, Style { indent: 100, multiline: false }).expect("a document");
    assert!(wide.len() > 100 * (820 + 780));
    assert_eq!(minify(&wide).as_deref(), Ok(text.replace(' ', "").as_str()));
    // A message with a long token in it.
    let long = format!("\"{}\"", "a".repeat(5000));
    let error = check_query(&long).expect_err("a string is no definition");
    assert_eq!(error.cause, Cause::UnexpectedToken);
    assert!(error.message.contains(&long));
}

#[test]
fn a_first_definition_ends_before_the_rest() {
    assert_eq!(first_definition("query { a } where a > 1 => 10.0"), Ok(("query { a } ", "where a > 1 => 10.0")));
    assert_eq!(first_definition("{ a }"), Ok(("{ a }", "")));
    let error = first_definition("where").expect_err("no definition");
    assert_eq!((error.cause, error.position), (Cause::UnexpectedToken, Some(Position { line: 1, column: 1 })));
}
