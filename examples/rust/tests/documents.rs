//! The documents of a folder that the variable `GRAPHQL_PROVED_DOCUMENTS` names. A document is
//! `INDENT-WIDTH-NUMBER.graphql`. Beside it is what `gqlfmt` makes of it: `.out`, its output, or `.err`, its messages.

use graphql_proved::{check, check_query, check_schema, format, minify, Cause, Options};
use std::path::{Path, PathBuf};
use std::{env, fs};

/// The documents of the folder. None if there is no folder.
fn documents() -> Vec<PathBuf> {
    let Ok(folder) = env::var("GRAPHQL_PROVED_DOCUMENTS") else {
        println!("GRAPHQL_PROVED_DOCUMENTS names no folder: skipped");
        return Vec::new();
    };
    let files = fs::read_dir(folder).expect("a folder").map(|file| file.expect("a file").path());
    files.filter(|file| file.extension().is_some_and(|extension| extension == "graphql")).collect()
}

fn name_of(file: &Path) -> &str {
    file.file_name().and_then(|name| name.to_str()).expect("a name")
}

fn options_of(file: &Path) -> Options {
    let mut numbers = name_of(file).split('-').map(|number| number.parse().expect("a number"));
    let mut next = || numbers.next().expect("an option");
    Options { indent: next(), width: next() }
}

#[test]
fn documents_agree_with_gqlfmt() {
    let (mut formatted, mut rejected) = (0, 0);
    for file in documents() {
        let (name, source) = (name_of(&file), fs::read_to_string(&file).expect("a document"));
        let (output, errors) = (format(&source, options_of(&file)), check(&source).expect("a list"));
        if let Ok(wanted) = fs::read_to_string(file.with_extension("out")) {
            assert_eq!((output.as_ref(), errors.len()), (Ok(&wanted), 0), "{name}");
            formatted += 1;
        } else {
            let messages: String = errors.iter().map(|error| format!("{name}:{error}\n")).collect();
            assert_eq!(messages, fs::read_to_string(file.with_extension("err")).expect("messages"));
            let error = output.expect_err(name);
            assert_eq!(
                (error.position, error.span),
                (Some(errors[0].position), Some(errors[0].span.clone())),
                "{name}"
            );
            rejected += 1;
        }
    }
    println!("{formatted} documents are formatted and {rejected} are rejected as by gqlfmt");
}

/// A position at which the library finds an error is that of a token, except at the end of the source.
#[test]
fn errors_of_other_calls_are_at_tokens() {
    for file in documents() {
        let (name, source) = (name_of(&file), fs::read_to_string(&file).expect("a document"));
        let results = [check_query(&source), check_schema(&source), minify(&source).map(drop)];
        for error in results.into_iter().filter_map(Result::err) {
            let start = error.span.expect("a span").start;
            assert_eq!(start == source.len(), error.cause == Cause::UnexpectedEnd, "{name}: {}", error.message);
        }
    }
}
