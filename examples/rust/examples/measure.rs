//! How long the calls take of a document in memory: the least time of each in so many rounds, in microseconds.
//!
//! A round makes each call once, one after another, or the only one that the last word names.

use graphql_proved::{
    check_query, check_schema, format, minify, normalize_query, normalize_schema, Error, Options, Style,
};
use std::time::{Duration, Instant};
use std::{env, fs, process};

const USAGE: &str = "usage: measure query|schema FILE ROUNDS [check|format|normalize|minify]";

/// A call for a text, whose output is dropped.
type Call = fn(&str) -> Result<(), Error>;

/// A call with its name.
type Named = (&'static str, Call);

/// The calls for a language.
fn calls(language: &str) -> Option<[Named; 4]> {
    let format: Named = ("format", |text| format(text, Options::default()).map(drop));
    let minify: Named = ("minify", |text| minify(text).map(drop));
    match language {
        "query" => Some([
            ("check", check_query),
            format,
            ("normalize", |text| normalize_query(text, Style::default()).map(drop)),
            minify,
        ]),
        "schema" => Some([
            ("check", check_schema),
            format,
            ("normalize", |text| normalize_schema(text, Style::default()).map(drop)),
            minify,
        ]),
        _ => None,
    }
}

/// The least time of each of the calls.
fn least_times(calls: &[Named], text: &str, rounds: u32) -> Result<Vec<Duration>, Error> {
    let mut least = vec![Duration::MAX; calls.len()];
    for _ in 0..rounds {
        for (least, (_, call)) in least.iter_mut().zip(calls) {
            let start = Instant::now();
            call(text)?;
            *least = (*least).min(start.elapsed());
        }
    }
    Ok(least)
}

/// What the words ask for, where they are right: the calls, a file and the rounds.
fn order(words: &[String]) -> Option<(Vec<Named>, &str, u32)> {
    let (language, file, rounds, only) = match words {
        [language, file, rounds] => (language, file, rounds, None),
        [language, file, rounds, only] => (language, file, rounds, Some(only)),
        _ => return None,
    };
    let calls: Vec<_> =
        calls(language)?.into_iter().filter(|(name, _)| only.map_or(true, |only| only == name)).collect();
    let rounds = rounds.parse().ok().filter(|&rounds| rounds > 0)?;
    (!calls.is_empty()).then_some((calls, file, rounds))
}

fn main() {
    let words: Vec<_> = env::args().skip(1).collect();
    let Some((calls, file, rounds)) = order(&words) else {
        eprintln!("{USAGE}");
        process::exit(2);
    };
    let text = fs::read_to_string(file).unwrap_or_else(|error| stop(&format!("{file}: {error}")));
    let least = least_times(&calls, &text, rounds).unwrap_or_else(|error| stop(&error.to_string()));
    println!("{} bytes, {rounds} rounds", text.len());
    for ((name, _), least) in calls.iter().zip(least) {
        println!("{name}: {:.1} us", least.as_secs_f64() * 1e6);
    }
}

fn stop(message: &str) -> ! {
    eprintln!("measure: {message}");
    process::exit(1)
}
