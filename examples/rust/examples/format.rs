//! A filter: reads a document from standard input, and writes it formatted to standard output. The status is 1
//! if the document is rejected, and 2 if a read or a write fails.

use graphql_proved::{bytes, Options};
use std::io::{self, Read, Write};
use std::process::ExitCode;

fn read_all() -> io::Result<Vec<u8>> {
    let mut source = Vec::new();
    io::stdin().read_to_end(&mut source)?;
    Ok(source)
}

fn write_all(output: &str) -> io::Result<()> {
    let mut stdout = io::stdout();
    stdout.write_all(output.as_bytes())?;
    stdout.flush()
}

fn formatted() -> io::Result<ExitCode> {
    match bytes::format(&read_all()?, Options::default()) {
        Ok(output) => write_all(&output).map(|()| ExitCode::SUCCESS),
        Err(error) => {
            eprintln!("{error}");
            Ok(ExitCode::from(1))
        }
    }
}

fn main() -> ExitCode {
    formatted().unwrap_or_else(|error| {
        eprintln!("format: {error}");
        ExitCode::from(2)
    })
}
