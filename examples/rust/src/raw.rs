//! The functions of the library, as `graphql_proved.h` declares them, without `unsafe`.

use crate::diagnostic::Diagnostic;
use crate::error::{Cause, Error, Position};
use crate::{json, place, Options, Style, Version};
use std::mem::MaybeUninit;

/// `graphql_proved_result` of `graphql_proved.h`.
#[repr(C)]
struct CallResult {
    status: u32,
    output_length: usize,
    message_length: usize,
    offset: usize,
    line: usize,
    column: usize,
}

const OK: u32 = 0;
const BUFFER_TOO_SHORT: u32 = 16;

/// As in the header: enough for most messages.
const MESSAGE_CAPACITY: usize = 256;

/// Enough for the errors of most sources as JSON.
const CHECK_CAPACITY: usize = 4096;

/// Declares the functions of the library that take a source and a buffer, by their names in C.
macro_rules! library {
    ($(fn $name:ident($($argument:ident: $type:ty),*);)*) => {
        mod c {
            use super::{CallResult, Version};

            extern "C" {
                $(#[link_name = concat!("graphql_proved_", stringify!($name), "_nonnull")]
                pub fn $name($($argument: $type),*) -> CallResult;)*

                #[link_name = "graphql_proved_version"]
                pub fn version() -> Version;
            }
        }
    };
}

library! {
    fn format_source(text: *const u8, length: usize, indent: u32, width: u32, out: *mut u8, capacity: usize);
    fn check(text: *const u8, length: usize, max_errors: usize, out: *mut u8, capacity: usize);
    fn normalize_query(text: *const u8, length: usize, indent: u32, multiline: bool, out: *mut u8, capacity: usize);
    fn normalize_schema(text: *const u8, length: usize, indent: u32, multiline: bool, out: *mut u8, capacity: usize);
    fn minify(text: *const u8, length: usize, out: *mut u8, capacity: usize);
    fn first_definition(text: *const u8, length: usize, out: *mut u8, capacity: usize);
    fn check_query(text: *const u8, length: usize, out: *mut u8, capacity: usize);
    fn check_schema(text: *const u8, length: usize, out: *mut u8, capacity: usize);
    fn query_to_json(text: *const u8, length: usize, out: *mut u8, capacity: usize);
    fn schema_to_json(text: *const u8, length: usize, out: *mut u8, capacity: usize);
}

/// The buffer of a call, which need not be initialised.
type Buffer = [MaybeUninit<u8>];

/// The address of a buffer.
fn address(out: &mut Buffer) -> *mut u8 {
    out.as_mut_ptr().cast()
}

/// A function of the library, called with pointers and lengths of these slices.
type Call<'a> = &'a dyn Fn(&[u8], &mut Buffer) -> CallResult;

/// The result of a call that succeeded, and its output. A buffer that is too short for the output or the message is
/// made longer, and the function called again.
fn called(source: &[u8], capacity: usize, call: Call<'_>) -> Result<(CallResult, Vec<u8>), Error> {
    let mut buffer: Vec<u8> = Vec::with_capacity(capacity);
    loop {
        let out = buffer.spare_capacity_mut();
        let capacity = out.len();
        let result = call(source, out);
        // One of the two lengths is 0.
        let length = result.output_length + result.message_length;
        if result.status == BUFFER_TOO_SHORT || length > capacity {
            buffer.reserve(length);
            continue;
        }
        // SAFETY: the call wrote the output or the message, which has this length, at the beginning of the buffer.
        unsafe { buffer.set_len(length) };
        if result.status == OK {
            return Ok((result, buffer));
        }
        return Err(error(source, &result, &buffer));
    }
}

/// The source, or what comes before its first byte that is not UTF-8.
fn text_of(source: &[u8]) -> &str {
    std::str::from_utf8(source).unwrap_or_else(|error| text_of(&source[..error.valid_up_to()]))
}

/// The error of a result, with its message.
fn error(source: &[u8], result: &CallResult, message: &[u8]) -> Error {
    let &CallResult { status, offset, line, column, .. } = result;
    let (cause, message) = (Cause::from(status), String::from_utf8_lossy(message).into_owned());
    if line == 0 {
        return Error { cause, position: None, span: None, message };
    }
    let (text, counted) = (text_of(source), Position { line, column });
    let start = if offset > 0 { offset } else { place::offset_of(text, counted) };
    let (front, rest) = text.split_at(start);
    let position = place::position_after(front);
    let end = start + place::error_len(rest, cause != Cause::BadToken);
    let message = message.replacen(&format!(" at {counted}\n"), &format!(" at {position}\n"), 1);
    Error { cause, position: Some(position), span: Some(start..end), message }
}

/// As in the header: enough for most formatted documents, and for every minified output.
fn format_capacity(length: usize) -> usize {
    2 * length + MESSAGE_CAPACITY
}

/// As in the header: enough for most documents as JSON.
fn json_capacity(length: usize) -> usize {
    16 * length + 4 * MESSAGE_CAPACITY
}

/// The output of a call. The first buffer has this capacity.
fn output(source: &[u8], capacity: usize, call: Call<'_>) -> Result<String, Error> {
    let (_, output) = called(source, capacity, call)?;
    // An output is UTF-8, so no byte is replaced.
    Ok(String::from_utf8(output).unwrap_or_else(|error| String::from_utf8_lossy(error.as_bytes()).into_owned()))
}

// SAFETY, of each call below: the declaration is that of `graphql_proved.h`. The pointers and the lengths are those of
// slices, which are not null, do not overlap, and live through the call.

/// The version of the library, as [`crate::library_version`].
pub fn version() -> Version {
    unsafe { c::version() }
}

/// Formats a document with its comments, as [`crate::format`].
pub fn format(source: &[u8], options: Options) -> Result<String, Error> {
    let Options { indent, width } = options;
    output(source, format_capacity(source.len()), &|text, out| unsafe {
        c::format_source(text.as_ptr(), text.len(), indent, width, address(out), out.len())
    })
}

/// Lists the errors of a source, as [`crate::check`].
pub fn check(source: &[u8]) -> Result<Vec<Diagnostic>, Error> {
    let found = output(source, CHECK_CAPACITY, &|text, out| unsafe {
        c::check(text.as_ptr(), text.len(), 0, address(out), out.len())
    })?;
    let errors = json::value_of(&found).expect("the library writes JSON").into_list();
    // The source is UTF-8, since the call succeeded.
    let source = String::from_utf8_lossy(source);
    Ok(errors.into_iter().map(|error| Diagnostic::new(&source, error)).collect())
}

/// Formats a query document without its comments, as [`crate::normalize_query`].
pub fn normalize_query(source: &[u8], style: Style) -> Result<String, Error> {
    let Style { indent, multiline } = style;
    output(source, format_capacity(source.len()), &|text, out| unsafe {
        c::normalize_query(text.as_ptr(), text.len(), indent, multiline, address(out), out.len())
    })
}

/// Formats a schema document without its comments, as [`crate::normalize_schema`].
pub fn normalize_schema(source: &[u8], style: Style) -> Result<String, Error> {
    let Style { indent, multiline } = style;
    output(source, format_capacity(source.len()), &|text, out| unsafe {
        c::normalize_schema(text.as_ptr(), text.len(), indent, multiline, address(out), out.len())
    })
}

/// Writes the tokens of a source, as [`crate::minify`].
pub fn minify(source: &[u8]) -> Result<String, Error> {
    output(source, format_capacity(source.len()), &|text, out| unsafe {
        c::minify(text.as_ptr(), text.len(), address(out), out.len())
    })
}

/// The offset of the rest, which begins after the first definition.
pub fn first_definition(source: &[u8]) -> Result<usize, Error> {
    let call: Call<'_> =
        &|text, out| unsafe { c::first_definition(text.as_ptr(), text.len(), address(out), out.len()) };
    called(source, MESSAGE_CAPACITY, call).map(|(result, _)| result.offset)
}

/// Checks that a source is a query document, as [`crate::check_query`].
pub fn check_query(source: &[u8]) -> Result<(), Error> {
    let call: Call<'_> = &|text, out| unsafe { c::check_query(text.as_ptr(), text.len(), address(out), out.len()) };
    called(source, MESSAGE_CAPACITY, call).map(drop)
}

/// Checks that a source is a schema document, as [`crate::check_schema`].
pub fn check_schema(source: &[u8]) -> Result<(), Error> {
    let call: Call<'_> = &|text, out| unsafe { c::check_schema(text.as_ptr(), text.len(), address(out), out.len()) };
    called(source, MESSAGE_CAPACITY, call).map(drop)
}

/// Writes a document as JSON, as [`crate::to_json`].
pub fn to_json(source: &[u8]) -> Result<String, Error> {
    let of_query = match query_to_json(source) {
        Err(error) if error.position.is_some() => error,
        result => return result,
    };
    let of_schema = match schema_to_json(source) {
        Err(error) if error.position.is_some() => error,
        result => return result,
    };
    // The error by the specification says what was expected. There is none if only this call rejects the source.
    format(source, Options::default())?;
    Err(if of_query.position > of_schema.position { of_query } else { of_schema })
}

/// Writes a query document as JSON, as [`crate::query_to_json`].
pub fn query_to_json(source: &[u8]) -> Result<String, Error> {
    output(source, json_capacity(source.len()), &|text, out| unsafe {
        c::query_to_json(text.as_ptr(), text.len(), address(out), out.len())
    })
}

/// Writes a schema document as JSON, as [`crate::schema_to_json`].
pub fn schema_to_json(source: &[u8]) -> Result<String, Error> {
    output(source, json_capacity(source.len()), &|text, out| unsafe {
        c::schema_to_json(text.as_ptr(), text.len(), address(out), out.len())
    })
}
