/*
 * graphql_proved: formats GraphQL documents with their comments, finds their errors, minifies them, and writes them as
 * JSON, by code that is proved correct.
 *
 * Each call reads the `length` bytes at `text`, and writes at most the `capacity` bytes at `out`. The bytes at `out`
 * need not be initialised: the library is linked as machine code, where each byte has some value, and the proofs hold
 * for every value. A call keeps no pointer, writes no other memory, and frees what it allocates. There is no state
 * between calls, so threads can call at once.
 *
 * The caller must meet these conditions, which nothing checks:
 *  - `text` points to `length` bytes that can be read, and `out` to `capacity` bytes that can be written. A pointer can
 *    be null, or any other, if its length is 0. The two ranges do not overlap. No length is above PTRDIFF_MAX.
 *  - During a call, nobody else writes these bytes, or reads those at `out`.
 *  - No call is made from a signal handler, or in the forked child of a process with threads.
 *
 * What a call takes:
 *  - Reserve 64 KB of stack. No tool of the library measures the stack.
 *  - Its time and memory grow about in proportion to the input and the output.
 *  - With an `indent` of 2, the output of a `normalize` call can be about 76 times as long as its input, and with
 *    `multiline` about 100 times, since brackets nest up to 50 deep. The output of `graphql_proved_format_source` can be
 *    about 1500 times as long as its input, since brackets nest up to 1,000 deep.
 *  - JSON can be about 130 times as long as its input.
 *  - `indent` has no limit: `{a}` takes 4 GB with an `indent` of UINT32_MAX. A program that lets others choose `indent`
 *    must limit it.
 */
#ifndef GRAPHQL_PROVED_H
#define GRAPHQL_PROVED_H

#include <stdbool.h>
#include <stddef.h>
#include <stdint.h>

/* The version of this header. `graphql_proved_version` returns that of the library. */
#define GRAPHQL_PROVED_VERSION_MAJOR 0
#define GRAPHQL_PROVED_VERSION_MINOR 1
#define GRAPHQL_PROVED_VERSION_PATCH 0
#define GRAPHQL_PROVED_VERSION "0.1.0"

#ifdef __cplusplus
extern "C" {
#endif

/* ---- results ---- */

/* The status of a call. Later versions can add numbers after these. No number changes. */
enum graphql_proved_status {
    /* The call succeeded. */
    GRAPHQL_PROVED_OK = 0,

    /* The input is invalid. `line` and `column` are the position of its first error: */
    GRAPHQL_PROVED_BAD_TOKEN = 1,            /* there is no valid token */
    GRAPHQL_PROVED_UNEXPECTED_TOKEN = 2,     /* no document continues with this token */
    GRAPHQL_PROVED_UNEXPECTED_END = 3,       /* no document ends there */
    GRAPHQL_PROVED_TOO_DEEP = 4,             /* a bracket opens, and 50 more open before it than close; for
                                              * `graphql_proved_format_source` 1,000 */
    GRAPHQL_PROVED_INT_OUT_OF_RANGE = 5,     /* an integer is outside the range of int64_t */
    GRAPHQL_PROVED_MALFORMED_FLOAT = 6,      /* the exponent of a float has no digit */
    GRAPHQL_PROVED_BAD_ESCAPE = 7,           /* an escape in a string denotes no character */
    GRAPHQL_PROVED_UNKNOWN_LOCATION = 8,     /* a directive location does not exist; like 9 to 11, only in schemas */
    GRAPHQL_PROVED_DUPLICATE_OPERATION = 9,  /* a schema names an operation twice */
    GRAPHQL_PROVED_UNKNOWN_OPERATION = 10,   /* a schema names an operation that does not exist */
    GRAPHQL_PROVED_EMPTY_EXTENSION = 11,     /* an extension adds nothing */

    /* The input has more than SIZE_MAX / 16 bytes. `line` and `column` are 1. */
    GRAPHQL_PROVED_TEXT_TOO_LONG = 12,

    /* An error without a position. `line` and `column` are 0. */
    GRAPHQL_PROVED_OUT_OF_MEMORY = 13,       /* an allocation failed; nothing is known about the input */
    GRAPHQL_PROVED_TOO_WIDE = 14,            /* the deepest level takes more than UINT32_MAX spaces of indentation */
    GRAPHQL_PROVED_NOT_UTF8 = 15,            /* the input is not UTF-8 */

    /* There is an output, but it is longer than the buffer. The buffer is unchanged. */
    GRAPHQL_PROVED_BUFFER_TOO_SHORT = 16
};

/* The result of a call. A field that is not named for a status is 0. */
typedef struct graphql_proved_result {
    /* An `enum graphql_proved_status`. Its type is uint32_t, since compilers differ in the size of an enum, and an enum
     * of C++ cannot have every number of a later version. */
    uint32_t status;

    /* With GRAPHQL_PROVED_OK, the length of the output, which is at the beginning of the buffer. With
     * GRAPHQL_PROVED_BUFFER_TOO_SHORT, the length of the output, and so the capacity that the call needs. */
    size_t output_length;

    /* With any other status, the length of the message, which is UTF-8. The message is at the beginning of the buffer
     * if it is not longer than the buffer. Otherwise the buffer is unchanged. The length is 0 if there was no memory
     * for the message. No zero byte is added to an output or a message, and the rest of the buffer is unchanged. */
    size_t message_length;

    /* With GRAPHQL_PROVED_OK, for `graphql_proved_first_definition`: where the rest of the input begins. For an error
     * of `graphql_proved_format_source`: the number of bytes before it. */
    size_t offset;

    /* The position of an error, each from 1. A column counts characters. A tab counts as 1 column in
     * `graphql_proved_format_source`, and between tokens as 8 in the other calls. */
    size_t line;
    size_t column;
} graphql_proved_result;

/* A text that ends with a zero byte. */
typedef struct graphql_proved_name {
    char text[32];
} graphql_proved_name;

/* The name of a status without its prefix, such as "TOO_DEEP". The empty text if no status has this number. */
graphql_proved_name graphql_proved_status_name(uint32_t status);

/* The three numbers of a version. */
typedef struct graphql_proved_numbers {
    uint32_t major;
    uint32_t minor;
    uint32_t patch;
} graphql_proved_numbers;

/* The version of the library that is linked. */
graphql_proved_numbers graphql_proved_version(void);

/* ---- capacities ---- */

/* Enough for most messages. */
#define GRAPHQL_PROVED_MESSAGE_CAPACITY 256

/* Enough for most formatted documents with an `indent` of 2, and for most messages. */
static inline size_t graphql_proved_format_capacity(size_t length) {
    return 2 * length + GRAPHQL_PROVED_MESSAGE_CAPACITY;
}

/* Enough for every minified output, and for most messages: twice the length of the input is always enough. */
static inline size_t graphql_proved_minify_capacity(size_t length) {
    return 2 * length + GRAPHQL_PROVED_MESSAGE_CAPACITY;
}

/* Enough for most documents as JSON, and for most messages. */
static inline size_t graphql_proved_json_capacity(size_t length) {
    return 16 * length + 4 * GRAPHQL_PROVED_MESSAGE_CAPACITY;
}

/* Enough for the JSON of this many errors, with messages of this capacity. */
static inline size_t graphql_proved_check_capacity(size_t max_errors) {
    return (max_errors + 1) * 2 * GRAPHQL_PROVED_MESSAGE_CAPACITY;
}

/* ---- calls ---- */

/* What the library exports. Here no pointer is null, also if its length is 0. C and C++ call the functions below. */
graphql_proved_result graphql_proved_format_source_nonnull(const uint8_t *text, size_t length, uint32_t indent,
    uint32_t width, uint8_t *out, size_t capacity);
graphql_proved_result graphql_proved_check_nonnull(const uint8_t *text, size_t length, size_t max_errors, uint8_t *out,
    size_t capacity);
graphql_proved_result graphql_proved_normalize_query_nonnull(const uint8_t *text, size_t length, uint32_t indent,
    bool multiline, uint8_t *out, size_t capacity);
graphql_proved_result graphql_proved_normalize_schema_nonnull(const uint8_t *text, size_t length, uint32_t indent,
    bool multiline, uint8_t *out, size_t capacity);
graphql_proved_result graphql_proved_minify_nonnull(const uint8_t *text, size_t length, uint8_t *out, size_t capacity);
graphql_proved_result graphql_proved_first_definition_nonnull(const uint8_t *text, size_t length, uint8_t *out,
    size_t capacity);
graphql_proved_result graphql_proved_check_query_nonnull(const uint8_t *text, size_t length, uint8_t *out,
    size_t capacity);
graphql_proved_result graphql_proved_check_schema_nonnull(const uint8_t *text, size_t length, uint8_t *out,
    size_t capacity);
graphql_proved_result graphql_proved_query_to_json_nonnull(const uint8_t *text, size_t length, uint8_t *out,
    size_t capacity);
graphql_proved_result graphql_proved_schema_to_json_nonnull(const uint8_t *text, size_t length, uint8_t *out,
    size_t capacity);

/* Formats a document with its comments: each document of the GraphQL specification of September 2025 with at most 1,000
 * open brackets, each that `graphql_proved_check_query` or `graphql_proved_check_schema` accepts, and each input that
 * has no token. `indent` is the number of spaces for each level. `width` is the greatest width of a line that the layout
 * aims at, in columns of a terminal. The output is that of `gqlfmt`. With a capacity of 0 it returns the length of the
 * output.
 *
 * An error has the `line`, the `column` and the `offset` of the first error by this specification. A column counts
 * characters, and a tab is one. The statuses of errors are GRAPHQL_PROVED_BAD_TOKEN, GRAPHQL_PROVED_UNEXPECTED_TOKEN,
 * GRAPHQL_PROVED_UNEXPECTED_END, GRAPHQL_PROVED_TOO_DEEP, GRAPHQL_PROVED_TEXT_TOO_LONG, GRAPHQL_PROVED_OUT_OF_MEMORY
 * and GRAPHQL_PROVED_NOT_UTF8. */
static inline graphql_proved_result graphql_proved_format_source(const uint8_t *text, size_t length, uint32_t indent,
    uint32_t width, uint8_t *out, size_t capacity) {
    uint8_t none = 0;
    return graphql_proved_format_source_nonnull(length > 0 ? text : &none, length, indent, width,
        capacity > 0 ? out : &none, capacity);
}

/* Writes the errors of a source as one JSON array, at most `max_errors`, or all of them for 0. The status is
 * GRAPHQL_PROVED_OK also if there are errors. The array is `[]` exactly for an input that
 * `graphql_proved_format_source` formats. The other statuses are GRAPHQL_PROVED_BUFFER_TOO_SHORT,
 * GRAPHQL_PROVED_OUT_OF_MEMORY and GRAPHQL_PROVED_NOT_UTF8.
 *
 * After an error the check begins again at the next definition that begins a line. Each error is an object with
 *  - `line` and `column`: its place, each from 1, where a column counts characters and a tab is one;
 *  - `offset` and `length`: the number of bytes before the error, and that of the error;
 *  - `inner_column` and `inner_offset`: the place in a string or a number at which it is wrong, or null;
 *  - `message`: what is wrong;
 *  - `found`: what the input has there in words, or null;
 *  - `expected`: a list of what can come there, in words.
 * `gqlfmt --message-format json` writes the same members, and `path`. */
static inline graphql_proved_result graphql_proved_check(const uint8_t *text, size_t length, size_t max_errors,
    uint8_t *out, size_t capacity) {
    uint8_t none = 0;
    return graphql_proved_check_nonnull(length > 0 ? text : &none, length, max_errors, capacity > 0 ? out : &none,
        capacity);
}

/* Formats a query document for machines: without its comments, with `indent` spaces for each level. `multiline`, which
 * is 0 or 1, writes each argument, list item and object field on its own line. With a capacity of 0 it returns the
 * length of the output. */
static inline graphql_proved_result graphql_proved_normalize_query(const uint8_t *text, size_t length, uint32_t indent,
    bool multiline, uint8_t *out, size_t capacity) {
    uint8_t none = 0;
    return graphql_proved_normalize_query_nonnull(length > 0 ? text : &none, length, indent, multiline,
        capacity > 0 ? out : &none, capacity);
}

/* Formats a schema document for machines, in the same way. */
static inline graphql_proved_result graphql_proved_normalize_schema(const uint8_t *text, size_t length, uint32_t indent,
    bool multiline, uint8_t *out, size_t capacity) {
    uint8_t none = 0;
    return graphql_proved_normalize_schema_nonnull(length > 0 ? text : &none, length, indent, multiline,
        capacity > 0 ? out : &none, capacity);
}

/* Writes the tokens of an input, with a space only between two that are not punctuators, and between a number and
 * `...`. Its errors are GRAPHQL_PROVED_BAD_TOKEN, GRAPHQL_PROVED_TOO_DEEP, GRAPHQL_PROVED_TEXT_TOO_LONG,
 * GRAPHQL_PROVED_NOT_UTF8 and GRAPHQL_PROVED_OUT_OF_MEMORY. */
static inline graphql_proved_result graphql_proved_minify(const uint8_t *text, size_t length, uint8_t *out,
    size_t capacity) {
    uint8_t none = 0;
    return graphql_proved_minify_nonnull(length > 0 ? text : &none, length, capacity > 0 ? out : &none, capacity);
}

/* Finds where the first definition of a query document ends, with the spaces, commas and comments behind it. The rest
 * of the input begins at `offset`, which does not depend on what follows the first character of the rest. That can be
 * any bytes. GRAPHQL_PROVED_NOT_UTF8 is returned only if no definition, with a character behind it, comes before the
 * first byte that is not UTF-8. The time grows with the offset, or with the length if there is an error. Only a message
 * is written. */
static inline graphql_proved_result graphql_proved_first_definition(const uint8_t *text, size_t length, uint8_t *out,
    size_t capacity) {
    uint8_t none = 0;
    return graphql_proved_first_definition_nonnull(length > 0 ? text : &none, length, capacity > 0 ? out : &none,
        capacity);
}

/* Checks that the input is a query document. Only a message is written. */
static inline graphql_proved_result graphql_proved_check_query(const uint8_t *text, size_t length, uint8_t *out,
    size_t capacity) {
    uint8_t none = 0;
    return graphql_proved_check_query_nonnull(length > 0 ? text : &none, length, capacity > 0 ? out : &none, capacity);
}

/* Checks that the input is a schema document. Only a message is written. */
static inline graphql_proved_result graphql_proved_check_schema(const uint8_t *text, size_t length, uint8_t *out,
    size_t capacity) {
    uint8_t none = 0;
    return graphql_proved_check_schema_nonnull(length > 0 ? text : &none, length, capacity > 0 ? out : &none, capacity);
}

/* Writes a query document as JSON, in the form of the AST of graphql-js. */
static inline graphql_proved_result graphql_proved_query_to_json(const uint8_t *text, size_t length, uint8_t *out,
    size_t capacity) {
    uint8_t none = 0;
    return graphql_proved_query_to_json_nonnull(length > 0 ? text : &none, length, capacity > 0 ? out : &none,
        capacity);
}

/* Writes a schema document as JSON, in the same way. */
static inline graphql_proved_result graphql_proved_schema_to_json(const uint8_t *text, size_t length, uint8_t *out,
    size_t capacity) {
    uint8_t none = 0;
    return graphql_proved_schema_to_json_nonnull(length > 0 ? text : &none, length, capacity > 0 ? out : &none,
        capacity);
}

#ifdef __cplusplus
}
#endif

#endif
