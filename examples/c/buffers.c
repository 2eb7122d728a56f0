/* Tries each call with buffers of every length, from none to more than it needs, filled with one value or another. The
 * call writes all of its output or its message, or nothing, and returns the same each time. It is also tried with null
 * pointers, and with a buffer that nothing initialised: valgrind sees if a result depends on a byte that the call has
 * not written. Around each other buffer are bytes that must not change. Each input ends where its block of memory ends,
 * so that valgrind sees a byte that is read too far. Prints nothing, and ends with status 0, if all is well. */
#include "graphql_proved.h"
#include <stdio.h>
#include <stdlib.h>
#include <string.h>

#define AROUND 16

typedef graphql_proved_result (*caller)(const uint8_t *text, size_t length, uint8_t *out, size_t capacity);

static graphql_proved_result source(const uint8_t *text, size_t length, uint8_t *out, size_t capacity) {
    return graphql_proved_format_source(text, length, 3, 10, out, capacity);
}

static graphql_proved_result check(const uint8_t *text, size_t length, uint8_t *out, size_t capacity) {
    return graphql_proved_check(text, length, 0, out, capacity);
}

static graphql_proved_result first_error(const uint8_t *text, size_t length, uint8_t *out, size_t capacity) {
    return graphql_proved_check(text, length, 1, out, capacity);
}

static graphql_proved_result query_in_lines(const uint8_t *text, size_t length, uint8_t *out, size_t capacity) {
    return graphql_proved_normalize_query(text, length, 3, true, out, capacity);
}

static graphql_proved_result schema(const uint8_t *text, size_t length, uint8_t *out, size_t capacity) {
    return graphql_proved_normalize_schema(text, length, 2, false, out, capacity);
}

static graphql_proved_result query_too_wide(const uint8_t *text, size_t length, uint8_t *out, size_t capacity) {
    return graphql_proved_normalize_query(text, length, UINT32_MAX, false, out, capacity);
}

/* What is wanted of a call: its status, its position and its offset. A buffer that is long enough begins with this
 * text: the whole output, or the beginning of the message. */
struct wanted {
    caller call;
    const char *text;
    uint32_t status;
    size_t line, column, offset;
    const char *begun;
};

#define QUERY_AT_START "query parse error: Parse error at 1:1\n"
#define SCHEMA_AT_START "schema parse error: Parse error at 1:1\n"

#define QUERY_IN_JSON \
    "{\"kind\":\"Document\",\"definitions\":[{\"kind\":\"OperationDefinition\"," \
    "\"position\":{\"line\":1,\"column\":1},\"operation\":\"query\",\"variableDefinitions\":[]," \
    "\"directives\":[],\"selectionSet\":{\"kind\":\"SelectionSet\",\"position\":{\"line\":1,\"column\":1}," \
    "\"endPosition\":{\"line\":1,\"column\":3},\"selections\":[{\"kind\":\"Field\"," \
    "\"position\":{\"line\":1,\"column\":2},\"name\":{\"kind\":\"Name\",\"value\":\"a\"},\"arguments\":[]," \
    "\"directives\":[]}]}}]}"
#define SCHEMA_IN_JSON \
    "{\"kind\":\"Document\",\"definitions\":[{\"kind\":\"ScalarTypeDefinition\"," \
    "\"position\":{\"line\":1,\"column\":1},\"name\":{\"kind\":\"Name\",\"value\":\"A\"},\"directives\":[]}]}"

#define ERROR_IN_JSON \
    "{\"line\":2,\"column\":4,\"offset\":12,\"length\":1,\"inner_column\":null,\"inner_offset\":null," \
    "\"message\":\"expected `(` or `:`, found the name `C`\",\"found\":\"the name `C`\"," \
    "\"expected\":[\"`(`\",\"`:`\"]}"
#define LATER_IN_JSON \
    "{\"line\":4,\"column\":11,\"offset\":26,\"length\":1,\"inner_column\":null,\"inner_offset\":null," \
    "\"message\":\"expected a name or `|`, found the number `1`\",\"found\":\"the number `1`\"," \
    "\"expected\":[\"a name\",\"`|`\"]}"

static const struct wanted all[] = {
    {source, "{a(b:1,c:2) # d\n}", GRAPHQL_PROVED_OK, 0, 0, 0, "{\n   a(\n      b: 1\n      c: 2\n   ) # d\n}\n"},
    {source, "{a} type A{b:C}", GRAPHQL_PROVED_OK, 0, 0, 0, "{\n   a\n}\n\ntype A {\n   b: C\n}\n"},
    {source, "# a", GRAPHQL_PROVED_OK, 0, 0, 0, "# a\n"},
    {source, "", GRAPHQL_PROVED_OK, 0, 0, 0, ""},
    {source, "type A {\n\tb C\n}", GRAPHQL_PROVED_UNEXPECTED_TOKEN, 2, 4, 12, "expected `(` or `:`, found the name"},
    {source, "{ a \"\xc3\xa9\\d\" }", GRAPHQL_PROVED_BAD_TOKEN, 1, 5, 4, "unexpected "},
    {source, "{\r\n\xc3\xa9 }", GRAPHQL_PROVED_BAD_TOKEN, 2, 1, 3, "expected "},
    {source, "{ a", GRAPHQL_PROVED_UNEXPECTED_END, 1, 4, 3, "unexpected end of the input"},
    {source, "\xff", GRAPHQL_PROVED_NOT_UTF8, 0, 0, 0, "text is not UTF-8"},
    {check, "{ a } # b", GRAPHQL_PROVED_OK, 0, 0, 0, "[]"},
    {check, "", GRAPHQL_PROVED_OK, 0, 0, 0, "[]"},
    {check, "type A {\n\tb C\n}", GRAPHQL_PROVED_OK, 0, 0, 0, "[" ERROR_IN_JSON "]"},
    {first_error, "type A {\n\tb C\n}\nunion U = 1", GRAPHQL_PROVED_OK, 0, 0, 0, "[" ERROR_IN_JSON "]"},
    {check, "type A {\n\tb C\n}\nunion U = 1", GRAPHQL_PROVED_OK, 0, 0, 0, "[" ERROR_IN_JSON "," LATER_IN_JSON "]"},
    {check, "\xff", GRAPHQL_PROVED_NOT_UTF8, 0, 0, 0, "text is not UTF-8"},
    {query_in_lines, "{a(b:1){c}}", GRAPHQL_PROVED_OK, 0, 0, 0, "{\n   a(\n      b: 1\n   ) {\n      c\n   }\n}\n"},
    {schema, "scalar A,scalar B", GRAPHQL_PROVED_OK, 0, 0, 0, "scalar A\n\nscalar B\n"},
    {graphql_proved_minify, "query { a , b }", GRAPHQL_PROVED_OK, 0, 0, 0, "query{a b}"},
    {graphql_proved_minify, "", GRAPHQL_PROVED_OK, 0, 0, 0, ""},
    {graphql_proved_first_definition, "{ a } # b\n?", GRAPHQL_PROVED_OK, 0, 0, 10, ""},
    {graphql_proved_check_query, "{ a }", GRAPHQL_PROVED_OK, 0, 0, 0, ""},
    {graphql_proved_check_schema, "scalar A", GRAPHQL_PROVED_OK, 0, 0, 0, ""},
    {graphql_proved_query_to_json, "{a}", GRAPHQL_PROVED_OK, 0, 0, 0, QUERY_IN_JSON},
    {graphql_proved_schema_to_json, "scalar A", GRAPHQL_PROVED_OK, 0, 0, 0, SCHEMA_IN_JSON},
    {query_in_lines, "{\na(b: 1e+)}", GRAPHQL_PROVED_MALFORMED_FLOAT, 2, 6, 0, "query parse error: Parse error at 2:6"},
    {query_in_lines, "", GRAPHQL_PROVED_UNEXPECTED_END, 1, 1, 0, QUERY_AT_START},
    {query_too_wide, "{ a { b } }", GRAPHQL_PROVED_TOO_WIDE, 0, 0, 0, "format error: indentation too wide"},
    {schema, "extend type A", GRAPHQL_PROVED_EMPTY_EXTENSION, 1, 8, 0, "schema parse error: Parse error at 1:8\n"},
    {schema, "", GRAPHQL_PROVED_UNEXPECTED_END, 1, 1, 0, SCHEMA_AT_START},
    {graphql_proved_minify, "{ a ; }", GRAPHQL_PROVED_BAD_TOKEN, 1, 5, 0, "query minify error: "},
    {graphql_proved_first_definition, "{ a } b\xff", GRAPHQL_PROVED_OK, 0, 0, 6, ""},
    {graphql_proved_first_definition, "{ a } \xff", GRAPHQL_PROVED_NOT_UTF8, 0, 0, 0, "text is not UTF-8"},
    {graphql_proved_first_definition, "where", GRAPHQL_PROVED_UNEXPECTED_TOKEN, 1, 1, 0, QUERY_AT_START},
    {graphql_proved_first_definition, "", GRAPHQL_PROVED_UNEXPECTED_END, 1, 1, 0, QUERY_AT_START},
    {graphql_proved_check_query, "", GRAPHQL_PROVED_UNEXPECTED_END, 1, 1, 0, QUERY_AT_START},
    {graphql_proved_check_schema, "", GRAPHQL_PROVED_UNEXPECTED_END, 1, 1, 0, SCHEMA_AT_START},
    {graphql_proved_check_schema, "schema { what: A }", GRAPHQL_PROVED_UNKNOWN_OPERATION, 1, 1, 0, SCHEMA_AT_START},
    {graphql_proved_check_schema, "\xff", GRAPHQL_PROVED_NOT_UTF8, 0, 0, 0, "text is not UTF-8"},
    {graphql_proved_query_to_json, "", GRAPHQL_PROVED_UNEXPECTED_END, 1, 1, 0, QUERY_AT_START},
    {graphql_proved_schema_to_json, "", GRAPHQL_PROVED_UNEXPECTED_END, 1, 1, 0, SCHEMA_AT_START},
};

static uint8_t *block_of(size_t length) {
    uint8_t *block = malloc(length > 0 ? length : 1);
    if (block == NULL)
        abort();
    return block;
}

/* Calls with the input in a block of its own length, or with a null pointer if the input is empty. */
static graphql_proved_result called(const struct wanted *it, uint8_t *out, size_t capacity) {
    size_t length = strlen(it->text);
    if (length == 0)
        return it->call(NULL, 0, out, capacity);
    uint8_t *text = block_of(length);
    memcpy(text, it->text, length);
    graphql_proved_result result = it->call(text, length, out, capacity);
    if (memcmp(text, it->text, length) != 0)
        abort();
    free(text);
    return result;
}

/* How many bytes a call writes: those of the output or the message, if they fit. */
static size_t written(graphql_proved_result result, size_t capacity) {
    size_t length = result.output_length + result.message_length;
    return length <= capacity ? length : 0;
}

static bool is_filled(const uint8_t *bytes, size_t length, uint8_t filled) {
    size_t at = 0;
    while (at < length && bytes[at] == filled)
        at++;
    return at == length;
}

/* The output and the message of a call, of which one is empty. */
struct texts {
    uint8_t *bytes;
    size_t output, message;
};

/* Whether a result is the wanted one. */
static bool is_wanted(const struct wanted *it, graphql_proved_result result, size_t capacity, struct texts right) {
    uint32_t status = right.output > capacity ? (uint32_t)GRAPHQL_PROVED_BUFFER_TOO_SHORT : it->status;
    return result.status == status && result.output_length == right.output && result.message_length == right.message
        && result.offset == it->offset && result.line == it->line && result.column == it->column;
}

/* Whether a call with a buffer of some capacity writes these bytes or nothing. All bytes have one value before. */
static bool fills(const struct wanted *it, size_t capacity, uint8_t filled, struct texts right) {
    uint8_t *block = block_of(capacity + 2 * AROUND), *out = block + AROUND;
    memset(block, filled, capacity + 2 * AROUND);
    graphql_proved_result result = called(it, out, capacity);
    size_t length = written(result, capacity);
    bool is_right = is_wanted(it, result, capacity, right) && memcmp(out, right.bytes, length) == 0
        && is_filled(block, AROUND, filled) && is_filled(out + length, capacity - length + AROUND, filled);
    free(block);
    return is_right;
}

/* Whether a call into a buffer that nothing initialised writes what is wanted. */
static bool begins(const struct wanted *it, struct texts right) {
    size_t needed = right.output + right.message, begun = strlen(it->begun);
    size_t length = it->status == GRAPHQL_PROVED_OK ? right.output : right.message;
    return is_wanted(it, called(it, right.bytes, needed), needed, right) && length == needed
        && (it->status == GRAPHQL_PROVED_OK ? begun == length : begun <= length)
        && memcmp(right.bytes, it->begun, begun) == 0;
}

/* Whether a call returns the same with each buffer, and writes what fits. */
static bool is_right(const struct wanted *it) {
    graphql_proved_result asked = called(it, NULL, 0);
    size_t needed = asked.output_length + asked.message_length;
    struct texts right = {block_of(needed), asked.output_length, asked.message_length};
    bool is_right = is_wanted(it, asked, 0, right) && begins(it, right);
    for (size_t capacity = 0; is_right && capacity <= needed + 2; capacity++)
        is_right = fills(it, capacity, 0xa5, right) && fills(it, capacity, 0x5a, right);
    free(right.bytes);
    return is_right;
}

int main(void) {
    for (size_t at = 0; at < sizeof all / sizeof *all; at++) {
        if (!is_right(&all[at])) {
            fprintf(stderr, "another result than is wanted for: %s\n", all[at].text);
            return 1;
        }
    }
    return 0;
}
