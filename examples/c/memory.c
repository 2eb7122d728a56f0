/* Makes the allocations of each call fail: each one alone, and then all from each one on. A call returns
 * GRAPHQL_PROVED_OUT_OF_MEMORY, or the error of its input, with a message of length 0 if there is no memory for it.
 * Prints nothing, and ends with status 0, if all is well. It is linked with `-Wl,--wrap=malloc,--wrap=realloc`, which
 * puts the two functions below before those of the C library. */
#include "graphql_proved.h"
#include <limits.h>
#include <stdio.h>
#include <string.h>

#define FILLED 0xa5
#define CAPACITY 400

/* The allocations with the numbers from `first` to `last` fail. */
static unsigned first, last, asked;

void *__real_malloc(size_t size);
void *__real_realloc(void *old, size_t size);
void *__wrap_malloc(size_t size);
void *__wrap_realloc(void *old, size_t size);

static bool fails(void) {
    asked++;
    return first <= asked && asked <= last;
}

void *__wrap_malloc(size_t size) {
    return fails() ? NULL : __real_malloc(size);
}

void *__wrap_realloc(void *old, size_t size) {
    return fails() ? NULL : __real_realloc(old, size);
}

static graphql_proved_result source(const uint8_t *text, size_t length, uint8_t *out, size_t capacity) {
    return graphql_proved_format_source(text, length, 2, 80, out, capacity);
}

static graphql_proved_result check(const uint8_t *text, size_t length, uint8_t *out, size_t capacity) {
    return graphql_proved_check(text, length, 0, out, capacity);
}

static graphql_proved_result query(const uint8_t *text, size_t length, uint8_t *out, size_t capacity) {
    return graphql_proved_normalize_query(text, length, 2, false, out, capacity);
}

static graphql_proved_result schema(const uint8_t *text, size_t length, uint8_t *out, size_t capacity) {
    return graphql_proved_normalize_schema(text, length, 2, false, out, capacity);
}

/* A call, its status and its place while there is memory, and what it may write where one allocation fails. */
struct called {
    graphql_proved_result (*call)(const uint8_t *text, size_t length, uint8_t *out, size_t capacity);
    const char *text;
    uint32_t status;
    size_t line, column, offset;
    const char *messages[2];
};

#define OF_QUERY "query parse error: out of memory"
#define OF_SCHEMA "schema parse error: out of memory"
#define OF_FORMAT "format error: out of memory"
#define OF_OTHERS "out of memory"
#define OF_MINIFY "query minify error: out of memory"

static const struct called all[] = {
    {source, "{a(b: [1e9]) # c\n}", GRAPHQL_PROVED_OK, 0, 0, 0, {OF_OTHERS, OF_OTHERS}},
    {source, "{a(b: [1e9], c: \"\\uD800\")}", GRAPHQL_PROVED_BAD_TOKEN, 1, 17, 16, {OF_OTHERS, OF_OTHERS}},
    {source, "# a", GRAPHQL_PROVED_OK, 0, 0, 0, {OF_OTHERS, OF_OTHERS}},
    {check, "{ a }", GRAPHQL_PROVED_OK, 0, 0, 0, {OF_OTHERS, OF_OTHERS}},
    {check, "{ a\ntype A { a: 1 }\n", GRAPHQL_PROVED_OK, 0, 0, 0, {OF_OTHERS, OF_OTHERS}},
    {check, "\xff", GRAPHQL_PROVED_NOT_UTF8, 0, 0, 0, {"", ""}},
    {query, "{a(b: [1])}", GRAPHQL_PROVED_OK, 0, 0, 0, {OF_QUERY, OF_FORMAT}},
    {query, "{a(b: 1e+)}", GRAPHQL_PROVED_MALFORMED_FLOAT, 1, 7, 0, {OF_QUERY, OF_QUERY}},
    {query, "\xff", GRAPHQL_PROVED_NOT_UTF8, 0, 0, 0, {"", ""}},
    {schema, "scalar A", GRAPHQL_PROVED_OK, 0, 0, 0, {OF_SCHEMA, OF_FORMAT}},
    {graphql_proved_minify, "{ a }", GRAPHQL_PROVED_OK, 0, 0, 0, {"out of memory", OF_MINIFY}},
    {graphql_proved_minify, "{ ; }", GRAPHQL_PROVED_BAD_TOKEN, 1, 3, 0, {"out of memory", OF_MINIFY}},
    {graphql_proved_first_definition, "{ a } ?", GRAPHQL_PROVED_OK, 0, 0, 0, {OF_QUERY, OF_QUERY}},
    {graphql_proved_first_definition, "{ a } ?\xff", GRAPHQL_PROVED_OK, 0, 0, 0, {"out of memory", "out of memory"}},
    {graphql_proved_check_query, "{ a }", GRAPHQL_PROVED_OK, 0, 0, 0, {OF_QUERY, OF_QUERY}},
    {graphql_proved_query_to_json, "{a}", GRAPHQL_PROVED_OK, 0, 0, 0, {OF_QUERY, OF_OTHERS}},
    {graphql_proved_schema_to_json, "scalar A", GRAPHQL_PROVED_OK, 0, 0, 0, {OF_SCHEMA, OF_OTHERS}},
    {graphql_proved_check_schema, "extend type A", GRAPHQL_PROVED_EMPTY_EXTENSION, 1, 8, 0, {OF_SCHEMA, OF_SCHEMA}},
};

static uint8_t out[CAPACITY];

/* Calls once, while the allocations with these numbers fail. */
static graphql_proved_result result_of(const struct called *it, unsigned from, unsigned to) {
    memset(out, FILLED, CAPACITY);
    first = from;
    last = to;
    asked = 0;
    return it->call((const uint8_t *)it->text, strlen(it->text), out, CAPACITY);
}

static bool has_place(graphql_proved_result result, size_t line, size_t column, size_t offset) {
    return result.line == line && result.column == column && result.offset == offset;
}

/* Whether a message of this length is this one, and the rest of the buffer is as it was. */
static bool holds(const char *message, size_t length) {
    size_t at = length;
    while (at < CAPACITY && out[at] == FILLED)
        at++;
    return length == strlen(message) && memcmp(out, message, length) == 0 && at == CAPACITY;
}

/* Whether a result is right if such allocations fail. If one fails alone, there is memory for the message. */
static bool is_right(const struct called *it, graphql_proved_result result, bool alone) {
    bool is_empty = holds("", result.message_length);
    if (result.output_length != 0)
        return false;
    if (result.status != GRAPHQL_PROVED_OUT_OF_MEMORY)
        return it->status != GRAPHQL_PROVED_OK && result.status == it->status && is_empty
            && has_place(result, it->line, it->column, it->offset);
    bool has_message = holds(it->messages[0], result.message_length) || holds(it->messages[1], result.message_length);
    return has_place(result, 0, 0, 0) && (alone ? has_message : is_empty);
}

/* Whether a call allocates, and its result is right whichever of its allocations fail. */
static bool survives(const struct called *it) {
    bool right = result_of(it, UINT_MAX, UINT_MAX).status == it->status && asked > 0;
    for (unsigned from = 1, count = asked; right && from <= count; from++)
        right = is_right(it, result_of(it, from, from), true) && is_right(it, result_of(it, from, UINT_MAX), false);
    return right;
}

int main(void) {
    for (size_t at = 0; at < sizeof all / sizeof *all; at++) {
        if (!survives(&all[at])) {
            fprintf(stderr, "another result than is wanted if allocation %u fails, of: %s\n", first, all[at].text);
            return 1;
        }
    }
    return 0;
}
