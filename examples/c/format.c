/* A filter: reads a document from standard input, and writes it formatted with its comments to standard output. The
 * status is 1 if the library returns an error. Its place and its message are then written on standard error. The status
 * is 2 if a read, a write or an allocation of this program fails. */
#include "graphql_proved.h"
#include <errno.h>
#include <stdio.h>
#include <stdlib.h>
#include <string.h>

/* All that is left of a stream, and its length. NULL if a read or an allocation fails. */
static uint8_t *read_all(FILE *in, size_t *length) {
    size_t capacity = 65536;
    uint8_t *bytes = malloc(capacity);
    for (*length = 0; bytes != NULL; capacity *= 2) {
        *length += fread(bytes + *length, 1, capacity - *length, in);
        if (*length < capacity)
            break;
        uint8_t *longer = realloc(bytes, 2 * capacity);
        if (longer == NULL)
            free(bytes);
        bytes = longer;
    }
    if (bytes != NULL && ferror(in)) {
        free(bytes);
        return NULL;
    }
    return bytes;
}

static bool write_all(FILE *to, const uint8_t *bytes, size_t length) {
    return fwrite(bytes, 1, length, to) == length && fflush(to) == 0;
}

/* Formats a document into a buffer that is long enough for the output or the message. NULL if an allocation fails.
 * Most documents take one call. */
static uint8_t *formatted(const uint8_t *text, size_t length, graphql_proved_result *result) {
    size_t capacity = graphql_proved_format_capacity(length);
    for (;;) {
        uint8_t *out = malloc(capacity);
        if (out == NULL)
            return NULL;
        *result = graphql_proved_format_source(text, length, 2, 80, out, capacity);
        /* At most one of the two lengths is not 0. */
        size_t needed = result->output_length + result->message_length;
        if (needed <= capacity)
            return out;
        free(out);
        capacity = needed;
    }
}

/* Writes the place of an error and its message on standard error, in a line. */
static bool write_error(graphql_proved_result result, const uint8_t *message) {
    fprintf(stderr, "%zu:%zu: ", result.line, result.column);
    return write_all(stderr, message, result.message_length) && fputc('\n', stderr) != EOF;
}

/* Writes the formatted document, or the error. Returns the status of the program. */
static int write_formatted(const uint8_t *text, size_t length) {
    graphql_proved_result result;
    uint8_t *out = formatted(text, length, &result);
    if (out == NULL)
        return 2;
    bool is_ok = result.status == GRAPHQL_PROVED_OK;
    bool is_written = is_ok ? write_all(stdout, out, result.output_length) : write_error(result, out);
    free(out);
    return !is_written ? 2 : is_ok ? 0 : 1;
}

int main(void) {
    size_t length;
    uint8_t *text = read_all(stdin, &length);
    int status = text == NULL ? 2 : write_formatted(text, length);
    if (status == 2)
        fprintf(stderr, "format: %s\n", strerror(errno));
    free(text);
    return status;
}
