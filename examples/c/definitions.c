/* Takes the first definition off inputs. The call reads the definition and what ends it, whatever is behind. So taking
 * the definitions of an input off one by one takes time in proportion to the input. Prints nothing, and ends with
 * status 0, if all is well. */
#include "graphql_proved.h"
#include <stdio.h>
#include <stdlib.h>
#include <string.h>
#include <time.h>

#define DEFINITIONS 200000
#define LONGEST 40000

static graphql_proved_result first(const uint8_t *text, size_t length) {
    return graphql_proved_first_definition(text, length, NULL, 0);
}

/* Whether definitions of all lengths end where they do, before each of these rests, and with each of these ignored
 * texts between. */
static bool ends_are_right(void) {
    static const char *const gaps[] = {"", " \n,", "# c\r\n", "\xef\xbb\xbf", "\t#\xc3\xa9\n\xef\xbb\xbf"};
    static const char *const rests[] = {"", "{b}", "\"b", ".", "\xc3\xa9", "b \xff", "}\xc3"};
    static uint8_t text[LONGEST + 100];
    for (size_t length = 3; length <= LONGEST; length += length < 4000 || length > 4200 ? 97 : 1)
        for (size_t gap = 0; gap < sizeof gaps / sizeof *gaps; gap++)
            for (size_t rest = 0; rest < sizeof rests / sizeof *rests; rest++) {
                memset(text, 'a', length);
                text[0] = '{', text[length - 1] = '}';
                size_t end = length + strlen(gaps[gap]);
                memcpy(text + length, gaps[gap], strlen(gaps[gap]));
                memcpy(text + end, rests[rest], strlen(rests[rest]));
                graphql_proved_result result = first(text, end + strlen(rests[rest]));
                if (result.status != GRAPHQL_PROVED_OK || result.offset != end)
                    return false;
            }
    return true;
}

/* How many definitions a text has, taken off one by one. */
static size_t definitions(const uint8_t *text, size_t length) {
    size_t count = 0;
    for (size_t at = 0; at < length; count++) {
        graphql_proved_result result = first(text + at, length - at);
        if (result.status != GRAPHQL_PROVED_OK)
            break;
        at += result.offset;
    }
    return count;
}

/* Whether taking the definitions of an input off finds all of them, and takes less time than this number of checks of
 * the input. It takes as long as two. It would take as long as 80 if each call read all that is left of the input. */
static bool is_linear(const uint8_t *text, size_t length, clock_t checks) {
    clock_t begun = clock();
    bool checked = graphql_proved_check_query(text, length, NULL, 0).status == GRAPHQL_PROVED_OK;
    clock_t between = clock();
    size_t count = definitions(text, length);
    return checked && count == DEFINITIONS && clock() - between < checks * (between - begun);
}

int main(void) {
    const char *failed = ends_are_right() ? NULL : "an end is another than is wanted";
    size_t length = 3 * DEFINITIONS;
    uint8_t *text = malloc(length);
    if (text == NULL)
        return 2;
    for (size_t at = 0; at < length; at += 3)
        memcpy(text + at, "{a}", 3);
    if (!is_linear(text, length, 12))
        failed = "taking definitions off one by one takes too long, or does not find all of them";
    text[length - 1] = 0xff;
    if (first(text, length).status != GRAPHQL_PROVED_OK
        || graphql_proved_check_query(text, length, NULL, 0).status != GRAPHQL_PROVED_NOT_UTF8)
        failed = "the end of an input is read for its first definition";
    free(text);
    if (failed != NULL)
        fprintf(stderr, "%s\n", failed);
    return failed == NULL ? 0 : 1;
}
