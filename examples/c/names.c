/* Compares the names of the statuses and the version of the library with those of the header. Prints nothing, and ends
 * with status 0, if all agree. */
#include "graphql_proved.h"
#include <stdio.h>
#include <string.h>

#define NAMED(name) {GRAPHQL_PROVED_##name, #name}

static const struct named {
    uint32_t status;
    const char *name;
} all[] = {
    NAMED(OK),
    NAMED(BAD_TOKEN),
    NAMED(UNEXPECTED_TOKEN),
    NAMED(UNEXPECTED_END),
    NAMED(TOO_DEEP),
    NAMED(INT_OUT_OF_RANGE),
    NAMED(MALFORMED_FLOAT),
    NAMED(BAD_ESCAPE),
    NAMED(UNKNOWN_LOCATION),
    NAMED(DUPLICATE_OPERATION),
    NAMED(UNKNOWN_OPERATION),
    NAMED(EMPTY_EXTENSION),
    NAMED(TEXT_TOO_LONG),
    NAMED(OUT_OF_MEMORY),
    NAMED(TOO_WIDE),
    NAMED(NOT_UTF8),
    NAMED(BUFFER_TOO_SHORT),
    {GRAPHQL_PROVED_BUFFER_TOO_SHORT + 1, ""},
    {UINT32_MAX, ""},
};

/* Whether a status has this name, with zero bytes behind it. */
static bool has_name(const struct named *it) {
    graphql_proved_name found = graphql_proved_status_name(it->status);
    char right[sizeof found.text] = {0};
    memcpy(right, it->name, strlen(it->name));
    return memcmp(found.text, right, sizeof right) == 0;
}

static bool has_version(void) {
    graphql_proved_numbers found = graphql_proved_version();
    char text[40];
    snprintf(text, sizeof text, "%u.%u.%u", (unsigned)found.major, (unsigned)found.minor, (unsigned)found.patch);
    return found.major == GRAPHQL_PROVED_VERSION_MAJOR && found.minor == GRAPHQL_PROVED_VERSION_MINOR
        && found.patch == GRAPHQL_PROVED_VERSION_PATCH && strcmp(text, GRAPHQL_PROVED_VERSION) == 0;
}

int main(void) {
    for (size_t at = 0; at < sizeof all / sizeof *all; at++) {
        if (!has_name(&all[at])) {
            fprintf(stderr, "another name of status %u: %s\n", (unsigned)all[at].status,
                graphql_proved_status_name(all[at].status).text);
            return 1;
        }
    }
    if (!has_version()) {
        fprintf(stderr, "another version than that of the header\n");
        return 1;
    }
    return 0;
}
