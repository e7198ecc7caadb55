/* Reading the input. */
#include "explain.h"
#include "matter_idl.h"

#include <errno.h>
#include <stdio.h>
#include <stdlib.h>
#include <string.h>

static int refuse(const char *name, const char *why) {
    fprintf(stderr, "%s: %s: %s\n", program, name, why);
    return 0;
}

int read_input(const char *name, struct text *text) {
    const char *shown = name ? name : "standard input";
    /* One byte more than the limit tells a text that is too long, however long it is. */
    size_t room = (size_t)MATTER_IDL_TEXT_LIMIT + 1;
    uint8_t *bytes = malloc(room);
    if (!bytes)
        return refuse(shown, "not enough memory");
    FILE *file = name ? fopen(name, "rb") : stdin;
    if (!file) {
        free(bytes);
        return refuse(shown, strerror(errno));
    }
    errno = 0;
    size_t length = fread(bytes, 1, room, file);
    /* fopen takes a folder; reading it is what fails. */
    int failed = ferror(file), cause = errno;
    if (name)
        fclose(file);
    text->bytes = bytes;
    text->length = length;
    if (!failed && length < room)
        return 1;
    free(bytes);
    return refuse(shown, failed ? strerror(cause) : matter_idl_message(MATTER_IDL_TEXT_TOO_LONG));
}
