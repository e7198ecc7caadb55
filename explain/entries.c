/* The entries of enums and bitmaps with their annotations, whose values are what a screen shows. */
#include "explain.h"
#include "matter_idl.h"

#include <inttypes.h>
#include <stdio.h>

/* How far a line is indented: two columns more than the words of a declaration, and two more for what is below such a line. */
enum { INDENT = 17, DEEPER = 19 };

static int is_kind(const uint8_t *record, unsigned kind) {
    return record && matter_idl_kind_of(record) == kind;
}

/* Whether one of the entries that start at an offset has an annotation. */
static int have_annotations(const uint8_t *records, size_t length, size_t at) {
    while (is_kind(matter_idl_record_at(records, length, at), MATTER_IDL_ENTRY))
        at = matter_idl_next(records, length, at);
    return is_kind(matter_idl_record_at(records, length, at), MATTER_IDL_ANNOTATION);
}

/* The value as it is meant. The buffer is as long as the longest text, so it is long enough for each part of one. */
static void print_annotation(struct text text, const uint8_t *annotation) {
    static uint8_t bytes[MATTER_IDL_TEXT_LIMIT];
    struct matter_idl_span part = matter_idl_annotation_value(annotation);
    struct text value = {bytes, 0};
    value.length = (size_t)matter_idl_value(matter_idl_unescape(text.bytes + part.offset, part.length, bytes, sizeof bytes));
    fputs(", ", stdout);
    print_name(text, annotation);
    fputs(": \"", stdout);
    show_string(value);
    putchar('"');
}

/* One line: the entry at an offset and the annotations that follow it. */
static void print_entry(struct text text, const uint8_t *records, size_t length, size_t at) {
    const uint8_t *record = matter_idl_record_at(records, length, at);
    print_maturity(record);
    print_name(text, record);
    printf(" = %" PRIu64, matter_idl_code(record));
    for (;;) {
        at = matter_idl_next(records, length, at);
        record = matter_idl_record_at(records, length, at);
        if (!is_kind(record, MATTER_IDL_ANNOTATION))
            break;
        print_annotation(text, record);
    }
    putchar('\n');
}

void tell_entries(struct text text, const uint8_t *records, size_t length) {
    const uint8_t *record;
    int told = 0, indent = 0;
    for (size_t at = 0; (record = matter_idl_record_at(records, length, at)) != NULL; at = matter_idl_next(records, length, at)) {
        unsigned kind = matter_idl_kind_of(record);
        if (kind == MATTER_IDL_ENUM || kind == MATTER_IDL_BITMAP) {
            told = have_annotations(records, length, matter_idl_next(records, length, at));
            /* One at the top has its line already. */
            indent = at == 0 ? INDENT : DEEPER;
            if (told && at > 0) {
                printf("%*s", INDENT, "");
                print_choice(text, record);
                fputs(":\n", stdout);
            }
        } else if (kind == MATTER_IDL_ENTRY && told) {
            printf("%*s", indent, "");
            print_entry(text, records, length, at);
        }
    }
}
