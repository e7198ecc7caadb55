/* clusters FILE: surveys a Matter IDL text and prints its clusters with their codes and, below each, its attributes; and its enums
   and bitmaps with their entries and, below each entry, its annotations. */
#include <matter_idl.h>

#include <inttypes.h>
#include <signal.h>
#include <stdio.h>
#include <stdlib.h>

enum status { ALL_ACCEPTED = 0, SOME_REFUSED = 1, FAILED = 2 };

/* The file's bytes, up to one more than the limit, so that a longer file is refused by the survey. NULL if it can't be read. */
static uint8_t *load(const char *name, size_t *length) {
    size_t room = (size_t)MATTER_IDL_TEXT_LIMIT + 1;
    FILE *file = fopen(name, "rb");
    uint8_t *text = file ? malloc(room) : NULL;
    if (text)
        *length = fread(text, 1, room, file);
    if (text && ferror(file)) {
        free(text);
        text = NULL;
    }
    if (file)
        fclose(file);
    return text;
}

static void print_name(const uint8_t *text, const uint8_t *record) {
    struct matter_idl_span name = matter_idl_name(record);
    fwrite(text + name.offset, 1, name.length, stdout);
}

/* An attribute's code and name are in its field. A writeonly one can't be read, and a readonly one can't be written, whatever
   privilege its record has for that. */
static void print_attribute(const uint8_t *text, const uint8_t *attribute, const uint8_t *field) {
    static const char *const privileges[] = {"view", "operate", "manage", "administer"};
    printf("  %5" PRIu64 " ", matter_idl_code(field));
    print_name(text, field);
    if (!matter_idl_is_writeonly(attribute))
        printf(", read: %s", privileges[matter_idl_read_privilege(attribute)]);
    if (!matter_idl_is_readonly(attribute))
        printf(", write: %s", privileges[matter_idl_write_privilege(attribute)]);
    putchar('\n');
}

/* An enum or a bitmap: one that is its cluster's own is indented, one that is global or dropped is not. */
static void print_choice(const uint8_t *text, const uint8_t *record) {
    fputs(matter_idl_place_of(record) == MATTER_IDL_IN_PARENT ? "  " : "", stdout);
    fputs(matter_idl_kind_of(record) == MATTER_IDL_ENUM ? "enum " : "bitmap ", stdout);
    print_name(text, record);
    putchar('\n');
}

/* An annotation's value as it is meant. No value is longer than a text. It may hold any character, controls too: a program that
   shows it to a person decides what becomes of them. */
static void print_annotation(const uint8_t *text, const uint8_t *record) {
    static uint8_t value[MATTER_IDL_TEXT_LIMIT];
    struct matter_idl_span part = matter_idl_annotation_value(record);
    uint64_t result = matter_idl_unescape(text + part.offset, part.length, value, sizeof value);
    printf("          ");
    print_name(text, record);
    fputs(": ", stdout);
    fwrite(value, 1, (size_t)matter_idl_value(result), stdout);
    putchar('\n');
}

static void print_record(const uint8_t *text, const uint8_t *record) {
    switch (matter_idl_kind_of(record)) {
    case MATTER_IDL_CLUSTER:
        print_name(text, record);
        printf(" = %" PRIu64 "\n", matter_idl_code(record));
        break;
    case MATTER_IDL_ENUM:
    case MATTER_IDL_BITMAP:
        print_choice(text, record);
        break;
    case MATTER_IDL_ENTRY:
        printf("    %5" PRIu64 " ", matter_idl_code(record));
        print_name(text, record);
        putchar('\n');
        break;
    case MATTER_IDL_ANNOTATION:
        print_annotation(text, record);
        break;
    }
}

static void print_catalogue(const uint8_t *text, const uint8_t *catalogue, size_t length) {
    const uint8_t *record;
    for (size_t at = 0; (record = matter_idl_record_at(catalogue, length, at)) != NULL; at = matter_idl_next(catalogue, length, at)) {
        const uint8_t *field = matter_idl_attribute_field(catalogue, length, at);
        if (field)
            print_attribute(text, record, field);
        else
            print_record(text, record);
    }
}

/* Refused sections go to standard error; answers how many there are. */
static size_t print_refused(const uint8_t *report, size_t sections) {
    size_t refused = 0;
    for (size_t i = 0; i < sections; i++) {
        unsigned number = matter_idl_section_number(report, i);
        if (number == MATTER_IDL_ACCEPTED)
            continue;
        fprintf(stderr, "section at byte %zu: refused by %u at byte %zu: %s\n", matter_idl_section_start(report, i), number,
                matter_idl_section_place(report, i), matter_idl_message(number));
        refused++;
    }
    return refused;
}

static enum status survey(const uint8_t *text, size_t length) {
    size_t sections = matter_idl_sections(text, length);
    size_t catalogue_length = MATTER_IDL_CATALOGUE_BYTES(length), report_length = MATTER_IDL_REPORT_BYTES(sections);
    uint8_t *catalogue = malloc(catalogue_length), *report = malloc(report_length);
    enum status status = FAILED;
    if (!catalogue || !report) {
        fputs("clusters: not enough memory\n", stderr);
    } else {
        uint64_t result = matter_idl_survey(text, length, catalogue, catalogue_length, report, report_length);
        if (matter_idl_number(result) == MATTER_IDL_ACCEPTED) {
            print_catalogue(text, catalogue, (size_t)matter_idl_value(result));
            status = print_refused(report, sections) ? SOME_REFUSED : ALL_ACCEPTED;
        } else {
            fprintf(stderr, "clusters: refused by %u: %s\n", matter_idl_number(result), matter_idl_message(matter_idl_number(result)));
        }
    }
    free(report);
    free(catalogue);
    return status;
}

/* An output that can't be written, as to a full disk, must not pass for success. */
static enum status finished(enum status status) {
    int failed = ferror(stdout);
    if (fclose(stdout) == 0 && !failed)
        return status;
    fputs("clusters: standard output can't be written\n", stderr);
    return FAILED;
}

int main(int argc, char **argv) {
    size_t length = 0;
    if (argc != 2) {
        fputs("usage: clusters FILE\n", stderr);
        return FAILED;
    }
#ifdef SIGPIPE
    /* A pipe that nobody reads is then an output that can't be written, and not a silent end. */
    signal(SIGPIPE, SIG_IGN);
#endif
    uint8_t *text = load(argv[1], &length);
    if (!text) {
        fprintf(stderr, "clusters: %s can't be read\n", argv[1]);
        return FAILED;
    }
    enum status status = survey(text, length);
    free(text);
    return finished(status);
}
