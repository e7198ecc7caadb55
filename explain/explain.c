/* explain [FILE]: what a Matter IDL text declares, section by section, and where and why a section is refused. */
#include "explain.h"
#include "matter_idl.h"

#include <errno.h>
#include <stdio.h>
#include <stdlib.h>
#include <string.h>

enum status { ALL_ACCEPTED = 0, SOME_REFUSED = 1, UNREADABLE = 2 };

const char *program = "explain";

static int is_white(uint8_t byte) {
    return byte == ' ' || byte == '\t' || byte == '\r' || byte == '\n';
}

static size_t after_white(struct text text, size_t at, size_t end) {
    while (at < end && is_white(text.bytes[at]))
        at++;
    return at;
}

static size_t before_white(struct text text, size_t start, size_t at) {
    while (at > start && is_white(text.bytes[at - 1]))
        at--;
    return at;
}

static size_t line_feeds(struct text text, size_t from, size_t to) {
    size_t count = 0;
    for (; from < to; from++)
        count += text.bytes[from] == '\n';
    return count;
}

/* What explain adds to the message of a refusal. */
static const char *advice(unsigned number, int at_end) {
    if (number != MATTER_IDL_NO_ITEM)
        return "";
    return at_end ? "; the section ends here, before its declaration does"
                  : "; look at what starts here and at the end of what is before it";
}

/* A section's first and last line, white space at its ends left aside, as `lines 3-9` or `line 3`. */
static void name_lines(char *lead, size_t room, size_t first, size_t last) {
    if (first == last)
        snprintf(lead, room, "line %zu", first);
    else
        snprintf(lead, room, "lines %zu-%zu", first, last);
}

/*
 * How many bytes the section's records take. The catalogue alone doesn't tell which section an endpoint without parts
 * belongs to, since its record has no offset; reading the section into an empty buffer tells how many bytes it needs.
 */
static size_t records_of(struct text text, size_t start, size_t length) {
    uint8_t none[1];
    return (size_t)matter_idl_value(matter_idl_read(text.bytes + start, length, none, 0));
}

/* A section as its report entry has it, and the line in which it starts. */
struct section {
    size_t start, end, place, line;
    unsigned number;
};

static struct section section_of(const uint8_t *report, size_t i, size_t line) {
    size_t start = matter_idl_section_start(report, i);
    struct section section = {start, start + matter_idl_section_length(report, i), matter_idl_section_place(report, i), line,
                              matter_idl_section_number(report, i)};
    return section;
}

static void tell_refused(struct text text, const struct section *section, const char *lead, struct totals *totals) {
    size_t place = section->place, line = section->line + line_feeds(text, section->start, place);
    totals->refused++;
    printf("%-14s REFUSED at line %zu, column %zu: %s%s\n", lead, line, column_of(text, place), matter_idl_message(section->number),
           advice(section->number, place == section->end));
    show_place(text, place, line);
}

/* Tells of an accepted section, whose records are first in `records`, and answers how many bytes they take. */
static size_t tell_accepted(struct text text, const struct section *section, const char *lead, const uint8_t *records,
                            struct totals *totals) {
    size_t length = records_of(text, section->start, section->end - section->start);
    if (length == 0)
        printf("%-14s comments only\n", lead);
    tell_declarations(text, records, length, lead, totals);
    return length;
}

/* Tells of one section and answers how many bytes of records it has. */
static size_t tell_section(struct text text, const struct section *section, const uint8_t *records, struct totals *totals) {
    size_t first = after_white(text, section->start, section->end), last = before_white(text, first, section->end);
    char lead[64];
    totals->sections++;
    if (first == section->end && !section->number) {
        totals->blank++;
        return 0;
    }
    size_t first_line = section->line + line_feeds(text, section->start, first);
    name_lines(lead, sizeof lead, first_line, first_line + line_feeds(text, first, last));
    if (!section->number)
        return tell_accepted(text, section, lead, records, totals);
    tell_refused(text, section, lead, totals);
    return 0;
}

static const char *plural(size_t count) {
    return count == 1 ? "" : "s";
}

static void print_summary(const struct totals *t) {
    /* An empty line parts it from what is above. */
    if (t->sections > t->blank)
        putchar('\n');
    printf("%zu section%s: %zu accepted", t->sections, plural(t->sections), t->sections - t->refused);
    if (t->blank)
        printf(" (%zu blank)", t->blank);
    printf(", %zu refused; %zu declaration%s; %zu global type%s, %zu dropped\n", t->refused, t->declarations,
           plural(t->declarations), t->global_types, plural(t->global_types), t->dropped_types);
}

static enum status tell_sections(struct text text, const uint8_t *catalogue, const uint8_t *report, size_t sections) {
    struct totals totals = {0, 0, 0, 0, 0, 0};
    size_t line = 1, records = 0;
    for (size_t i = 0; i < sections; i++) {
        struct section section = section_of(report, i, line);
        records += tell_section(text, &section, catalogue + records, &totals);
        line += line_feeds(text, section.start, section.end);
    }
    print_summary(&totals);
    return totals.refused ? SOME_REFUSED : ALL_ACCEPTED;
}

static enum status explain(struct text text) {
    size_t sections = matter_idl_sections(text.bytes, text.length);
    size_t catalogue_length = MATTER_IDL_CATALOGUE_BYTES(text.length), report_length = MATTER_IDL_REPORT_BYTES(sections);
    uint8_t *catalogue = malloc(catalogue_length), *report = malloc(report_length);
    enum status status = UNREADABLE;
    if (!catalogue || !report) {
        fprintf(stderr, "%s: not enough memory\n", program);
    } else {
        uint64_t result = matter_idl_survey(text.bytes, text.length, catalogue, catalogue_length, report, report_length);
        if (matter_idl_number(result) == MATTER_IDL_ACCEPTED)
            status = tell_sections(text, catalogue, report, sections);
        else
            fprintf(stderr, "%s: %s\n", program, matter_idl_message(matter_idl_number(result)));
    }
    free(catalogue);
    free(report);
    return status;
}

static void print_help(FILE *file) {
    fprintf(file, "usage: %s [FILE]\n", program);
    fputs("Tells what a Matter IDL text (FILE, or standard input) declares, section by section, and where and why\n"
          "a section is refused. A section ends with a `}` at the start of a line.\n"
          "Of an enum or a bitmap that has annotations it tells the entries with the annotations' values.\n"
          "  --help      print this\n"
          "  --version   print the version\n"
          "Exit status: 0 all sections are accepted; 1 one or more are refused; 2 the input can't be read or is\n"
          "longer than 1,048,575 bytes, or the output can't be written.\n",
          file);
}

/* An output that can't be written, as to a full disk, must not pass for success. */
static int finished(enum status status) {
    if (fflush(stdout) == 0 && !ferror(stdout))
        return status;
    fprintf(stderr, "%s: standard output: %s\n", program, strerror(errno));
    return UNREADABLE;
}

/* The name of a file without its folders. */
static const char *last_part(const char *path) {
    const char *slash = strrchr(path, '/');
    return slash ? slash + 1 : path;
}

int main(int argc, char **argv) {
    struct text text;
    enum status status = ALL_ACCEPTED;
    if (argc > 0)
        program = last_part(argv[0]);
    if (argc == 2 && strcmp(argv[1], "--help") == 0) {
        print_help(stdout);
        return finished(ALL_ACCEPTED);
    }
    if (argc == 2 && strcmp(argv[1], "--version") == 0) {
        printf("%s %s\n", program, MATTER_IDL_VERSION);
        return finished(ALL_ACCEPTED);
    }
    if (argc > 2 || (argc == 2 && argv[1][0] == '-')) {
        print_help(stderr);
        return UNREADABLE;
    }
    if (!read_input(argc == 2 ? argv[1] : NULL, &text))
        return UNREADABLE;
    if (text.length == 0)
        puts("an empty text: nothing is declared");
    else
        status = explain(text);
    free((void *)text.bytes);
    return finished(status);
}
