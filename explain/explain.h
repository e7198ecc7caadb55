/* What the files of `explain` share. */
#ifndef EXPLAIN_H
#define EXPLAIN_H

#include <stddef.h>
#include <stdint.h>

/* What the program is called by, for its messages. */
extern const char *program;

struct text {
    const uint8_t *bytes;
    size_t length;
};

/* What the summary adds up. Declarations are those at the top of the text: clusters, endpoints and types. */
struct totals {
    size_t sections, refused, blank, declarations, global_types, dropped_types;
};

/* input.c: the whole of a file, or of standard input if the name is NULL. Answers 0 if it can't be had, having said why. */
int read_input(const char *name, struct text *text);

/* declarations.c: one line for each declaration that a section's records hold, the first one after `lead`, and below it what
   tell_entries says. */
void tell_declarations(struct text text, const uint8_t *records, size_t length, const char *lead, struct totals *totals);

/* declarations.c: a record's name; its maturity if it is not stable, and a blank; an enum's or a bitmap's words and name. */
void print_name(struct text text, const uint8_t *record);
void print_maturity(const uint8_t *record);
void print_choice(struct text text, const uint8_t *record);

/* entries.c: of a declaration's records, the entries of each enum and bitmap that has annotations, one line for each. */
void tell_entries(struct text text, const uint8_t *records, size_t length);

/* place.c: how many characters of its line are before the place, and 1. */
size_t column_of(struct text text, size_t place);

/* place.c: the place's line, or what is around the place if the line is long, and a caret below. */
void show_place(struct text text, size_t place, size_t line);

/* place.c: a string, made safe for a terminal, or the start of a long one. */
void show_string(struct text string);

#endif
