/* Known answers of the survey through the C interface: result, catalogue and report, and what both hold if it is refused. */
#include "matter_idl.h"

#include <stdio.h>
#include <string.h>

#define WORDS(...) {__VA_ARGS__}, sizeof((const uint64_t[]){__VA_ARGS__}) / sizeof(uint64_t)
#define NO_WORDS {0}, 0

struct known {
    const char *text;
    uint64_t words[24];
    size_t count;
    uint64_t sections[4];
    size_t section_count;
};

static const struct known surveys[] = {
    /* The empty text is one empty section. */
    {"", NO_WORDS, WORDS(0)},
    /* docs/FORMAT.md's example, whole and with its first section spoilt. */
    {"enum A:t{\n}\nenum B:t{\n}", WORDS(0x0240000005000010, 0, 0x0000700001000000, 0x0240000011000010, 0, 0x0001300001000000),
     WORDS(0x000000000b000000, 0x0000b0000c000000, 0x0001700000000000)},
    {"enum A:?{\n}\nenum B:t{\n}", WORDS(0x0240000011000010, 0, 0x0001300001000000),
     WORDS(0x000000000b300007, 0x0000b0000c000000, 0x0001700000000000)},
    /* An id of an accepted section is known to those after it, one of a refused section is not. */
    {"cluster C=1{\nshared enum E:t{}\n}cluster D=2{\nshared enum E:t{}\n}",
     WORDS(0x0100000008000010, 0, 1, 0, 0x0244000019000010, 0, 0x0001b00001000000, 0x0100000028000010, 0, 2, 0, 0x0284000039000010, 0, 0x0003b00001000000),
     WORDS(0x0000000020000000, 0x0002000020000000, 0x0004000000000000)},
    {"cluster ?=1{\nshared enum E:t{}\n}cluster D=2{\nshared enum E:t{}\n}",
     WORDS(0x0100000028000010, 0, 2, 0, 0x0244000039000010, 0, 0x0003b00001000000),
     WORDS(0x0000000020300008, 0x0002000020000000, 0x0004000000000000)},
    /* A doc comment that is empty has an offset, which moves; one that is absent stays 0. */
    {"enum A:t{\n}/***/enum B:t{\n}", WORDS(0x0240000005000010, 0, 0x0000700001000000, 0x0248000015000010, 0x0000e00000000000, 0x0001700001000000),
     WORDS(0x000000000b000000, 0x0000b00010000000, 0x0001b00000000000)},
    /* Annotations: the key and the value move, an empty value too; those of a dropped type are there. */
    {"\n}enum E:t{a=1[b=\"c\"];}",
     WORDS(0x0240000007000010, 0, 0x0000900001000000, 0x040000000b000010, 1, 0x110000000f000010, 0x0001200001000000),
     WORDS(0x0000000002300001, 0x0000200015000000)},
    {"\n}bitmap B:t{a=1[b=\"\"];}",
     WORDS(0x0340000009000010, 0, 0x0000b00001000000, 0x040000000d000010, 1, 0x1100000011000010, 0x0001400000000000),
     WORDS(0x0000000002300001, 0x0000200016000000)},
    {"cluster C=1{shared enum E:t{a=1[b=\"c\"];}\n}cluster D=2{shared enum E:t{a=1[b=\"d\"];}\n}",
     WORDS(0x0100000008000010, 0, 1, 0, 0x0244000018000010, 0, 0x0001a00001000000, 0x040000001c000010, 1, 0x1100000020000010, 0x0002300001000000,
           0x0100000032000010, 0, 2, 0, 0x0284000042000010, 0, 0x0004400001000000, 0x0400000046000010, 1, 0x110000004a000010, 0x0004d00001000000),
     WORDS(0x000000002a000000, 0x0002a0002a000000, 0x0005400000000000)},
    /* A cut inside an annotation's value spoils both sides, though reading accepts the whole text. */
    {"enum E:t{a=1[b=\"\n}\"];}", NO_WORDS, WORDS(0x0000000012300009, 0x0001200004300012)},
    /* The numbers 2, 4, 5 and 6 with offsets of the whole text. A cut inside a comment spoils both sides. */
    {"\n}\n\xff", NO_WORDS, WORDS(0x0000000002300001, 0x0000200002200003)},
    {"\n}enum E:t{a=18446744073709551616;}", NO_WORDS, WORDS(0x0000000002300001, 0x000020002140000d)},
    {"\n}endpoint 0{server cluster C{ram attribute a default=\"\\r\";}}", NO_WORDS, WORDS(0x0000000002300001, 0x000020003b500037)},
    {"\n}cluster C=1{attribute access(READ: view) t a=1;}", NO_WORDS, WORDS(0x0000000002300001, 0x000020003060001f)},
    {"/*\n}*/", NO_WORDS, WORDS(0x0000000004300000, 0x0000400002300004)},
};

static int failed;

static void expect(int holds, const char *what, const char *text) {
    if (!holds) {
        printf("%s: %s\n", what, text);
        failed = 1;
    }
}

static void put_words(uint8_t *bytes, const uint64_t *words, size_t count) {
    for (size_t i = 0; i < 8 * count; i++)
        bytes[i] = (uint8_t)(words[i / 8] >> (56 - 8 * (i % 8)));
}

static void surveyed(const struct known *k, size_t catalogue_length, size_t report_length) {
    uint8_t catalogue[256], report[64], catalogue_after[256], report_after[64];
    uint64_t needed = 8 * k->count, report_needed = 8 * k->section_count, result = needed;
    memset(catalogue, 0xa5, sizeof catalogue);
    memset(report, 0x5a, sizeof report);
    memcpy(catalogue_after, catalogue, sizeof catalogue);
    memcpy(report_after, report, sizeof report);
    if (report_length < report_needed) {
        result = ((uint64_t)MATTER_IDL_REPORT_TOO_SHORT << 56) + report_needed;
    } else if (catalogue_length < needed) {
        result = ((uint64_t)MATTER_IDL_CATALOGUE_TOO_SHORT << 56) + needed;
    } else {
        put_words(catalogue_after, k->words, k->count);
        put_words(report_after, k->sections, k->section_count);
    }
    uint64_t is = matter_idl_survey((const uint8_t *)k->text, strlen(k->text), catalogue, catalogue_length, report, report_length);
    expect(is == result, "result", k->text);
    expect(memcmp(catalogue, catalogue_after, sizeof catalogue) == 0, "catalogue", k->text);
    expect(memcmp(report, report_after, sizeof report) == 0, "report", k->text);
}

/* Texts as long as the limit, of many sections. */
static uint8_t text[MATTER_IDL_TEXT_LIMIT];
static uint8_t catalogue[MATTER_IDL_CATALOGUE_BYTES(MATTER_IDL_TEXT_LIMIT)];
static uint8_t report[MATTER_IDL_REPORT_BYTES(MATTER_IDL_TEXT_LIMIT / 2 + 1)];

static int entry_is(size_t i, size_t start, size_t length, unsigned number, size_t place) {
    return matter_idl_section_start(report, i) == start && matter_idl_section_length(report, i) == length
        && matter_idl_section_number(report, i) == number && matter_idl_section_place(report, i) == place;
}

/* Whether section i is to be accepted, by a rule without a short period. */
static int is_sound(size_t i) { return (uint32_t)i * 2654435761u >> 31; }

/* An enum or a letter that is no item, each up to its cut; the rest of the text is blanks. */
static void mixed_sections(void) {
    size_t n = 0, sections = 0, written = 0, at = 0;
    memset(text, ' ', sizeof text);
    while (n + 11 <= sizeof text) {
        const char *piece = is_sound(sections) ? "enum E:t{\n}" : "x\n}";
        memcpy(text + n, piece, strlen(piece));
        n += strlen(piece);
        sections++;
    }
    uint64_t result = matter_idl_survey(text, sizeof text, catalogue, sizeof catalogue, report, sizeof report);
    for (size_t i = 0; i < sections; i++) {
        if (!is_sound(i)) {
            expect(entry_is(i, at, 3, 3, at), "a refused section", "many of both");
            at += 3;
            continue;
        }
        expect(entry_is(i, at, 11, 0, 0), "an accepted section", "many of both");
        expect(matter_idl_name(catalogue + written).offset == at + 5, "its record", "many of both");
        written += matter_idl_record_bytes(MATTER_IDL_ENUM);
        at += 11;
    }
    expect(entry_is(sections, n, sizeof text - n, 0, 0), "the last section", "many of both");
    expect(result == written, "result", "many of both");
}

/* As many sections as a text can have, of which the last is accepted. */
static void most_sections(void) {
    size_t last = sizeof text / 2;
    for (size_t i = 0; i < last; i++)
        memcpy(text + 2 * i, "\n}", 2);
    text[2 * last] = ' ';
    uint64_t result = matter_idl_survey(text, sizeof text, catalogue, sizeof catalogue, report, sizeof report);
    expect(result == 0, "result", "as many as can be");
    for (size_t i = 0; i < last; i++)
        expect(entry_is(i, 2 * i, 2, 3, 2 * i + 1), "a refused section", "as many as can be");
    expect(entry_is(last, 2 * last, 1, 0, 0), "the last section", "as many as can be");
}

int main(void) {
    size_t count = sizeof surveys / sizeof surveys[0];
    for (size_t i = 0; i < count; i++) {
        const struct known *k = &surveys[i];
        expect(matter_idl_sections((const uint8_t *)k->text, strlen(k->text)) == k->section_count, "sections", k->text);
        surveyed(k, 256, 64);
        for (size_t length = 0; length <= 8 * k->count; length++)
            surveyed(k, length, 8 * k->section_count);
        for (size_t length = 0; length < 8 * k->section_count; length++)
            surveyed(k, 8 * k->count - (k->count ? length % 2 : 0), length);
    }
    mixed_sections();
    most_sections();
    printf("%zu surveys from C, %s\n", count + 2, failed ? "some answers differ" : "all as known");
    return failed;
}
