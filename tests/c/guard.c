/*
 * guard COUNT: makes COUNT calls of the library, or a few more, with every buffer lent against pages that can't be touched,
 * on generated and damaged texts. The text's page is read-only during calls. A byte touched outside a buffer ends the program.
 * Results and buffers are checked after each call: refusals change nothing, acceptance nothing after what it wrote.
 */
#include "matter_idl.h"

#include <inttypes.h>
#include <signal.h>
#include <stdio.h>
#include <stdlib.h>
#include <string.h>
#include <sys/mman.h>
#include <unistd.h>

/* ---- Buffers between guard pages ---- */

/* Pages that may be touched, with one on each side that may not. */
struct region {
    uint8_t *start;
    size_t length;
};

/* A buffer at the end of its region, or at its start: each time one side is the guard page itself. */
enum side { AT_END, AT_START };

static void give_up(const char *what) {
    perror(what);
    exit(2);
}

static struct region make_region(size_t length) {
    size_t page = (size_t)sysconf(_SC_PAGESIZE);
    struct region region = {NULL, (length + page - 1) / page * page};
    uint8_t *all = mmap(NULL, region.length + 2 * page, PROT_NONE, MAP_PRIVATE | MAP_ANONYMOUS, -1, 0);
    if (all == MAP_FAILED)
        give_up("guard: mmap");
    region.start = all + page;
    if (mprotect(region.start, region.length, PROT_READ | PROT_WRITE) != 0)
        give_up("guard: mprotect");
    return region;
}

static uint8_t *buffer_in(struct region region, size_t length, enum side side) {
    return side == AT_END ? region.start + region.length - length : region.start;
}

/* Puts the text into its region and makes that read-only. */
static const uint8_t *lend_text(struct region region, const uint8_t *bytes, size_t length, enum side side) {
    uint8_t *lent = buffer_in(region, length, side);
    if (mprotect(region.start, region.length, PROT_READ | PROT_WRITE) != 0)
        give_up("guard: mprotect");
    if (length)
        memcpy(lent, bytes, length);
    if (mprotect(region.start, region.length, PROT_READ) != 0)
        give_up("guard: mprotect");
    return lent;
}

/* A buffer to fill. `span` is how much of its region is filled beforehand and looked at afterwards: the buffer and a little
 * more on the side without a guard page. */
struct lent {
    uint8_t *bytes, *span;
    size_t length, span_length;
};

static uint8_t pattern(size_t i) {
    return (uint8_t)(0xa5 ^ (i * 29));
}

static struct lent lend(struct region region, size_t length, enum side side) {
    struct lent lent = {buffer_in(region, length, side), NULL, length, length + 64};
    if (lent.span_length > region.length)
        lent.span_length = region.length;
    lent.span = buffer_in(region, lent.span_length, side);
    for (size_t i = 0; i < lent.span_length; i++)
        lent.span[i] = pattern(i);
    return lent;
}

/* Whether all but the buffer's first `written` bytes is as it was lent. */
static int as_lent(const struct lent *lent, size_t written) {
    size_t from = (size_t)(lent->bytes - lent->span);
    for (size_t i = 0; i < lent->span_length; i++)
        if ((i < from || i >= from + written) && lent->span[i] != pattern(i))
            return 0;
    return 1;
}

/* ---- Random texts ---- */

struct text {
    uint8_t bytes[4096];
    size_t length;
};

static uint64_t next_random(uint64_t *state) {
    *state ^= *state << 13;
    *state ^= *state >> 7;
    *state ^= *state << 17;
    return *state;
}

static size_t below(uint64_t *state, size_t limit) {
    return (size_t)(next_random(state) >> 11) % limit;
}

/* Leaves off what has no room, which is one more way of cutting a text. */
static void put(struct text *text, const char *piece) {
    size_t length = strlen(piece);
    if (length > sizeof text->bytes - text->length)
        length = sizeof text->bytes - text->length;
    memcpy(text->bytes + text->length, piece, length);
    text->length += length;
}

static const char *pick(uint64_t *state, const char *const *pieces, size_t count) {
    return pieces[below(state, count)];
}
#define PICK(state, ...) \
    pick(state, (const char *const[]){__VA_ARGS__}, sizeof((const char *const[]){__VA_ARGS__}) / sizeof(const char *))

static void put_blank(struct text *text, uint64_t *s) {
    put(text, PICK(s, " ", " ", " ", "\n", "\t", "  ", "\r\n", " /* c */ ", " // c\n", "\n/** doc \xc3\xa9 */ ", "/***/", " //\xe2\x82\xac\n"));
}

static void put_name(struct text *text, uint64_t *s) {
    put(text, PICK(s, "A", "B", "E", "Feature", "onOff", "_x1", "a_rather_long_name_of_a_thing", "shared"));
}

static void put_number(struct text *text, uint64_t *s) {
    put(text, PICK(s, "0", "1", "7", "65533", "0x1F", "0XfF", "18446744073709551615", "0xFFFFFFFFFFFFFFFF"));
    if (below(s, 200) == 0)
        put(text, "0000000000000000000000");
}

static void put_maturity(struct text *text, uint64_t *s) {
    put(text, PICK(s, "", "", "", "provisional ", "internal ", "deprecated ", "stable "));
}

/* Now and then the brace is right after a line feed, where the survey cuts. */
static void put_close(struct text *text, uint64_t *s) {
    put(text, PICK(s, "}", "}", " }", "\n}", "\n}", "\n  }\n"));
}

static void put_field(struct text *text, uint64_t *s) {
    put(text, PICK(s, "", "", "optional ", "nullable ", "fabric_sensitive ", "optional nullable ", "Optional "));
    put(text, PICK(s, "int8u ", "char_string<32> ", "long_octet_string<0x10> ", "E "));
    put_name(text, s);
    put(text, PICK(s, "", "", "[]"));
    put(text, " = ");
    put_number(text, s);
    put(text, PICK(s, "; ", ";\n", ";"));
}

/* An entry's list, of up to three annotations; now and then a value holds the survey's cut. */
static void put_annotations(struct text *text, uint64_t *s) {
    put(text, PICK(s, "[", " [ ", " /* c */ ["));
    for (size_t n = below(s, 4); n > 0; n--) {
        put(text, PICK(s, "name", "_1", "stable", "spec_name "));
        put(text, PICK(s, "=\"\"", " = \"Left side\"", "=\"a \\\" b\\\\\"", "=\"\xc3\xa9 // ] /*\"", "=\"\n}\"", " =\n\"\t\\\\\""));
        put(text, PICK(s, "", ",", ", ", " , // c\n"));
    }
    put(text, "]");
}

static void put_choice(struct text *text, uint64_t *s) {
    put_maturity(text, s);
    put(text, PICK(s, "enum ", "bitmap ", "shared enum ", "shared bitmap "));
    put_name(text, s);
    put(text, PICK(s, ":enum8{", " : bitmap32 {\n"));
    for (size_t n = below(s, 4); n > 0; n--) {
        put_maturity(text, s);
        put_name(text, s);
        put(text, " = ");
        put_number(text, s);
        if (below(s, 2) == 0)
            put_annotations(text, s);
        put(text, PICK(s, ";", "; ", "\n;"));
    }
    put_close(text, s);
}

static void put_struct(struct text *text, uint64_t *s) {
    int response = below(s, 4) == 0;
    put_maturity(text, s);
    put(text, response ? "response " : PICK(s, "", "request ", "shared ", "Request "));
    put(text, PICK(s, "", "", "fabric_scoped "));
    put(text, "struct ");
    put_name(text, s);
    if (response) {
        put(text, " = ");
        put_number(text, s);
    }
    put(text, " {");
    for (size_t n = below(s, 4); n > 0; n--)
        put_field(text, s);
    put_close(text, s);
}

static void put_attribute(struct text *text, uint64_t *s) {
    put_maturity(text, s);
    put(text, PICK(s, "", "readonly ", "writeonly ", "nosubscribe ", "timedwrite readonly "));
    put(text, "attribute ");
    put(text, PICK(s, "", "", "access(read: manage) ", "access(read: view, write: administer) ", "access(write:operate)"));
    if (below(s, 100) == 0)
        put(text, "access(READ: view) ");
    put_field(text, s);
}

static void put_command(struct text *text, uint64_t *s) {
    put_maturity(text, s);
    put(text, PICK(s, "", "timed ", "fabric ", "timed fabric "));
    put(text, "command ");
    put(text, PICK(s, "", "access(invoke: administer) "));
    put_name(text, s);
    put(text, PICK(s, "(): DefaultSuccess = ", "(Request): Response = "));
    put_number(text, s);
    put(text, ";");
}

static void put_event(struct text *text, uint64_t *s) {
    put_maturity(text, s);
    put(text, PICK(s, "", "fabric_sensitive "));
    put(text, PICK(s, "critical event ", "info event ", "debug event "));
    put(text, PICK(s, "", "access(read: manage) "));
    put_name(text, s);
    put(text, " = ");
    put_number(text, s);
    put(text, " {");
    for (size_t n = below(s, 3); n > 0; n--)
        put_field(text, s);
    put_close(text, s);
}

static void put_cluster(struct text *text, uint64_t *s) {
    static void (*const members[])(struct text *, uint64_t *) = {put_choice, put_choice, put_struct, put_attribute, put_attribute, put_command, put_event};
    put_maturity(text, s);
    put(text, "cluster ");
    put_name(text, s);
    put(text, " = ");
    put_number(text, s);
    put(text, PICK(s, "{", " {\n  revision 3;\n", " { revision 1; "));
    for (size_t n = below(s, 7); n > 0; n--) {
        put_blank(text, s);
        members[below(s, sizeof members / sizeof members[0])](text, s);
    }
    put_close(text, s);
}

static void put_instance(struct text *text, uint64_t *s) {
    put_blank(text, s);
    if (below(s, 3) == 0) {
        put(text, PICK(s, "handle command ", "emits event "));
        put_name(text, s);
    } else {
        put(text, PICK(s, "ram attribute ", "callback attribute ", "persist  attribute "));
        put_name(text, s);
        if (below(s, 40) == 0)
            put(text, " default = \"a\\r\"");
        else
            put(text, PICK(s, "", " default = 0x10", " default = -9223372036854775808", " default = +7", " default=true",
                           " default = \"a \\n\\t\\\" b\"", " default=\"\"", " default = 12"));
    }
    put(text, ";");
}

static void put_endpoint(struct text *text, uint64_t *s) {
    put(text, "endpoint ");
    put_number(text, s);
    put(text, " {");
    for (size_t n = below(s, 4); n > 0; n--) {
        put_blank(text, s);
        put(text, PICK(s, "device type ma_x = 22, version 1;", "device type a=0x1,version 2;", "binding cluster A;", "server cluster A {}"));
    }
    if (below(s, 2) == 0) {
        put(text, "\n  server cluster ");
        put_name(text, s);
        put(text, " {");
        for (size_t n = below(s, 4); n > 0; n--)
            put_instance(text, s);
        put(text, PICK(s, "}", "\n  }"));
    }
    put_close(text, s);
}

/* Some bytes changed, taken out, put in, or the text cut off: enough for a text that is nearly right. */
static void damage(struct text *text, uint64_t *s) {
    static const uint8_t odd[] = {0, 0x80, 0xff, 0xc3, 0xed, 0xa0, 0xf4, '"', '\\', '{', '}', '\n', '/', '*', ';', '0', 'x', '\r'};
    for (size_t n = 1 + below(s, 3); n > 0 && text->length > 0; n--) {
        size_t at = below(s, text->length);
        switch (below(s, 5)) {
        case 0:
            text->bytes[at] = odd[below(s, sizeof odd)];
            break;
        case 1:
            text->bytes[at] ^= (uint8_t)(1u << below(s, 8));
            break;
        case 2:
            text->length--;
            memmove(text->bytes + at, text->bytes + at + 1, text->length - at);
            break;
        case 3:
            if (text->length < sizeof text->bytes) {
                memmove(text->bytes + at + 1, text->bytes + at, text->length - at);
                text->bytes[at] = odd[below(s, sizeof odd)];
                text->length++;
            }
            break;
        default:
            if (below(s, 3) == 0)
                text->length = at;
        }
    }
}

static void make_text(struct text *text, uint64_t *s) {
    static void (*const items[])(struct text *, uint64_t *) = {put_cluster, put_cluster, put_endpoint, put_choice, put_struct};
    text->length = 0;
    for (size_t n = below(s, 5); n > 0; n--) {
        put_blank(text, s);
        items[below(s, sizeof items / sizeof items[0])](text, s);
    }
    put(text, PICK(s, "", "\n", " /* end */", "//e"));
    if (below(s, 3) == 0)
        damage(text, s);
}

/* What is allowed between a default string's quotes, and what is not. */
static void make_part(struct text *text, uint64_t *s) {
    text->length = 0;
    for (size_t n = below(s, 12); n > 0; n--)
        put(text, PICK(s, "a", "abc", " ", "\\n", "\\t", "\\\"", "\\\\", "\xc3\xa9", "0"));
    if (below(s, 4) == 0)
        put(text, PICK(s, "\\", "\"", "\\r", "\\\\\\"));
    if (below(s, 8) == 0)
        damage(text, s);
}

/* ---- Calls and checks ---- */

struct state {
    struct region text, catalogue, report;
    uint64_t random;
    uint64_t calls, accepted, refused[11], values;
    /* What the last text's reading, or the last part's unescaping, wrote; known once a call was accepted. */
    uint8_t kept[MATTER_IDL_CATALOGUE_BYTES(sizeof(struct text))];
    size_t kept_length;
    int known;
};

/* For the handler of a fault, which is told nothing else. */
static volatile sig_atomic_t text_number;

static void outside(int signal_number) {
    char line[] = "guard: a byte outside a buffer is touched, or one of a text written, at text ..........\n";
    unsigned long n = (unsigned long)text_number;
    (void)signal_number;
    for (size_t i = sizeof line - 3; line[i] == '.' || n; n /= 10)
        line[i--] = (char)('0' + n % 10);
    if (write(2, line, sizeof line - 1) < 0)
        _exit(4);
    _exit(3);
}

static void fail(const struct text *text, const char *what) {
    printf("guard, text %ld: %s\n", (long)text_number, what);
    fwrite(text->bytes, 1, text->length, stdout);
    putchar('\n');
    exit(1);
}

static uint64_t counted(struct state *state, const struct text *text, uint64_t result) {
    unsigned number = matter_idl_number(result);
    if (number > 10)
        fail(text, "a result with a number that is none");
    state->calls++;
    if (number)
        state->refused[number]++;
    else
        state->accepted++;
    return result;
}

static uint64_t refusal(unsigned number, uint64_t value) {
    return ((uint64_t)number << 56) + value;
}

/* What a buffer that takes `needed` bytes in all is lent: exact, one byte short, longer, and empty. */
static size_t lengths_of(size_t needed, size_t *lengths, uint64_t *s) {
    size_t count = 0;
    lengths[count++] = needed;
    if (needed)
        lengths[count++] = needed - 1;
    lengths[count++] = needed + 1 + below(s, 40);
    if (needed > 1)
        lengths[count++] = 0;
    return count;
}

/* What is expected of a call whose text needs `needed` bytes, if the buffer has `length`. */
static uint64_t expected(uint64_t without_limit, size_t length, unsigned too_short) {
    if (matter_idl_number(without_limit) || matter_idl_value(without_limit) <= length)
        return without_limit;
    return refusal(too_short, matter_idl_value(without_limit));
}

static void check(const struct text *text, uint64_t result, uint64_t should, const struct lent *lent, size_t written) {
    if (result != should)
        fail(text, "another result");
    if (!as_lent(lent, matter_idl_number(result) ? 0 : written))
        fail(text, "a byte that should be as it was has changed");
}

/* What a call would answer with a buffer that is long enough: it is asked with an empty one. */
static uint64_t unlimited(uint64_t result, unsigned too_short) {
    return matter_idl_number(result) == too_short ? matter_idl_value(result) : result;
}

/* The bytes of two calls on the same text are the same, wherever the buffer is. */
static void same_bytes(struct state *state, const struct text *text, const uint8_t *bytes, size_t length) {
    if (state->known && (length != state->kept_length || memcmp(state->kept, bytes, length) != 0))
        fail(text, "two calls on one text wrote different bytes");
    memcpy(state->kept, bytes, length);
    state->kept_length = length;
    state->known = 1;
}

typedef uint64_t filling(const uint8_t *part, size_t part_length, uint8_t *output, size_t output_length);

/* Reading or unescaping, which are alike: one buffer is filled, and one number says that it is too short. */
static void try_filling(struct state *state, const struct text *text, filling *call, unsigned too_short) {
    state->known = 0;
    for (enum side side = AT_END; side <= AT_START; side++) {
        const uint8_t *lent_text = lend_text(state->text, text->bytes, text->length, side);
        struct lent none = lend(state->catalogue, 0, side);
        uint64_t asked = counted(state, text, call(lent_text, text->length, none.bytes, 0));
        uint64_t whole = unlimited(asked, too_short);
        size_t lengths[4], count = lengths_of(matter_idl_number(whole) ? 100 : (size_t)whole, lengths, &state->random);
        if (!as_lent(&none, 0))
            fail(text, "an empty buffer was written");
        for (size_t i = 0; i < count; i++) {
            struct lent lent = lend(state->catalogue, lengths[i], side);
            uint64_t result = counted(state, text, call(lent_text, text->length, lent.bytes, lent.length));
            check(text, result, expected(whole, lent.length, too_short), &lent, (size_t)matter_idl_value(result));
            if (matter_idl_number(result) == 0)
                same_bytes(state, text, lent.bytes, (size_t)result);
        }
    }
}

/* Comes after the reading of the same text: the value of each annotation is between quotes of the text, and is unescaped into a
 * buffer of its length. */
static void try_values(struct state *state, const struct text *text) {
    size_t length = state->known ? state->kept_length : 0;
    const uint8_t *lent_text = lend_text(state->text, text->bytes, text->length, AT_END), *record;
    for (size_t at = 0; (record = matter_idl_record_at(state->kept, length, at)) != NULL; at = matter_idl_next(state->kept, length, at)) {
        if (matter_idl_kind_of(record) != MATTER_IDL_ANNOTATION)
            continue;
        struct matter_idl_span value = matter_idl_annotation_value(record);
        if (value.offset == 0 || value.offset >= text->length || value.length >= text->length - value.offset)
            fail(text, "an annotation's value is not in the text");
        if (lent_text[value.offset - 1] != '"' || lent_text[value.offset + value.length] != '"')
            fail(text, "an annotation's value is not what is between quotes");
        struct lent lent = lend(state->catalogue, value.length, AT_END);
        uint64_t result = counted(state, text, matter_idl_unescape(lent_text + value.offset, value.length, lent.bytes, lent.length));
        if (matter_idl_number(result) != MATTER_IDL_ACCEPTED)
            fail(text, "an annotation's value can't be unescaped");
        state->values++;
    }
}

/* The report's words say of each section what reading its bytes alone says; the sections make up the text. Answers whether all
 * are accepted. */
static int check_report(struct state *state, const struct text *text, const uint8_t *lent_text, const uint8_t *report, size_t sections) {
    size_t start = 0, refused = 0;
    uint8_t *none = buffer_in(state->catalogue, 0, AT_END);
    for (size_t i = 0; i < sections; i++) {
        size_t length = matter_idl_section_length(report, i);
        if (matter_idl_section_start(report, i) != start || length > text->length - start)
            fail(text, "a section is elsewhere");
        uint64_t alone = unlimited(counted(state, text, matter_idl_read(lent_text + start, length, none, 0)), MATTER_IDL_CATALOGUE_TOO_SHORT);
        unsigned number = matter_idl_number(alone);
        size_t place = number ? start + (size_t)matter_idl_value(alone) : 0;
        if (matter_idl_section_number(report, i) != number || matter_idl_section_place(report, i) != place)
            fail(text, "the report says something else of a section than reading does");
        start += length;
        refused += number ? 1 : 0;
    }
    if (start != text->length)
        fail(text, "the sections are not the whole text");
    return refused == 0;
}

static void try_survey_lengths(struct state *state, const struct text *text, const uint8_t *lent_text, uint64_t whole, size_t needed_report,
                               size_t catalogue_length, size_t report_length, enum side side) {
    struct lent catalogue = lend(state->catalogue, catalogue_length, side), report = lend(state->report, report_length, side);
    uint64_t result = counted(state, text, matter_idl_survey(lent_text, text->length, catalogue.bytes, catalogue_length, report.bytes, report_length));
    uint64_t should = report_length < needed_report ? refusal(MATTER_IDL_REPORT_TOO_SHORT, needed_report)
                                                    : expected(whole, catalogue_length, MATTER_IDL_CATALOGUE_TOO_SHORT);
    check(text, result, should, &catalogue, (size_t)matter_idl_value(result));
    check(text, result, should, &report, needed_report);
    if (matter_idl_number(result))
        return;
    if (check_report(state, text, lent_text, report.bytes, matter_idl_sections(text->bytes, text->length))) {
        if (!state->known)
            fail(text, "every section is accepted, and the text is not");
        same_bytes(state, text, catalogue.bytes, (size_t)result);
    }
}

/* Comes after the reading of the same text: if every section is accepted, the catalogue is the one that reading wrote. */
static void try_survey(struct state *state, const struct text *text) {
    size_t needed = MATTER_IDL_REPORT_BYTES(matter_idl_sections(text->bytes, text->length));
    for (enum side side = AT_END; side <= AT_START; side++) {
        const uint8_t *lent_text = lend_text(state->text, text->bytes, text->length, side);
        struct lent none = lend(state->catalogue, 0, side), report = lend(state->report, needed, side);
        uint64_t asked = counted(state, text, matter_idl_survey(lent_text, text->length, none.bytes, 0, report.bytes, needed));
        uint64_t whole = unlimited(asked, MATTER_IDL_CATALOGUE_TOO_SHORT);
        size_t catalogues[4], reports[4];
        size_t count = lengths_of((size_t)whole, catalogues, &state->random), report_count = lengths_of(needed, reports, &state->random);
        if (matter_idl_number(whole))
            fail(text, "a survey is refused by another number than 7 or 8");
        for (size_t i = 0; i < count; i++)
            try_survey_lengths(state, text, lent_text, whole, needed, catalogues[i], needed, side);
        for (size_t i = 1; i < report_count; i++)
            try_survey_lengths(state, text, lent_text, whole, needed, catalogues[below(&state->random, count)], reports[i], side);
    }
}

/* Texts at the limit and one byte past it: blanks, so that the first is accepted and has no records. */
static void try_limit(struct state *state) {
    static const struct text shown = {"(a text of blanks at the limit, or past it)", 43};
    size_t limit = MATTER_IDL_TEXT_LIMIT;
    struct region region = make_region(limit + 1);
    uint8_t *blanks = malloc(limit + 1);
    if (!blanks)
        give_up("guard: malloc");
    memset(blanks, ' ', limit + 1);
    for (enum side side = AT_END; side <= AT_START; side++)
        for (size_t past = 0; past <= 1; past++) {
            const uint8_t *text = lend_text(region, blanks, limit + past, side);
            struct lent catalogue = lend(state->catalogue, 16, side), report = lend(state->report, 8, side);
            uint64_t should = past ? refusal(MATTER_IDL_TEXT_TOO_LONG, limit) : 0;
            check(&shown, counted(state, &shown, matter_idl_read(text, limit + past, catalogue.bytes, 16)), should, &catalogue, 0);
            uint64_t result = matter_idl_survey(text, limit + past, catalogue.bytes, 16, report.bytes, 8);
            check(&shown, counted(state, &shown, result), should, &catalogue, 0);
            check(&shown, result, should, &report, 8);
        }
    free(blanks);
}

static void print_counts(const struct state *state, uint64_t texts) {
    uint64_t refused = state->calls - state->accepted;
    printf("guard: %" PRIu64 " calls on %" PRIu64 " texts and parts, %" PRIu64 " accepted, %" PRIu64 " refused (", state->calls, texts, state->accepted, refused);
    for (unsigned i = 1; i <= 10; i++)
        printf("%sby %u: %" PRIu64, i > 1 ? ", " : "", i, state->refused[i]);
    printf("), %" PRIu64 " annotations' values unescaped; no byte outside, and all as promised\n", state->values);
}

int main(int argc, char **argv) {
    static struct state state = {.random = 0x9e3779b97f4a7c15};
    static struct text text;
    uint64_t count = argc == 2 ? strtoull(argv[1], NULL, 10) : 0;
    if (count == 0) {
        fputs("usage: guard COUNT\n", stderr);
        return 2;
    }
    signal(SIGSEGV, outside);
    signal(SIGBUS, outside);
    state.text = make_region(sizeof text.bytes);
    state.catalogue = make_region(MATTER_IDL_CATALOGUE_BYTES(sizeof text.bytes) + 64);
    state.report = make_region(MATTER_IDL_REPORT_BYTES(sizeof text.bytes) + 64);
    try_limit(&state);
    uint64_t texts = 0;
    for (; state.calls < count; texts++) {
        text_number = (sig_atomic_t)texts;
        make_text(&text, &state.random);
        try_filling(&state, &text, matter_idl_read, MATTER_IDL_CATALOGUE_TOO_SHORT);
        try_values(&state, &text);
        try_survey(&state, &text);
        make_part(&text, &state.random);
        try_filling(&state, &text, matter_idl_unescape, MATTER_IDL_OUTPUT_TOO_SHORT);
    }
    print_counts(&state, 2 * texts);
    return 0;
}
