/* The header's functions and numbers on known words: each bit and each word of a record alone, damaged catalogues, reports. */
#include "describe.h"

static void expect(uint64_t is, uint64_t should, const char *what) {
    if (is != should) {
        printf("%s: %" PRIu64 ", not %" PRIu64 "\n", what, is, should);
        failed = 1;
    }
}

/* In C++ each enum's name is a type, and no function has it. */
#ifdef __cplusplus
#define ENUM(name) name
#define STRUCT(name) name
#else
#define ENUM(name) enum name
#define STRUCT(name) struct name
#endif
static void types(void) {
    ENUM(matter_idl_refusal) refusal = MATTER_IDL_OUTPUT_TOO_SHORT;
    ENUM(matter_idl_kind) kind = MATTER_IDL_ANNOTATION;
    ENUM(matter_idl_place) place = MATTER_IDL_DROPPED;
    ENUM(matter_idl_maturity) maturity = MATTER_IDL_DEPRECATED;
    ENUM(matter_idl_privilege) privilege = MATTER_IDL_ADMINISTER;
    ENUM(matter_idl_struct_type) type = MATTER_IDL_STRUCT_SHARED;
    ENUM(matter_idl_priority) priority = MATTER_IDL_DEBUG;
    ENUM(matter_idl_handling) handling = MATTER_IDL_PERSIST;
    ENUM(matter_idl_default) value = MATTER_IDL_DEFAULT_STRING;
    STRUCT(matter_idl_span) span = {1, 2};
    expect(refusal, 10, "the last refusal");
    expect(kind, MATTER_IDL_KINDS, "the last kind");
    expect(place, 2, "the last place");
    expect(maturity, 3, "the last maturity");
    expect(privilege, 3, "the last privilege");
    expect(type, 3, "the last type of a struct");
    expect(priority, 2, "the last priority");
    expect(handling, 2, "the last handling");
    expect(value, 4, "the last default");
    expect(span.offset + span.length, 3, "a span");
}

static void results(void) {
    uint64_t refused = (UINT64_C(7) << 56) + 112000;
    expect(matter_idl_number(refused), MATTER_IDL_CATALOGUE_TOO_SHORT, "number");
    expect(matter_idl_value(refused), 112000, "value");
    expect(matter_idl_number(40), MATTER_IDL_ACCEPTED, "number of an acceptance");
    expect(matter_idl_value(UINT64_C(0xffffffffffffffff)), UINT64_C(0xffffffffffffff), "the largest value");
}

/* Each number up to the last has a message that no other has; all after it share one. */
static void messages(void) {
    const unsigned end = MATTER_IDL_OUTPUT_TOO_SHORT + 2;
    unsigned i;
    for (i = 0; i < end * end; i++)
        expect(strcmp(matter_idl_message(i / end), matter_idl_message(i % end)) == 0, i / end == i % end, "equal messages");
    expect_line(matter_idl_message(255), matter_idl_message(end - 1));
}

static void versions(void) {
    char version[32];
    snprintf(version, sizeof version, "%d.%d.%d", MATTER_IDL_VERSION_MAJOR, MATTER_IDL_VERSION_MINOR, MATTER_IDL_VERSION_PATCH);
    expect_line(MATTER_IDL_VERSION, version);
    expect(matter_idl_format_2(), MATTER_IDL_FORMAT, "format");
}

/* A record of a kind that is 0 but for one word, to which these bits are added, at a guard page; its words say this. */
static void expect_record(unsigned kind, size_t word, uint64_t bits, const char *should) {
    uint8_t record[40] = {0};
    struct line line;
    size_t i, length = matter_idl_record_bytes(kind);
    if (length == 0)
        length = 8;
    for (i = 0; i < 8; i++)
        record[8 * word + i] = MATTER_IDL_CAST(uint8_t, bits >> (56 - 8 * i) & 0xff);
    record[0] = MATTER_IDL_CAST(uint8_t, record[0] | kind);
    describe(&line, NULL, at_guard(record, length));
    expect_line(line.bytes, should);
}

static void first_words(void) {
    static const uint8_t bytes[8] = {0x02, 0x40, 0x00, 0x00, 0x05, 0x00, 0x00, 0x10};
    expect(matter_idl_word(bytes), UINT64_C(0x0240000005000010), "word");
    expect_record(MATTER_IDL_ENUM, 0, UINT64_C(0x0040000005000010), "enum global name[5+1]");
    /* Every field at its largest alone: no neighbour's bit is taken. */
    expect_record(MATTER_IDL_BINDING, 0, UINT64_C(3) << 54, "binding place=3");
    expect_record(MATTER_IDL_BINDING, 0, UINT64_C(3) << 52, "binding deprecated");
    expect_record(MATTER_IDL_CLUSTER, 0, UINT64_C(1) << 51, "cluster has_doc");
    expect_record(MATTER_IDL_BINDING, 0, UINT64_C(1) << 51, "binding");
    expect_record(MATTER_IDL_BINDING, 0, UINT64_C(0xfffff) << 24, "binding name[1048575+0]");
    expect_record(MATTER_IDL_BINDING, 0, UINT64_C(0xfffff) << 4, "binding name[0+1048575]");
    expect_record(MATTER_IDL_ATTRIBUTE, 0, 12, "attribute read=administer");
    expect_record(MATTER_IDL_ATTRIBUTE, 0, 3, "attribute write=administer");
    expect_record(MATTER_IDL_STRUCT, 0, UINT64_C(0x60) << 44, "struct shared shared_struct");
    expect_record(MATTER_IDL_EVENT, 0, UINT64_C(0x60) << 44, "event priority=3");
    expect_record(MATTER_IDL_ATTRIBUTE_INSTANCE, 0, UINT64_C(0x60) << 44, "attribute_instance handling=3");
    expect_record(MATTER_IDL_ATTRIBUTE_INSTANCE, 0, UINT64_C(0x1c) << 44, "attribute_instance default=7");
}

/* What each bit of the flags and then of the privileges says alone, from the top, by kind. */
static void single_bits(void) {
    static const char *const says[MATTER_IDL_KINDS + 1][11] = {
        {"", "", "", "", "", "", "", "", "", "", ""},
        {"", "", "", "", "", "", "", "", "", "", ""},
        {" shared", "", "", "", "", "", "", "", "", "", ""},
        {" shared", "", "", "", "", "", "", "", "", "", ""},
        {"", "", "", "", "", "", "", "", "", "", ""},
        {" response", " request", " fabric_scoped", "", "", "", "", "", "", "", ""},
        {" list", " has_maximum", " optional", " nullable", " fabric_sensitive", "", "", "", "", "", ""},
        {" readonly", " writeonly", " nosubscribe", " timedwrite", "", "", "", " read=manage", " read=operate", " write=manage", " write=operate"},
        {" timed", " fabric", " has_input", "", "", "", "", " invoke=manage", " invoke=operate", "", ""},
        {" debug", " info", " fabric_sensitive", "", "", "", "", " read=manage", " read=operate", "", ""},
        {"", "", "", "", "", "", "", "", "", "", ""},
        {"", "", "", "", "", "", "", "", "", "", ""},
        {"", "", "", "", "", "", "", "", "", "", ""},
        {"", "", "", "", "", "", "", "", "", "", ""},
        {" persist", " callback", " string", " signed=0", " number=0", "", "", "", "", "", ""},
        {"", "", "", "", "", "", "", "", "", "", ""},
        {"", "", "", "", "", "", "", "", "", "", ""},
        {"", "", "", "", "", "", "", "", "", "", ""},
    };
    unsigned i;
    for (i = 0; i < (MATTER_IDL_KINDS + 1) * 11; i++) {
        unsigned kind = i / 11, bit = i % 11;
        struct line kind_only, should;
        uint8_t record[40] = {0};
        record[0] = MATTER_IDL_CAST(uint8_t, kind);
        describe(&kind_only, NULL, record);
        should.length = 0;
        put(&should, "%s%s", kind_only.bytes, says[kind][bit]);
        expect_record(kind, 0, UINT64_C(1) << (bit < 7 ? 50 - bit : 10 - bit), should.bytes);
    }
}

/* Each further word of each kind with all its bits. */
static void further_words(void) {
    static const uint64_t all = UINT64_C(0xffffffffffffffff);
#define SPAN "[1048575+1048575]"
#define NUMBER "=18446744073709551615"
    expect_record(MATTER_IDL_CLUSTER, 1, all, "cluster doc" SPAN);
    expect_record(MATTER_IDL_CLUSTER, 2, all, "cluster code" NUMBER);
    expect_record(MATTER_IDL_CLUSTER, 3, all, "cluster revision" NUMBER);
    expect_record(MATTER_IDL_ENUM, 1, all, "enum doc" SPAN);
    expect_record(MATTER_IDL_ENUM, 2, all, "enum base_type" SPAN);
    expect_record(MATTER_IDL_BITMAP, 1, all, "bitmap doc" SPAN);
    expect_record(MATTER_IDL_BITMAP, 2, all, "bitmap base_type" SPAN);
    expect_record(MATTER_IDL_ENTRY, 1, all, "entry code" NUMBER);
    expect_record(MATTER_IDL_STRUCT, 1, all, "struct doc" SPAN);
    expect_record(MATTER_IDL_STRUCT, 2, all, "struct code" NUMBER);
    expect_record(MATTER_IDL_FIELD, 1, all, "field type" SPAN);
    expect_record(MATTER_IDL_FIELD, 2, all, "field code" NUMBER);
    expect_record(MATTER_IDL_FIELD, 3, all, "field maximum" NUMBER);
    expect_record(MATTER_IDL_ATTRIBUTE, 1, all, "attribute doc" SPAN);
    expect_record(MATTER_IDL_COMMAND, 1, all, "command doc" SPAN);
    expect_record(MATTER_IDL_COMMAND, 2, all, "command input" SPAN);
    expect_record(MATTER_IDL_COMMAND, 3, all, "command output" SPAN);
    expect_record(MATTER_IDL_COMMAND, 4, all, "command code" NUMBER);
    expect_record(MATTER_IDL_EVENT, 1, all, "event doc" SPAN);
    expect_record(MATTER_IDL_EVENT, 2, all, "event code" NUMBER);
    expect_record(MATTER_IDL_ENDPOINT, 1, all, "endpoint id" NUMBER);
    expect_record(MATTER_IDL_DEVICE_TYPE, 1, all, "device_type code" NUMBER);
    expect_record(MATTER_IDL_DEVICE_TYPE, 2, all, "device_type version" NUMBER);
    expect_record(MATTER_IDL_ANNOTATION, 1, all, "annotation value" SPAN);
    /* without a default nothing is one */
    expect_record(MATTER_IDL_ATTRIBUTE_INSTANCE, 1, all, "attribute_instance");
}

/* A default is taken for what it is and for nothing else. */
static void defaults(void) {
    uint8_t record[16] = {MATTER_IDL_ATTRIBUTE_INSTANCE};
    unsigned which;
    memset(record + 8, 0xff, 8);
    for (which = 0; which < 8; which++) {
        struct matter_idl_span string = {0, 0};
        record[1] = MATTER_IDL_CAST(uint8_t, which >> 2);
        record[2] = MATTER_IDL_CAST(uint8_t, (which & 3) << 6);
        expect(matter_idl_default_of(record), which, "which default");
        expect(matter_idl_default_number(record), which == MATTER_IDL_DEFAULT_NUMBER ? UINT64_MAX : 0, "a number");
        expect(matter_idl_default_signed(record) == -1, which == MATTER_IDL_DEFAULT_SIGNED, "a signed number");
        expect(matter_idl_default_truth(record) == 1, which == MATTER_IDL_DEFAULT_TRUTH, "a truth value");
        string = matter_idl_default_string(record);
        expect(string.offset, which == MATTER_IDL_DEFAULT_STRING ? 1048575 : 0, "where a string is");
        expect(string.length, which == MATTER_IDL_DEFAULT_STRING ? 1048575 : 0, "a string's length");
    }
}

static void signed_numbers(void) {
    uint8_t record[16] = {MATTER_IDL_ATTRIBUTE_INSTANCE, 0, MATTER_IDL_DEFAULT_SIGNED << 6};
    record[8] = 0x80;
    expect(matter_idl_default_signed(record) == INT64_MIN, 1, "the lowest number");
    memset(record + 8, 0xff, 8);
    expect(matter_idl_default_signed(record) == -1, 1, "minus one");
    record[8] = 0x7f;
    expect(matter_idl_default_signed(record) == INT64_MAX, 1, "the highest number");
}

static void kinds(void) {
    static const uint8_t words[MATTER_IDL_KINDS + 1] = {0, 4, 3, 3, 2, 3, 4, 2, 5, 3, 2, 3, 1, 1, 2, 1, 1, 2};
    unsigned kind;
    for (kind = 0; kind <= MATTER_IDL_KINDS; kind++)
        expect(matter_idl_record_bytes(kind), MATTER_IDL_CAST(uint64_t, 8) * words[kind], "bytes of a kind");
}

/* Of a kind that there is not, no more than the first word can be told. */
static void unknown_kinds(void) {
    unsigned kind;
    expect_record(0, 0, UINT64_C(0x00ffffffffffffff), " place=3 deprecated name" SPAN);
    for (kind = MATTER_IDL_KINDS + 1; kind <= 255; kind++) {
        expect(matter_idl_record_bytes(kind), 0, "bytes of no kind");
        expect_record(kind, 0, UINT64_C(0x00ffffffffffffff), " place=3 deprecated name" SPAN);
    }
    expect(matter_idl_record_bytes(256 + MATTER_IDL_CLUSTER), 0, "bytes of a kind that is no byte");
}

/* The walk over some bytes that end at a guard page takes so many steps and ends at this offset. */
static void expect_walk(const uint8_t *bytes, size_t length, unsigned steps, size_t end) {
    const uint8_t *catalogue = at_guard(bytes, length), *record;
    size_t at;
    unsigned taken = 0;
    for (at = 0; (record = matter_idl_record_at(catalogue, length, at)) != NULL && taken < 100; at = matter_idl_next(catalogue, length, at)) {
        expect(record == catalogue + at, 1, "the record at an offset");
        taken++;
    }
    expect(taken, steps, "steps");
    expect(at, end, "where the walk ends");
    expect(matter_idl_next(catalogue, length, at), length, "the offset after no record");
    expect(matter_idl_attribute_field(catalogue, length, at) == NULL, 1, "the field of no record");
}

/* An entry, an annotation and a command, whole and cut off everywhere. */
static void cut_off(void) {
    uint8_t bytes[72] = {MATTER_IDL_ENTRY};
    unsigned length;
    bytes[16] = MATTER_IDL_ANNOTATION;
    bytes[32] = MATTER_IDL_COMMAND;
    expect_walk(NULL, 0, 0, 0);
    expect_walk(bytes, 72, 3, 72);
    for (length = 0; length < 72; length++) {
        unsigned whole = length < 48 ? length / 16 : 2;
        expect_walk(bytes, length, whole, 16 * MATTER_IDL_CAST(size_t, whole));
    }
}

static void damaged(void) {
    static const uint8_t none[] = {0, MATTER_IDL_KINDS + 1, 255};
    uint8_t bytes[64] = {MATTER_IDL_ENTRY};
    size_t i;
    for (i = 0; i < sizeof none; i++) {
        bytes[16] = none[i];
        expect_walk(bytes, 64, 1, 16);
        expect_walk(bytes + 16, 48, 0, 0);
    }
}

static void past_the_end(void) {
    static const uint8_t bytes[24] = {MATTER_IDL_BINDING, 0, 0, 0, 0, 0, 0, 0, MATTER_IDL_ENTRY};
    static const size_t past[] = {24, 25, 32, SIZE_MAX - 8, SIZE_MAX};
    const uint8_t *catalogue = at_guard(bytes, sizeof bytes);
    size_t i;
    for (i = 0; i < sizeof past / sizeof past[0]; i++) {
        expect(matter_idl_record_at(catalogue, sizeof bytes, past[i]) == NULL, 1, "no record past the end");
        expect(matter_idl_next(catalogue, sizeof bytes, past[i]), sizeof bytes, "the offset after one past the end");
        expect(matter_idl_attribute_field(catalogue, sizeof bytes, past[i]) == NULL, 1, "no field past the end");
    }
}

/* An attribute whose field is there, is another record, is cut off, is missing. */
static void fields(void) {
    uint8_t bytes[48] = {MATTER_IDL_ATTRIBUTE};
    bytes[16] = MATTER_IDL_FIELD;
    const uint8_t *catalogue = at_guard(bytes, 48);
    expect(matter_idl_attribute_field(catalogue, 48, 0) == catalogue + 16, 1, "the field of an attribute");
    expect(matter_idl_attribute_field(catalogue, 48, 16) == NULL, 1, "the field of a field");
    expect(matter_idl_attribute_field(at_guard(bytes, 47), 47, 0) == NULL, 1, "a field that is cut off");
    expect(matter_idl_attribute_field(at_guard(bytes, 16), 16, 0) == NULL, 1, "a field that is missing");
    expect_walk(bytes, 16, 1, 16);
    expect_walk(bytes, 47, 1, 16);
    bytes[16] = MATTER_IDL_ENTRY;
    expect(matter_idl_attribute_field(at_guard(bytes, 48), 48, 0) == NULL, 1, "an entry for a field");
    bytes[0] = MATTER_IDL_ENTRY;
    bytes[16] = MATTER_IDL_FIELD;
    expect(matter_idl_attribute_field(at_guard(bytes, 48), 48, 0) == NULL, 1, "the field after an entry");
}

static void reports(void) {
    static const uint8_t words[] = {0x00, 0x00, 0x00, 0x00, 0x0b, 0x30, 0x00, 0x07, 0x00, 0x00, 0xb0, 0x00, 0x0c, 0x00, 0x00, 0x00};
    const uint8_t *report = at_guard(words, sizeof words);
    expect(matter_idl_section_start(report, 0), 0, "section 0, start");
    expect(matter_idl_section_length(report, 0), 11, "section 0, length");
    expect(matter_idl_section_number(report, 0), MATTER_IDL_NO_ITEM, "section 0, number");
    expect(matter_idl_section_place(report, 0), 7, "section 0, place");
    expect(matter_idl_section_start(report, 1), 11, "section 1, start");
    expect(matter_idl_section_length(report, 1), 12, "section 1, length");
    expect(matter_idl_section_number(report, 1), MATTER_IDL_ACCEPTED, "section 1, number");
    expect(matter_idl_section_place(report, 1), 0, "section 1, place");
}

/* Every part of an entry at its largest alone: no neighbour's bit is taken. */
static void report_bits(void) {
    static const uint8_t words[] = {0xff, 0xff, 0xf0, 0, 0, 0, 0, 0, 0, 0, 0x0f, 0xff, 0xff, 0, 0, 0,
                                    0, 0, 0, 0, 0, 0xf0, 0, 0, 0, 0, 0, 0, 0, 0x0f, 0xff, 0xff};
    const uint8_t *report = at_guard(words, sizeof words);
    size_t i;
    for (i = 0; i < 4; i++) {
        expect(matter_idl_section_start(report, i), i == 0 ? 1048575 : 0, "start, largest");
        expect(matter_idl_section_length(report, i), i == 1 ? 1048575 : 0, "length, largest");
        expect(matter_idl_section_number(report, i), i == 2 ? 15 : 0, "number, largest");
        expect(matter_idl_section_place(report, i), i == 3 ? 1048575 : 0, "place, largest");
    }
}

static size_t sections_of(const char *text) {
    uint8_t bytes[64];
    memcpy(bytes, text, strlen(text));
    return matter_idl_sections(at_guard(bytes, strlen(text)), strlen(text));
}

static void sizes(void) {
    size_t n;
    expect(matter_idl_sections(NULL, 0), 1, "sections of the empty text");
    expect(sections_of("enum A:t{\n}\nenum B:t{\n}"), 3, "sections");
    expect(sections_of("}\r}\n"), 1, "sections without a cut");
    expect(sections_of("\n}"), 2, "a cut at the end");
    expect(MATTER_IDL_REPORT_BYTES(3), 24, "report bytes");
    expect(MATTER_IDL_CATALOGUE_BYTES(0) >= 8, 1, "catalogue bytes of the empty text");
    expect(MATTER_IDL_CATALOGUE_BYTES(MATTER_IDL_TEXT_LIMIT) >= MATTER_IDL_CAST(uint64_t, 8) * 1048575, 1, "catalogue bytes");
    for (n = 0; n < 100; n++)
        expect(MATTER_IDL_REPORT_BYTES_ENOUGH(n) >= MATTER_IDL_REPORT_BYTES(n / 2 + 1), 1, "report bytes that are enough");
}

int main(void) {
    types();
    results();
    messages();
    versions();
    first_words();
    single_bits();
    further_words();
    defaults();
    signed_numbers();
    kinds();
    unknown_kinds();
    cut_off();
    damaged();
    past_the_end();
    fields();
    reports();
    report_bits();
    sizes();
    printf("the header's functions: %s\n", failed ? "some answers differ" : "all as known");
    return failed;
}
