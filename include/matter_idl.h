/*
 * The Matter IDL reader: texts into packed records. docs/FORMAT.md describes results, catalogue and report in full.
 *
 * What a caller owes:
 *  - Each pointer leads to as many bytes as the length beside it says, those of the text readable, those of the other
 *    buffers writable. A pointer whose length is 0 is never followed.
 *  - The buffers of one call don't overlap. A call whose buffers overlap may never return.
 *  - Nobody writes to a buffer of a call while it runs: no second thread, no other process through a shared mapping. A text
 *    that changes during a call can make the call write outside the catalogue.
 *  - The calling thread has as much stack left as the entry takes, see MATTER_IDL_READ_STACK and those after it.
 * Nothing else. No call keeps a pointer, allocates, or has any state; calls may run at the same time on buffers of their own.
 *
 * What a client writes by the names below survives a change of the catalogue's layout (MATTER_IDL_FORMAT): it is compiled
 * anew and is right again. So take records apart by the functions here and not by shifts and offsets, and pass over records
 * of kinds that you don't use, wherever they are: a format may have kinds that an earlier one has not.
 *
 * For C99 and later, and for C++11 and later.
 */
#ifndef MATTER_IDL_H
#define MATTER_IDL_H

#include <stddef.h>
#include <stdint.h>

#ifdef __cplusplus
#define MATTER_IDL_CAST(type, value) static_cast<type>(value)
extern "C" {
#else
#define MATTER_IDL_CAST(type, value) ((type)(value))
#endif

/* The version of this header and of the library that it comes with. */
#define MATTER_IDL_VERSION "0.2.0"
#define MATTER_IDL_VERSION_MAJOR 0
#define MATTER_IDL_VERSION_MINOR 2
#define MATTER_IDL_VERSION_PATCH 0

/* The layout of catalogue and report. This header reads catalogues of this format, and those of format 1 as they are: they
   have no annotations, and all else is the same. A header of format 1 does not read catalogues of this format. */
#define MATTER_IDL_FORMAT 2

/* The longest text, in bytes. A longer one is refused by MATTER_IDL_TEXT_TOO_LONG. */
#define MATTER_IDL_TEXT_LIMIT 1048575

/* Bytes of catalogue that are always enough for n bytes of text, whether read or surveyed: no text takes more words than it
   has bytes, which is proved (reading_enough, survey_catalogue_enough). It is never 0, so that malloc gives a pointer. */
#define MATTER_IDL_CATALOGUE_BYTES(n) (MATTER_IDL_CAST(size_t, 8) * MATTER_IDL_CAST(size_t, n) + 8)

/* Bytes of report that are always enough for n bytes of text, which is proved (survey_report_enough). */
#define MATTER_IDL_REPORT_BYTES_ENOUGH(n) (MATTER_IDL_CAST(size_t, 4) * MATTER_IDL_CAST(size_t, n) + 8)

/* Bytes of report that a survey needs for a number of sections (see matter_idl_sections), no more and no less. */
#define MATTER_IDL_REPORT_BYTES(sections) (MATTER_IDL_CAST(size_t, 8) * MATTER_IDL_CAST(size_t, sections))

/* Bytes of stack with which a thread can call each entry: what the entry takes, what glibc takes for the thread and for the
   first call of memset, and at least 4 KB for the caller (tests/c/stack.c runs each on a thread of that size). Thread-local
   variables and signal handlers come on top. */
#define MATTER_IDL_READ_STACK 77824
#define MATTER_IDL_SURVEY_STACK 143360
#define MATTER_IDL_UNESCAPE_STACK 16384

/*
 * Reads a text and writes the records of its declarations to the catalogue.
 * Returns acceptance with the bytes written, or a refusal by 1 to 7. See matter_idl_number and matter_idl_value.
 * A refusal leaves the catalogue as it was; acceptance leaves the bytes after those written as they were.
 */
uint64_t matter_idl_read(const uint8_t *text, size_t text_length, uint8_t *catalogue, size_t catalogue_length);

/*
 * Cuts a text into sections, reads each as if it were the whole text, writes the records of the accepted ones to the
 * catalogue, with offsets of the whole text, and a word about every section to the report. So a fault in one section costs
 * no other one.
 * Returns acceptance with the bytes written to the catalogue, or a refusal by 1, 8 or 7, tested in this order. By what
 * number a section is refused, 2 to 6, is in its report entry.
 * A refusal leaves both buffers as they were; acceptance leaves the bytes after those written as they were.
 */
uint64_t matter_idl_survey(const uint8_t *text, size_t text_length, uint8_t *catalogue, size_t catalogue_length,
                           uint8_t *report, size_t report_length);

/*
 * Turns the bytes between the quotes of a default string (matter_idl_default_string) or of an annotation's value
 * (matter_idl_annotation_value) into those that they mean. An output as long as the part is always enough.
 * Returns acceptance with the bytes written, or a refusal by 9 or 10, tested in this order. A part of 2^56 bytes or more,
 * which no machine can lend, is refused by 1 with 2^56 - 1. The value of an annotation that reading or the survey hands out
 * is never refused by 9.
 * A refusal leaves the output as it was; acceptance leaves the bytes after those written as they were.
 */
uint64_t matter_idl_unescape(const uint8_t *part, size_t part_length, uint8_t *output, size_t output_length);

/* Gives MATTER_IDL_FORMAT. A library of another format has no function of this name, so a program that is compiled with this
   header does not link with it. `used` keeps the reference from the compiler, `retain` from `ld --gc-sections`.
   A program that calls no entry, as one that only reads stored catalogues, defines MATTER_IDL_NO_LIBRARY first and needs no
   library. */
uint64_t matter_idl_format_2(void);
#if defined __GNUC__ && !defined MATTER_IDL_NO_LIBRARY
#ifdef __has_attribute
#if __has_attribute(retain)
__attribute__((retain))
#endif
#endif
__attribute__((used)) static uint64_t (*const matter_idl_needs_format)(void) = matter_idl_format_2;
#endif

/* The number of a result. */
enum matter_idl_refusal {
    MATTER_IDL_ACCEPTED = 0,            /* value: the bytes written */
    MATTER_IDL_TEXT_TOO_LONG = 1,       /* value: MATTER_IDL_TEXT_LIMIT, of unescaping 2^56 - 1 */
    MATTER_IDL_NOT_UTF8 = 2,            /* value: offset of the first ill-formed sequence */
    MATTER_IDL_NO_ITEM = 3,             /* value: the furthest offset at which a try for a declaration failed */
    MATTER_IDL_NUMBER_TOO_LARGE = 4,    /* an integer above 2^64 - 1; value: its offset */
    MATTER_IDL_ESCAPED_RETURN = 5,      /* \r in a default string; value: offset of the backslash */
    MATTER_IDL_ACCESS_NOT_LOWER = 6,    /* `read` or `write` of an attribute's access list; value: offset of the word */
    MATTER_IDL_CATALOGUE_TOO_SHORT = 7, /* value: the bytes needed */
    MATTER_IDL_REPORT_TOO_SHORT = 8,    /* value: the bytes needed */
    MATTER_IDL_BAD_ESCAPE = 9,          /* a bare quote or an unknown escape; value: its offset in the part */
    MATTER_IDL_OUTPUT_TOO_SHORT = 10    /* value: the bytes needed */
};

/* The kind of a record. */
enum matter_idl_kind {
    MATTER_IDL_CLUSTER = 1,
    MATTER_IDL_ENUM = 2,
    MATTER_IDL_BITMAP = 3,
    MATTER_IDL_ENTRY = 4, /* of an enum or a bitmap */
    MATTER_IDL_STRUCT = 5,
    MATTER_IDL_FIELD = 6, /* of a struct or an event, and the one that follows an attribute */
    MATTER_IDL_ATTRIBUTE = 7,
    MATTER_IDL_COMMAND = 8,
    MATTER_IDL_EVENT = 9,
    MATTER_IDL_ENDPOINT = 10,
    MATTER_IDL_DEVICE_TYPE = 11,
    MATTER_IDL_BINDING = 12,
    MATTER_IDL_INSTANTIATION = 13, /* of a cluster, in an endpoint */
    MATTER_IDL_ATTRIBUTE_INSTANCE = 14,
    MATTER_IDL_COMMAND_INSTANCE = 15,
    MATTER_IDL_EVENT_INSTANCE = 16,
    MATTER_IDL_ANNOTATION = 17 /* of the entry that it follows; its name is the key */
};

/* The highest kind: an array over the kinds has one element more. */
#define MATTER_IDL_KINDS 17

enum matter_idl_place { MATTER_IDL_IN_PARENT = 0, MATTER_IDL_GLOBAL = 1, MATTER_IDL_DROPPED = 2 };

enum matter_idl_maturity {
    MATTER_IDL_STABLE = 0,
    MATTER_IDL_PROVISIONAL = 1,
    MATTER_IDL_INTERNAL = 2,
    MATTER_IDL_DEPRECATED = 3
};

/* From the lowest to the highest. */
enum matter_idl_privilege {
    MATTER_IDL_VIEW = 0,
    MATTER_IDL_OPERATE = 1,
    MATTER_IDL_MANAGE = 2,
    MATTER_IDL_ADMINISTER = 3
};

enum matter_idl_struct_type {
    MATTER_IDL_STRUCT_REGULAR = 0,
    MATTER_IDL_STRUCT_REQUEST = 1,
    MATTER_IDL_STRUCT_RESPONSE = 2,
    MATTER_IDL_STRUCT_SHARED = 3
};

enum matter_idl_priority { MATTER_IDL_CRITICAL = 0, MATTER_IDL_INFO = 1, MATTER_IDL_DEBUG = 2 };

enum matter_idl_handling { MATTER_IDL_RAM = 0, MATTER_IDL_CALLBACK = 1, MATTER_IDL_PERSIST = 2 };

/* What default an attribute instance has. */
enum matter_idl_default {
    MATTER_IDL_DEFAULT_NONE = 0,
    MATTER_IDL_DEFAULT_NUMBER = 1,
    MATTER_IDL_DEFAULT_SIGNED = 2,
    MATTER_IDL_DEFAULT_TRUTH = 3,
    MATTER_IDL_DEFAULT_STRING = 4
};

/* Bytes of the text. A span that is absent has offset 0 and length 0. */
struct matter_idl_span {
    size_t offset;
    size_t length;
};

/* A result's parts. */
static inline unsigned matter_idl_number(uint64_t result) {
    return MATTER_IDL_CAST(unsigned, result >> 56);
}
static inline uint64_t matter_idl_value(uint64_t result) {
    return result & UINT64_C(0xffffffffffffff);
}

/* A refusal's number in words. */
static inline const char *matter_idl_message(unsigned number) {
    switch (number) {
    case MATTER_IDL_ACCEPTED: return "accepted";
    case MATTER_IDL_TEXT_TOO_LONG: return "the text is longer than 1,048,575 bytes";
    case MATTER_IDL_NOT_UTF8: return "the bytes that start here are not UTF-8";
    case MATTER_IDL_NO_ITEM: return "nothing that is allowed here can be read";
    case MATTER_IDL_NUMBER_TOO_LARGE: return "this number is larger than 18446744073709551615 (2^64 - 1)";
    case MATTER_IDL_ESCAPED_RETURN: return "a default string can't have the escape \\r, only \\\", \\\\, \\n and \\t";
    case MATTER_IDL_ACCESS_NOT_LOWER: return "in an attribute's access list `read` and `write` must be in lower case";
    case MATTER_IDL_CATALOGUE_TOO_SHORT: return "the catalogue is too short";
    case MATTER_IDL_REPORT_TOO_SHORT: return "the report is too short";
    case MATTER_IDL_BAD_ESCAPE: return "a quote that is not escaped, or an unknown escape";
    case MATTER_IDL_OUTPUT_TOO_SHORT: return "the output is too short";
    default: return "no known refusal";
    }
}

/* The word whose first byte is bytes[0]: eight bytes, the most significant first. */
static inline uint64_t matter_idl_word(const uint8_t *bytes) {
    uint64_t word = 0;
    int i;
    for (i = 0; i < 8; i++)
        word = word << 8 | bytes[i];
    return word;
}

/* The kind of a record. */
static inline unsigned matter_idl_kind_of(const uint8_t *record) {
    return record[0];
}

/* How many bytes a record of a kind takes; 0 if there is no such kind. */
static inline size_t matter_idl_record_bytes(unsigned kind) {
    static const uint8_t words[MATTER_IDL_KINDS + 1] = {0, 4, 3, 3, 2, 3, 4, 2, 5, 3, 2, 3, 1, 1, 2, 1, 1, 2};
    return kind <= MATTER_IDL_KINDS ? MATTER_IDL_CAST(size_t, 8) * words[kind] : 0;
}

/*
 * The record at an offset of a catalogue of so many bytes, or NULL where no whole record of a known kind is. All records of
 * a catalogue, also of a damaged one:
 *
 *     for (at = 0; (record = matter_idl_record_at(catalogue, length, at)) != NULL; at = matter_idl_next(catalogue, length, at))
 *
 * After it at is the length or, if the catalogue is damaged, the offset of what is no record.
 */
static inline const uint8_t *matter_idl_record_at(const uint8_t *catalogue, size_t length, size_t at) {
    size_t bytes = at < length ? matter_idl_record_bytes(catalogue[at]) : 0;
    return bytes != 0 && bytes <= length - at ? catalogue + at : NULL;
}

/* The offset after the record at an offset; the length where no record is, so that every loop ends. */
static inline size_t matter_idl_next(const uint8_t *catalogue, size_t length, size_t at) {
    const uint8_t *record = matter_idl_record_at(catalogue, length, at);
    return record != NULL ? at + matter_idl_record_bytes(record[0]) : length;
}

/* The field of the attribute at an offset, with its name, type and code; NULL where no attribute is, or one without a field,
   which only a damaged catalogue has. */
static inline const uint8_t *matter_idl_attribute_field(const uint8_t *catalogue, size_t length, size_t at) {
    const uint8_t *attribute = matter_idl_record_at(catalogue, length, at);
    const uint8_t *field = matter_idl_record_at(catalogue, length, matter_idl_next(catalogue, length, at));
    return attribute != NULL && attribute[0] == MATTER_IDL_ATTRIBUTE && field != NULL && field[0] == MATTER_IDL_FIELD ? field
                                                                                                                      : NULL;
}

/* For the functions below: bits of a record's first word; a flag or a number in the flags, and a further word, from 1, of a
   record that has one of the kinds, else 0; a word as a span. Kinds are told by a set of bits. */
#define MATTER_IDL_ONE(kind) (UINT32_C(1) << (kind))
static inline unsigned matter_idl_head(const uint8_t *record, unsigned below, unsigned mask) {
    return MATTER_IDL_CAST(unsigned, matter_idl_word(record) >> below) & mask;
}
static inline int matter_idl_among(const uint8_t *record, uint32_t kinds) {
    return record[0] <= MATTER_IDL_KINDS && (kinds >> record[0] & 1) != 0;
}
static inline unsigned matter_idl_flags(const uint8_t *record, uint32_t kinds, unsigned below, unsigned mask) {
    return matter_idl_among(record, kinds) ? matter_idl_head(record, 44 + below, mask) : 0;
}
static inline uint64_t matter_idl_further(const uint8_t *record, uint32_t kinds, unsigned k) {
    return matter_idl_among(record, kinds) ? matter_idl_word(record + 8 * k) : 0;
}
static inline struct matter_idl_span matter_idl_as_span(uint64_t word) {
    struct matter_idl_span span;
    span.offset = MATTER_IDL_CAST(size_t, word >> 44);
    span.length = MATTER_IDL_CAST(size_t, word >> 24) & 0xfffff;
    return span;
}

/*
 * The fields of a record, by name. Of a record whose kind has no such field each gives 0 or an absent span. Those that give
 * one of an enum's values have the enum's name and `_of`.
 */

/* Of every record. */
static inline unsigned matter_idl_place_of(const uint8_t *record) {
    return matter_idl_head(record, 54, 3);
}
static inline unsigned matter_idl_maturity_of(const uint8_t *record) {
    return matter_idl_head(record, 52, 3);
}
static inline struct matter_idl_span matter_idl_name(const uint8_t *record) {
    return matter_idl_as_span(matter_idl_word(record) << 20);
}

/* The doc comment of a cluster, an enum, a bitmap, a struct, an attribute, a command or an event. One may be empty. */
#define MATTER_IDL_DOCUMENTED                                                                                                \
    (MATTER_IDL_ONE(MATTER_IDL_CLUSTER) | MATTER_IDL_ONE(MATTER_IDL_ENUM) | MATTER_IDL_ONE(MATTER_IDL_BITMAP) |              \
     MATTER_IDL_ONE(MATTER_IDL_STRUCT) | MATTER_IDL_ONE(MATTER_IDL_ATTRIBUTE) | MATTER_IDL_ONE(MATTER_IDL_COMMAND) |         \
     MATTER_IDL_ONE(MATTER_IDL_EVENT))
static inline int matter_idl_has_doc(const uint8_t *record) {
    return matter_idl_among(record, MATTER_IDL_DOCUMENTED) && matter_idl_head(record, 51, 1) != 0;
}
static inline struct matter_idl_span matter_idl_doc(const uint8_t *record) {
    return matter_idl_as_span(matter_idl_further(record, MATTER_IDL_DOCUMENTED, 1));
}

/* The code of a cluster, an entry, a response struct, a field, a command, an event or a device type. An attribute's is that
   of its field. */
static inline uint64_t matter_idl_code(const uint8_t *record) {
    static const uint8_t words[MATTER_IDL_KINDS + 1] = {0, 2, 0, 0, 1, 2, 2, 0, 4, 2, 0, 1, 0, 0, 0, 0, 0, 0};
    unsigned k = record[0] <= MATTER_IDL_KINDS ? words[record[0]] : 0;
    return k != 0 ? matter_idl_word(record + 8 * k) : 0;
}

/* The last revision that is written in a cluster, 0 if none is. */
static inline uint64_t matter_idl_revision(const uint8_t *record) {
    return matter_idl_further(record, MATTER_IDL_ONE(MATTER_IDL_CLUSTER), 3);
}

/* An enum or a bitmap, and a struct. Any of the three may be shared. */
static inline struct matter_idl_span matter_idl_base_type(const uint8_t *record) {
    return matter_idl_as_span(
        matter_idl_further(record, MATTER_IDL_ONE(MATTER_IDL_ENUM) | MATTER_IDL_ONE(MATTER_IDL_BITMAP), 2));
}
static inline unsigned matter_idl_struct_type_of(const uint8_t *record) {
    return matter_idl_flags(record, MATTER_IDL_ONE(MATTER_IDL_STRUCT), 5, 3);
}
static inline int matter_idl_is_fabric_scoped(const uint8_t *record) {
    return matter_idl_flags(record, MATTER_IDL_ONE(MATTER_IDL_STRUCT), 4, 1) != 0;
}
static inline int matter_idl_is_shared(const uint8_t *record) {
    return matter_idl_struct_type_of(record) == MATTER_IDL_STRUCT_SHARED ||
           matter_idl_flags(record, MATTER_IDL_ONE(MATTER_IDL_ENUM) | MATTER_IDL_ONE(MATTER_IDL_BITMAP), 6, 1) != 0;
}

/* An annotation's value: the bytes between its quotes, for matter_idl_unescape. One may be empty; its offset is then that of
   the closing quote. */
static inline struct matter_idl_span matter_idl_annotation_value(const uint8_t *record) {
    return matter_idl_as_span(matter_idl_further(record, MATTER_IDL_ONE(MATTER_IDL_ANNOTATION), 1));
}

/* A field. */
static inline struct matter_idl_span matter_idl_type(const uint8_t *record) {
    return matter_idl_as_span(matter_idl_further(record, MATTER_IDL_ONE(MATTER_IDL_FIELD), 1));
}
static inline int matter_idl_is_list(const uint8_t *record) {
    return matter_idl_flags(record, MATTER_IDL_ONE(MATTER_IDL_FIELD), 6, 1) != 0;
}
static inline int matter_idl_has_maximum(const uint8_t *record) {
    return matter_idl_flags(record, MATTER_IDL_ONE(MATTER_IDL_FIELD), 5, 1) != 0;
}
static inline uint64_t matter_idl_maximum(const uint8_t *record) {
    return matter_idl_further(record, MATTER_IDL_ONE(MATTER_IDL_FIELD), 3);
}
static inline int matter_idl_is_optional(const uint8_t *record) {
    return matter_idl_flags(record, MATTER_IDL_ONE(MATTER_IDL_FIELD), 4, 1) != 0;
}
static inline int matter_idl_is_nullable(const uint8_t *record) {
    return matter_idl_flags(record, MATTER_IDL_ONE(MATTER_IDL_FIELD), 3, 1) != 0;
}

/* A field or an event. */
static inline int matter_idl_is_fabric_sensitive(const uint8_t *record) {
    return matter_idl_flags(record, MATTER_IDL_ONE(MATTER_IDL_FIELD), 2, 1) != 0 ||
           matter_idl_flags(record, MATTER_IDL_ONE(MATTER_IDL_EVENT), 4, 1) != 0;
}

/* An attribute. One that is readonly has a write privilege all the same, which is to be ignored, and one that is writeonly a
   read privilege. */
static inline int matter_idl_is_readonly(const uint8_t *record) {
    return matter_idl_flags(record, MATTER_IDL_ONE(MATTER_IDL_ATTRIBUTE), 6, 1) != 0;
}
static inline int matter_idl_is_writeonly(const uint8_t *record) {
    return matter_idl_flags(record, MATTER_IDL_ONE(MATTER_IDL_ATTRIBUTE), 5, 1) != 0;
}
static inline int matter_idl_is_nosubscribe(const uint8_t *record) {
    return matter_idl_flags(record, MATTER_IDL_ONE(MATTER_IDL_ATTRIBUTE), 4, 1) != 0;
}
static inline int matter_idl_is_timedwrite(const uint8_t *record) {
    return matter_idl_flags(record, MATTER_IDL_ONE(MATTER_IDL_ATTRIBUTE), 3, 1) != 0;
}

/* The privilege to read an attribute or an event, to write an attribute, to invoke a command. */
static inline unsigned matter_idl_read_privilege(const uint8_t *record) {
    return matter_idl_among(record, MATTER_IDL_ONE(MATTER_IDL_ATTRIBUTE) | MATTER_IDL_ONE(MATTER_IDL_EVENT))
               ? matter_idl_head(record, 2, 3)
               : 0;
}
static inline unsigned matter_idl_write_privilege(const uint8_t *record) {
    return matter_idl_among(record, MATTER_IDL_ONE(MATTER_IDL_ATTRIBUTE)) ? matter_idl_head(record, 0, 3) : 0;
}
static inline unsigned matter_idl_invoke_privilege(const uint8_t *record) {
    return matter_idl_among(record, MATTER_IDL_ONE(MATTER_IDL_COMMAND)) ? matter_idl_head(record, 2, 3) : 0;
}

/* A command. Its input is absent if it has none. */
static inline int matter_idl_is_timed(const uint8_t *record) {
    return matter_idl_flags(record, MATTER_IDL_ONE(MATTER_IDL_COMMAND), 6, 1) != 0;
}
static inline int matter_idl_is_fabric(const uint8_t *record) {
    return matter_idl_flags(record, MATTER_IDL_ONE(MATTER_IDL_COMMAND), 5, 1) != 0;
}
static inline int matter_idl_has_input(const uint8_t *record) {
    return matter_idl_flags(record, MATTER_IDL_ONE(MATTER_IDL_COMMAND), 4, 1) != 0;
}
static inline struct matter_idl_span matter_idl_input(const uint8_t *record) {
    return matter_idl_as_span(matter_idl_further(record, MATTER_IDL_ONE(MATTER_IDL_COMMAND), 2));
}
static inline struct matter_idl_span matter_idl_output(const uint8_t *record) {
    return matter_idl_as_span(matter_idl_further(record, MATTER_IDL_ONE(MATTER_IDL_COMMAND), 3));
}

/* An event, an endpoint, a device type. */
static inline unsigned matter_idl_priority_of(const uint8_t *record) {
    return matter_idl_flags(record, MATTER_IDL_ONE(MATTER_IDL_EVENT), 5, 3);
}
static inline uint64_t matter_idl_endpoint_id(const uint8_t *record) {
    return matter_idl_further(record, MATTER_IDL_ONE(MATTER_IDL_ENDPOINT), 1);
}
static inline uint64_t matter_idl_version(const uint8_t *record) {
    return matter_idl_further(record, MATTER_IDL_ONE(MATTER_IDL_DEVICE_TYPE), 2);
}

/* An attribute instance: its handling, what default it has, and the default. */
static inline unsigned matter_idl_handling_of(const uint8_t *record) {
    return matter_idl_flags(record, MATTER_IDL_ONE(MATTER_IDL_ATTRIBUTE_INSTANCE), 5, 3);
}
static inline unsigned matter_idl_default_of(const uint8_t *record) {
    return matter_idl_flags(record, MATTER_IDL_ONE(MATTER_IDL_ATTRIBUTE_INSTANCE), 2, 7);
}
/* The default's word of a record that has this default, else 0. */
static inline uint64_t matter_idl_default_word(const uint8_t *record, unsigned which) {
    return matter_idl_default_of(record) == which
               ? matter_idl_further(record, MATTER_IDL_ONE(MATTER_IDL_ATTRIBUTE_INSTANCE), 1)
               : 0;
}
static inline uint64_t matter_idl_default_number(const uint8_t *record) {
    return matter_idl_default_word(record, MATTER_IDL_DEFAULT_NUMBER);
}
static inline int64_t matter_idl_default_signed(const uint8_t *record) {
    uint64_t word = matter_idl_default_word(record, MATTER_IDL_DEFAULT_SIGNED);
    return word >> 63 ? -MATTER_IDL_CAST(int64_t, ~word) - 1 : MATTER_IDL_CAST(int64_t, word);
}
static inline int matter_idl_default_truth(const uint8_t *record) {
    return matter_idl_default_word(record, MATTER_IDL_DEFAULT_TRUTH) != 0;
}
static inline struct matter_idl_span matter_idl_default_string(const uint8_t *record) {
    return matter_idl_as_span(matter_idl_default_word(record, MATTER_IDL_DEFAULT_STRING));
}

/* How many sections a text has: one more than it has bytes `}` right after a line feed. */
static inline size_t matter_idl_sections(const uint8_t *text, size_t text_length) {
    size_t sections = 1, i;
    for (i = 1; i < text_length; i++)
        if (text[i] == 125 && text[i - 1] == 10)
            sections++;
    return sections;
}

/* The parts of section i's entry in a report, from 0: where the section starts, its length, by what number it is refused (0:
   it is accepted), and where. */
static inline uint64_t matter_idl_section_word(const uint8_t *report, size_t i) {
    return matter_idl_word(report + MATTER_IDL_REPORT_BYTES(i));
}
static inline size_t matter_idl_section_start(const uint8_t *report, size_t i) {
    return matter_idl_as_span(matter_idl_section_word(report, i)).offset;
}
static inline size_t matter_idl_section_length(const uint8_t *report, size_t i) {
    return matter_idl_as_span(matter_idl_section_word(report, i)).length;
}
static inline unsigned matter_idl_section_number(const uint8_t *report, size_t i) {
    return MATTER_IDL_CAST(unsigned, matter_idl_section_word(report, i) >> 20) & 0xf;
}
static inline size_t matter_idl_section_place(const uint8_t *report, size_t i) {
    return MATTER_IDL_CAST(size_t, matter_idl_section_word(report, i)) & 0xfffff;
}

#ifdef __cplusplus
}
#endif

#endif
