/* For the tests of the header: a record in words, by every accessor that there is, and buffers that end at a guard page. */
#ifndef DESCRIBE_H
#define DESCRIBE_H

#include "matter_idl.h"

#include <inttypes.h>
#include <stdarg.h>
#include <stdio.h>
#include <stdlib.h>
#include <string.h>
#include <sys/mman.h>
#include <unistd.h>

static int failed;

/* A copy of some bytes that ends where a page begins that can't be touched. There is one at a time. */
static inline uint8_t *at_guard(const uint8_t *bytes, size_t length) {
    static uint8_t *guard;
    size_t room = 65536;
    if (guard == NULL) {
        void *pages = mmap(NULL, 2 * room, PROT_READ | PROT_WRITE, MAP_PRIVATE | MAP_ANONYMOUS, -1, 0);
        if (pages == MAP_FAILED || length > room || mprotect(MATTER_IDL_CAST(uint8_t *, pages) + room, room, PROT_NONE) != 0) {
            perror("mmap");
            exit(2);
        }
        guard = MATTER_IDL_CAST(uint8_t *, pages) + room;
    }
    if (length != 0)
        memmove(guard - length, bytes, length);
    return guard - length;
}

struct line {
    char bytes[1024];
    size_t length;
};

static inline void put(struct line *line, const char *format, ...) {
    va_list list;
    va_start(list, format);
    line->length += MATTER_IDL_CAST(size_t, vsnprintf(line->bytes + line->length, sizeof line->bytes - line->length, format, list));
    va_end(list);
    if (line->length >= sizeof line->bytes)
        exit(2);
}

/* What is 0 or absent is left out, so an accessor that answers something for a kind without the field shows. */
static inline void put_flag(struct line *line, const char *word, int flag) {
    if (flag)
        put(line, " %s", word);
}
static inline void put_number(struct line *line, const char *label, uint64_t number) {
    if (number != 0)
        put(line, " %s=%" PRIu64, label, number);
}
static inline void put_choice(struct line *line, const char *const *words, unsigned value) {
    if (value != 0)
        put(line, " %s", words[value]);
}
/* The span's bytes or, without a text, its offset and length. */
static inline void put_span(struct line *line, const uint8_t *text, const char *label, struct matter_idl_span span) {
    size_t i;
    if (span.offset == 0 && span.length == 0)
        return;
    put(line, " %s[", label);
    for (i = 0; text != NULL && i < span.length; i++)
        put(line, "%c", text[span.offset + i]);
    if (text == NULL)
        put(line, "%zu+%zu", span.offset, span.length);
    put(line, "]");
}

static inline void put_common(struct line *line, const uint8_t *text, const uint8_t *record) {
    static const char *const kinds[] = {"", "cluster", "enum", "bitmap", "entry", "struct", "field", "attribute", "command", "event",
                                        "endpoint", "device_type", "binding", "instantiation", "attribute_instance", "command_instance",
                                        "event_instance", "annotation"};
    static const char *const places[] = {"", "global", "dropped", "place=3"};
    static const char *const maturities[] = {"", "provisional", "internal", "deprecated"};
    unsigned kind = matter_idl_kind_of(record);
    put(line, "%s", kind <= MATTER_IDL_KINDS ? kinds[kind] : "");
    put_choice(line, places, matter_idl_place_of(record));
    put_choice(line, maturities, matter_idl_maturity_of(record));
    put_flag(line, "has_doc", matter_idl_has_doc(record));
    put_span(line, text, "doc", matter_idl_doc(record));
    put_span(line, text, "name", matter_idl_name(record));
    put_number(line, "code", matter_idl_code(record));
    put_number(line, "revision", matter_idl_revision(record));
}

static inline void put_type(struct line *line, const uint8_t *text, const uint8_t *record) {
    static const char *const types[] = {"", "request", "response", "shared_struct"};
    put_span(line, text, "base_type", matter_idl_base_type(record));
    put_flag(line, "shared", matter_idl_is_shared(record));
    put_choice(line, types, matter_idl_struct_type_of(record));
    put_flag(line, "fabric_scoped", matter_idl_is_fabric_scoped(record));
}

static inline void put_field(struct line *line, const uint8_t *text, const uint8_t *record) {
    put_span(line, text, "type", matter_idl_type(record));
    put_flag(line, "list", matter_idl_is_list(record));
    put_flag(line, "has_maximum", matter_idl_has_maximum(record));
    put_number(line, "maximum", matter_idl_maximum(record));
    put_flag(line, "optional", matter_idl_is_optional(record));
    put_flag(line, "nullable", matter_idl_is_nullable(record));
    put_flag(line, "fabric_sensitive", matter_idl_is_fabric_sensitive(record));
}

static inline void put_privilege(struct line *line, const char *label, unsigned privilege) {
    static const char *const privileges[] = {"", "operate", "manage", "administer"};
    if (privilege != MATTER_IDL_VIEW)
        put(line, " %s=%s", label, privileges[privilege]);
}

static inline void put_member(struct line *line, const uint8_t *text, const uint8_t *record) {
    static const char *const priorities[] = {"", "info", "debug", "priority=3"};
    put_flag(line, "readonly", matter_idl_is_readonly(record));
    put_flag(line, "writeonly", matter_idl_is_writeonly(record));
    put_flag(line, "nosubscribe", matter_idl_is_nosubscribe(record));
    put_flag(line, "timedwrite", matter_idl_is_timedwrite(record));
    put_privilege(line, "read", matter_idl_read_privilege(record));
    put_privilege(line, "write", matter_idl_write_privilege(record));
    put_privilege(line, "invoke", matter_idl_invoke_privilege(record));
    put_flag(line, "timed", matter_idl_is_timed(record));
    put_flag(line, "fabric", matter_idl_is_fabric(record));
    put_flag(line, "has_input", matter_idl_has_input(record));
    put_span(line, text, "input", matter_idl_input(record));
    put_span(line, text, "output", matter_idl_output(record));
    put_choice(line, priorities, matter_idl_priority_of(record));
}

/* The default as what it is; where there is none, whatever one of the functions takes for one. */
static inline void put_default(struct line *line, const uint8_t *text, const uint8_t *record) {
    switch (matter_idl_default_of(record)) {
    case MATTER_IDL_DEFAULT_NUMBER: put(line, " number=%" PRIu64, matter_idl_default_number(record)); break;
    case MATTER_IDL_DEFAULT_SIGNED: put(line, " signed=%" PRId64, matter_idl_default_signed(record)); break;
    case MATTER_IDL_DEFAULT_TRUTH: put(line, " truth=%d", matter_idl_default_truth(record)); break;
    case MATTER_IDL_DEFAULT_STRING:
        put(line, " string");
        put_span(line, text, "default", matter_idl_default_string(record));
        break;
    default:
        put_number(line, "default", matter_idl_default_of(record));
        put_number(line, "default_number", matter_idl_default_number(record));
        put_number(line, "default_signed", MATTER_IDL_CAST(uint64_t, matter_idl_default_signed(record)));
        put_flag(line, "default_truth", matter_idl_default_truth(record));
        put_span(line, text, "default_string", matter_idl_default_string(record));
    }
}

/* Every accessor is called, whatever the kind. */
static inline void describe(struct line *line, const uint8_t *text, const uint8_t *record) {
    static const char *const handlings[] = {"", "callback", "persist", "handling=3"};
    line->length = 0;
    put_common(line, text, record);
    put_type(line, text, record);
    put_span(line, text, "value", matter_idl_annotation_value(record));
    put_field(line, text, record);
    put_member(line, text, record);
    put_number(line, "id", matter_idl_endpoint_id(record));
    put_number(line, "version", matter_idl_version(record));
    put_choice(line, handlings, matter_idl_handling_of(record));
    put_default(line, text, record);
}

static inline void expect_line(const char *is, const char *should) {
    if (strcmp(is, should) != 0) {
        printf("is:        %s\nshould be: %s\n", is, should);
        failed = 1;
    }
}

#endif
