/* A section's records as a person wants them: one line for each declaration at the top, and below it names for screens. */
#include "explain.h"
#include "matter_idl.h"

#include <inttypes.h>
#include <stdio.h>
#include <string.h>

/* How far the braces after a cluster's name have been followed. */
struct braces {
    size_t at, depth;
    int closed;
};

/* A declaration at the top, and how many records of each kind it has. */
struct declaration {
    const uint8_t *record;
    size_t counts[MATTER_IDL_KINDS + 1], global_types, dropped_types;
    struct braces braces;
};

static int is_type(unsigned kind) {
    return kind == MATTER_IDL_ENUM || kind == MATTER_IDL_BITMAP || kind == MATTER_IDL_STRUCT;
}

/* The offset after a comment or an annotation's string that starts at `at`, or `at` if none does. */
static size_t after_quiet(struct text text, size_t at, size_t to) {
    const uint8_t *b = text.bytes;
    if (b[at] == '"') {
        for (at++; at < to && b[at] != '"'; at++)
            if (b[at] == '\\')
                at++;
        return at + 1;
    }
    if (b[at] != '/' || at + 1 >= to)
        return at;
    if (b[at + 1] == '/') {
        while (at < to && b[at] != '\n' && b[at] != '\r')
            at++;
    } else if (b[at + 1] == '*') {
        at += 2;
        while (at + 1 < to && !(b[at] == '*' && b[at + 1] == '/'))
            at++;
        at += 2;
    }
    return at;
}

/* Follows the braces on to an offset. Each byte is looked at once, so a cluster of many types takes no longer than its text. */
static void follow(struct text text, struct braces *braces, size_t to) {
    while (!braces->closed && braces->at < to) {
        size_t after = after_quiet(text, braces->at, to);
        if (after > braces->at) {
            braces->at = after;
            continue;
        }
        uint8_t byte = text.bytes[braces->at++];
        if (byte == '{')
            braces->depth++;
        else if (byte == '}' && --braces->depth == 0)
            braces->closed = 1;
    }
}

/*
 * Whether a record starts a declaration at the top. A global type after a cluster is one at the top or a shared one of that
 * cluster; if both are written `shared`, only the text tells: the cluster's brace is closed before the one at the top.
 */
static int starts_declaration(struct text text, struct declaration *current, const uint8_t *record) {
    unsigned kind = matter_idl_kind_of(record);
    if (kind == MATTER_IDL_CLUSTER || kind == MATTER_IDL_ENDPOINT)
        return 1;
    if (!is_type(kind) || matter_idl_place_of(record) != MATTER_IDL_GLOBAL)
        return 0;
    if (!current->record || matter_idl_kind_of(current->record) != MATTER_IDL_CLUSTER || !matter_idl_is_shared(record))
        return 1;
    follow(text, &current->braces, matter_idl_name(record).offset);
    return current->braces.closed;
}

static void start(struct declaration *current, const uint8_t *record, struct totals *totals) {
    memset(current, 0, sizeof *current);
    current->record = record;
    current->braces.at = matter_idl_name(record).offset;
    totals->declarations++;
}

static void count(struct declaration *current, const uint8_t *record, int within, struct totals *totals) {
    unsigned place = matter_idl_place_of(record);
    if (within)
        current->counts[matter_idl_kind_of(record)]++;
    if (place == MATTER_IDL_GLOBAL) {
        totals->global_types++;
        current->global_types += within ? 1 : 0;
    } else if (place == MATTER_IDL_DROPPED) {
        totals->dropped_types++;
        current->dropped_types++;
    }
}

/* A name is letters, digits and `_` of ASCII, so it can be printed as it is. */
void print_name(struct text text, const uint8_t *record) {
    struct matter_idl_span name = matter_idl_name(record);
    fwrite(text.bytes + name.offset, 1, name.length, stdout);
}

void print_maturity(const uint8_t *record) {
    static const char *const words[4] = {"", "provisional ", "internal ", "deprecated "};
    fputs(words[matter_idl_maturity_of(record)], stdout);
}

/* Which kinds of parts are counted, in the order of their telling. */
struct part {
    unsigned kind;
    const char *one, *many;
};

static void print_counts(const struct declaration *current, const struct part *parts) {
    const char *before = ": ";
    for (; parts->kind; parts++) {
        size_t n = current->counts[parts->kind];
        if (!n)
            continue;
        printf("%s%zu %s", before, n, n == 1 ? parts->one : parts->many);
        before = ", ";
    }
    if (*before == ':')
        fputs(": empty", stdout);
}

static void print_cluster(struct text text, const struct declaration *current) {
    static const struct part parts[] = {
        {MATTER_IDL_ENUM, "enum", "enums"},
        {MATTER_IDL_BITMAP, "bitmap", "bitmaps"},
        {MATTER_IDL_ATTRIBUTE, "attribute", "attributes"},
        {MATTER_IDL_COMMAND, "command", "commands"},
        {MATTER_IDL_EVENT, "event", "events"},
        {MATTER_IDL_STRUCT, "struct", "structs"},
        {0, NULL, NULL},
    };
    uint64_t revision = matter_idl_revision(current->record);
    print_maturity(current->record);
    fputs("cluster ", stdout);
    print_name(text, current->record);
    printf(" = %" PRIu64, matter_idl_code(current->record));
    if (revision)
        printf(", revision %" PRIu64, revision);
    print_counts(current, parts);
    if (current->global_types || current->dropped_types)
        printf("; shared types: %zu global, %zu dropped", current->global_types, current->dropped_types);
}

static void print_endpoint(const struct declaration *current) {
    static const struct part parts[] = {
        {MATTER_IDL_DEVICE_TYPE, "device type", "device types"},
        {MATTER_IDL_BINDING, "binding", "bindings"},
        {MATTER_IDL_INSTANTIATION, "cluster", "clusters"},
        {0, NULL, NULL},
    };
    printf("endpoint %" PRIu64, matter_idl_endpoint_id(current->record));
    print_counts(current, parts);
}

void print_choice(struct text text, const uint8_t *record) {
    print_maturity(record);
    fputs(matter_idl_is_shared(record) ? "shared " : "", stdout);
    fputs(matter_idl_kind_of(record) == MATTER_IDL_ENUM ? "enum " : "bitmap ", stdout);
    print_name(text, record);
}

static void print_struct(struct text text, const struct declaration *current) {
    static const struct part parts[] = {{MATTER_IDL_FIELD, "field", "fields"}, {0, NULL, NULL}};
    static const char *const types[4] = {"", "request ", "response ", "shared "};
    unsigned type = matter_idl_struct_type_of(current->record);
    print_maturity(current->record);
    fputs(types[type], stdout);
    fputs("struct ", stdout);
    print_name(text, current->record);
    if (type == MATTER_IDL_STRUCT_RESPONSE)
        printf(" = %" PRIu64, matter_idl_code(current->record));
    print_counts(current, parts);
}

/* The declaration's records end where the next one's start. */
static void print_declaration(struct text text, const struct declaration *current, const uint8_t *end, const char *lead) {
    static const struct part entries[] = {{MATTER_IDL_ENTRY, "entry", "entries"}, {0, NULL, NULL}};
    printf("%-14s ", lead);
    switch (matter_idl_kind_of(current->record)) {
    case MATTER_IDL_CLUSTER:
        print_cluster(text, current);
        break;
    case MATTER_IDL_ENDPOINT:
        print_endpoint(current);
        break;
    case MATTER_IDL_STRUCT:
        print_struct(text, current);
        break;
    default:
        print_choice(text, current->record);
        print_counts(current, entries);
    }
    putchar('\n');
    tell_entries(text, current->record, (size_t)(end - current->record));
}

void tell_declarations(struct text text, const uint8_t *records, size_t length, const char *lead, struct totals *totals) {
    struct declaration current;
    const uint8_t *record;
    memset(&current, 0, sizeof current);
    for (size_t at = 0; (record = matter_idl_record_at(records, length, at)) != NULL; at = matter_idl_next(records, length, at)) {
        int starts = starts_declaration(text, &current, record);
        if (starts && current.record) {
            print_declaration(text, &current, record, lead);
            lead = "";
        }
        if (starts)
            start(&current, record, totals);
        count(&current, record, !starts, totals);
    }
    if (current.record)
        print_declaration(text, &current, records + length, lead);
}
