/*
 * A client that is written from the header alone and uses nothing but its functions: texts with every kind of record, flag,
 * privilege, default, maturity, doc comment and annotation. What each function answers for each record is compared with what
 * the text says.
 */
#include "describe.h"

/* A text, and its records in words: by describe, and after an attribute the name of its field. */
struct known {
    const char *text, *records;
};

static const struct known texts[] = {
    {"", ""},
    {"// nothing is declared", ""},
    /* Doc comments: the last of a run; an empty one; one that a plain comment cancels. */
    {"/** About A. */ cluster A = 0xFFF1 {}", "cluster has_doc doc[ About A. ] name[A] code=65521\n"},
    {"/** No. *//** Yes. */\nenum E : enum8 {}", "enum global has_doc doc[ Yes. ] name[E] base_type[enum8]\n"},
    {"/***/ bitmap B : bitmap32 {}", "bitmap global has_doc doc[] name[B] base_type[bitmap32]\n"},
    {"/** No. */ /* Yes. */ struct S {}", "struct global name[S]\n"},
    {"cluster A = 1 { /** a */ attribute t a = 1; /** b */ command b(): t = 2; /** c */ info event c = 3 {}\n"
     "/** e */ enum E : t {} /** s */ struct S {} }",
     "cluster name[A] code=1\n"
     "attribute has_doc doc[ a ] write=operate field[a]\n"
     "field name[a] code=1 type[t]\n"
     "command has_doc doc[ b ] name[b] code=2 invoke=operate output[t]\n"
     "event has_doc doc[ c ] name[c] code=3 info\n"
     "enum has_doc doc[ e ] name[E] base_type[t]\n"
     "struct has_doc doc[ s ] name[S]\n"},
    /* Clusters: the last revision, and none. */
    {"cluster A = 1 { revision 2; revision 18446744073709551615; } cluster B = 18446744073709551615 {}",
     "cluster name[A] code=1 revision=18446744073709551615\n"
     "cluster name[B] code=18446744073709551615\n"},
    /* Maturities of all that can have one. An attribute's record has that before it, its field's that before the type. */
    {"stable cluster A = 1 {} provisional cluster B = 2 {} internal cluster C = 3 {} deprecated cluster D = 4 {}",
     "cluster name[A] code=1\n"
     "cluster provisional name[B] code=2\n"
     "cluster internal name[C] code=3\n"
     "cluster deprecated name[D] code=4\n"},
    {"provisional enum E : t { internal a = 1; } deprecated bitmap B : t {} internal struct S { deprecated t a = 1; }",
     "enum global provisional name[E] base_type[t]\n"
     "entry internal name[a] code=1\n"
     "bitmap global deprecated name[B] base_type[t]\n"
     "struct global internal name[S]\n"
     "field deprecated name[a] code=1 type[t]\n"},
    {"cluster A = 1 { provisional attribute internal t a = 1; deprecated command b(): t = 2; internal debug event c = 3 {} }",
     "cluster name[A] code=1\n"
     "attribute provisional write=operate field[a]\n"
     "field internal name[a] code=1 type[t]\n"
     "command deprecated name[b] code=2 invoke=operate output[t]\n"
     "event internal name[c] code=3 debug\n"},
    /* Enums and bitmaps, and places: at the top, shared, dropped, in the cluster. */
    {"enum Top : enum8 { kOne = 1; kTwo = 0x2; } bitmap Bits : bitmap16 { kHigh = 0x8000; } shared enum Also : enum16 {}",
     "enum global name[Top] base_type[enum8]\n"
     "entry name[kOne] code=1\n"
     "entry name[kTwo] code=2\n"
     "bitmap global name[Bits] base_type[bitmap16]\n"
     "entry name[kHigh] code=32768\n"
     "enum global name[Also] base_type[enum16] shared\n"},
    /* Annotations, right after their entry: none, one, several, an empty value, one with escapes, one that a bitmap has. */
    {"enum Side : enum8 { provisional kLeft = 1 [name = \"Left side\"]; kRight = 2 [name=\"Right \\\"R\\\\\", short=\"\" name=\"r\",]; kNone = 3 []; }\n"
     "bitmap Bits : t { kLow = 1 [stable = \"Low\"]; kHigh = 2; }",
     "enum global name[Side] base_type[enum8]\n"
     "entry provisional name[kLeft] code=1\n"
     "annotation name[name] value[Left side]\n"
     "entry name[kRight] code=2\n"
     "annotation name[name] value[Right \\\"R\\\\]\n"
     "annotation name[short] value[]\n"
     "annotation name[name] value[r]\n"
     "entry name[kNone] code=3\n"
     "bitmap global name[Bits] base_type[t]\n"
     "entry name[kLow] code=1\n"
     "annotation name[stable] value[Low]\n"
     "entry name[kHigh] code=2\n"},
    {"enum E : t {} cluster A = 1 { shared enum E : t {} shared enum F : t {} shared bitmap E : t {} bitmap G : t {} }",
     "enum global name[E] base_type[t]\n"
     "cluster name[A] code=1\n"
     "enum dropped name[E] base_type[t] shared\n"
     "enum global name[F] base_type[t] shared\n"
     "bitmap global name[E] base_type[t] shared\n"
     "bitmap name[G] base_type[t]\n"},
    /* Structs. */
    {"struct A {} request struct B {} response struct C = 7 {} shared struct D {} fabric_scoped struct E {} request fabric_scoped struct F {}",
     "struct global name[A]\n"
     "struct global name[B] request\n"
     "struct global name[C] code=7 response\n"
     "struct global name[D] shared shared_struct\n"
     "struct global name[E] fabric_scoped\n"
     "struct global name[F] request fabric_scoped\n"},
    {"struct A {} cluster B = 1 { shared struct A {} shared struct C {} struct D {} }",
     "struct global name[A]\n"
     "cluster name[B] code=1\n"
     "struct dropped name[A] shared shared_struct\n"
     "struct global name[C] shared shared_struct\n"
     "struct name[D]\n"},
    /* Fields. */
    {"struct S { int8u a = 0; optional int8u b = 1; nullable int8u c = 2; fabric_sensitive int8u d = 3; int8u e[] = 4;\n"
     "char_string<32> f = 5; octet_string<0> g = 6; fabric_sensitive nullable optional char_string<0x10> h[] = 7; }",
     "struct global name[S]\n"
     "field name[a] type[int8u]\n"
     "field name[b] code=1 type[int8u] optional\n"
     "field name[c] code=2 type[int8u] nullable\n"
     "field name[d] code=3 type[int8u] fabric_sensitive\n"
     "field name[e] code=4 type[int8u] list\n"
     "field name[f] code=5 type[char_string] has_maximum maximum=32\n"
     "field name[g] code=6 type[octet_string] has_maximum\n"
     "field name[h] code=7 type[char_string] list has_maximum maximum=16 optional nullable fabric_sensitive\n"},
    /* Attributes: flags, and privileges where none, one or both are written. */
    {"cluster A = 1 { attribute t a = 1; readonly attribute t b = 2; writeonly attribute t c = 3; nosubscribe attribute t d = 4;\n"
     "timedwrite attribute t e = 5; readonly nosubscribe attribute optional t f[] = 6; }",
     "cluster name[A] code=1\n"
     "attribute write=operate field[a]\nfield name[a] code=1 type[t]\n"
     "attribute readonly write=operate field[b]\nfield name[b] code=2 type[t]\n"
     "attribute writeonly write=operate field[c]\nfield name[c] code=3 type[t]\n"
     "attribute nosubscribe write=operate field[d]\nfield name[d] code=4 type[t]\n"
     "attribute timedwrite write=operate field[e]\nfield name[e] code=5 type[t]\n"
     "attribute readonly nosubscribe write=operate field[f]\nfield name[f] code=6 type[t] list optional\n"},
    {"cluster A = 1 { attribute access(read: view, write: view) t a = 1; attribute access(read: operate, write: manage) t b = 2;\n"
     "attribute access(read: manage) t c = 3; attribute access(write: administer) t d = 4; attribute access(read: administer) t e = 5; }",
     "cluster name[A] code=1\n"
     "attribute field[a]\nfield name[a] code=1 type[t]\n"
     "attribute read=operate write=manage field[b]\nfield name[b] code=2 type[t]\n"
     "attribute read=manage write=operate field[c]\nfield name[c] code=3 type[t]\n"
     "attribute write=administer field[d]\nfield name[d] code=4 type[t]\n"
     "attribute read=administer write=operate field[e]\nfield name[e] code=5 type[t]\n"},
    /* Commands. */
    {"cluster A = 1 { command a(): None = 0; command b(Ask): Answer = 1; timed command c(): t = 2; fabric command d(): t = 3;\n"
     "timed fabric command access(invoke: view) e(Ask): t = 4; command access(invoke: manage) f(): t = 5;\n"
     "command access(invoke: administer) g(): t = 6; command access(invoke: operate) h(): t = 7; }",
     "cluster name[A] code=1\n"
     "command name[a] invoke=operate output[None]\n"
     "command name[b] code=1 invoke=operate has_input input[Ask] output[Answer]\n"
     "command name[c] code=2 invoke=operate timed output[t]\n"
     "command name[d] code=3 invoke=operate fabric output[t]\n"
     "command name[e] code=4 timed fabric has_input input[Ask] output[t]\n"
     "command name[f] code=5 invoke=manage output[t]\n"
     "command name[g] code=6 invoke=administer output[t]\n"
     "command name[h] code=7 invoke=operate output[t]\n"},
    /* Events. */
    {"cluster A = 1 { critical event a = 0 {} info event b = 1 { t x = 1; } debug event c = 2 {} fabric_sensitive info event d = 3 {}\n"
     "critical event access(read: operate) e = 4 {} critical event access(read: manage) f = 5 {}\n"
     "fabric_sensitive debug event access(read: administer) g = 6 { nullable t x[] = 2; } }",
     "cluster name[A] code=1\n"
     "event name[a]\n"
     "event name[b] code=1 info\n"
     "field name[x] code=1 type[t]\n"
     "event name[c] code=2 debug\n"
     "event name[d] code=3 fabric_sensitive info\n"
     "event name[e] code=4 read=operate\n"
     "event name[f] code=5 read=manage\n"
     "event name[g] code=6 fabric_sensitive read=administer debug\n"
     "field name[x] code=2 type[t] list nullable\n"},
    /* Endpoints. */
    {"endpoint 0 {} endpoint 1 { device type ma_speaker = 34, version 1; device type other = 0xFFFF, version 65535;\n"
     "binding cluster OnOff; server cluster Identify {} server cluster B { handle command Go; emits event Gone; } }",
     "endpoint\n"
     "endpoint id=1\n"
     "device_type name[ma_speaker] code=34 version=1\n"
     "device_type name[other] code=65535 version=65535\n"
     "binding name[OnOff]\n"
     "instantiation name[Identify]\n"
     "instantiation name[B]\n"
     "command_instance name[Go]\n"
     "event_instance name[Gone]\n"},
    /* Attribute instances and their defaults. */
    {"endpoint 2 { server cluster C { ram attribute a; callback attribute b; persist attribute c; ram attribute d default = 0;\n"
     "callback attribute e default = 0xFF; persist attribute f default = 18446744073709551615; ram attribute g default = -1;\n"
     "ram attribute h default = +7; ram attribute i default = -9223372036854775808; ram attribute j default = +9223372036854775807; } }",
     "endpoint id=2\n"
     "instantiation name[C]\n"
     "attribute_instance name[a]\n"
     "attribute_instance name[b] callback\n"
     "attribute_instance name[c] persist\n"
     "attribute_instance name[d] number=0\n"
     "attribute_instance name[e] callback number=255\n"
     "attribute_instance name[f] persist number=18446744073709551615\n"
     "attribute_instance name[g] signed=-1\n"
     "attribute_instance name[h] signed=7\n"
     "attribute_instance name[i] signed=-9223372036854775808\n"
     "attribute_instance name[j] signed=9223372036854775807\n"},
    {"endpoint 3 { server cluster C { ram attribute a default = true; callback attribute b default = false; persist attribute c default = \"\";\n"
     "ram attribute d default = \"XX\"; callback attribute e default = \"say \\\"a\\\\b\\\"\"; } }",
     "endpoint id=3\n"
     "instantiation name[C]\n"
     "attribute_instance name[a] truth=1\n"
     "attribute_instance name[b] callback truth=0\n"
     "attribute_instance name[c] persist string default[]\n"
     "attribute_instance name[d] string default[XX]\n"
     "attribute_instance name[e] callback string default[say \\\"a\\\\b\\\"]\n"},
};

/* Each record is described where it is and again as the only record of a catalogue that ends at a guard page. */
static void describe_all(char *said, size_t room, const uint8_t *text, const uint8_t *catalogue, size_t length) {
    const uint8_t *record;
    size_t at, used = 0;
    said[0] = 0;
    for (at = 0; (record = matter_idl_record_at(catalogue, length, at)) != NULL; at = matter_idl_next(catalogue, length, at)) {
        const uint8_t *field = matter_idl_attribute_field(catalogue, length, at);
        struct line line, alone;
        describe(&line, text, record);
        describe(&alone, text, at_guard(record, matter_idl_record_bytes(matter_idl_kind_of(record))));
        expect_line(alone.bytes, line.bytes);
        if (field != NULL)
            put_span(&line, text, "field", matter_idl_name(field));
        if (used + line.length + 2 > room)
            exit(2);
        used += MATTER_IDL_CAST(size_t, snprintf(said + used, room - used, "%s\n", line.bytes));
    }
    if (at != length)
        expect_line("a walk that ends early", "one that ends with the catalogue");
}

static void check(const struct known *known) {
    static uint8_t text[4096], catalogue[MATTER_IDL_CATALOGUE_BYTES(sizeof text)];
    static char said[8192];
    size_t length = strlen(known->text);
    uint64_t result;
    memcpy(text, known->text, length);
    result = matter_idl_read(text, length, catalogue, MATTER_IDL_CATALOGUE_BYTES(length));
    expect_line(matter_idl_message(matter_idl_number(result)), "accepted");
    if (matter_idl_number(result) != MATTER_IDL_ACCEPTED)
        return;
    describe_all(said, sizeof said, text, catalogue, MATTER_IDL_CAST(size_t, matter_idl_value(result)));
    expect_line(said, known->records);
}

/* The only string of a text, a default or an annotation's value, as it is meant. */
static void expect_string(const char *source, const char *means) {
    uint8_t text[128], catalogue[MATTER_IDL_CATALOGUE_BYTES(sizeof text)], output[sizeof text];
    struct matter_idl_span string = {0, 0};
    const uint8_t *record;
    size_t at, length = strlen(source), written;
    uint64_t result;
    memcpy(text, source, length);
    written = MATTER_IDL_CAST(size_t, matter_idl_value(matter_idl_read(text, length, catalogue, sizeof catalogue)));
    for (at = 0; (record = matter_idl_record_at(catalogue, written, at)) != NULL; at = matter_idl_next(catalogue, written, at))
        if (matter_idl_kind_of(record) == MATTER_IDL_ANNOTATION)
            string = matter_idl_annotation_value(record);
        else if (matter_idl_default_of(record) == MATTER_IDL_DEFAULT_STRING)
            string = matter_idl_default_string(record);
    result = matter_idl_unescape(text + string.offset, string.length, output, sizeof output);
    expect_line(matter_idl_message(matter_idl_number(result)), "accepted");
    if (matter_idl_value(result) != strlen(means) || memcmp(output, means, strlen(means)) != 0)
        expect_line("another string", means);
}

static void strings(void) {
    expect_string("endpoint 3 { server cluster C { ram attribute a default = \"say \\\"a\\\\b\\\"\"; } }", "say \"a\\b\"");
    expect_string("enum E : t { a = 1 [name = \"say \\\"a\\\\b\\\"\"]; }", "say \"a\\b\"");
    expect_string("bitmap B : t { a = 1 [name = \"\"]; }", "");
}

int main(void) {
    size_t i, count = sizeof texts / sizeof texts[0];
    for (i = 0; i < count; i++)
        check(&texts[i]);
    strings();
    printf("%zu texts by the header's names: %s\n", count, failed ? "some answers differ" : "all as they say");
    return failed;
}
