/* The known answers of document 01 and of request L1 (annotations) through the C interface: results, and what each buffer holds
   afterwards, with a catalogue of every length up to the one that is needed. */
#include <stdint.h>
#include <stdio.h>
#include <string.h>

uint64_t matter_idl_read(const uint8_t *text, size_t text_length, uint8_t *catalogue, size_t catalogue_length);
uint64_t matter_idl_unescape(const uint8_t *part, size_t part_length, uint8_t *output, size_t output_length);

#define REFUSED(number, value) (((uint64_t)(number) << 56) + (value))
#define WORDS(...) (const uint64_t[]){__VA_ARGS__}, sizeof((const uint64_t[]){__VA_ARGS__}) / sizeof(uint64_t)

/* The enum E with its entry a, in `enum E:t{a=1`. */
#define ENTRY_A 0x0240000005000010, 0, 0x0000700001000000, 0x0400000009000010, 1

struct known {
    const char *text;
    uint64_t refused; /* 0: accepted, with the words below */
    const uint64_t *words;
    size_t count;
};

static const struct known readings[] = {
    {"", 0, NULL, 0},
    {"//", REFUSED(3, 0), NULL, 0},
    {"//a", 0, NULL, 0},
    {"/**/enum E:t{}", 0, WORDS(0x0240000009000010, 0, 0x0000b00001000000)},
    {"/***/enum E:t{}", 0, WORDS(0x024800000a000010, 0x0000300000000000, 0x0000c00001000000)},
    {"enum E:t{a=0XfF;}", 0, WORDS(0x0240000005000010, 0, 0x0000700001000000, 0x0400000009000010, 255)},
    {"enum E:t{a=0x;}", REFUSED(3, 9), NULL, 0},
    {"enum E:t{a=18446744073709551615;}", 0, WORDS(0x0240000005000010, 0, 0x0000700001000000, 0x0400000009000010, 0xffffffffffffffff)},
    {"enum E:t{a=18446744073709551616;}", REFUSED(4, 11), NULL, 0},
    {"enum E:t{stable=1;}", REFUSED(3, 9), NULL, 0},
    {"REQUEST struct S{}", 0, WORDS(0x054000000f000010, 0, 0)},
    {"struct S{Optional t a=1;}", 0, WORDS(0x0540000007000010, 0, 0, 0x0600000014000010, 0x0001200001000000, 1, 0)},
    {"cluster A = 1 { revision 2; bogus }", REFUSED(3, 28), NULL, 0},
    {"cluster C=1{attribute access(READ: view) t a=1;}", REFUSED(6, 29), NULL, 0},
    {"cluster C=1{shared enum E:t{} shared enum E:t{}}", 0,
     WORDS(0x0100000008000010, 0, 1, 0, 0x0244000018000010, 0, 0x0001a00001000000, 0x024400002a000010, 0, 0x0002c00001000000)},
    {"cluster C=1{shared enum E:t{}}cluster D=2{shared enum E:t{}}", 0,
     WORDS(0x0100000008000010, 0, 1, 0, 0x0244000018000010, 0, 0x0001a00001000000, 0x0100000026000010, 0, 2, 0, 0x0284000036000010, 0, 0x0003800001000000)},
    {"endpoint 0{server cluster C{ram attribute a default=-9223372036854775809;}}", REFUSED(3, 44), NULL, 0},
    {"endpoint 0{server cluster C{ram attribute a default=-9223372036854775808;}}", 0,
     WORDS(0x0a00000000000000, 0, 0x0d0000001a000010, 0x0e0080002a000010, 0x8000000000000000)},
    {"enum E:t{}", 0, WORDS(0x0240000005000010, 0, 0x0000700001000000)},
    /* Annotations. */
    {"enum E:t{a=1[b=\"c\"];}", 0, WORDS(ENTRY_A, 0x110000000d000010, 0x0001000001000000)},
    {"bitmap B:t{a=1[b=\"c\"];}", 0, WORDS(0x0340000007000010, 0, 0x0000900001000000, 0x040000000b000010, 1, 0x110000000f000010, 0x0001200001000000)},
    {"enum E:t{a=1;}", 0, WORDS(ENTRY_A)},
    {"enum E:t{a=1[];}", 0, WORDS(ENTRY_A)},
    {"enum E:t{a=1[ ];}", 0, WORDS(ENTRY_A)},
    {"enum E:t{a=1[b=\"\"];}", 0, WORDS(ENTRY_A, 0x110000000d000010, 0x0001000000000000)},
    {"enum E:t{a=1[b=\"c\"d=\"e\",];}", 0, WORDS(ENTRY_A, 0x110000000d000010, 0x0001000001000000, 0x1100000012000010, 0x0001500001000000)},
    {"enum E:t{a=1[b=\"c\",d=\"e\"];}", 0, WORDS(ENTRY_A, 0x110000000d000010, 0x0001000001000000, 0x1100000013000010, 0x0001600001000000)},
    {"enum E:t{a=1[b=\"c\",b=\"c\"];}", 0, WORDS(ENTRY_A, 0x110000000d000010, 0x0001000001000000, 0x1100000013000010, 0x0001600001000000)},
    {"enum E:t{a=1[b=\"x\"];c=2[d=\"y\"];}", 0, WORDS(ENTRY_A, 0x110000000d000010, 0x0001000001000000, 0x0400000014000010, 2, 0x1100000018000010, 0x0001b00001000000)},
    {"enum E:t{a=1[b=\"x\"];c=2;}", 0, WORDS(ENTRY_A, 0x110000000d000010, 0x0001000001000000, 0x0400000014000010, 2)},
    {"enum E:t{a=1[b=\"\\\"\\\\\"];}", 0, WORDS(ENTRY_A, 0x110000000d000010, 0x0001000004000000)},
    {"enum E:t{a=1[b=\"\n}\"];}", 0, WORDS(ENTRY_A, 0x110000000d000010, 0x0001000002000000)},
    {"enum E:t{a=1[b=\"\xc3\xa9\"];}", 0, WORDS(ENTRY_A, 0x110000000d000010, 0x0001000002000000)},
    {"enum E:t{a=1[b=\"//\"];}", 0, WORDS(ENTRY_A, 0x110000000d000010, 0x0001000002000000)},
    {"enum E:t{a=1[b=\"/*\"];}", 0, WORDS(ENTRY_A, 0x110000000d000010, 0x0001000002000000)},
    {"enum E:t{a=1[b=\"]\"];}", 0, WORDS(ENTRY_A, 0x110000000d000010, 0x0001000001000000)},
    {"enum E:t{a=1 /**/ [ /**x*/ b /**/ = /**/ \"c\" /**/ , /**/ ] /**/ ;}", 0, WORDS(ENTRY_A, 0x110000001b000010, 0x0002a00001000000)},
    {"enum E:t{stable stable=1[stable=\"stable\"];}", 0, WORDS(0x0240000005000010, 0, 0x0000700001000000, 0x0400000010000060, 1, 0x1100000019000060, 0x0002100006000000)},
    {"enum E:t{internal a=1[b=\"c\"];}", 0, WORDS(0x0240000005000010, 0, 0x0000700001000000, 0x0420000012000010, 1, 0x1100000016000010, 0x0001900001000000)},
    {"enum E:t{a=1[_1=\"c\"];}", 0, WORDS(ENTRY_A, 0x110000000d000020, 0x0001100001000000)},
    {"enum E:t{a=1[1b=\"c\"];}", REFUSED(3, 9), NULL, 0},
    /* A dropped type's annotations are there too, and hoisting steps over them. */
    {"cluster C=1{shared enum E:t{a=1[b=\"c\"];}}cluster D=2{shared enum E:t{a=1[b=\"d\"];}}", 0,
     WORDS(0x0100000008000010, 0, 1, 0, 0x0244000018000010, 0, 0x0001a00001000000, 0x040000001c000010, 1, 0x1100000020000010, 0x0002300001000000,
           0x0100000031000010, 0, 2, 0, 0x0284000041000010, 0, 0x0004300001000000, 0x0400000045000010, 1, 0x1100000049000010, 0x0004c00001000000)},
    {"cluster C=1{shared enum E:t{a=1[b=\"\"];}shared enum F:t{}}", 0,
     WORDS(0x0100000008000010, 0, 1, 0, 0x0244000018000010, 0, 0x0001a00001000000, 0x040000001c000010, 1, 0x1100000020000010, 0x0002300000000000,
           0x0244000033000010, 0, 0x0003500001000000)},
};

static int failed;

static void expect(int holds, const char *what, const char *text) {
    if (!holds) {
        printf("%s: %s\n", what, text);
        failed = 1;
    }
}

/* The catalogue's bytes after what is written, and all of them where it is refused, are as they were. */
static void reads(const struct known *k, size_t length) {
    uint8_t catalogue[256], expected[256];
    memset(catalogue, 0xa5, sizeof catalogue);
    memset(expected, 0xa5, sizeof expected);
    uint64_t needed = 8 * k->count, result = k->refused;
    if (!k->refused && needed <= length) {
        result = needed;
        for (size_t i = 0; i < needed; i++)
            expected[i] = (uint8_t)(k->words[i / 8] >> (56 - 8 * (i % 8)));
    } else if (!k->refused) {
        result = REFUSED(7, needed);
    }
    expect(matter_idl_read((const uint8_t *)k->text, strlen(k->text), catalogue, length) == result, "result", k->text);
    expect(memcmp(catalogue, expected, sizeof catalogue) == 0, "catalogue", k->text);
}

static void unescapes(const char *part, size_t length, uint64_t result, const char *bytes) {
    uint8_t output[16], expected[16];
    memset(output, 0xa5, sizeof output);
    memset(expected, 0xa5, sizeof expected);
    memcpy(expected, bytes, strlen(bytes));
    expect(matter_idl_unescape((const uint8_t *)part, strlen(part), output, length) == result, "result", part);
    expect(memcmp(output, expected, sizeof output) == 0, "output", part);
}

int main(void) {
    size_t count = sizeof readings / sizeof readings[0];
    for (size_t i = 0; i < count; i++) {
        reads(&readings[i], 256);
        for (size_t length = 0; length <= 8 * readings[i].count; length++)
            reads(&readings[i], length);
    }
    unescapes("a\\n\\t\\\"\\\\z", 9, 6, "a\n\t\"\\z");
    unescapes("a\\n", 1, REFUSED(10, 2), "");
    unescapes("ab\"", 9, REFUSED(9, 2), "");
    unescapes("a\\r", 9, REFUSED(9, 1), "");
    unescapes("ab\\", 9, REFUSED(9, 2), "");
    unescapes("", 0, 0, "");
    printf("%zu texts and 6 parts from C, %s\n", count, failed ? "some answers differ" : "all as known");
    return failed;
}
