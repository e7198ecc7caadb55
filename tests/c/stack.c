/*
 * stack FILE..: each entry on a thread with exactly as many bytes of stack as the header says, right above a page that can't be
 * touched, on the files' texts and on texts made here. On a larger stack, which is filled beforehand, the bytes that were
 * written tell how many are taken in all, those of the thread itself included.
 */
#include "matter_idl.h"

#include <pthread.h>
#include <stdio.h>
#include <stdlib.h>
#include <string.h>
#include <sys/mman.h>
#include <sys/wait.h>
#include <unistd.h>

/* What must be left over of the bytes that the header says. */
#define MARGIN 2048
#define LARGE ((size_t)1 << 20)
#define FILLING 0xa5

static void give_up(const char *what) {
    perror(what);
    exit(2);
}

/* ---- The texts ---- */

struct text {
    const uint8_t *bytes;
    size_t length;
};

static struct text texts[8192];
static size_t text_count;

static void add(const uint8_t *bytes, size_t length) {
    if (text_count == sizeof texts / sizeof texts[0]) {
        fputs("stack: too many texts\n", stderr);
        exit(2);
    }
    texts[text_count].bytes = bytes;
    texts[text_count++].length = length;
}

static void add_file(const char *name) {
    FILE *file = fopen(name, "rb");
    uint8_t *bytes = malloc(MATTER_IDL_TEXT_LIMIT);
    if (!file || !bytes)
        give_up(name);
    add(bytes, fread(bytes, 1, MATTER_IDL_TEXT_LIMIT, file));
    fclose(file);
}

/* Every kind of declaration with all that it can have; the last ones are refused by 2 to 6. */
static const char *const pieces[] = {
    "/** d */ provisional cluster C = 0x1F { revision 1; // c\n /* c */ revision 2; }\n",
    "/** d */ internal shared enum E : enum8 { provisional a = 0x1 [x = \"y \\\" \\\\\", z=\"\"] ; b=2; /* c */ }\n",
    "/** d */ deprecated shared bitmap B : bitmap32 { stable a = 1; b = 0xFF [a=\"b\"]; }\n",
    "cluster C = 1 { /** d */ provisional shared enum E : enum8 { internal a = 1 [x = \"y\"]; } shared bitmap E : t { a = 1; } }\n",
    "/** d */ provisional response fabric_scoped struct S = 7 { /** d */ internal optional nullable fabric_sensitive char_string < 0x10 > a [ ] = 1 ; }\n",
    "cluster C = 1 { /** d */ provisional shared fabric_scoped struct S { internal fabric_sensitive nullable optional octet_string<1> a[] = 0x1; } }\n",
    "cluster C = 1 { /** d */ deprecated readonly writeonly nosubscribe timedwrite attribute access ( read : administer , write : manage )"
    " provisional optional nullable fabric_sensitive char_string<32> a [ ] = 0xFFFF ; }\n",
    "cluster C = 1 { /** d */ internal timed fabric command access ( invoke: administer ) c ( I ) : O = 0x1 ; }\n",
    "cluster C = 1 { /** d */ internal fabric_sensitive critical event access ( read: administer ) e = 1 { provisional optional nullable t a[] = 1; } }\n",
    "endpoint 0x1 { /* c */ device type d = 1 , version 2 ; binding cluster B ; server cluster S { ram attribute a default = -1;"
    " callback attribute b default = \"x \\n\\t\\\"\\\\\"; persist attribute c default = true; handle command h; emits event e; } }\n",
    "enum E : t {\n}\n/* \xff */",
    "enum E : t { a = 18446744073709551616; }",
    "endpoint 1 { server cluster C { ram attribute a default = \"a\\r\"; } }",
    "cluster C = 1 { attribute access(read: view, Write: view) t a = 1; }",
    "a \\n \\t \\\" \\\\ b",
    "a \\",
};

/* Each piece, and each of its beginnings, so that reading ends in the midst of everything that it can be in. */
static void add_beginnings(const char *piece) {
    for (size_t length = 0; length <= strlen(piece); length++)
        add((const uint8_t *)piece, length);
}

/* A text as long as the limit, or longer: something again and again. */
static void add_repeated(const char *piece, size_t length) {
    uint8_t *bytes = malloc(length);
    size_t n = strlen(piece);
    if (!bytes)
        give_up("stack: malloc");
    for (size_t i = 0; i < length; i++)
        bytes[i] = (uint8_t)piece[i % n];
    add(bytes, length);
}

/* Clusters that each share a type of a new name and one of a name that is there, so that hoisting searches. */
static void add_shared(size_t length) {
    char *bytes = malloc(length + 1);
    size_t used = 0;
    if (!bytes)
        give_up("stack: malloc");
    for (unsigned i = 0; used + 120 < length; i++)
        used += (size_t)snprintf(bytes + used, length + 1 - used, "cluster C = %u {\n shared enum E%u : t {} shared struct S%u {}\n}\n", i, i, i / 2);
    add((const uint8_t *)bytes, used);
}

static void make_texts(void) {
    size_t limit = MATTER_IDL_TEXT_LIMIT;
    for (size_t i = 0; i < sizeof pieces / sizeof pieces[0]; i++)
        add_beginnings(pieces[i]);
    for (size_t i = 0; i < 10; i++)
        add_repeated(pieces[i], limit);
    add_repeated("\n}", limit);
    add_repeated("enum E:t{\n}x\n}", limit);
    add_repeated(" ", limit);
    add_repeated(" ", limit + 1);
    add_repeated("a", limit);
    add_repeated("\\\"", limit);
    add_repeated("\xe2\x82\xac", limit);
    add_shared(65536);
}

/* ---- The entries ---- */

static uint8_t catalogue[MATTER_IDL_CATALOGUE_BYTES(MATTER_IDL_TEXT_LIMIT + 1)];
static uint8_t report[MATTER_IDL_REPORT_BYTES_ENOUGH(MATTER_IDL_TEXT_LIMIT + 1)];

static void nothing(struct text text) {
    (void)text;
}
static void reading(struct text text) {
    matter_idl_read(text.bytes, text.length, catalogue, sizeof catalogue);
    matter_idl_read(text.bytes, text.length, catalogue, 0);
}
static void survey(struct text text) {
    matter_idl_survey(text.bytes, text.length, catalogue, sizeof catalogue, report, sizeof report);
    matter_idl_survey(text.bytes, text.length, catalogue, 0, report, sizeof report);
    matter_idl_survey(text.bytes, text.length, catalogue, sizeof catalogue, report, 0);
}
static void unescaping(struct text text) {
    matter_idl_unescape(text.bytes, text.length, catalogue, sizeof catalogue);
    matter_idl_unescape(text.bytes, text.length, catalogue, 0);
}

struct entry {
    const char *name;
    void (*call)(struct text text);
    size_t stack;
};

static const struct entry entries[] = {
    {"a thread alone", nothing, LARGE},
    {"reading", reading, MATTER_IDL_READ_STACK},
    {"the survey", survey, MATTER_IDL_SURVEY_STACK},
    {"unescaping", unescaping, MATTER_IDL_UNESCAPE_STACK},
};

static void *run(void *argument) {
    const struct entry *entry = argument;
    for (size_t i = 0; i < text_count; i++)
        entry->call(texts[i]);
    return NULL;
}

/* ---- Stacks ---- */

/* So many bytes, right above a page that can't be touched. */
static uint8_t *make_stack(size_t length) {
    size_t page = (size_t)sysconf(_SC_PAGESIZE);
    uint8_t *all = mmap(NULL, page + length, PROT_READ | PROT_WRITE, MAP_PRIVATE | MAP_ANONYMOUS, -1, 0);
    if (all == MAP_FAILED || mprotect(all, page, PROT_NONE) != 0)
        give_up("stack: mmap");
    return all + page;
}

static void run_on(const struct entry *entry, uint8_t *stack, size_t length) {
    pthread_attr_t attributes;
    pthread_t thread;
    int refused = pthread_attr_init(&attributes);
    if (!refused)
        refused = pthread_attr_setstack(&attributes, stack, length);
    if (!refused)
        refused = pthread_create(&thread, &attributes, run, (void *)(uintptr_t)entry);
    if (!refused)
        refused = pthread_join(thread, NULL);
    if (refused) {
        fprintf(stderr, "stack: a thread of %zu bytes: %s\n", length, strerror(refused));
        exit(2);
    }
}

/*
 * How many bytes of a large stack are written. This program itself calls memset nowhere: so the library's first call of it goes
 * through the dynamic linker, which takes more stack than any later one. That is why the filling is volatile.
 */
static size_t taken(const struct entry *entry) {
    uint8_t *stack = make_stack(LARGE);
    size_t untouched = 0;
    for (size_t i = 0; i < LARGE; i++)
        ((volatile uint8_t *)stack)[i] = FILLING;
    run_on(entry, stack, LARGE);
    while (untouched < LARGE && stack[untouched] == FILLING)
        untouched++;
    return LARGE - untouched;
}

/* ---- Each in a process of its own, so that the end of one is seen and told ---- */

static int ended_well(const struct entry *entry, pid_t child) {
    int status = 0;
    if (child < 0 || waitpid(child, &status, 0) != child)
        give_up("stack: fork");
    if (WIFSIGNALED(status))
        printf("stack: %s on a thread of %zu bytes ends by signal %d\n", entry->name, entry->stack, WTERMSIG(status));
    return WIFEXITED(status) && WEXITSTATUS(status) == 0;
}

static int fits(const struct entry *entry) {
    pid_t child = fork();
    if (child == 0) {
        run_on(entry, make_stack(entry->stack), entry->stack);
        _exit(0);
    }
    return ended_well(entry, child);
}

static int leaves_margin(const struct entry *entry) {
    size_t *shared = mmap(NULL, sizeof *shared, PROT_READ | PROT_WRITE, MAP_SHARED | MAP_ANONYMOUS, -1, 0);
    if (shared == MAP_FAILED)
        give_up("stack: mmap");
    pid_t child = fork();
    if (child == 0) {
        *shared = taken(entry);
        _exit(0);
    }
    int well = ended_well(entry, child) && *shared + MARGIN <= entry->stack;
    printf("stack: %s takes %zu bytes of %zu%s\n", entry->name, *shared, entry->stack, well ? "" : ", which is too little");
    return well;
}

int main(int argc, char **argv) {
    int failed = 0;
    for (int i = 1; i < argc; i++)
        add_file(argv[i]);
    make_texts();
    /* What is printed must not wait in a buffer that a child would print again. */
    setvbuf(stdout, NULL, _IONBF, 0);
    for (size_t i = 0; i < sizeof entries / sizeof entries[0]; i++) {
        failed |= !leaves_margin(&entries[i]);
        failed |= !fits(&entries[i]);
    }
    printf("stack: %zu texts on threads of the header's sizes: %s\n", text_count, failed ? "not all fit" : "all fit");
    return failed;
}
