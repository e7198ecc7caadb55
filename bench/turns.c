/* Two archives on the same texts, in turn: the shortest of many runs each, since what else the machine does comes and goes.
   turns OLD NEW TEXT..: shared libraries made from the archives (bench/turns makes them). */
#include <dlfcn.h>
#include <stddef.h>
#include <stdint.h>
#include <stdio.h>
#include <stdlib.h>
#include <string.h>
#include <time.h>

enum { LIMIT = 1048575, RUNS = 400 };
typedef uint64_t Read(const uint8_t *text, size_t text_length, uint8_t *catalogue, size_t catalogue_length);
typedef uint64_t Survey(const uint8_t *text, size_t text_length, uint8_t *catalogue, size_t catalogue_length, uint8_t *report, size_t report_length);
typedef struct {
    Read *read;
    Survey *survey;
    double reading, surveying;
} Library;
static uint8_t text[LIMIT + 1], catalogue[8 * LIMIT], report[8 * (LIMIT / 2 + 1)];
static size_t length;

static double now(void) {
    struct timespec t;
    clock_gettime(CLOCK_MONOTONIC, &t);
    return (double)t.tv_sec + (double)t.tv_nsec * 1e-9;
}

static void keep(double *best, double took) {
    if (took < *best) *best = took;
}

/* C has no conversion from an object's address to a function's. */
static void find(void *library, const char *name, void *function) {
    void *found = dlsym(library, name);
    if (!found) {
        fprintf(stderr, "%s\n", dlerror());
        exit(1);
    }
    memcpy(function, &found, sizeof found);
}

static Library library(const char *file) {
    Library l;
    void *opened = dlopen(file, RTLD_NOW | RTLD_LOCAL);
    if (!opened) {
        fprintf(stderr, "%s\n", dlerror());
        exit(1);
    }
    find(opened, "matter_idl_read", &l.read);
    find(opened, "matter_idl_survey", &l.survey);
    return l;
}

static void load(const char *name) {
    FILE *f = fopen(name, "rb");
    if (!f) {
        perror(name);
        exit(1);
    }
    length = fread(text, 1, sizeof text, f);
    fclose(f);
}

static void run(Library *l) {
    double start = now();
    uint64_t result = l->read(text, length, catalogue, sizeof catalogue);
    double between = now();
    l->survey(text, length, catalogue, sizeof catalogue, report, sizeof report);
    keep(&l->reading, between - start);
    keep(&l->surveying, now() - between);
    if (result >> 56) {
        fprintf(stderr, "refused by %d\n", (int)(result >> 56));
        exit(1);
    }
}

static void line(const char *name, const char *call, double before, double after) {
    printf("%-36s %-7s %8.3f %8.3f ms %7.3f\n", name, call, before * 1e3, after * 1e3, after / before);
}

static void compare(Library *before, Library *after, const char *name) {
    load(name);
    before->reading = before->surveying = after->reading = after->surveying = 1e9;
    for (int i = 0; i < RUNS; i++) {
        run(i % 2 ? before : after);
        run(i % 2 ? after : before);
    }
    const char *slash = strrchr(name, '/');
    name = slash ? slash + 1 : name;
    line(name, "reading", before->reading, after->reading);
    line(name, "survey", before->surveying, after->surveying);
}

int main(int count, char **names) {
    if (count < 4) {
        fprintf(stderr, "turns OLD NEW TEXT..\n");
        return 2;
    }
    Library before = library(names[1]), after = library(names[2]);
    printf("%-44s %8s %8s    %7s\n", "", "old", "new", "new/old");
    for (int i = 3; i < count; i++) compare(&before, &after, names[i]);
    return 0;
}
