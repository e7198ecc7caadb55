/* How the time of reading and of the survey grows with the text, for texts of different shapes: at 256 KB and at 1 MB in turn, the shortest of many runs each,
   since what else the machine does comes and goes.
   shapes SMALL LARGE: a realistic text of about 256 KB and one of about 1 MB (bench/grow makes them). */
#include <stddef.h>
#include <stdint.h>
#include <stdio.h>
#include <stdlib.h>
#include <string.h>
#include <time.h>

uint64_t matter_idl_read(const uint8_t *text, size_t text_length, uint8_t *catalogue, size_t catalogue_length);
uint64_t matter_idl_survey(const uint8_t *text, size_t text_length, uint8_t *catalogue, size_t catalogue_length, uint8_t *report, size_t report_length);

enum { LIMIT = 1048575, SMALL = LIMIT / 4, RUNS = 100 };
typedef struct {
    uint8_t bytes[LIMIT + 1];
    size_t length;
    double reading, survey;
} Text;
static Text small, large;
static uint8_t catalogue[8 * LIMIT], report[8 * (LIMIT / 2 + 1)];

static double now(void) {
    struct timespec t;
    clock_gettime(CLOCK_MONOTONIC, &t);
    return (double)t.tv_sec + (double)t.tv_nsec * 1e-9;
}

static void keep(double *best, double took) {
    if (took < *best) *best = took;
}

static void run(Text *t) {
    double start = now();
    matter_idl_read(t->bytes, t->length, catalogue, sizeof catalogue);
    double between = now();
    matter_idl_survey(t->bytes, t->length, catalogue, sizeof catalogue, report, sizeof report);
    keep(&t->reading, between - start);
    keep(&t->survey, now() - between);
}

/* The piece again and again; %d in it is the number of the copy. */
static size_t repeated(const char *piece, uint8_t *bytes, size_t size) {
    size_t n = 0;
    for (int i = 0;; i++) {
        char copy[256];
        size_t length = (size_t)snprintf(copy, sizeof copy, piece, i);
        if (n + length > size) return n;
        memcpy(bytes + n, copy, length);
        n += length;
    }
}

static size_t comment(const char *unused, uint8_t *bytes, size_t size) {
    (void)unused;
    memset(bytes, 'c', size);
    memcpy(bytes, "/*", 2);
    memcpy(bytes + size - 2, "*/", 2);
    return size;
}

/* One entry's annotations, with what is after them. */
static size_t list(const char *end, uint8_t *bytes, size_t size) {
    static const char front[] = "enum E:t{a=1[";
    size_t n = strlen(front), rest = strlen(end);
    memcpy(bytes, front, n);
    n += repeated("b=\"\",", bytes + n, size - n - rest);
    memcpy(bytes + n, end, rest);
    return n + rest;
}

static size_t from_file(const char *name, uint8_t *bytes, size_t size) {
    FILE *f = fopen(name, "rb");
    if (!f) {
        perror(name);
        exit(1);
    }
    size_t n = fread(bytes, 1, size, f);
    fclose(f);
    return n;
}

typedef size_t Make(const char *what, uint8_t *bytes, size_t size);

static void make(Text *t, Make *by, const char *what, size_t size) {
    t->length = by(what, t->bytes, size);
    t->reading = t->survey = 1e9;
}

static void line(const char *name, const char *call, double at_small, double at_large) {
    char what[80];
    snprintf(what, sizeof what, "%s, %s", name, call);
    double growth = at_large / at_small * (double)small.length / (double)large.length * 4;
    printf("%-52s %8.3f %8.3f ms %6.1f times\n", what, at_small * 1e3, at_large * 1e3, growth);
}

static void shape(const char *name, Make *by, const char *of_small, const char *of_large) {
    make(&small, by, of_small, SMALL);
    make(&large, by, of_large, LIMIT);
    for (int i = 0; i < RUNS; i++) {
        run(&small);
        run(&large);
    }
    line(name, "reading", small.reading, large.reading);
    line(name, "survey", small.survey, large.survey);
    printf("%-52s %29.2f\n", "  survey as a multiple of reading, at 1 MB", large.survey / large.reading);
}

static void same(const char *name, const char *piece) { shape(name, repeated, piece, piece); }

int main(int count, char **names) {
    if (count < 3) {
        fprintf(stderr, "shapes SMALL LARGE\n");
        return 2;
    }
    printf("%-52s %8s %8s    %6s\n", "", "256 KB", "1 MB", "growth");
    shape("realistic text", from_file, names[1], names[2]);
    shape("one comment", comment, "", "");
    same("empty clusters", "cluster C=1{}");
    same("attribute instances", "endpoint 0{server cluster C{ram attribute a;}}");
    same("clusters with new shared ids", "cluster C=1{shared enum E%d:t{}}");
    same("clusters with one shared id", "cluster C=1{shared enum E:t{}}");
    same("a section a line, accepted", "enum E:t{\n}");
    same("a section a line, spoilt", "x\n}");
    same("an open /* after every item", "enum E:t{\n}/*");
    same("entries with two annotations each", "enum E:t{a=1[b=\"c\",d=\"e\"];b=2[b=\"c\",d=\"e\"];}");
    shape("one list of annotations", list, "];}", "];}");
    shape("one list that is not closed", list, "", "");
    return 0;
}
