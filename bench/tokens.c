/* The scan of blanks and the comparison with a keyword, on 1 MB, against the same loops in C: best of many runs, side by side. */
#include <stddef.h>
#include <stdint.h>
#include <stdio.h>
#include <stdlib.h>
#include <string.h>
#include <time.h>

size_t token_blanks(const uint8_t *text, size_t text_len);
size_t token_keyword(const uint8_t *text, size_t text_len, const uint8_t *key, size_t key_len);

enum { SIZE = 1 << 20, RUNS = 200 };
static uint8_t text[SIZE];

static int is_space(uint8_t c) { return c == ' ' || c == '\t' || c == '\n' || c == '\r'; }
static int is_letter(uint8_t c) { return ('a' <= c && c <= 'z') || ('A' <= c && c <= 'Z') || c == '_'; }
static int is_word(uint8_t c) { return is_letter(c) || ('0' <= c && c <= '9'); }
static uint8_t lower(uint8_t c) { return 'A' <= c && c <= 'Z' ? c + 32 : c; }

/* The blanks at the front, with the doc comment that counts. */
__attribute__((noinline)) static size_t c_blanks(const uint8_t *p, size_t n) {
    size_t i = 0, doc = 0;
    for (;;) {
        if (i + 1 < n && p[i] == '/' && p[i + 1] == '/') {
            size_t j = i + 2;
            while (j < n && p[j] != '\n' && p[j] != '\r') j++;
            if (j == i + 2) break;
            doc = 0;
            i = j;
        } else if (i + 1 < n && p[i] == '/' && p[i + 1] == '*') {
            size_t j = i + 2;
            while (j + 1 < n && !(p[j] == '*' && p[j + 1] == '/')) j++;
            if (j + 1 >= n) break;
            doc = j > i + 2 && p[i + 2] == '*' ? i + 3 : 0;
            i = j + 2;
        } else {
            size_t j = i;
            while (j < n && is_space(p[j])) j++;
            if (j == i) break;
            i = j;
        }
    }
    __asm__ volatile("" : : "r"(doc));
    return i;
}

__attribute__((noinline)) static size_t c_keyword(const uint8_t *p, size_t n, const uint8_t *key, size_t k) {
    size_t i = 0;
    if (n == 0 || !is_letter(p[0])) return SIZE_MAX;
    while (i < k) {
        if (i >= n || lower(p[i]) != key[i]) return SIZE_MAX;
        i++;
    }
    if (i < n && is_word(p[i])) return SIZE_MAX;
    return i;
}

/* Every word of the text, compared with the keyword. */
static size_t words(size_t (*keyword)(const uint8_t *, size_t, const uint8_t *, size_t), const char *key) {
    size_t k = strlen(key), found = 0;
    for (size_t i = 0; i < SIZE; i += 10) found += keyword(text + i, SIZE - i, (const uint8_t *)key, k) != SIZE_MAX;
    return found;
}

static void fill(const char *piece) {
    size_t n = strlen(piece);
    for (size_t i = 0; i < SIZE; i++) text[i] = piece[i % n];
}

static double now(void) {
    struct timespec t;
    clock_gettime(CLOCK_MONOTONIC, &t);
    return t.tv_sec + t.tv_nsec * 1e-9;
}

static double best_ours, best_c;
static size_t value_ours, value_c;
#define RACE(OURS, THEIRS) \
    do { \
        best_ours = best_c = 1e9; \
        for (int run = 0; run < RUNS; run++) { \
            double t = now(); \
            value_ours = OURS; \
            t = now() - t; \
            if (t < best_ours) best_ours = t; \
            t = now(); \
            value_c = THEIRS; \
            t = now() - t; \
            if (t < best_c) best_c = t; \
        } \
    } while (0)

static int report(const char *name) {
    printf("%-28s %8.0f us, C %8.0f us, ratio %.2f\n", name, best_ours * 1e6, best_c * 1e6, best_ours / best_c);
    if (value_ours == value_c) return 0;
    printf("%s: %zu, C %zu\n", name, value_ours, value_c);
    return 1;
}

int main(void) {
    int wrong = 0;
    fill("  // a comment\n/* block */\t/** doc */\n   ");
    RACE(token_blanks(text, SIZE), c_blanks(text, SIZE));
    wrong |= report("blanks, short");
    fill("                                        \n");
    RACE(token_blanks(text, SIZE), c_blanks(text, SIZE));
    wrong |= report("blanks, white space");
    fill("/* a longer comment that stands before a declaration and says in a sentence or two what it is for */\n");
    RACE(token_blanks(text, SIZE), c_blanks(text, SIZE));
    wrong |= report("blanks, block comments");
    fill("// a longer comment that stands before a declaration and says in a sentence or two what it is for\n");
    RACE(token_blanks(text, SIZE), c_blanks(text, SIZE));
    wrong |= report("blanks, line comments");
    fill("attribute Attribute attribut  bitmap    command   ");
    RACE(words(token_keyword, "attribute"), words(c_keyword, "attribute"));
    wrong |= report("keyword");
    return wrong;
}
