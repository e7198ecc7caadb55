/* A place of the text, shown to a person: its line, made safe for a terminal, and a caret below; and a string, made as safe. */
#include "explain.h"

#include <stdio.h>
#include <string.h>

#define WINDOW 100
#define TAB 8
#define DOTS "..."

/* One character of a line: its bytes in the text, what is printed for it and how many columns of the terminal that takes. */
struct cell {
    size_t bytes, width;
    char shown[16];
};

struct line {
    size_t start, end;
};

/* The character at the start of well-formed UTF-8 (Unicode Standard, table 3-7) and its bytes, or 0 bytes. */
static size_t character(const uint8_t *b, size_t rest, uint32_t *value) {
    uint8_t least = 0x80, most = 0xbf;
    size_t bytes;
    if (b[0] < 0xc2 || b[0] > 0xf4)
        return 0;
    if (b[0] < 0xe0) {
        bytes = 2;
        *value = b[0] & 0x1f;
    } else if (b[0] < 0xf0) {
        bytes = 3;
        *value = b[0] & 0x0f;
        least = b[0] == 0xe0 ? 0xa0 : least;
        most = b[0] == 0xed ? 0x9f : most;
    } else {
        bytes = 4;
        *value = b[0] & 0x07;
        least = b[0] == 0xf0 ? 0x90 : least;
        most = b[0] == 0xf4 ? 0x8f : most;
    }
    if (rest < bytes)
        return 0;
    for (size_t i = 1; i < bytes; i++) {
        if (b[i] < least || b[i] > most)
            return 0;
        *value = *value << 6 | (b[i] & 0x3f);
        least = 0x80;
        most = 0xbf;
    }
    return bytes;
}

struct range {
    uint32_t first, last;
};

static int in_ranges(const struct range *ranges, size_t count, uint32_t value) {
    for (size_t i = 0; i < count; i++)
        if (ranges[i].first <= value && value <= ranges[i].last)
            return 1;
    return 0;
}
#define IN(ranges, value) in_ranges(ranges, sizeof(ranges) / sizeof(ranges)[0], value)

/* Controls, and formats that are not seen or turn the direction of what follows: printed by number. */
static int is_hidden(uint32_t value) {
    static const struct range hidden[] = {{0x80, 0x9f},     {0xad, 0xad},     {0x61c, 0x61c},   {0x180e, 0x180e},  {0x200b, 0x200f},
                                          {0x2028, 0x202e}, {0x2060, 0x206f}, {0xfeff, 0xfeff}, {0xfff9, 0xfffb}, {0xe0000, 0xe0fff}};
    return IN(hidden, value);
}

/* Rough: marks take no column, and the characters of East Asia and pictures two. */
static size_t columns(uint32_t value) {
    static const struct range none[] = {{0x300, 0x36f},   {0x483, 0x489},   {0x591, 0x5bd},   {0x610, 0x61a},   {0x64b, 0x65f},
                                        {0x1ab0, 0x1aff}, {0x1dc0, 0x1dff}, {0x20d0, 0x20ff}, {0xfe00, 0xfe0f}, {0xfe20, 0xfe2f}};
    static const struct range two[] = {{0x1100, 0x115f}, {0x2e80, 0x303e}, {0x3041, 0xa4cf}, {0xac00, 0xd7a3}, {0xf900, 0xfaff},
                                       {0xfe30, 0xfe6f}, {0xff00, 0xff60}, {0xffe0, 0xffe6}, {0x1f300, 0x1f64f},
                                       {0x1f680, 0x1f6ff}, {0x1f900, 0x1f9ff}, {0x20000, 0x3fffd}};
    return IN(none, value) ? 0 : IN(two, value) ? 2 : 1;
}

/* The cell of the character at `at`, in a column of its line (a tab's width depends on it). */
static struct cell cell_at(struct text text, size_t at, size_t end, size_t column) {
    const uint8_t *b = text.bytes + at;
    struct cell cell = {1, 1, ""};
    uint32_t value = 0;
    size_t bytes = character(b, end - at, &value);
    if (b[0] == '\t') {
        cell.width = TAB - column % TAB;
        memset(cell.shown, ' ', cell.width);
    } else if (b[0] >= 0x20 && b[0] < 0x7f) {
        cell.shown[0] = (char)b[0];
    } else if (bytes && is_hidden(value)) {
        cell.bytes = bytes;
        cell.width = (size_t)snprintf(cell.shown, sizeof cell.shown, "\\u{%X}", (unsigned)value);
    } else if (bytes) {
        cell.bytes = bytes;
        cell.width = columns(value);
        memcpy(cell.shown, b, bytes);
    } else {
        cell.width = (size_t)snprintf(cell.shown, sizeof cell.shown, "\\x%02X", b[0]);
    }
    return cell;
}

/* The line of a place, without its line end. A line feed, and a carriage return right before it, belong to the line they end. */
static struct line line_of(struct text text, size_t place) {
    struct line line = {place, place};
    while (line.start > 0 && text.bytes[line.start - 1] != '\n')
        line.start--;
    while (line.end < text.length && text.bytes[line.end] != '\n')
        line.end++;
    if (line.end < text.length && line.end > line.start && text.bytes[line.end - 1] == '\r')
        line.end--;
    return line;
}

/* How many characters of the line are before `at`, and how many columns of the terminal they take. */
static size_t characters_before(struct text text, struct line line, size_t at, size_t *column) {
    size_t characters = 0;
    *column = 0;
    for (size_t i = line.start; i < at && i < line.end; characters++) {
        struct cell cell = cell_at(text, i, line.end, *column);
        i += cell.bytes;
        *column += cell.width;
    }
    return characters;
}

size_t column_of(struct text text, size_t place) {
    size_t column;
    return characters_before(text, line_of(text, place), place, &column) + 1;
}

/* Prints the cells that are wholly in columns `from` up to `to`, and blanks for the rest of one that starts before. */
static void print_columns(struct text text, struct line line, size_t from, size_t to) {
    size_t column = 0;
    for (size_t i = line.start; i < line.end;) {
        struct cell cell = cell_at(text, i, line.end, column);
        size_t after = column + cell.width;
        if (after > to)
            break;
        if (column >= from)
            fputs(cell.shown, stdout);
        else if (after > from)
            printf("%*s", (int)(after - from), "");
        i += cell.bytes;
        column = after;
    }
}

void show_place(struct text text, size_t place, size_t number) {
    struct line line = line_of(text, place);
    size_t caret, width, from = 0;
    characters_before(text, line, place, &caret);
    characters_before(text, line, line.end, &width);
    size_t needed = width > caret ? width : caret + 1;
    if (needed > WINDOW && caret > WINDOW / 2)
        from = caret - WINDOW / 2 < needed - WINDOW ? caret - WINDOW / 2 : needed - WINDOW;
    int cut_left = from > 0, cut_right = needed > from + WINDOW;
    printf("%7zu | %s", number, cut_left ? DOTS : "");
    print_columns(text, line, cut_left ? from + strlen(DOTS) : 0, from + WINDOW - (cut_right ? strlen(DOTS) : 0));
    printf("%s\n%7s | %*s^\n", cut_right ? DOTS : "", "", (int)(caret - from), "");
}

void show_string(struct text string) {
    struct line line = {0, string.length};
    size_t width;
    characters_before(string, line, line.end, &width);
    int cut = width > WINDOW;
    print_columns(string, line, 0, WINDOW - (cut ? strlen(DOTS) : 0));
    fputs(cut ? DOTS : "", stdout);
}
