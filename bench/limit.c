/* What a scan and a GU could cost at least: the rows of an unload stream of courses, classes and students in arrays, and the same deck and lines as hd's.
 * Usage: limit STREAM DECK. The deck is one that shapes.py writes for "deep": GN without arguments, or GU by a key of each level. */
#include <stdint.h>
#include <stdio.h>
#include <stdlib.h>
#include <string.h>

enum { COURSE = 1, CLASS, STUD, TYPES };

static const char *const names[] = {"", "COURSE  ", "CLASS   ", "STUD    "};
static const unsigned lengths[] = {0, 12, 4, 6}, keys[] = {0, 7, 2, 4};

/* A row: where its bytes and its key stand, its type, its parent, and the number behind its span. */
struct row {
    const unsigned char *bytes;
    uint32_t parent, end;
    uint8_t type;
};

static struct row *rows;
static uint32_t count;

static unsigned char *read_file(const char *name, size_t *length) {
    FILE *file = fopen(name, "rb");
    if (file == NULL) exit(3);
    fseek(file, 0, SEEK_END);
    *length = (size_t)ftell(file);
    rewind(file);
    unsigned char *bytes = malloc(*length + 1);
    if (bytes == NULL || fread(bytes, 1, *length, file) != *length) exit(3);
    bytes[*length] = 0;
    fclose(file);
    return bytes;
}

/* The rows of a stream, each behind its type and length. */
static void read_rows(const unsigned char *at, const unsigned char *end) {
    uint32_t above[TYPES] = {0}, room = 0;
    for (at += 18; at < end && *at != 0; at += 3 + (at[1] << 8 | at[2])) {
        if (*at >= TYPES) exit(64);
        if (count == room) rows = realloc(rows, (room = room * 2 + 1024) * sizeof *rows);
        above[*at] = count;
        rows[count] = (struct row){at + 3, *at > COURSE ? above[*at - 1] : count, 0, *at};
        count++;
    }
    uint32_t next[TYPES + 1];
    for (int type = 0; type <= TYPES; type++) next[type] = count;
    for (uint32_t i = count; i-- > 0;) {
        rows[i].end = next[rows[i].type];
        for (int type = rows[i].type; type < TYPES; type++) next[type] = i;
    }
}

static char lines[1 << 16];
static size_t gathered;

static void put(const void *bytes, size_t length) {
    memcpy(lines + gathered, bytes, length);
    gathered += length;
}

static void put_number(uint32_t number) {
    char digits[10];
    size_t at = sizeof digits;
    do digits[--at] = (char)('0' + number % 10); while (number /= 10);
    put(digits + at, sizeof digits - at);
}

static void put_keys(uint32_t i) {
    if (rows[i].type > COURSE) put_keys(rows[i].parent);
    put(rows[i].bytes, keys[rows[i].type]);
}

/* The line of a call, which gives row i, or none where there is no such row. */
static void put_line(uint32_t number, const char *function, const char *status, uint32_t i) {
    if (gathered > sizeof lines - 256) {
        fwrite(lines, 1, gathered, stdout);
        gathered = 0;
    }
    put_number(number);
    put(" 1 ", 3);
    put(function, 4);
    put(" [", 2);
    put(status, 2);
    put("] 0", 3);
    if (i == count) {
        put("0          key= area=\n", 22);
        return;
    }
    char level = (char)('0' + rows[i].type);
    put(&level, 1);
    put(" ", 1);
    put(names[rows[i].type], 8);
    put(" key=", 5);
    put_keys(i);
    put(" area=", 6);
    put(rows[i].bytes, lengths[rows[i].type]);
    put("\n", 1);
}

/* GN over all rows; returns the number of the next call. */
static uint32_t scan(uint32_t number, uint32_t repeat, uint32_t *next) {
    for (; repeat > 0; repeat--, number++) {
        if (*next == count) {
            put_line(number, "GN  ", "GB", count);
            *next = 0;
            continue;
        }
        uint8_t last = *next ? rows[*next - 1].type : rows[0].type;
        put_line(number, "GN  ", rows[*next].type < last ? "GA" : "  ", *next);
        ++*next;
    }
    return number;
}

/* Of the rows of a type between two numbers, which lie in spans of one size, the one of a key; `count` where there is none. */
static uint32_t find(uint32_t from, uint32_t to, const unsigned char *key, unsigned length) {
    if (from >= to) return count;
    uint32_t span = rows[from].end - from, low = 0, high = (to - from) / span;
    while (low < high) {
        uint32_t middle = (low + high) / 2;
        int order = memcmp(rows[from + middle * span].bytes, key, length);
        if (order == 0) return from + middle * span;
        if (order < 0) low = middle + 1;
        else high = middle;
    }
    return count;
}

int main(int words, char *word[]) {
    size_t length, deck_length;
    if (words != 3) return 64;
    unsigned char *stream = read_file(word[1], &length);
    read_rows(stream, stream + length);
    unsigned char *line = read_file(word[2], &deck_length);
    uint32_t number = 1, next = 0;
    while (*line == 'L') {
        if (!memcmp(line + 6, "GN", 2)) {
            int repeat = atoi((const char *)line + 1);
            number = scan(number, repeat ? (uint32_t)repeat : 1, &next);
            line = (unsigned char *)strchr((const char *)line, '\n') + 1;
            continue;
        }
        uint32_t from = 0, to = count, i = count;
        for (int type = COURSE; type < TYPES && (type == COURSE || *line == 'C'); type++) {
            i = from == count ? count : find(from, to, line + 30, keys[type]);
            from = i == count ? count : i + 1;
            to = i == count ? count : rows[i].end;
            line = (unsigned char *)strchr((const char *)line, '\n') + 1;
        }
        put_line(number++, "GU  ", i == count ? "GE" : "  ", i);
    }
    fwrite(lines, 1, gathered, stdout);
    return 0;
}
