/* What the examples over catalogues have in common: the accepted lines of a file, how refused ones are told, and rows. The program that
 * includes it has defined PROGRAM, by which it speaks of itself, and may have defined WORDS, a function that says in words what a number of
 * refusal is: line_in_words, or one of its own, which may ask that one for the rest. */
#ifndef CATALOGUE_H
#define CATALOGUE_H

#include <inttypes.h>
#include <stdio.h>
#include <stdlib.h>
#include <string.h>

#include "qubathimi.h"

/* An accepted line: its bytes, its number in the file, its sheet, and where its parts lie. It ends where its name does. */
struct line {
    const uint8_t *bytes;
    size_t number;
    uint64_t sheet, label, start, end;
};

struct catalogue {
    struct line *lines;
    size_t count, refused;
};

static void *room(void *old, size_t size)
{
    void *bytes = realloc(old, size);
    if (bytes == NULL) {
        fprintf(stderr, "%s: no memory\n", PROGRAM);
        exit(1);
    }
    return bytes;
}

/* All bytes of a file. */
static uint8_t *bytes_of(const char *path, size_t *length)
{
    FILE *file = fopen(path, "rb");
    if (file == NULL) {
        perror(path);
        exit(1);
    }
    size_t size = 65536;
    uint8_t *bytes = room(NULL, size);
    *length = 0;
    for (size_t n; (n = fread(bytes + *length, 1, size - *length, file)) > 0;) {
        *length += n;
        if (*length == size) {
            size *= 2;
            bytes = room(bytes, size);
        }
    }
    if (ferror(file)) {
        perror(path);
        exit(1);
    }
    fclose(file);
    return bytes;
}

/* What a refusal of a label or a line is, in words. */
static inline const char *line_in_words(uint32_t status)
{
    switch (status) {
    case QUBATHIMI_LABEL_LENGTH:
        return "the label is empty or has more than 16 bytes";
    case QUBATHIMI_STRANGE_BYTE:
        return "this byte is neither a digit nor a hyphen; at the end it may be a carriage return";
    case QUBATHIMI_FIELD_FORM:
        return "this number is missing or has a leading zero";
    case QUBATHIMI_NAMES_NO_SCALE:
        return "no label begins with this number and has so many behind it";
    case QUBATHIMI_FIELD_RANGE:
        return "this number is out of range";
    case QUBATHIMI_NAME_SCALE:
        return "sheets of this scale have no names, so nothing may stand behind the label";
    case QUBATHIMI_NAME_FORM:
        return "the name is badly formed";
    default:
        return "see docs/REFUSALS.md";
    }
}

#ifdef WORDS
static const char *WORDS(uint32_t status);
#endif

/* Of a refusal that carries a place, whether or not it is 0, that place too. */
static void print_refusal(FILE *file, uint32_t status, uint64_t place)
{
    fprintf(file, "refused %" PRIu32, status);
    switch (status) {
    case QUBATHIMI_LABEL_LENGTH:
    case QUBATHIMI_STRANGE_BYTE:
    case QUBATHIMI_FIELD_FORM:
    case QUBATHIMI_NAMES_NO_SCALE:
    case QUBATHIMI_FIELD_RANGE:
        fprintf(file, " at %" PRIu64, place);
    }
#ifdef WORDS
    fprintf(file, ": %s", WORDS(status));
#endif
}

static void tell(const char *path, size_t number, uint32_t status, uint64_t place)
{
    fprintf(stderr, "%s: line %zu: ", path, number);
    print_refusal(stderr, status, place);
    fprintf(stderr, "\n");
}

/* The accepted lines of a file, and how many were refused. Their bytes stay where they are: a part is told by its places. */
static inline struct catalogue catalogue_of(const char *path)
{
    size_t length, size = 1024, number = 0;
    const uint8_t *at = bytes_of(path, &length), *end = at + length;
    struct catalogue all = {room(NULL, size * sizeof *all.lines), 0, 0};

    while (at < end) {
        const uint8_t *feed = memchr(at, '\n', (size_t)(end - at));
        size_t n = (size_t)((feed != NULL ? feed : end) - at);
        struct line line = {.bytes = at, .number = ++number};
        uint32_t status = qubathimi_read_line(at, n, &line.sheet);
        if (status != 0) {
            tell(path, number, status, line.sheet);
            all.refused++;
        } else {
            qubathimi_line_parts(at, n, &line.label, &line.start, &line.end);
            if (all.count == size) {
                size *= 2;
                all.lines = room(all.lines, size * sizeof *all.lines);
            }
            all.lines[all.count++] = line;
        }
        at += feed != NULL ? n + 1 : n;
    }
    return all;
}

static inline void print_part(const uint8_t *bytes, uint64_t start, uint64_t end)
{
    putchar('\t');
    fwrite(bytes + start, 1, end - start, stdout);
}

/* The program's status, when all rows are printed: 1 where they could not be written. */
static int written(void)
{
    if (fflush(stdout) != 0 || ferror(stdout)) {
        perror(PROGRAM);
        return 1;
    }
    return 0;
}

#endif
