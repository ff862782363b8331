/* Bench files, as document 01 has them: records of the mark B5 C3, a kind, a two-byte length and data. */

#ifndef BENCH_H
#define BENCH_H

#include <stdbool.h>
#include <stddef.h>
#include <stdint.h>
#include <stdio.h>
#include <stdlib.h>

enum { INSTALLATION = 1, START_UP = 2, COMMAND = 3, MOST_DATA = 512 };

/* One call. The random bytes are a command's alone; the input is installation data or a command. */
struct record {
    unsigned kind;
    size_t limit;
    const uint8_t *random;
    const uint8_t *input;
    size_t input_len;
};

/* What is left of a file. */
struct reader {
    const uint8_t *at;
    size_t left;
};

static inline size_t word(const uint8_t *bytes)
{
    return (size_t)bytes[0] * 256 + bytes[1];
}

/* The next record; false where it is malformed. */
static inline bool read_record(struct reader *reader, struct record *record)
{
    const uint8_t *at = reader->at;
    size_t length, fixed;

    if (reader->left < 5 || at[0] != 0xB5 || at[1] != 0xC3)
        return false;
    record->kind = at[2];
    length = word(at + 3);
    fixed = record->kind == COMMAND ? 10 : 2;
    if (record->kind < INSTALLATION || record->kind > COMMAND || length < fixed || length > MOST_DATA ||
        length > reader->left - 5 || (record->kind == START_UP && length != fixed))
        return false;
    record->limit = word(at + 5);
    record->random = at + 7;
    record->input = at + 5 + fixed;
    record->input_len = length - fixed;
    reader->at += 5 + length;
    reader->left -= 5 + length;
    return true;
}

/* A whole file, for the life of the program. */
static inline struct reader open_bench(const char *name)
{
    enum { MOST_FILE = 1 << 24 };
    static uint8_t bytes[MOST_FILE];
    FILE *file = fopen(name, "rb");
    size_t length;

    if (file == NULL) {
        perror(name);
        exit(2);
    }
    length = fread(bytes, 1, sizeof bytes, file);
    if (ferror(file) || fgetc(file) != EOF) {
        fprintf(stderr, "%s: can't be read, or has more than 16 MiB\n", name);
        exit(2);
    }
    fclose(file);
    return (struct reader){ bytes, length };
}

#endif
