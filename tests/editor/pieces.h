/*
 * Texts for tables: one that is written out, or one with a part that is repeated.
 */
#ifndef PIECES_H
#define PIECES_H

#include <stdio.h>
#include <stdlib.h>
#include <string.h>

/* The text `before`, then `times` times `part`, then `after`. An @ in the part stands for the number of the repetition, from 0. */
struct piece {
    const char *before;
    size_t before_length;
    const char *part;
    size_t times;
    const char *after;
};

#define ONE(text) { text, sizeof(text) - 1, "", 0, "" }
#define MANY(before, part, times, after) { before, sizeof(before) - 1, part, times, after }

#define MOST_PIECE 70000

/* A text with its length. A zero byte ends it too, which is not counted. */
struct made {
    size_t length;
    char text[MOST_PIECE];
};

static void add(struct made *made, const char *text, size_t length) {
    if (length >= MOST_PIECE - made->length) {
        fprintf(stderr, "a text of the table is too long\n");
        exit(2);
    }
    memcpy(made->text + made->length, text, length);
    made->length += length;
    made->text[made->length] = 0;
}

static void make(const struct piece *piece, struct made *made) {
    made->length = 0;
    add(made, piece->before, piece->before_length);
    for (size_t i = 0; i < piece->times; i++) {
        for (const char *at = piece->part; *at; at++) {
            char number[24];
            int digits = snprintf(number, sizeof number, "%zu", i);
            if (*at == '@')
                add(made, number, (size_t)digits);
            else
                add(made, at, 1);
        }
    }
    add(made, piece->after, strlen(piece->after));
}

#endif
