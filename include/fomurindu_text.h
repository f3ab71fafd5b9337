/*
 * The text of a content model, read and written.
 *
 * Reading turns a text as (a,(b|c)*,d?) into codes and names, writing turns codes and names into clean text. docs/TEXT.md has the
 * rules of the text, docs/MODELS.md says what codes mean, and docs/FAULTS.md has the card of faults, by number.
 *
 * Link with libeditor_text.a. The calls allocate nothing, keep nothing and may be made from several threads at once.
 *
 * Every list is lent by its first cell and its number of cells. No pointer may be null, also where the number is 0. A list that a
 * call writes, and what it tells, may overlap nothing else that the call is given.
 */
#ifndef FOMURINDU_TEXT_H
#define FOMURINDU_TEXT_H

#include <stddef.h>
#include <stdint.h>

#ifdef __cplusplus
extern "C" {
#endif

#define FOMURINDU_CODES 1280u      /* the cells that a list of codes must have for reading */
#define FOMURINDU_NAMES 64u        /* the cells that a list of names must have for reading */
#define FOMURINDU_TEXT_READ 65535u /* the most bytes of a text that is read */
#define FOMURINDU_TEXT 5890u       /* the most bytes of a text that is written */

/* The codes, in postfix order. */
#define FOMURINDU_CODE_EMPTY 0u  /* the empty word */
#define FOMURINDU_CODE_SYMBOL 1u /* the next name */
#define FOMURINDU_CODE_THEN 2u   /* the two parts before, one after the other */
#define FOMURINDU_CODE_EITHER 3u /* either of the two parts before */
#define FOMURINDU_CODE_MAYBE 4u  /* ? */
#define FOMURINDU_CODE_MANY 5u   /* * */
#define FOMURINDU_CODE_SOME 6u   /* + */

/* A name as plain data: 32 bytes, and how many of them count. A length of 0 counts as 1, and one over 32 as 32. */
struct fomurindu_name {
    uint8_t bytes[32];
    uint8_t length;
};

/* What a call tells beside its number. Where a fault names one value, the second is 0. */
struct fomurindu_told {
    size_t first;
    size_t second;
};

#if defined(__cplusplus) && __cplusplus >= 201103L
static_assert(sizeof(struct fomurindu_name) == 33, "a name has 33 bytes");
static_assert(sizeof(struct fomurindu_told) == 2 * sizeof(size_t), "what is told is two numbers");
#elif defined(__STDC_VERSION__) && __STDC_VERSION__ >= 201112L
_Static_assert(sizeof(struct fomurindu_name) == 33, "a name has 33 bytes");
_Static_assert(sizeof(struct fomurindu_told) == 2 * sizeof(size_t), "what is told is two numbers");
#endif

/*
 * Reads a text. Returns 0 and tells how many codes and how many names it has; they stand first in their lists, and all other cells
 * stay as they were. Or returns the number of a fault and tells what it names, and every cell stays as it was:
 *
 *   11  a list is too short: the cells needed, FOMURINDU_CODES or FOMURINDU_NAMES
 *    1  a byte that no model has: its offset
 *    2  a token that can't follow: its offset; where the text ends early, its length
 *    3  a name of over 32 bytes: its offset
 *    4  a bracket that opens a seventeenth level: its offset
 *    5  a 65th name: its offset; or over 65,535 bytes: 65535
 */
uint8_t fomurindu_read(const uint8_t *text, size_t text_length, uint8_t *codes, size_t codes_cells, struct fomurindu_name *names,
                       size_t names_cells, struct fomurindu_told *told);

/*
 * Writes the text of a model. Returns 0 and tells the length of the text, and 0; the text stands first in its list, and all other
 * cells stay as they were. What is written reads back to the same codes and names. Or returns the number of a fault and tells what
 * it names, and every cell stays as it was:
 *
 *    5  over 64 names: 64; or over 1,280 codes: 1280
 *    6  codes that are no model's: the index of the first code at fault, or the number of codes where only the end is
 *   14  code 0 among other codes: its index; or a row that is no name: its index
 *    4  a bracket that opens a seventeenth level: its offset in the text as it would be written
 *   11  the list is too short: the cells needed
 */
uint8_t fomurindu_write(const uint8_t *codes, size_t codes_length, const struct fomurindu_name *names, size_t names_length,
                        uint8_t *text, size_t text_cells, struct fomurindu_told *told);

#ifdef __cplusplus
}
#endif

#endif
