/*
 * Whether one content model takes everything that another does: from two texts to a verdict.
 *
 * A content model is written as in an XML element declaration: EMPTY, (a,(b|c)*,d?) or (#PCDATA|a|b)*. Its words are the lists of
 * child elements that it allows. docs/TEXT.md has the rules of the text, docs/MODELS.md says which words a model has, and
 * docs/FAULTS.md has the card of faults, by number.
 *
 * Link with libeditor.a. The call allocates nothing, keeps nothing and may be made from several threads at once.
 */
#ifndef FOMURINDU_H
#define FOMURINDU_H

#include <stddef.h>
#include <stdint.h>

#ifdef __cplusplus
extern "C" {
#endif

/* The verdicts. */
#define FOMURINDU_INCLUDED 0u /* every word of the first model is a word of the second */
#define FOMURINDU_NOT 1u      /* some word of the first model is none of the second */

/* A fault's number is added to one of these. */
#define FOMURINDU_FIRST 100u  /* the first text has a fault */
#define FOMURINDU_SECOND 200u /* the first text has none, the second has */

/* The faults of a text, and that of a model that it gives. Each stands on the card under its number. */
#define FOMURINDU_STRANGE_BYTE 1u /* a byte that no model has */
#define FOMURINDU_UNEXPECTED 2u   /* a token that can't follow, or an early end */
#define FOMURINDU_LONG_NAME 3u    /* a name of over 32 bytes */
#define FOMURINDU_TOO_DEEP 4u     /* a seventeenth level of brackets */
#define FOMURINDU_TOO_LARGE 5u    /* a 65th name, or over 65,535 bytes */
#define FOMURINDU_AMBIGUOUS 7u    /* two positions with the same name compete, as in (a*,a) */

/*
 * Compares the models of two texts, each given by its first byte and its length; no zero byte ends them. Neither pointer may be
 * null, also where its length is 0.
 *
 * Returns FOMURINDU_INCLUDED or FOMURINDU_NOT, or FOMURINDU_FIRST plus the fault of the first text, or else FOMURINDU_SECOND plus
 * that of the second.
 */
uint32_t fomurindu_verdict(const uint8_t *first, size_t first_length, const uint8_t *second, size_t second_length);

#ifdef __cplusplus
}
#endif

#endif
