/*
 * How long a verdict takes, from two texts to the answer, beside libfa on the same pairs as regular expressions.
 *
 * Every pair is made from one tree whose names all differ, so each model is unambiguous. Both models have the tree's groups; where
 * one has a mark, the other has the same or a wider one. Every second pair asks whether the narrow model is in the wide one, which
 * it is, and the others ask it the other way round.
 *
 * For libfa a model is written twice. As strings each name is its bytes with a semicolon behind it, so that no name begins another:
 * (a,b?) is ((a;)(b;)?). As bytes each name is one byte, (ab?), which is the least that libfa can be given.
 *
 * The verdicts of both are compared for each pair, and the program ends with status 1 where two differ. With the argument `alone`
 * only the library is run, for a profiler.
 */
#define _POSIX_C_SOURCE 200809L
#include "fomurindu.h"

#include <fa.h>
#include <stdio.h>
#include <stdlib.h>
#include <string.h>
#include <time.h>

#define MOST_NAMES 64
#define MOST_TEXT 4096
#define PAIRS 64
#define ROUND_NS 5e6 /* a round goes on at least as long */
#define ROUNDS 9    /* the least of so many rounds is told */

/* numbers that are the same in every run */
static uint64_t seed = 20;

static unsigned below(unsigned n) {
    seed = seed * 6364136223846793005u + 1442695040888963407u;
    return (unsigned)(seed >> 33) % n;
}

/* a model as a text, and as two regular expressions */
struct model {
    char text[MOST_TEXT];
    char strings[MOST_TEXT];
    char bytes[MOST_TEXT];
};

struct pair {
    struct model first;
    struct model second;
    int included; /* it is known to be */
};

static void join(char *to, const char *part) {
    if (strlen(to) + strlen(part) >= MOST_TEXT) {
        fprintf(stderr, "a model is too long\n");
        exit(2);
    }
    strcat(to, part);
}

/* a bracket or a mark, which a model and an expression have alike */
static void put(struct model *m, const char *sign) {
    join(m->text, sign);
    join(m->strings, sign);
    join(m->bytes, sign);
}

static void put_comma(struct model *m) {
    join(m->text, ",");
}

static void put_name(struct model *m, unsigned k) {
    static const char letters[] = "abcdefghijklmnopqrstuvwxyzABCDEFGHIJKLMNOPQRSTUVWXYZ0123456789_-";
    char name[32];
    snprintf(name, sizeof name, "%c%u", letters[k % 26], k);
    join(m->text, name);
    join(m->strings, "(");
    join(m->strings, name);
    join(m->strings, ";)");
    char byte[2] = {letters[k], 0};
    join(m->bytes, byte);
}

/* a mark of the narrow model, and the same or a wider one of the wide model */
static void put_marks(struct model *narrow, struct model *wide) {
    static const char *const marks[][2] = {{"", ""},   {"", ""},   {"", ""},   {"", ""},   {"?", "?"}, {"*", "*"},
                                           {"+", "+"}, {"", "?"},  {"", "+"},  {"?", "*"}, {"+", "*"}, {"", "*"}};
    unsigned i = below(sizeof marks / sizeof marks[0]);
    put(narrow, marks[i][0]);
    put(wide, marks[i][1]);
}

/* the names from `from` on and before `to`, in one group with groups inside */
static void grow(struct model *narrow, struct model *wide, unsigned from, unsigned to, unsigned level) {
    if (to - from == 1 && level > 0) {
        put_name(narrow, from);
        put_name(wide, from);
        put_marks(narrow, wide);
        return;
    }
    int bars = below(2) == 0;
    put(narrow, "(");
    put(wide, "(");
    for (unsigned at = from; at < to;) {
        unsigned left = to - at;
        unsigned size = level >= 8 ? 1 : 1 + below(left < 8 ? left : 8);
        if (size == to - from)
            size = size > 1 ? size - 1 : 1;
        if (at > from && bars) {
            put(narrow, "|");
            put(wide, "|");
        } else if (at > from) {
            put_comma(narrow);
            put_comma(wide);
        }
        grow(narrow, wide, at, at + size, level + 1);
        at += size;
    }
    put(narrow, ")");
    put(wide, ")");
    put_marks(narrow, wide);
}

/* a pair of some shape with n names */
static void make_pair(struct pair *p, unsigned n, int included) {
    memset(p, 0, sizeof *p);
    p->included = included;
    if (included)
        grow(&p->first, &p->second, 0, n, 0);
    else
        grow(&p->second, &p->first, 0, n, 0);
}

/* (a|b|..)* and (a*,b*,..)*, in either order: each position follows each */
static void make_dense(struct pair *p, unsigned n, int turned) {
    memset(p, 0, sizeof *p);
    p->included = 1;
    struct model *bars = turned ? &p->second : &p->first;
    struct model *commas = turned ? &p->first : &p->second;
    put(bars, "(");
    put(commas, "(");
    for (unsigned k = 0; k < n; k++) {
        if (k > 0) {
            put(bars, "|");
            put_comma(commas);
        }
        put_name(bars, k);
        put_name(commas, k);
        put(commas, "*");
    }
    put(bars, ")*");
    put(commas, ")*");
}

static uint32_t verdict(const struct pair *p) {
    return fomurindu_verdict((const uint8_t *)p->first.text, strlen(p->first.text), (const uint8_t *)p->second.text,
                             strlen(p->second.text));
}

static uint32_t by_libfa(const char *first, const char *second) {
    struct fa *one = NULL;
    struct fa *two = NULL;
    if (fa_compile(first, strlen(first), &one) != 0 || fa_compile(second, strlen(second), &two) != 0) {
        fprintf(stderr, "libfa refused an expression\n");
        exit(2);
    }
    int contained = fa_contains(one, two);
    fa_free(one);
    fa_free(two);
    return contained == 1 ? FOMURINDU_INCLUDED : FOMURINDU_NOT;
}

static uint32_t by_strings(const struct pair *p) {
    return by_libfa(p->first.strings, p->second.strings);
}

static uint32_t by_bytes(const struct pair *p) {
    return by_libfa(p->first.bytes, p->second.bytes);
}

static double now(void) {
    struct timespec t;
    clock_gettime(CLOCK_MONOTONIC, &t);
    return (double)t.tv_sec * 1e9 + (double)t.tv_nsec;
}

static volatile uint32_t sink;

/* nanoseconds for each of the pairs, in the best of some rounds */
static double measure(uint32_t (*run)(const struct pair *), const struct pair *pairs, unsigned count) {
    double best = 0;
    for (unsigned round = 0; round < ROUNDS; round++) {
        double began = now();
        double ended = began;
        unsigned long turns = 0;
        while (ended - began < ROUND_NS) {
            for (unsigned i = 0; i < count; i++)
                sink += run(&pairs[i]);
            turns++;
            ended = now();
        }
        double each = (ended - began) / ((double)turns * count);
        if (round == 0 || each < best)
            best = each;
    }
    return best;
}

static struct pair pairs[PAIRS];
static unsigned compared;
static unsigned included;
static unsigned differing;

/* all verdicts agree */
static void agree(unsigned count) {
    for (unsigned i = 0; i < count; i++) {
        uint32_t ours = verdict(&pairs[i]);
        compared++;
        included += ours == FOMURINDU_INCLUDED;
        if (ours == by_strings(&pairs[i]) && ours == by_bytes(&pairs[i]) &&
            !(pairs[i].included && ours != FOMURINDU_INCLUDED))
            continue;
        differing++;
        printf("verdict %u, libfa %u and %u: %s and %s\n", (unsigned)ours, (unsigned)by_strings(&pairs[i]),
               (unsigned)by_bytes(&pairs[i]), pairs[i].first.text, pairs[i].second.text);
    }
}

static double mean_length(unsigned count) {
    double sum = 0;
    for (unsigned i = 0; i < count; i++)
        sum += (double)(strlen(pairs[i].first.text) + strlen(pairs[i].second.text)) / 2;
    return sum / count;
}

int main(int argc, char **argv) {
    int alone = argc > 1 && strcmp(argv[1], "alone") == 0;

    printf("From two texts to a verdict, in ns for a pair\n\n");
    printf("names  bytes  fomurindu  libfa, strings    ratio  libfa, bytes    ratio\n");
    static const unsigned sizes[] = {2, 3, 4, 5, 6, 8, 10, 12, 14, 16, 18, 20};
    for (unsigned i = 0; i < sizeof sizes / sizeof sizes[0]; i++) {
        for (unsigned k = 0; k < PAIRS; k++)
            make_pair(&pairs[k], sizes[i], k % 2 == 0);
        double ours = measure(verdict, pairs, PAIRS);
        printf("%5u  %5.0f  %9.0f", sizes[i], mean_length(PAIRS), ours);
        if (!alone) {
            agree(PAIRS);
            double strings = measure(by_strings, pairs, PAIRS);
            double bytes = measure(by_bytes, pairs, PAIRS);
            printf("  %14.0f  %7.1f  %12.0f  %7.1f", strings, strings / ours, bytes, bytes / ours);
        }
        printf("\n");
        fflush(stdout);
    }

    printf("\nHow the time grows with the names n of both models: ns for a pair, and divided by n x n\n\n");
    printf("names  any shape  by n x n     dense  by n x n\n");
    for (unsigned n = 4; n <= MOST_NAMES; n *= 2) {
        for (unsigned k = 0; k < PAIRS; k++)
            make_pair(&pairs[k], n, k % 2 == 0);
        if (!alone)
            agree(n <= 32 ? PAIRS : 8);
        double shaped = measure(verdict, pairs, PAIRS);
        make_dense(&pairs[0], n, 0);
        make_dense(&pairs[1], n, 1);
        if (!alone)
            agree(2);
        double dense = measure(verdict, pairs, 2);
        printf("%5u  %9.0f  %8.2f  %8.0f  %8.2f\n", n, shaped, shaped / n / n, dense, dense / n / n);
        fflush(stdout);
    }

    if (!alone)
        printf("\n%u verdicts compared with libfa's, %u included, %u differ\n", compared, included, differing);
    return differing != 0;
}
