/*
 * fomurindu_verdict on pairs of texts. Each verdict was worked out by hand from the rules.
 */
#include "fomurindu.h"
#include "pieces.h"

#define IN FOMURINDU_INCLUDED
#define NOT FOMURINDU_NOT
#define FIRST(fault) (FOMURINDU_FIRST + FOMURINDU_##fault)
#define SECOND(fault) (FOMURINDU_SECOND + FOMURINDU_##fault)

struct row {
    struct piece first;
    struct piece second;
    uint32_t verdict;
};

static const struct row rows[] = {
    /* the order of two names, and how often each stands */
    {ONE("(a*,b*)*"), ONE("(a|b)*"), IN},
    {ONE("(a|b)*"), ONE("(a*,b*)*"), IN},
    {ONE("(a|b)*"), ONE("(a*,b*)"), NOT}, /* b a */
    {ONE("(a*,b*)"), ONE("(a|b)*"), IN},
    {ONE("(a|b)"), ONE("(b|a)"), IN},
    {ONE("(a,b)"), ONE("(b,a)"), NOT},
    {ONE("(a?,b?)"), ONE("(a|b)?"), NOT}, /* a b */
    {ONE("(a|b)?"), ONE("(a?,b?)"), IN},
    {ONE("((a|b)+)"), ONE("((a,b?)+)"), NOT}, /* b */
    {ONE("((a,b?)+)"), ONE("((a|b)*)"), IN},

    /* the empty word */
    {ONE("EMPTY"), ONE("(a)"), NOT},
    {ONE("(a)"), ONE("EMPTY"), NOT},
    {ONE("EMPTY"), ONE("EMPTY"), IN},
    {ONE("EMPTY"), ONE("(a*)"), IN},
    {ONE("EMPTY"), ONE("(a+)"), NOT},
    {ONE("(a?)"), ONE("(a)"), NOT},
    {ONE("(a)"), ONE("(a?)"), IN},

    /* a name that one side lacks */
    {ONE("(a,x-t,b)"), ONE("(a,b)"), NOT},
    {ONE("(a,b)"), ONE("(a,x-t?,b)"), IN},
    {ONE("(a,x-t?,b)"), ONE("(a,b)"), NOT},
    {ONE("(a,b?)"), ONE("(a,b,c?)"), NOT}, /* a */
    {ONE("(a,b,c?)"), ONE("(a,b?)"), NOT}, /* a b c */
    {ONE("(a,b)"), ONE("(a,b,c?)"), IN},
    {ONE("(a,b,c?)"), ONE("(a,b?,c?)"), IN},

    /* one name several times */
    {ONE("(a+)"), ONE("(a*)"), IN},
    {ONE("(a*)"), ONE("(a+)"), NOT},
    {ONE("(a,a*)"), ONE("(a+)"), IN},
    {ONE("(a+)"), ONE("(a,a*)"), IN},
    {ONE("(a,a)"), ONE("(a+)"), IN},
    {ONE("(a+)"), ONE("(a,a)"), NOT},
    {ONE("(a,a,a)"), ONE("(a,a)"), NOT},
    {ONE("(a,a)"), ONE("(a,a,a)"), NOT},
    {ONE("(a,a)"), ONE("(a,a,a?)"), IN},

    /* groups */
    {ONE("(a,(b,c))"), ONE("((a,b),c)"), IN},
    {ONE("((a?)?)"), ONE("(a?)"), IN},
    {ONE("((a,b)|(c,d))"), ONE("((a|c),(b|d))"), IN},
    {ONE("((a|c),(b|d))"), ONE("((a,b)|(c,d))"), NOT}, /* a d */
    {ONE("((a|b)*,c?)"), ONE("(a|b|c)*"), IN},
    {ONE("(a|b|c)*"), ONE("((a|b)*,c?)"), NOT}, /* c a */
    {ONE("((a,b)*)"), ONE("((a,b)+)?"), IN},
    {ONE("(a,(b,c)+)"), ONE("(a,b,c)"), NOT}, /* a b c b c */

    /* names are the same when all their bytes are */
    {ONE("(a)"), ONE("(A)"), NOT},
    {ONE("(a)"), ONE("(ab)"), NOT},
    {ONE("(ab)"), ONE("(a)"), NOT},
    {ONE("(a.b)"), ONE("(a-b)"), NOT},
    {ONE("(EMPTY)"), ONE("EMPTY"), NOT},
    {MANY("(", "n", 32, ")"), MANY("(", "n", 32, ")"), IN},
    {MANY("(", "n", 32, ")"), MANY("(", "n", 31, ")"), NOT},
    {MANY("(", "n", 32, ")"), MANY("(", "n", 31, "m)"), NOT},

    /* mixed models */
    {ONE("(#PCDATA)"), ONE("EMPTY"), IN},
    {ONE("EMPTY"), ONE("(#PCDATA)*"), IN},
    {ONE("(#PCDATA|a|b)*"), ONE("(a|b)*"), IN},
    {ONE("(a,b)"), ONE("(#PCDATA|b|a)*"), IN},
    {ONE("(#PCDATA|a)*"), ONE("(#PCDATA|a|b)*"), IN},
    {ONE("(#PCDATA|a|b)*"), ONE("(#PCDATA|a)*"), NOT},
    {ONE("(#PCDATA|a)*"), ONE("(a?)"), NOT},

    /* white space */
    {ONE(" ( a , b ) "), ONE("(a,b)"), IN},
    {ONE("(a,b)"), ONE("\t(\r\na\n,b)\r\n"), IN},
    {ONE("( a | b )*"), ONE("( a |b)+ "), NOT},
    {ONE(" EMPTY\n"), ONE("( #PCDATA )"), IN},

    /* at the limits */
    {MANY("(a", ",a", 63, ")"), MANY("(a", ",a", 63, ")"), IN},
    {MANY("(a", ",a", 63, ")"), MANY("(a", ",a", 62, ")"), NOT},
    {MANY("(a", ",a", 63, ")"), ONE("(a+)"), IN},
    {MANY("(z", "|n@", 63, ")*"), MANY("(z*", ",n@*", 63, ")*"), IN},
    {MANY("(z*", ",n@*", 63, ")*"), MANY("(z", "|n@", 63, ")*"), IN},
    {MANY("(z", "|n@", 63, ")*"), MANY("(z*", ",n@*", 63, ")"), NOT}, /* n0 z */
    {MANY("(z*", ",n@*", 63, ")"), MANY("(z", "|n@", 63, ")*"), IN},
    {MANY("(z", "|n@", 63, ")*"), MANY("(z", "|n@", 62, ")*"), NOT}, /* n62 */
    {MANY("(z", ",n@?", 63, ")"), MANY("(z", ",n@", 63, ")"), NOT},   /* z */
    {MANY("(z", ",n@", 63, ")"), MANY("(z", ",n@?", 63, ")"), IN},
    {ONE("((((((((((((((((a))))))))))))))))"), ONE("(a)"), IN},
    {MANY("", " ", 65532, "(a)"), ONE("(a)"), IN},
    {ONE("(a)"), MANY("(a)", " ", 65532, ""), IN},

    /* each fault in the first text, and in the second */
    {ONE("(a<b)"), ONE("(a)"), FIRST(STRANGE_BYTE)},
    {ONE("(a)"), ONE("(a<b)"), SECOND(STRANGE_BYTE)},
    {ONE("(\0)"), ONE("(a)"), FIRST(STRANGE_BYTE)},
    {ONE("(a)"), ONE("(a)\xff"), SECOND(STRANGE_BYTE)},
    {ONE(""), ONE("(a)"), FIRST(UNEXPECTED)},
    {ONE("(a)"), ONE(""), SECOND(UNEXPECTED)},
    {ONE(" \n"), ONE("(a)"), FIRST(UNEXPECTED)},
    {ONE("(a *)"), ONE("(a)"), FIRST(UNEXPECTED)},
    {ONE("(a)"), ONE("(a|b,c)"), SECOND(UNEXPECTED)},
    {ONE("(#PCDATA|a)"), ONE("(a)"), FIRST(UNEXPECTED)},
    {ONE("(a)"), ONE("(#PCDATA) *"), SECOND(UNEXPECTED)},
    {ONE("ANY"), ONE("(a)"), FIRST(UNEXPECTED)},
    {ONE("(a)"), ONE("a"), SECOND(UNEXPECTED)},
    {MANY("(", "n", 33, ")"), ONE("(a)"), FIRST(LONG_NAME)},
    {ONE("(a)"), MANY("(a|", "n", 33, ")"), SECOND(LONG_NAME)},
    {MANY("", "(", 17, "a)))))))))))))))))"), ONE("(a)"), FIRST(TOO_DEEP)},
    {ONE("(a)"), MANY("", "(", 17, "a)))))))))))))))))"), SECOND(TOO_DEEP)},
    {MANY("(a", ",a", 64, ")"), ONE("(a)"), FIRST(TOO_LARGE)},
    {ONE("(a)"), MANY("(z", "|n@", 64, ")"), SECOND(TOO_LARGE)},
    {MANY("", " ", 65533, "(a)"), ONE("(a)"), FIRST(TOO_LARGE)},
    {ONE("(a)"), MANY("(a)", " ", 65533, ""), SECOND(TOO_LARGE)},
    {MANY("", "<", 65536, ""), ONE("(a)"), FIRST(TOO_LARGE)},
    {ONE("(a*,a,a*)"), ONE("(a)"), FIRST(AMBIGUOUS)},
    {ONE("(a)"), ONE("(a*,a,a*)"), SECOND(AMBIGUOUS)},
    {ONE("((a,b?)*,b)"), ONE("(a)"), FIRST(AMBIGUOUS)},
    {ONE("(a)"), ONE("((a,b?)*,b)"), SECOND(AMBIGUOUS)},
    {ONE("(a|a)"), ONE("(a)"), FIRST(AMBIGUOUS)},
    {ONE("(a)"), ONE("(#PCDATA|a|a)*"), SECOND(AMBIGUOUS)},
    {ONE("((a,b)|(a,c))"), ONE("(a)"), FIRST(AMBIGUOUS)},
    {ONE("(a)"), ONE("(a,(b,a)*,b)"), SECOND(AMBIGUOUS)},

    /* faults in both: the first text's is given, whichever it is */
    {ONE(""), ONE(""), FIRST(UNEXPECTED)},
    {ONE("(a<b)"), ONE(""), FIRST(STRANGE_BYTE)},
    {ONE("(a"), ONE("(a<b)"), FIRST(UNEXPECTED)},
    {ONE("(a|a)"), ONE("(a<b)"), FIRST(AMBIGUOUS)},
    {ONE("(a<b)"), ONE("(a|a)"), FIRST(STRANGE_BYTE)},
    {ONE("(a?,a)"), ONE("(a*,a)"), FIRST(AMBIGUOUS)},
};

static struct made first;
static struct made second;

int main(void) {
    size_t count = sizeof rows / sizeof rows[0];
    size_t failed = 0;
    for (size_t i = 0; i < count; i++) {
        make(&rows[i].first, &first);
        make(&rows[i].second, &second);
        uint32_t verdict =
            fomurindu_verdict((const uint8_t *)first.text, first.length, (const uint8_t *)second.text, second.length);
        if (verdict != rows[i].verdict) {
            failed++;
            printf("row %zu: %.60s and %.60s: %u instead of %u\n", i, first.text, second.text, (unsigned)verdict,
                   (unsigned)rows[i].verdict);
        }
    }
    printf("verdicts: %zu rows, %zu failed\n", count, failed);
    return failed != 0;
}
