/*
 * fomurindu_read and fomurindu_write on texts, codes and names. Each answer was worked out by hand from the rules.
 *
 * In the tables codes are digits without spaces, and names stand with a space between two.
 */
#include "fomurindu_text.h"
#include "pieces.h"

/* Cells beyond those that a call may write, and what stands in every cell before a call. */
#define BEYOND 6
#define BEFORE 0xa5

static size_t failed;

static void fail(const char *table, size_t row, const char *what) {
    failed++;
    printf("%s, row %zu: %s\n", table, row, what);
}

/* A text that is read: its codes and names, and the text that is written for them. */
struct reading {
    struct piece text;
    struct piece codes;
    struct piece names;
    struct piece written;
};

#define FIFTEEN_OPEN "((((((((((((((("
#define FIFTEEN_MAYBE ")?)?)?)?)?)?)?)?)?)?)?)?)?)?)?"
#define LONGEST "abcdefghijklmnopqrstuvwxyz_:0.-9"
#define DEEP FIFTEEN_OPEN "a?" FIFTEEN_MAYBE
#define DEEP_LONGEST FIFTEEN_OPEN LONGEST "?" FIFTEEN_MAYBE
#define SIXTEEN_MAYBE "4444444444444444"

static const struct reading readings[] = {
    /* EMPTY and #PCDATA alone */
    {ONE("EMPTY"), ONE("0"), ONE(""), ONE("EMPTY")},
    {ONE(" EMPTY\n"), ONE("0"), ONE(""), ONE("EMPTY")},
    {ONE("(#PCDATA)"), ONE("0"), ONE(""), ONE("EMPTY")},
    {ONE("(#PCDATA)*"), ONE("0"), ONE(""), ONE("EMPTY")},
    {ONE("( #PCDATA )*\t"), ONE("0"), ONE(""), ONE("EMPTY")},
    {ONE("(EMPTY)"), ONE("1"), ONE("EMPTY"), ONE("(EMPTY)")},
    {ONE("(EMPTY|ANY)"), ONE("113"), ONE("EMPTY ANY"), ONE("(EMPTY|ANY)")},

    /* mixed models */
    {ONE("(#PCDATA|a)*"), ONE("15"), ONE("a"), ONE("(a*)")},
    {ONE("(#PCDATA|a|b)*"), ONE("1135"), ONE("a b"), ONE("(a|b)*")},
    {ONE("\n( #PCDATA | a|b )* "), ONE("1135"), ONE("a b"), ONE("(a|b)*")},
    {ONE("(#PCDATA|a|a)*"), ONE("1135"), ONE("a a"), ONE("(a|a)*")},

    /* groups, signs and marks */
    {ONE("(a)"), ONE("1"), ONE("a"), ONE("(a)")},
    {ONE("((a))"), ONE("1"), ONE("a"), ONE("(a)")},
    {ONE("(a?)"), ONE("14"), ONE("a"), ONE("(a?)")},
    {ONE("(a)*"), ONE("15"), ONE("a"), ONE("(a*)")},
    {ONE("((a)+)"), ONE("16"), ONE("a"), ONE("(a+)")},
    {ONE("((a?)?)"), ONE("144"), ONE("a"), ONE("(a?)?")},
    {ONE("((a+)*)?"), ONE("1654"), ONE("a"), ONE("((a+)*)?")},
    {ONE("(a,b,c)"), ONE("11212"), ONE("a b c"), ONE("(a,b,c)")},
    {ONE("(a|b|c)"), ONE("11313"), ONE("a b c"), ONE("(a|b|c)")},
    {ONE("((a,b),c)"), ONE("11212"), ONE("a b c"), ONE("(a,b,c)")},
    {ONE("(a,(b,c))"), ONE("11122"), ONE("a b c"), ONE("(a,(b,c))")},
    {ONE("((a|b)|c)"), ONE("11313"), ONE("a b c"), ONE("(a|b|c)")},
    {ONE("(a|(b|c))"), ONE("11133"), ONE("a b c"), ONE("(a|(b|c))")},
    {ONE("((a|b),c)"), ONE("11312"), ONE("a b c"), ONE("((a|b),c)")},
    {ONE("((a,b)|c)"), ONE("11213"), ONE("a b c"), ONE("((a,b)|c)")},
    {ONE("(((a,b)))*"), ONE("1125"), ONE("a b"), ONE("(a,b)*")},
    {ONE("((a,b)?,c)"), ONE("112412"), ONE("a b c"), ONE("((a,b)?,c)")},
    {ONE("(a,b?)"), ONE("1142"), ONE("a b"), ONE("(a,b?)")},
    {ONE("(a|b)*"), ONE("1135"), ONE("a b"), ONE("(a|b)*")},
    {ONE("((a,b?)*,b)"), ONE("1142512"), ONE("a b b"), ONE("((a,b?)*,b)")},
    {ONE("(a,(b|c)*,d?)"), ONE("111352142"), ONE("a b c d"), ONE("(a,(b|c)*,d?)")},
    {ONE("(a,a)"), ONE("112"), ONE("a a"), ONE("(a,a)")},

    /* names and white space */
    {ONE("(_a,:b)"), ONE("112"), ONE("_a :b"), ONE("(_a,:b)")},
    {ONE("(a.b-1|Z9)"), ONE("113"), ONE("a.b-1 Z9"), ONE("(a.b-1|Z9)")},
    {ONE("( a , ( b | c )* )"), ONE("111352"), ONE("a b c"), ONE("(a,(b|c)*)")},
    {ONE("\t\r\n (\ta\r,\nb? )+ "), ONE("11426"), ONE("a b"), ONE("(a,b?)+")},

    /* at the limits: the bytes of a name and of a text, the levels, the names, and the codes */
    {ONE("(" LONGEST ")"), ONE("1"), ONE(LONGEST), ONE("(" LONGEST ")")},
    {MANY("", "(", 16, "a))))))))))))))))"), ONE("1"), ONE("a"), ONE("(a)")},
    {MANY("", " ", 65532, "(a)"), ONE("1"), ONE("a"), ONE("(a)")},
    {MANY("(a", ",a", 63, ")"), MANY("1", "12", 63, ""), MANY("a", " a", 63, ""), MANY("(a", ",a", 63, ")")},
    {MANY("(z", "|n@", 63, ")"), MANY("1", "13", 63, ""), MANY("z", " n@", 63, ""), MANY("(z", "|n@", 63, ")")},
    {MANY("(#PCDATA", "|a", 64, ")*"), MANY("1", "13", 63, "5"), MANY("a", " a", 63, ""), MANY("(a", "|a", 63, ")*")},
    {MANY("(" DEEP, "," DEEP, 63, ")?"), MANY("1" SIXTEEN_MAYBE, "1" SIXTEEN_MAYBE "2", 63, "4"), MANY("a", " a", 63, ""),
     MANY("(" DEEP, "," DEEP, 63, ")?")},
    {MANY("(" DEEP_LONGEST, "," DEEP_LONGEST, 63, ")?"), MANY("1" SIXTEEN_MAYBE, "1" SIXTEEN_MAYBE "2", 63, "4"),
     MANY(LONGEST, " " LONGEST, 63, ""), MANY("(" DEEP_LONGEST, "," DEEP_LONGEST, 63, ")?")},
};

/* A text that is refused, with lists of so many cells: the number of the fault and its value. */
struct refusal {
    struct piece text;
    size_t codes_cells;
    size_t names_cells;
    uint8_t fault;
    size_t value;
};

static const struct refusal refusals[] = {
    /* bytes that no model has */
    {ONE("(a<b)"), 1280, 64, 1, 2},
    {ONE("<"), 1280, 64, 1, 0},
    {ONE("(a) $"), 1280, 64, 1, 4},
    {ONE("(a\0)"), 1280, 64, 1, 2},
    {ONE("(\xc3\xa9)"), 1280, 64, 1, 1},
    {ONE("EMPTY/"), 1280, 64, 1, 5},
    {ONE("(a;b|c,d)"), 1280, 64, 1, 2},

    /* tokens that can't follow, and early ends */
    {ONE(""), 1280, 64, 2, 0},
    {ONE(" \t "), 1280, 64, 2, 3},
    {ONE("("), 1280, 64, 2, 1},
    {ONE("()"), 1280, 64, 2, 1},
    {ONE(")"), 1280, 64, 2, 0},
    {ONE("(a"), 1280, 64, 2, 2},
    {ONE("(a  "), 1280, 64, 2, 4},
    {ONE("(a,"), 1280, 64, 2, 3},
    {ONE("(a,)"), 1280, 64, 2, 3},
    {ONE("(,a)"), 1280, 64, 2, 1},
    {ONE("(a b)"), 1280, 64, 2, 3},
    {ONE("(a)b"), 1280, 64, 2, 3},
    {ONE("(a))"), 1280, 64, 2, 3},
    {ONE("(a)(b)"), 1280, 64, 2, 3},
    {ONE("(a|b,c)"), 1280, 64, 2, 4},
    {ONE("(a,b|c)"), 1280, 64, 2, 4},
    {ONE("(a *)"), 1280, 64, 2, 3},
    {ONE("(a) *"), 1280, 64, 2, 4},
    {ONE("(a**)"), 1280, 64, 2, 3},
    {ONE("(a)?+"), 1280, 64, 2, 4},
    {ONE("(?a)"), 1280, 64, 2, 1},
    {ONE("(1a)"), 1280, 64, 2, 1},
    {ONE("(-a)"), 1280, 64, 2, 1},
    {ONE("(a,.b)"), 1280, 64, 2, 3},
    {ONE("a"), 1280, 64, 2, 0},
    {ONE("ANY"), 1280, 64, 2, 0},
    {ONE("EMPTYX"), 1280, 64, 2, 0},
    {ONE("EMPTY*"), 1280, 64, 2, 5},
    {ONE("EMPTY EMPTY"), 1280, 64, 2, 6},

    /* #PCDATA */
    {ONE("#PCDATA"), 1280, 64, 2, 0},
    {ONE("(#PCDAT)"), 1280, 64, 2, 1},
    {ONE("(# PCDATA)"), 1280, 64, 2, 1},
    {ONE("(#PCDATA"), 1280, 64, 2, 8},
    {ONE("(#PCDATA|a)"), 1280, 64, 2, 11},
    {ONE("(#PCDATA) *"), 1280, 64, 2, 10},
    {ONE("(#PCDATA|a) *"), 1280, 64, 2, 12},
    {ONE("(#PCDATA)+"), 1280, 64, 2, 9},
    {ONE("(#PCDATA|a)?"), 1280, 64, 2, 11},
    {ONE("(#PCDATA,a)*"), 1280, 64, 2, 8},
    {ONE("(#PCDATA|a,b)*"), 1280, 64, 2, 10},
    {ONE("(#PCDATA|a?)*"), 1280, 64, 2, 10},
    {ONE("(#PCDATA|(a))*"), 1280, 64, 2, 9},
    {ONE("(#PCDATA|#PCDATA)*"), 1280, 64, 2, 9},
    {ONE("((#PCDATA))"), 1280, 64, 2, 2},
    {ONE("(a|#PCDATA)*"), 1280, 64, 2, 3},

    /* a name of 33 bytes, where a name may stand and where none may */
    {MANY("(", "n", 33, ")"), 1280, 64, 3, 1},
    {MANY("(a,", "n", 33, ")"), 1280, 64, 3, 3},
    {MANY("(#PCDATA|", "n", 33, ")*"), 1280, 64, 3, 9},
    {MANY("(a ", "n", 33, ")"), 1280, 64, 2, 3},
    {MANY("", "n", 33, ""), 1280, 64, 2, 0},

    /* a seventeenth level, 65 names, 65,536 bytes */
    {MANY("", "(", 17, "a)))))))))))))))))"), 1280, 64, 4, 16},
    {MANY("(a,", "(", 16, ""), 1280, 64, 4, 18},
    {MANY("((a)|", " (", 16, ""), 1280, 64, 4, 36},
    {MANY("(a", ",a", 64, ")"), 1280, 64, 5, 129},
    {MANY("(#PCDATA", "|a", 65, ")*"), 1280, 64, 5, 137},
    {MANY("(a", ",a", 63, "," LONGEST "x)"), 1280, 64, 3, 129},
    {MANY("(a", ",a", 63, "|a)"), 1280, 64, 2, 128},
    {MANY("", " ", 65533, "(a)"), 1280, 64, 5, 65535},
    {MANY("", "<", 65536, ""), 1280, 64, 5, 65535},
    {MANY("", "<", 65535, ""), 1280, 64, 1, 0},

    /* short lists come before all else */
    {ONE("(a)"), 1279, 64, 11, 1280},
    {ONE("(a)"), 1280, 63, 11, 64},
    {ONE("(a)"), 1279, 63, 11, 1280},
    {ONE("EMPTY"), 0, 0, 11, 1280},
    {ONE("<"), 1280, 0, 11, 64},
    {MANY("", "<", 65536, ""), 0, 64, 11, 1280},
};

/* Codes and names that are written into a list of so many cells: the number 0 and the text, or the fault and its value. */
struct writing {
    struct piece codes;
    struct piece names;
    size_t cells;
    uint8_t fault;
    size_t value;
    struct piece text;
};

#define NONE ONE("")

static const struct writing writings[] = {
    /* lists that are just long enough, and levels that are just few enough */
    {ONE("0"), ONE(""), 5, 0, 5, ONE("EMPTY")},
    {ONE("1"), ONE("a"), 3, 0, 3, ONE("(a)")},
    {ONE("11142"), ONE("a b c"), 5, 6, 5, NONE},
    {ONE("111422"), ONE("a b c"), 10, 0, 10, ONE("(a,(b,c?))")},
    {MANY("1", "4", 17, ""), ONE("a"), 50, 0, 50, ONE("(" FIFTEEN_OPEN "a?" FIFTEEN_MAYBE ")?")},
    {MANY("11111111111111111", "2", 16, ""), MANY("a", " a", 16, ""), 65, 0, 65, MANY("", "(a,", 16, "a))))))))))))))))")},

    /* too many symbols, then too many codes */
    {ONE("1"), MANY("a", " a", 64, ""), 100, 5, 64, NONE},
    {MANY("", "1", 1281, ""), ONE("a"), 100, 5, 1280, NONE},
    {MANY("", "1", 1281, ""), MANY("a", " a", 64, ""), 100, 5, 64, NONE},
    {ONE("7"), MANY("a", " a", 64, ""), 100, 5, 64, NONE},

    /* codes that are no model's */
    {ONE(""), ONE(""), 100, 6, 0, NONE},
    {ONE("7"), ONE(""), 100, 6, 0, NONE},
    {ONE("1"), ONE(""), 100, 6, 0, NONE},
    {ONE("2"), ONE(""), 100, 6, 0, NONE},
    {ONE("4"), ONE(""), 100, 6, 0, NONE},
    {ONE("12"), ONE("a"), 100, 6, 1, NONE},
    {ONE("11"), ONE("a"), 100, 6, 1, NONE},
    {ONE("11"), ONE("a b"), 100, 6, 2, NONE},
    {ONE("1"), ONE("a b"), 100, 6, 1, NONE},
    {ONE("117"), ONE("a b"), 100, 6, 2, NONE},
    {ONE("0"), ONE("a"), 100, 6, 1, NONE},
    {ONE("12"), ONE("9"), 100, 6, 1, NONE},

    /* code 0 among other codes, then a row that is no name */
    {ONE("04"), ONE(""), 100, 14, 0, NONE},
    {ONE("102"), ONE("a"), 100, 14, 1, NONE},
    {ONE("002"), ONE(""), 100, 14, 0, NONE},
    {ONE("102"), ONE("9"), 100, 14, 1, NONE},
    {ONE("1"), ONE("9"), 100, 14, 0, NONE},
    {ONE("112"), ONE("a -"), 100, 14, 1, NONE},
    {ONE("112"), ONE("a b$"), 100, 14, 1, NONE},
    {ONE("113"), ONE("(a) b"), 100, 14, 0, NONE},

    /* a seventeenth level, then a short list */
    {MANY("1", "4", 18, ""), ONE("a"), 100, 4, 16, NONE},
    {MANY("1", "4", 18, ""), ONE("a"), 0, 4, 16, NONE},
    {MANY("1", "4", 18, ""), ONE("9"), 100, 14, 0, NONE},
    {MANY("111111111111111111", "2", 17, ""), MANY("a", " a", 17, ""), 100, 4, 48, NONE},
    {ONE("0"), ONE(""), 4, 11, 5, NONE},
    {ONE("1"), ONE("a"), 2, 11, 3, NONE},
    {ONE("1135"), ONE("a b"), 0, 11, 6, NONE},
    {MANY("1", "4", 17, ""), ONE("a"), 49, 11, 50, NONE},
};

/* One row of a name, written by code 1 alone: a length of 0 counts as 1, and one over 32 as 32. */
struct width {
    const char *bytes;
    uint8_t length;
    uint8_t fault;
    const char *text;
};

static const struct width widths[] = {
    {"a", 1, 0, "(a)"},
    {"ab", 1, 0, "(a)"},
    {"ab", 0, 0, "(a)"},
    {"ab", 2, 0, "(ab)"},
    {"a", 2, 14, ""},
    {"", 0, 14, ""},
    {"-a", 0, 14, ""},
    {"a", 255, 14, ""},
    {LONGEST, 26, 0, "(abcdefghijklmnopqrstuvwxyz)"},
    {LONGEST, 32, 0, "(" LONGEST ")"},
    {LONGEST, 33, 0, "(" LONGEST ")"},
    {LONGEST, 255, 0, "(" LONGEST ")"},
};

static uint8_t codes[FOMURINDU_CODES + BEYOND];
static struct fomurindu_name names[FOMURINDU_NAMES + BEYOND];
static uint8_t text[FOMURINDU_TEXT + BEYOND];
static struct fomurindu_told told;

static void blank(void) {
    memset(codes, BEFORE, sizeof codes);
    memset(names, BEFORE, sizeof names);
    memset(text, BEFORE, sizeof text);
    memset(&told, BEFORE, sizeof told);
}

/* Whether every byte is as it was. */
static int untouched(const void *from, size_t length) {
    const uint8_t *bytes = from;
    for (size_t i = 0; i < length; i++)
        if (bytes[i] != BEFORE)
            return 0;
    return 1;
}

/* Turns digits into codes. */
static size_t codes_of(const struct made *digits, uint8_t *to, size_t cells) {
    for (size_t i = 0; i < digits->length && i < cells; i++)
        to[i] = (uint8_t)(digits->text[i] - '0');
    return digits->length;
}

/* Turns names with a space between two into rows. */
static size_t rows_of(const struct made *words, struct fomurindu_name *to, size_t cells) {
    size_t count = 0;
    const char *at = words->text;
    while (*at && count < cells) {
        size_t length = strcspn(at, " ");
        memset(&to[count], 0, sizeof to[count]);
        memcpy(to[count].bytes, at, length < 32 ? length : 32);
        to[count].length = (uint8_t)length;
        count++;
        at += length;
        at += *at == ' ';
    }
    return count;
}

static uint8_t want_codes[2 * FOMURINDU_CODES];
static struct fomurindu_name want_names[2 * FOMURINDU_NAMES];
static struct made made;

/* Reads the text that was made, and holds the answer to the codes and names that are wanted. */
static void check_read(const char *table, size_t row, size_t code_count, size_t name_count) {
    blank();
    if (fomurindu_read((const uint8_t *)made.text, made.length, codes, sizeof codes, names, FOMURINDU_NAMES + BEYOND, &told) != 0)
        fail(table, row, "not read");
    else if (told.first != code_count || told.second != name_count)
        fail(table, row, "other counts");
    else if (memcmp(codes, want_codes, code_count) || memcmp(names, want_names, name_count * sizeof names[0]))
        fail(table, row, "other codes or names");
    else if (!untouched(codes + code_count, sizeof codes - code_count) ||
             !untouched(names + name_count, sizeof names - name_count * sizeof names[0]))
        fail(table, row, "a cell beyond was touched");
}

static void run_reading(size_t row) {
    const struct reading *r = &readings[row];
    make(&r->codes, &made);
    size_t code_count = codes_of(&made, want_codes, sizeof want_codes);
    make(&r->names, &made);
    size_t name_count = rows_of(&made, want_names, 2 * FOMURINDU_NAMES);
    make(&r->text, &made);
    check_read("readings", row, code_count, name_count);

    /* lists with no cell more than they must have */
    uint8_t fault = fomurindu_read((const uint8_t *)made.text, made.length, codes, FOMURINDU_CODES, names, FOMURINDU_NAMES, &told);
    if (fault != 0 || told.first != code_count || told.second != name_count)
        fail("readings", row, "not read into the shortest lists");

    /* what is written for the codes and names, and how that is read */
    make(&r->written, &made);
    fault = fomurindu_write(want_codes, code_count, want_names, name_count, text, sizeof text, &told);
    if (fault != 0 || told.first != made.length || told.second != 0 || memcmp(text, made.text, made.length))
        fail("readings", row, "other text written");
    else if (!untouched(text + made.length, sizeof text - made.length))
        fail("readings", row, "a cell behind the text was touched");
    check_read("readings back", row, code_count, name_count);
}

static void run_refusal(size_t row) {
    const struct refusal *r = &refusals[row];
    make(&r->text, &made);
    blank();
    uint8_t fault = fomurindu_read((const uint8_t *)made.text, made.length, codes, r->codes_cells, names, r->names_cells, &told);
    if (fault != r->fault || told.first != r->value || told.second != 0) {
        fail("refusals", row, "another answer:");
        printf("  %.60s: %u at %zu and %zu\n", made.text, (unsigned)fault, told.first, told.second);
    }
    if (!untouched(codes, sizeof codes) || !untouched(names, sizeof names))
        fail("refusals", row, "a cell was touched");
}

/* Writes, and holds the answer to what is wanted: the text that was made, or a fault. */
static void check_write(const char *table, size_t row, size_t code_count, size_t name_count, size_t cells, uint8_t fault,
                        size_t value) {
    blank();
    uint8_t got = fomurindu_write(want_codes, code_count, want_names, name_count, text, cells, &told);
    size_t length = fault == 0 ? made.length : 0;
    if (got != fault || told.first != value || told.second != 0) {
        fail(table, row, "another answer:");
        printf("  %u with %zu and %zu\n", (unsigned)got, told.first, told.second);
    } else if (memcmp(text, made.text, length)) {
        fail(table, row, "another text");
    } else if (!untouched(text + length, sizeof text - length)) {
        fail(table, row, "a cell beyond was touched");
    }
}

static void run_writing(size_t row) {
    const struct writing *w = &writings[row];
    make(&w->codes, &made);
    size_t code_count = codes_of(&made, want_codes, sizeof want_codes);
    make(&w->names, &made);
    size_t name_count = rows_of(&made, want_names, 2 * FOMURINDU_NAMES);
    make(&w->text, &made);
    check_write("writings", row, code_count, name_count, w->cells, w->fault, w->value);
    if (w->fault == 0)
        check_read("writings back", row, code_count, name_count);
}

static void run_width(size_t row) {
    const struct width *w = &widths[row];
    want_codes[0] = FOMURINDU_CODE_SYMBOL;
    memset(want_names, 0, sizeof want_names[0]);
    memcpy(want_names[0].bytes, w->bytes, strlen(w->bytes));
    want_names[0].length = w->length;
    made.length = 0;
    add(&made, w->text, strlen(w->text));
    check_write("widths", row, 1, 1, FOMURINDU_TEXT, w->fault, w->fault == 0 ? made.length : 0);
}

#define ROWS(table) (sizeof table / sizeof table[0])

int main(void) {
    for (size_t row = 0; row < ROWS(readings); row++)
        run_reading(row);
    for (size_t row = 0; row < ROWS(refusals); row++)
        run_refusal(row);
    for (size_t row = 0; row < ROWS(writings); row++)
        run_writing(row);
    for (size_t row = 0; row < ROWS(widths); row++)
        run_width(row);
    printf("texts: %zu rows, %zu failed\n", ROWS(readings) + ROWS(refusals) + ROWS(writings) + ROWS(widths), failed);
    return failed != 0;
}
