/* Compares the contestants of the benchmark with the library, on random inputs of every operation, valid and damaged: check N [SEED].
 *
 * All get the same areas, filled with rubbish, and have to return the same number and leave the same in every place of every area, the places beyond the needed
 * ones included. Last it prints how often each answer was met, so that a generator that misses a refusal is seen.
 *
 * A further operation is a row of ALL_OPERATIONS, and a function that makes inputs for it, if no other's will do.
 */
#include <inttypes.h>
#include <stdbool.h>
#include <stdio.h>
#include <stdlib.h>
#include <string.h>

#include "rules.h"
#include "plain.h"
#include "reeveboom.h"

#ifdef OTHER
#include "other.h"
#endif

enum {
    SPARE = 24,
    MOST_BYTES = 4096,
    MOST_TYPED = 1300,
    MOST_MADE = MOST_TERMS + 32,
    MOST_CONTESTANTS = 3,
    MOST_ANSWERS = 64,
    POWER_BITS = 64 / VARIABLES /* in the word of a pattern */
};

/* What an operation is given. Bytes are a text or a packed sum. */
typedef struct {
    uint8_t bytes[MOST_BYTES], list[MOST_BYTES], readings[2 * REEVEBOOM_READING_BYTES], tolerances[2 * REEVEBOOM_READING_BYTES];
    int64_t table[REEVEBOOM_TABLE_PLACES + SPARE];
    uint64_t words[MOST_MADE];
    int64_t numbers[MOST_MADE];
    size_t bytes_length, list_length, readings_length, tolerances_length, table_length, words_length, numbers_length;
    uint64_t count, variable;
    size_t result_length, patterns_length, coefficients_length; /* of the areas that are written to; a table, an answer and a text count as results */
} Input;

/* The areas that are written to. */
typedef struct {
    uint8_t result[REEVEBOOM_RESULT_BYTES + SPARE], text[REEVEBOOM_TEXT_BYTES + SPARE];
    uint64_t patterns[REEVEBOOM_WORK_PLACES + SPARE];
    int64_t coefficients[REEVEBOOM_WORK_PLACES + SPARE];
    int64_t table[REEVEBOOM_TABLE_PLACES + SPARE];
} Areas;

static Input in;
static Areas areas[MOST_CONTESTANTS];

/* ---- Chance. */

static uint64_t state = 1;

static uint64_t any(void) {
    uint64_t x = state += UINT64_C(0x9e3779b97f4a7c15);
    x = (x ^ x >> 30) * UINT64_C(0xbf58476d1ce4e5b9);
    x = (x ^ x >> 27) * UINT64_C(0x94d049bb133111eb);
    return x ^ x >> 31;
}

static unsigned below(unsigned n) { return (unsigned)(any() % n); }
static bool once_in(unsigned n) { return below(n) == 0; }

/* Small more often than large. */
static unsigned small_below(unsigned n) { return below(below(below(n) + 1) + 1); }

static int64_t any_number(void) {
    static const int64_t edges[] = { 0, 1, -1, 2, VARIABLES - 1, VARIABLES, MOST_DEGREE, MOST_DEGREE + 1, MOST_NODES - 1, MOST_NODES,
                                     MOST_TERMS - 1, MOST_TERMS, INT64_MIN, INT64_MAX, INT64_C(1) << 62, -(INT64_C(1) << 62), (INT64_C(1) << 62) + 1,
                                     (INT64_C(1) << 62) - 1, INT64_C(1) << 61, INT64_C(1) << 31, -5 };
    if (once_in(3)) return edges[below(sizeof edges / sizeof *edges)];
    return (int64_t)(any() >> below(64)) * (once_in(2) ? 1 : -1);
}

/* ---- Texts. */

static void put(char c) {
    if (in.bytes_length < MOST_TYPED) in.bytes[in.bytes_length++] = (uint8_t)c;
}

static void put_decimal(uint64_t number) {
    char digits[24];
    snprintf(digits, sizeof digits, "%" PRIu64, number);
    for (const char *d = digits; *d; d++) put(*d);
}

static void put_sum(unsigned depth, unsigned terms);

static void put_factor(unsigned depth, unsigned terms) {
    unsigned kind = below(8);
    if (kind == 0 && depth > 0) {
        put('(');
        put_sum(depth - 1, 1 + below(terms));
        put(')');
    } else if (kind <= 2) {
        put_decimal(once_in(12) ? (UINT64_C(1) << 62) - 1 + below(3) : once_in(6) ? any() >> (1 + below(62)) : below(12));
    } else {
        put((char)('a' + below(VARIABLES) % (1 + below(VARIABLES))));
    }
    if (once_in(4)) {
        put('^');
        put_decimal(once_in(20) ? MOST_DEGREE - 5 + below(8) : small_below(9));
    }
}

static void put_sum(unsigned depth, unsigned terms) {
    if (once_in(4)) put('-');
    for (unsigned i = 0; i < terms; i++) {
        if (i > 0) put(once_in(2) ? '+' : '-');
        put_factor(depth, terms);
        while (once_in(3)) {
            put('*');
            put_factor(depth, terms);
        }
    }
}

/* Changes, drops, adds or cuts off some bytes. */
static void damage(uint8_t *bytes, size_t *length, const char *letters) {
    for (unsigned times = 1 + small_below(3); times > 0; times--) {
        size_t at = *length ? any() % *length : 0;
        uint8_t byte = letters && !once_in(8) ? (uint8_t)letters[any() % strlen(letters)] : once_in(2) ? (uint8_t)any() : (uint8_t)(128 * below(2) + below(3));
        unsigned kind = below(4);
        if (kind == 0 && *length > 0) {
            bytes[at] = byte;
        } else if (kind == 1 && *length < MOST_BYTES) {
            memmove(bytes + at + 1, bytes + at, *length - at);
            bytes[at] = byte;
            ++*length;
        } else if (kind == 2 && *length > 0) {
            --*length;
            memmove(bytes + at, bytes + at + 1, *length - at);
        } else if (*length > 0 && once_in(2)) {
            *length = at;
        }
    }
}

/* Powers and products of short sums: many terms, about as many as there may be. */
static void put_wide(void) {
    for (unsigned factors = 1 + below(3); factors > 0; factors--) {
        put('(');
        for (unsigned i = 0, letters = 2 + below(VARIABLES - 1), first = below(VARIABLES); i < letters; i++) {
            if (i > 0) put(once_in(3) ? '-' : '+');
            if (once_in(4)) put((char)('1' + below(3))), put('*');
            put(once_in(6) ? '1' : (char)('a' + (first + i) % VARIABLES));
            if (once_in(8)) put('^'), put_decimal(2 + below(3));
        }
        put(')');
        if (once_in(2)) put('^'), put_decimal(2 + small_below(14));
        if (factors > 1) put(once_in(4) ? '+' : '*');
    }
}

/* Powers of a short sum, and of the same with other signs: products in which much cancels, about as wide as they may be. */
static void put_mirrored(void) {
    unsigned letters = 1 + below(3), first = below(VARIABLES);
    for (unsigned factors = 2 + once_in(4); factors > 0; factors--) {
        put('(');
        put('1');
        for (unsigned i = 0; i < letters; i++) put(once_in(2) ? '-' : '+'), put((char)('a' + (first + i) % VARIABLES));
        put(')');
        put('^');
        put_decimal(letters == 1 ? 1 + below(20) : letters == 2 ? 5 + below(5) : 1 + below(5));
        if (factors > 1) put('*');
    }
}

/* Products and sums with about as many patterns as there may be: one less, up to two more. */
static void put_exact(void) {
    static const unsigned sides[][2] = { { 8, 16 }, { 16, 8 }, { 4, 32 }, { 32, 4 }, { 3, 43 }, { 43, 3 }, { 10, 13 }, { 13, 10 } };
    const unsigned *side = sides[below(8)];
    char text[100];
    unsigned first = 40 + below(5), second = 40 + below(5), x = 'a' + below(4), y = 'e' + below(4);
    if (once_in(2)) snprintf(text, sizeof text, "(%c+1)^%u*(%c-1)^%u", x, side[0] - 1, y, side[1] - 1);
    else snprintf(text, sizeof text, "(%c+1)^%u-%c*(%c+1)^%u+%c^2*(1-%c)^%u", x, first, y, x, second, y, x, 124 + below(4) - first - second);
    for (const char *c = text; *c; c++) put(*c);
}

static void make_text(void) {
    in.bytes_length = 0;
    unsigned kind = below(16);
    if (kind == 0) { /* deep */
        unsigned depth = MOST_BRACKETS - 2 + below(4);
        for (unsigned i = 0; i < depth; i++) put('(');
        put_sum(0, 1);
        for (unsigned i = 0; i < depth; i++) put(')');
    } else if (kind == 1) { /* long, about the limit */
        put_sum(0, 1);
        size_t length = MOST_TEXT - 9 + below(15);
        while (in.bytes_length < length) put(once_in(2) ? 'a' : '+');
        for (size_t i = 0; i + 1 < in.bytes_length; i += 2) in.bytes[i] = 'b', in.bytes[i + 1] = '+';
        in.bytes[in.bytes_length - 1] = 'b';
    } else if (kind <= 3) {
        put_mirrored();
    } else if (kind <= 6) {
        put_wide();
    } else if (kind == 15) {
        put_exact();
    } else {
        put_sum(below(4), 1 + (kind == 7 ? below(60) : below(8)));
    }
    if (once_in(3)) damage(in.bytes, &in.bytes_length, "abcdefgh0123456789+-*^()()--^6");
}

/* ---- Tables. */

static void make_node(int64_t *row, unsigned index) {
    unsigned kind = index == 0 ? below(2) : below(20) < 9 ? below(2) : 2 + below(3);
    row[0] = kind;
    row[1] = kind == 0 ? (once_in(10) ? any_number() : (int64_t)below(7) - 3) : kind == 1 ? below(VARIABLES) % (1 + below(VARIABLES)) : below(index);
    row[2] = kind < 2 ? 0 : kind == 4 ? (once_in(12) ? below(MOST_DEGREE + 2) : small_below(7)) : once_in(2) ? index - 1 : below(index);
}

static void make_table(void) {
    if (once_in(2)) {
        make_text();
        uint64_t nodes = reeveboom_text(in.bytes, in.bytes_length, in.table, REEVEBOOM_TABLE_PLACES);
        in.table_length = NODE_NUMBERS * (size_t)(nodes <= MOST_NODES ? nodes : 1 + below(4));
    } else {
        unsigned nodes = 1 + (once_in(2) ? below(12) : below(MOST_NODES));
        for (unsigned i = 0; i < nodes; i++) make_node(in.table + NODE_NUMBERS * i, i);
        in.table_length = NODE_NUMBERS * nodes;
    }
    if (once_in(6) && in.table_length > 0) in.table[any() % in.table_length] = any_number();
    if (once_in(40)) in.table_length = below(REEVEBOOM_TABLE_PLACES + 8);
}

/* ---- Packed sums. */

/* The power of a variable in the word of a pattern, where a's stands highest. */
static unsigned power_of(uint64_t word, int v) { return (unsigned)(word >> (POWER_BITS * (VARIABLES - 1 - v)) & ((1u << POWER_BITS) - 1)); }

static int by_order(const void *a, const void *b) {
    uint64_t x = *(const uint64_t *)a, y = *(const uint64_t *)b;
    unsigned of_x = 0, of_y = 0;
    for (int v = 0; v < VARIABLES; v++) {
        of_x += power_of(x, v);
        of_y += power_of(y, v);
    }
    if (of_x != of_y) return of_x < of_y ? 1 : -1;
    return (x < y) - (x > y);
}

static uint64_t any_word(unsigned letters, unsigned degree) {
    uint64_t word = 0;
    for (unsigned left = below(degree + 1); left > 0; left--) word += UINT64_C(1) << (POWER_BITS * (VARIABLES - 1 - below(letters) * (1 + (letters < 4))));
    return word;
}

/* A number at or beside a power of ten, where there is a digit more to write. */
static uint64_t about_ten(void) {
    uint64_t ten = 10;
    for (unsigned times = below(18); times > 0; times--) ten *= 10;
    return ten + below(3) - 1;
}

/* Makes an ordered sum of at most so many terms, in words and numbers. Now and then its weight or degree is at the limit, or above it. */
static unsigned make_sum(unsigned most, unsigned degree, uint64_t *words, int64_t *numbers) {
    unsigned letters = 1 + below(VARIABLES), terms = 0, bits = once_in(3) ? below(62) : 1 + below(6);
    bool tens = once_in(8);
    for (unsigned i = 0; i < most; i++) words[i] = any_word(letters, degree);
    qsort(words, most, sizeof *words, by_order);
    for (unsigned i = 0; i < most; i++) {
        if (terms == 0 || words[i] != words[terms - 1]) words[terms++] = words[i];
    }
    uint64_t left = (UINT64_C(1) << 62) + (once_in(30) ? 1 : 0);
    for (unsigned i = 0; i < terms; i++) {
        uint64_t size = tens && once_in(2) ? about_ten() : 1 + (any() & ((UINT64_C(1) << bits) - 1));
        if (size > left || (i + 1 == terms && once_in(20))) size = left;
        left -= size;
        if (size == 0) return i;
        numbers[i] = once_in(2) ? (int64_t)size : -(int64_t)size;
    }
    return terms;
}

static size_t put_number(uint8_t *out, uint64_t number) {
    size_t n = 0;
    for (; number >= 128; number >>= 7) out[n++] = (uint8_t)(number | 128);
    out[n++] = (uint8_t)number;
    return n;
}

static size_t put_packed(uint8_t *out, unsigned terms, const uint64_t *words, const int64_t *numbers) {
    size_t n = put_number(out, terms);
    for (unsigned i = 0; i < terms; i++) {
        n += put_number(out + n, numbers[i] >= 0 ? 2 * (uint64_t)numbers[i] : 2 * -(uint64_t)numbers[i] - 1);
        for (int v = 0; v < VARIABLES; v++) n += put_number(out + n, power_of(words[i], v));
    }
    return n;
}

/* Spoils one term. */
static void spoil(unsigned terms, uint64_t *words, int64_t *numbers) {
    unsigned at = below(terms), next = below(terms);
    uint64_t word = words[at];
    switch (below(5)) {
    case 0: numbers[at] = any_number(); break;
    case 1: words[at] += UINT64_C(1) << (POWER_BITS * below(VARIABLES)); break;
    case 2: words[at] = any() >> below(64); break;
    case 3:
        words[at] = words[next];
        words[next] = word;
        break;
    default: words[at] = words[next]; break;
    }
}

static unsigned any_terms(void) { return once_in(4) ? MOST_TERMS - 28 + below(35) : once_in(2) ? below(8) : below(MOST_TERMS + 2); }
static unsigned any_degree(void) { return once_in(8) ? MOST_DEGREE + 1 : once_in(2) ? 6 : 1 + below(20); }

static void make_packed(unsigned most, unsigned degree) {
    unsigned terms = make_sum(most, degree, in.words, in.numbers);
    if (terms > 0 && once_in(6)) spoil(terms, in.words, in.numbers);
    in.bytes_length = put_packed(in.bytes, terms, in.words, in.numbers);
    if (once_in(6)) damage(in.bytes, &in.bytes_length, NULL);
}

/* Makes the packed sum of a text, so that substitution meets sums whose terms have to do with each other. Returns false if there is none. */
static bool make_related(void) {
    static Areas a;
    in.bytes_length = 0;
    if (once_in(2)) put_mirrored();
    else put_wide();
    uint64_t nodes = reeveboom_text(in.bytes, in.bytes_length, a.table, REEVEBOOM_TABLE_PLACES);
    if (reeveboom_refusal(nodes)) return false;
    uint64_t length = reeveboom_simplify(a.table, NODE_NUMBERS * nodes, in.bytes, sizeof in.bytes, a.patterns, REEVEBOOM_WORK_PLACES, a.coefficients, REEVEBOOM_WORK_PLACES);
    in.bytes_length = (size_t)length;
    return reeveboom_refusal(length) == 0;
}

/* Makes coefficients small, so that powers of the sum are within the limits. */
static void make_light(unsigned terms, int64_t *numbers, int64_t most) {
    for (unsigned i = 0; i < terms; i++) {
        numbers[i] %= most;
        if (numbers[i] == 0) numbers[i] = once_in(2) ? 1 : -1;
    }
}

static void make_list(void) {
    uint64_t words[MOST_MADE];
    int64_t numbers[MOST_MADE];
    unsigned pairs = once_in(12) ? below(MOST_PAIRS + 3) : 1 + small_below(3);
    in.list_length = put_number(in.list, pairs);
    for (unsigned i = 0; i < pairs && in.list_length < 1000; i++) {
        in.list_length += put_number(in.list + in.list_length, once_in(60) ? VARIABLES : once_in(60) ? any() >> below(64) : below(VARIABLES));
        unsigned terms = make_sum(once_in(8) ? below(MOST_TERMS + 3) : below(6), once_in(4) ? 1 + below(40) : 1 + below(2), words, numbers);
        if (!once_in(8)) make_light(terms, numbers, 1 + below(4));
        if (terms > 0 && once_in(40)) spoil(terms, words, numbers);
        in.list_length += put_packed(in.list + in.list_length, terms, words, numbers);
    }
    if (once_in(12)) damage(in.list, &in.list_length, NULL);
}

/* ---- Cases. */

static size_t length_about(size_t needed, unsigned spare) { return once_in(50) ? needed - 1 - (once_in(2) ? below((unsigned)needed) : 0) : needed + below(spare + 1); }

static void make_readings(void) {
    for (int v = 0; v < VARIABLES; v++) {
        int reading = once_in(12) ? (int)below(65536) - 32768 : once_in(8) ? -32768 : (int)below(21) - 10;
        int tolerance = once_in(12) ? (int)below(32768) : once_in(150) ? -1 - (int)below(32768) : (int)below(3);
        if (once_in(6)) reading = tolerance = 0;
        in.readings[2 * v] = (uint8_t)reading;
        in.readings[2 * v + 1] = (uint8_t)((unsigned)reading >> 8);
        in.tolerances[2 * v] = (uint8_t)tolerance;
        in.tolerances[2 * v + 1] = (uint8_t)((unsigned)tolerance >> 8);
    }
    in.readings_length = once_in(60) ? below(REEVEBOOM_READING_BYTES + 4) : REEVEBOOM_READING_BYTES;
    in.tolerances_length = once_in(60) ? below(REEVEBOOM_READING_BYTES + 4) : REEVEBOOM_READING_BYTES;
}

static void make_terms(void) {
    unsigned terms = make_sum(any_terms(), any_degree(), in.words, in.numbers);
    if (terms > 0 && once_in(4)) spoil(terms, in.words, in.numbers);
    in.count = once_in(50) ? any() >> below(64) : terms;
    in.words_length = once_in(50) ? below(terms + 1) : terms + below(3);
    in.numbers_length = once_in(50) ? below(terms + 1) : terms + below(3);
}

static void make_any_packed(void) { make_packed(any_terms(), any_degree()); }

static void make_substitution(void) {
    if (!once_in(3) || !make_related()) make_packed(any_terms(), once_in(3) ? any_degree() : 1 + below(4));
    make_list();
}

static void make_measured(void) {
    make_readings();
    make_any_packed();
}

/* ---- The operations, a row each: the name, what makes its inputs, how long its result area and the two others must be, and a call of it, where C is a contestant
 * and `a` has its areas. */

#define BYTES in.bytes, in.bytes_length
#define TABLE in.table, in.table_length
#define LIST in.list, in.list_length
#define TERMS in.words, in.words_length, in.numbers, in.numbers_length
#define READINGS in.readings, in.readings_length, in.tolerances, in.tolerances_length

#define INTO_TABLE a->table, in.result_length
#define INTO_RESULT a->result, in.result_length
#define INTO_TEXT a->text, in.result_length
#define INTO_TERMS a->patterns, in.patterns_length, a->coefficients, in.coefficients_length
#define IN_WORK INTO_TERMS

#define FIRST_OPERATIONS(ROW, C) \
    ROW(C, text, make_text, REEVEBOOM_TABLE_PLACES, REEVEBOOM_WORK_PLACES, C##_text(BYTES, INTO_TABLE)) \
    ROW(C, simplify, make_table, REEVEBOOM_RESULT_BYTES, REEVEBOOM_WORK_PLACES, C##_simplify(TABLE, INTO_RESULT, IN_WORK)) \
    ROW(C, unpack, make_any_packed, REEVEBOOM_RESULT_BYTES, REEVEBOOM_TERM_PLACES, C##_unpack(BYTES, INTO_TERMS)) \
    ROW(C, pack, make_terms, REEVEBOOM_RESULT_BYTES, REEVEBOOM_WORK_PLACES, C##_pack(in.count, TERMS, INTO_RESULT)) \
    ROW(C, slope, make_any_packed, REEVEBOOM_RESULT_BYTES, REEVEBOOM_WORK_PLACES, C##_slope(BYTES, in.variable, INTO_RESULT)) \
    ROW(C, substitute, make_substitution, REEVEBOOM_RESULT_BYTES, REEVEBOOM_WORK_PLACES, C##_substitute(BYTES, LIST, INTO_RESULT, IN_WORK)) \
    ROW(C, estimate, make_measured, REEVEBOOM_ANSWER_BYTES, REEVEBOOM_WORK_PLACES, C##_estimate(BYTES, READINGS, INTO_RESULT))

/* Those that another program (other.h) has to have too stand above, and those that it does not have are further rows here. */
#define ALL_OPERATIONS(ROW, C) \
    FIRST_OPERATIONS(ROW, C) \
    ROW(C, write, make_any_packed, REEVEBOOM_TEXT_BYTES, REEVEBOOM_WORK_PLACES, C##_write(BYTES, INTO_TEXT))

#define INPUTS(C, operation, make, result, others, call) { #operation, make, result, others },

static const struct {
    const char *name;
    void (*make)(void);
    size_t result_places, other_places;
} operations[] = { ALL_OPERATIONS(INPUTS, ) };

enum { OPERATIONS = sizeof operations / sizeof *operations };

static unsigned long met[OPERATIONS][MOST_ANSWERS];

#define CALL(C, operation, make, result, others, call) \
    static uint64_t C##_##operation##_call(Areas *a) { return call; }
#define CALL_NAME(C, operation, make, result, others, call) C##_##operation##_call,

ALL_OPERATIONS(CALL, reeveboom)
ALL_OPERATIONS(CALL, quick)
#ifdef OTHER
FIRST_OPERATIONS(CALL, other)
#endif

/* A contestant without an operation has no call of it. */
static const struct {
    const char *name;
    uint64_t (*calls[OPERATIONS])(Areas *a);
} contestants[] = {
    { "library", { ALL_OPERATIONS(CALL_NAME, reeveboom) } },
    { "quick", { ALL_OPERATIONS(CALL_NAME, quick) } },
#ifdef OTHER
    { "other", { FIRST_OPERATIONS(CALL_NAME, other) } },
#endif
};

enum { CONTESTANTS = sizeof contestants / sizeof *contestants };

/* ---- One case after another. */

static void make_case(int operation) {
    in.patterns_length = length_about(operations[operation].other_places, SPARE);
    in.coefficients_length = length_about(operations[operation].other_places, SPARE);
    in.result_length = length_about(operations[operation].result_places, SPARE);
    operations[operation].make();
    in.variable = once_in(20) ? any() >> below(64) : below(VARIABLES);
}

static void fill_word(uint8_t *at) {
    uint64_t word = any();
    memcpy(at, &word, sizeof word);
}

/* Fills the areas with rubbish, the same for all. Work areas are large, so most times only some places of them are filled. */
static void fill_areas(void) {
    Areas *a = &areas[0];
    for (size_t i = 0; i < sizeof a->result; i++) a->result[i] = (uint8_t)any();
    for (size_t i = 0; i < sizeof a->table / sizeof *a->table; i++) a->table[i] = (int64_t)any();
    for (size_t i = 0; i + sizeof(uint64_t) <= sizeof a->text; i += sizeof(uint64_t)) fill_word(a->text + i);
    size_t places = REEVEBOOM_WORK_PLACES + SPARE;
    if (once_in(16)) {
        for (size_t i = 0; i < places; i++) a->patterns[i] = any(), a->coefficients[i] = (int64_t)any();
    } else {
        for (int i = 0; i < 20; i++) a->patterns[any() % places] = any(), a->coefficients[any() % places] = (int64_t)any();
        for (int i = 0; i < 20; i++) a->patterns[any() % MOST_MADE] = any(), a->coefficients[any() % MOST_MADE] = (int64_t)any();
    }
    for (int c = 1; c < CONTESTANTS; c++) memcpy(&areas[c], a, sizeof *a);
}

/* Shows the first few cases that differ, with what is needed to run them again. */
static void show(int operation, uint64_t seed, const char *name, uint64_t expected, uint64_t got) {
    static int shown;
    if (shown++ >= 10) return;
    fprintf(stderr, "%s, case seed %" PRIu64 ": library %" PRIx64 ", %s %" PRIx64 "%s\n", operations[operation].name, seed, expected, name, got,
            expected == got ? ", other bytes" : "");
}

/* Runs one case. Counts in `differ` who differs from the library. */
static void run_case(int operation, unsigned long *differ) {
    uint64_t seed = state;
    make_case(operation);
    fill_areas();
    uint64_t expected = contestants[0].calls[operation](&areas[0]);
    for (int c = 1; c < CONTESTANTS; c++) {
        if (!contestants[c].calls[operation]) continue;
        uint64_t got = contestants[c].calls[operation](&areas[c]);
        if (got == expected && memcmp(&areas[c], &areas[0], sizeof areas[0]) == 0) continue;
        differ[c]++;
        show(operation, seed, contestants[c].name, expected, got);
    }
    unsigned answer = reeveboom_refusal(expected);
    met[operation][answer < MOST_ANSWERS ? answer : MOST_ANSWERS - 1]++;
}

static void print_met(void) {
    for (int o = 0; o < OPERATIONS; o++) {
        printf("%-10s", operations[o].name);
        for (unsigned a = 0; a < MOST_ANSWERS; a++) {
            if (met[o][a]) printf("  %s %lu", a == 0 ? "done" : reeveboom_refusal_name(a), met[o][a]);
        }
        printf("\n");
    }
}

int main(int argc, char **argv) {
    unsigned long cases = argc > 1 ? strtoul(argv[1], NULL, 10) : 0, differ[MOST_CONTESTANTS] = { 0 }, all = 0;
    if (cases == 0) {
        fprintf(stderr, "usage: check N [SEED]\n");
        return 2;
    }
    if (argc > 2) state = strtoull(argv[2], NULL, 10);
    for (unsigned long i = 0; i < cases; i++) {
        for (int o = 0; o < OPERATIONS; o++) run_case(o, differ);
    }
    print_met();
    for (int c = 1; c < CONTESTANTS; c++) {
        printf("%s: %lu cases of each operation, %lu differ\n", contestants[c].name, cases, differ[c]);
        all += differ[c];
    }
    return all != 0;
}
