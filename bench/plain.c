/* The operations of Reeveboom in plain C (plain.h), written for speed, for x86-64 and aarch64.
 *
 * A term is held as a key and a coefficient. The key has the total degree in its top byte and the exponents of a to g in the bytes below; h is what is missing to
 * the degree. So the order of terms is the order of keys, and the product of two patterns is the sum of their keys: no byte overflows, since degrees are
 * judged before anything is multiplied.
 *
 * Sums are multiplied in one of two ways. Where all the patterns that can come out fit into a small box, every pattern has a slot there, and the pairs are added
 * up in the slots. Otherwise the product is made row by row, each row merged into those before it.
 */
#include "plain.h"

#include <stdbool.h>
#include <string.h>

#include "lanes.h"
#include "rules.h"
#include "reeveboom.h"

enum { LAST_VARIABLE = VARIABLES - 1, KEY_BYTES = sizeof(uint64_t), SLOTS = 4096 };

_Static_assert(VARIABLES == sizeof(uint64_t), "a key has a byte for the degree, and one for every variable but the last");

#define MOST_WEIGHT (UINT64_C(1) << 62)
#define EACH_BYTE UINT64_C(0x0101010101010101)
#define HIGH_BITS (0x80 * EACH_BYTE)
#define ONE_DEGREE (UINT64_C(1) << 56)
#define NO_FAULT SIZE_MAX

__extension__ typedef unsigned __int128 Wide;

static uint64_t refuse(uint64_t refusal, uint64_t place) { return (refusal << 32) + place; }

INLINE uint64_t load(const uint8_t *at) {
    uint64_t word;
    memcpy(&word, at, sizeof word);
    return word;
}

INLINE void store(uint8_t *at, uint64_t word) { memcpy(at, &word, sizeof word); }

/* A number without its sign. Negated as unsigned, since -2^63 has no positive twin. */
INLINE uint64_t size_of(int64_t number) { return number < 0 ? -(uint64_t)number : (uint64_t)number; }

/* A weight, or anything else that 2^62 limits, as one number above the limit if it is above it. Capped factors still give 0 times something. */
INLINE uint64_t cap(Wide number) { return number > MOST_WEIGHT ? MOST_WEIGHT + 1 : (uint64_t)number; }

/* The sum of a word's bytes, which can be more than a byte holds. */
INLINE uint64_t bytes_added(uint64_t word) {
    const uint64_t even = UINT64_C(0x00ff00ff00ff00ff);
    return (((word & even) + ((word >> 8) & even)) * UINT64_C(0x0001000100010001)) >> 48;
}

/* The power of h in a key. The exponents of a to g add up to a byte at most, so one multiplication adds them. */
INLINE uint64_t power_of_h(uint64_t key) { return (key >> 56) - (((key << 8) * EACH_BYTE) >> 56); }

/* ---- Packed sums, read. */

typedef struct {
    const uint8_t *bytes;
    size_t length, place;
} Reader;

/* What the next term is judged by: the absolute coefficients so far, and the last key. */
typedef struct {
    uint64_t total, last;
} Before;

/* How a term's pattern is wanted: as a key, as the library's word (a in the highest byte), or as it stands in the bytes (a in the lowest byte). */
typedef enum { AS_KEY, AS_WORD, AS_BYTES } Form;

/* Reads a number by the rules, group by group. Gives the place of its fault. */
static size_t read_number(Reader *r, uint64_t *number) {
    uint64_t value = 0;
    for (size_t i = 0;; i++) {
        if (r->place + i >= r->length) return r->length;
        uint64_t byte = r->bytes[r->place + i];
        if (i == 9 && byte > 1) return r->place;
        value |= (byte & 127) << (7 * i);
        if (byte < 128) {
            if (byte == 0 && i > 0) return r->place;
            r->place += i + 1;
            *number = value;
            return NO_FAULT;
        }
    }
}

static size_t read_count(Reader *r, uint64_t most, uint64_t *count) {
    size_t start = r->place, fault = read_number(r, count);
    if (fault != NO_FAULT) return fault;
    return *count > most ? start : NO_FAULT;
}

/* Takes eight groups of seven bits together. */
INLINE uint64_t join_groups(uint64_t word) {
    word &= ~HIGH_BITS;
    word = (word & UINT64_C(0x007f007f007f007f)) | (word & UINT64_C(0x7f007f007f007f00)) >> 1;
    word = (word & UINT64_C(0x00003fff00003fff)) | (word & UINT64_C(0x3fff00003fff0000)) >> 2;
    return (word & UINT64_C(0x000000000fffffff)) | (word & UINT64_C(0x0fffffff00000000)) >> 4;
}

/* Reads a number of two groups or more where at least ten bytes are left. Gives its length, or 0 if it is at fault. */
INLINE size_t take_groups(const uint8_t *at, uint64_t *number) {
    uint64_t word = load(at), ends = ~word & HIGH_BITS;
    if (ends != 0) {
        unsigned last = (unsigned)__builtin_ctzll(ends) - 7;
        word &= ends ^ (ends - 1);
        *number = join_groups(word);
        return word >> last == 0 ? 0 : last / 8 + 1;
    }
    uint64_t ninth = at[8];
    if (ninth < 128) {
        *number = join_groups(word) | ninth << 56;
        return ninth == 0 ? 0 : 9;
    }
    *number = join_groups(word) | ninth << 57 >> 1 | UINT64_C(1) << 63;
    return at[9] == 1 ? 10 : 0;
}

/* Reads a term: its code, and its exponents as they stand. Returns false, and leaves the reader where it is, if anything is wrong; term_fault then tells what. */
INLINE bool take_term(Reader *r, Before *before, uint64_t *code, uint64_t *exponents, uint64_t *key) {
    const uint8_t *at = r->bytes + r->place;
    size_t left = r->length - r->place, groups = 1;
    if (left < 1 + VARIABLES) return false;
    *code = at[0];
    if (*code >= 128) {
        if (left < 10) return false;
        groups = take_groups(at, code);
        if (groups == 0 || left < groups + VARIABLES) return false;
    }
    *exponents = load(at + groups);
    uint64_t degree = bytes_added(*exponents);
    *key = degree << 56 | __builtin_bswap64(*exponents) >> 8;
    uint64_t total = before->total + (*code >> 1) + (*code & 1);
    /* A byte with its high bit set adds more than 60. */
    if ((*code == 0) | (total > MOST_WEIGHT) | (degree > MOST_DEGREE) | (*key >= before->last)) return false;
    before->total = total;
    before->last = *key;
    r->place += groups + VARIABLES;
    return true;
}

/* Where the term that the reader is at has its fault. What it is given is copied, so that those who read terms can keep theirs in registers. */
static size_t term_fault(Reader r, Before before) {
    size_t start = r.place;
    uint64_t code, exponent, degree = 0;
    size_t fault = read_number(&r, &code);
    if (fault != NO_FAULT) return fault;
    if (code == 0 || before.total + (code >> 1) + (code & 1) > MOST_WEIGHT) return start;
    for (int v = 0; v < VARIABLES; v++) {
        size_t place = r.place;
        fault = read_number(&r, &exponent);
        if (fault != NO_FAULT) return fault;
        if (exponent > MOST_DEGREE - degree) return place;
        degree += exponent;
    }
    return start; /* All that is left is its order. */
}

INLINE int64_t decode(uint64_t code) { return (int64_t)((code >> 1) ^ -(code & 1)); }

/* Reads a packed sum, up to its last term. Gives the place of its fault. */
INLINE size_t read_sum(Reader *r, Form form, uint64_t *patterns, int64_t *coefficients, uint64_t *terms) {
    Before before = { 0, UINT64_MAX };
    size_t fault = read_count(r, MOST_TERMS, terms);
    if (fault != NO_FAULT) return fault;
    Reader here = *r;
    for (uint64_t i = 0; i < *terms; i++) {
        uint64_t code, exponents, key;
        if (!take_term(&here, &before, &code, &exponents, &key)) return term_fault(here, before);
        patterns[i] = form == AS_KEY ? key : form == AS_WORD ? __builtin_bswap64(exponents) : exponents;
        coefficients[i] = decode(code);
    }
    r->place = here.place;
    return NO_FAULT;
}

/* The same, and nothing may be left after it. */
INLINE size_t read_whole(const uint8_t *sum, size_t length, Form form, uint64_t *patterns, int64_t *coefficients, uint64_t *terms) {
    Reader r = { sum, length, 0 };
    size_t fault = read_sum(&r, form, patterns, coefficients, terms);
    return fault == NO_FAULT && r.place < length ? r.place : fault;
}

uint64_t quick_unpack(const uint8_t *sum, size_t sum_length,
                      uint64_t *patterns, size_t patterns_length,
                      int64_t *coefficients, size_t coefficients_length) {
    uint64_t words[MOST_TERMS], terms;
    int64_t numbers[MOST_TERMS];
    if (patterns_length < MOST_TERMS || coefficients_length < MOST_TERMS) return refuse(REEVEBOOM_ROOM, 0);
    size_t fault = read_whole(sum, sum_length, AS_WORD, words, numbers, &terms);
    if (fault != NO_FAULT) return refuse(REEVEBOOM_SUM, fault);
    memcpy(patterns, words, terms * sizeof *words);
    memcpy(coefficients, numbers, terms * sizeof *numbers);
    return terms;
}

/* ---- Packed sums, written. */

INLINE uint64_t encode(int64_t number) { return (uint64_t)number << 1 ^ (uint64_t)(number >> 63); }

INLINE uint64_t part_groups(uint64_t number) {
    number = (number & UINT64_C(0x000000000fffffff)) | (number & UINT64_C(0x00fffffff0000000)) << 4;
    number = (number & UINT64_C(0x00003fff00003fff)) | (number & UINT64_C(0x0fffc0000fffc000)) << 2;
    return (number & UINT64_C(0x007f007f007f007f)) | (number & UINT64_C(0x3f803f803f803f80)) << 1;
}

/* Writes a term and gives its end. The code is stored eight bytes at once: what is too much comes to lie under the exponents. */
INLINE uint8_t *put_term(uint8_t *out, uint64_t code, uint64_t exponents) {
    if (code < 128) {
        *out++ = (uint8_t)code;
    } else if (code >> 56 == 0) {
        unsigned groups = (unsigned)(70 - __builtin_clzll(code)) / 7;
        store(out, part_groups(code) | (HIGH_BITS & ((UINT64_C(1) << (8 * groups - 8)) - 1)));
        out += groups;
    } else {
        store(out, part_groups(code & (ONE_DEGREE - 1)) | HIGH_BITS);
        out[8] = (uint8_t)(code >> 56);
        out[9] = 1;
        out += code >> 63 ? 10 : 9;
    }
    store(out, exponents);
    return out + VARIABLES;
}

/* The count takes two bytes if it is the largest. */
INLINE uint8_t *put_count(uint8_t *out, uint64_t terms) {
    *out++ = (uint8_t)terms;
    if (terms == MOST_TERMS) *out++ = 1;
    return out;
}

uint64_t quick_pack(uint64_t count,
                    const uint64_t *patterns, size_t patterns_length,
                    const int64_t *coefficients, size_t coefficients_length,
                    uint8_t *result, size_t result_length) {
    uint8_t packed[REEVEBOOM_RESULT_BYTES];
    uint64_t total = 0, last = UINT64_MAX;
    if (result_length < REEVEBOOM_RESULT_BYTES) return refuse(REEVEBOOM_ROOM, 0);
    if (count > MOST_TERMS || count > patterns_length || count > coefficients_length) return refuse(REEVEBOOM_SHAPE, 0);
    uint8_t *out = put_count(packed, count);
    for (uint64_t i = 0; i < count; i++) {
        uint64_t degree = bytes_added(patterns[i]), key = degree << 56 | patterns[i] >> 8;
        total += size_of(coefficients[i]);
        if ((coefficients[i] == 0) | (total > MOST_WEIGHT) | (degree > MOST_DEGREE) | (key >= last)) return refuse(REEVEBOOM_SUM, i);
        last = key;
        out = put_term(out, encode(coefficients[i]), __builtin_bswap64(patterns[i]));
    }
    memcpy(result, packed, (size_t)(out - packed));
    return (uint64_t)(out - packed);
}

/* ---- The slope. Every key loses the same, so the terms stay in order; each is written as soon as it is read. */

uint64_t quick_slope(const uint8_t *sum, size_t sum_length,
                     uint64_t variable,
                     uint8_t *result, size_t result_length) {
    uint8_t packed[REEVEBOOM_RESULT_BYTES], *out = packed;
    Reader r = { sum, sum_length, 0 };
    Before before = { 0, UINT64_MAX };
    uint64_t terms, kept = 0;
    Wide weight = 0;
    if (result_length < REEVEBOOM_RESULT_BYTES) return refuse(REEVEBOOM_ROOM, 0);
    size_t fault = read_count(&r, MOST_TERMS, &terms);
    if (fault != NO_FAULT) return refuse(REEVEBOOM_SUM, fault);
    unsigned shift = 8 * (unsigned)(variable % VARIABLES);
    for (uint64_t i = 0; i < terms; i++) {
        uint64_t code, exponents, key;
        if (!take_term(&r, &before, &code, &exponents, &key)) return refuse(REEVEBOOM_SUM, term_fault(r, before));
        uint64_t power = exponents >> shift & 255;
        weight += (Wide)((code >> 1) + (code & 1)) * power;
        /* A term without the variable is written too, and then written over. */
        int64_t number = (int64_t)((uint64_t)decode(code) * power);
        uint8_t *end = put_term(out, encode(number), exponents - (UINT64_C(1) << shift));
        out = power ? end : out;
        kept += power != 0;
    }
    if (r.place < sum_length) return refuse(REEVEBOOM_SUM, r.place);
    if (variable >= VARIABLES) return refuse(REEVEBOOM_VARIABLE, 0);
    if (weight > MOST_WEIGHT) return refuse(REEVEBOOM_WEIGHT, 0);
    uint8_t *start = put_count(result, kept);
    memcpy(start, packed, (size_t)(out - packed));
    return (uint64_t)(start - result) + (uint64_t)(out - packed);
}

/* ---- Sums as text. Each term is written as soon as it is read, eight bytes at once: what is too much of them comes to lie under what follows. */

/* A factor for each exponent, its first byte lowest: *a, *a^2 up to *a^60. The highest byte is its length. */
#define DIGIT(n) ((uint64_t)'0' + (n))
#define DIGITS(e) ((e) < 10 ? DIGIT(e) : DIGIT((e) / 10) | DIGIT((e) % 10) << 8)
#define FACTOR(e) ('*' | 'a' << 8 | ((e) < 2 ? 0 : '^' << 16 | DIGITS(e) << 24) | (uint64_t)((e) < 2 ? 2 : (e) < 10 ? 4 : 5) << 56)
#define FIVE_FACTORS(e) FACTOR(e), FACTOR((e) + 1), FACTOR((e) + 2), FACTOR((e) + 3), FACTOR((e) + 4)
#define TEN_FACTORS(e) FIVE_FACTORS(e), FIVE_FACTORS((e) + 5)

static const uint64_t factors[MOST_DEGREE + 1] = {
    TEN_FACTORS(0), TEN_FACTORS(10), TEN_FACTORS(20), TEN_FACTORS(30), TEN_FACTORS(40), TEN_FACTORS(50), FACTOR(60)
};

/* The digits of a number below 10^8, one to a byte, the first one lowest: it is parted into numbers of four digits, of two and of one, all at once. */
INLINE uint64_t eight_digits(uint64_t number) {
    uint64_t fours = number / 10000 | number % 10000 << 32;
    uint64_t hundreds = (fours * 10486 >> 20) & UINT64_C(0x0000007f0000007f);
    uint64_t twos = hundreds | (fours - 100 * hundreds) << 16;
    uint64_t tens = (twos * 103 >> 10) & UINT64_C(0x000f000f000f000f);
    return tens | (twos - 10 * tens) << 8;
}

/* Writes a number below 10^8 without zeros before it, and gives its end. */
INLINE uint8_t *put_short(uint8_t *out, uint64_t number) {
    if (number < 10) {
        *out = (uint8_t)DIGIT(number);
        return out + 1;
    }
    uint64_t digits = eight_digits(number);
    unsigned zeros = (unsigned)__builtin_ctzll(digits) & 56;
    store(out, (digits | '0' * EACH_BYTE) >> zeros);
    return out + 8 - zeros / 8;
}

INLINE uint8_t *put_eight(uint8_t *out, uint64_t number) {
    store(out, eight_digits(number) | '0' * EACH_BYTE);
    return out + 8;
}

/* Writes a number up to 2^62, eight digits at once. */
INLINE uint8_t *put_decimal(uint8_t *out, uint64_t number) {
    const uint64_t part = 100000000;
    if (number < part) return put_short(out, number);
    if (number < part * part) return put_eight(put_short(out, number / part), number % part);
    out = put_short(out, number / (part * part));
    return put_eight(put_eight(out, number / part % part), number % part);
}

/* Writes a term with its sign, and gives its end. Where its coefficient is not written, the sign comes to stand over the first *. */
INLINE uint8_t *spell_term(uint8_t *out, uint64_t code, uint64_t exponents) {
    uint8_t *start = out;
    uint64_t size = (code >> 1) + (code & 1);
    if (size != 1 || exponents == 0) out = put_decimal(out + 1, size);
    while (exponents != 0) {
        unsigned shift = (unsigned)__builtin_ctzll(exponents) & 56;
        uint64_t factor = factors[exponents >> shift & 255];
        store(out, factor + ((uint64_t)shift << 5));
        out += factor >> 56;
        exponents &= ~(UINT64_C(255) << shift);
    }
    *start = code & 1 ? '-' : '+';
    return out;
}

uint64_t quick_write(const uint8_t *sum, size_t sum_length,
                     uint8_t *text, size_t text_length) {
    uint8_t spelled[1 + REEVEBOOM_TEXT_BYTES], *out = spelled;
    Reader r = { sum, sum_length, 0 };
    Before before = { 0, UINT64_MAX };
    uint64_t terms;
    if (text_length < REEVEBOOM_TEXT_BYTES) return refuse(REEVEBOOM_ROOM, 0);
    size_t fault = read_count(&r, MOST_TERMS, &terms);
    if (fault != NO_FAULT) return refuse(REEVEBOOM_SUM, fault);
    for (uint64_t i = 0; i < terms; i++) {
        uint64_t code, exponents, key;
        if (!take_term(&r, &before, &code, &exponents, &key)) return refuse(REEVEBOOM_SUM, term_fault(r, before));
        out = spell_term(out, code, exponents);
    }
    if (r.place < sum_length) return refuse(REEVEBOOM_SUM, r.place);
    if (terms == 0) {
        text[0] = '0';
        return 1;
    }
    const uint8_t *start = spelled + (spelled[0] == '+'); /* The first term has no plus. */
    memcpy(text, start, (size_t)(out - start));
    return (uint64_t)(out - start);
}

/* ---- The estimate. */

/* A power of a reading, and of the raised reading without its sign. The first wraps round; where that matters the second is above the limit. */
typedef struct {
    uint64_t plain, raised;
} Power;

typedef struct {
    Power powers[VARIABLES][MOST_DEGREE + 1];
    unsigned shifts[VARIABLES]; /* where the exponents of the variables stand that occur at all */
    int used;
    uint64_t largest; /* of their raised readings, or more */
} Powers;

/* What the terms come to: their values, these without signs, and the raised values. */
typedef struct {
    uint64_t estimate, unraised, raised;
} Totals;

INLINE int64_t number_at(const uint8_t *bytes, int v) { return (int16_t)(bytes[2 * v] | bytes[2 * v + 1] << 8); }

/* Fills the tables of powers, for every variable up to its largest exponent. */
static void raise_readings(Powers *p, const uint64_t *patterns, uint64_t terms, const uint8_t *readings, const uint8_t *tolerances) {
    Lanes most = lanes_of(0);
    for (uint64_t i = 0; i < terms; i++) most = largest_lanes(most, lanes_of(patterns[i]));
    uint64_t exponents = word_of(most);
    p->used = 0;
    p->largest = 1;
    for (int v = 0; v < VARIABLES; v++) {
        unsigned largest = exponents >> (8 * v) & 255;
        if (largest == 0) continue;
        uint64_t reading = (uint64_t)number_at(readings, v), raised = size_of((int64_t)reading) + (uint64_t)number_at(tolerances, v);
        Power *row = p->powers[p->used];
        p->largest |= raised;
        row[0] = (Power){ 1, 1 };
        for (unsigned e = 1; e <= largest; e++) row[e] = (Power){ row[e - 1].plain * reading, cap((Wide)row[e - 1].raised * raised) };
        p->shifts[p->used++] = 8 * (unsigned)v;
    }
}

/* Adds the terms up. Where no raised value can be above the limit, `capped` is false and none is looked at. */
INLINE Totals add_up(const Powers *p, const uint64_t *patterns, const int64_t *coefficients, uint64_t terms, bool capped) {
    Totals totals = { 0, 0, 0 };
    for (uint64_t i = 0; i < terms; i++) {
        uint64_t value = (uint64_t)coefficients[i], most = size_of(coefficients[i]);
        for (int u = 0; u < p->used; u++) {
            const Power *power = &p->powers[u][patterns[i] >> p->shifts[u] & 255];
            value *= power->plain;
            most = capped ? cap((Wide)most * power->raised) : most * power->raised;
        }
        totals.estimate += value;
        totals.unraised += size_of((int64_t)value);
        totals.raised = capped ? cap((Wide)totals.raised + most) : totals.raised + most;
    }
    return totals;
}

/* Whether the weight and the largest raised reading, raised to the largest degree, have so few bits that the raised value is below 2^62. */
static bool surely_in_range(const Powers *p, const uint64_t *patterns, const int64_t *coefficients, uint64_t terms) {
    uint64_t weight = 1;
    for (uint64_t i = 0; i < terms; i++) weight += size_of(coefficients[i]);
    int bits = 64 - __builtin_clzll(p->largest), degree = terms ? (int)bytes_added(patterns[0]) : 0;
    return 64 - __builtin_clzll(weight) + degree * bits <= 62;
}

uint64_t quick_estimate(const uint8_t *sum, size_t sum_length,
                        const uint8_t *readings, size_t readings_length,
                        const uint8_t *tolerances, size_t tolerances_length,
                        uint8_t *answer, size_t answer_length) {
    uint64_t patterns[MOST_TERMS], terms;
    int64_t coefficients[MOST_TERMS];
    Powers p;
    if (answer_length < REEVEBOOM_ANSWER_BYTES) return REEVEBOOM_ROOM << 16;
    size_t fault = read_whole(sum, sum_length, AS_BYTES, patterns, coefficients, &terms);
    if (fault != NO_FAULT) return (REEVEBOOM_SUM << 16) + fault;
    if (readings_length != REEVEBOOM_READING_BYTES || tolerances_length != REEVEBOOM_READING_BYTES) return REEVEBOOM_READING << 16;
    for (int v = 0; v < VARIABLES; v++) {
        if (tolerances[2 * v + 1] >= 128) return (REEVEBOOM_READING << 16) + (uint64_t)v;
    }
    raise_readings(&p, patterns, terms, readings, tolerances);
    bool surely = surely_in_range(&p, patterns, coefficients, terms);
    Totals totals = surely ? add_up(&p, patterns, coefficients, terms, false) : add_up(&p, patterns, coefficients, terms, true);
    if (totals.raised > MOST_WEIGHT) return REEVEBOOM_RANGE << 16;
    store(answer, totals.estimate);
    store(answer + 8, totals.raised - totals.unraised);
    return REEVEBOOM_ANSWER_BYTES;
}

/* ---- Typed formulas. */

/* A text in reading. One node more than a table holds has room: all that are too many are written there. */
typedef struct {
    const uint8_t *at, *end;
    int64_t nodes;
    int64_t table[NODE_NUMBERS * (MOST_NODES + 1)];
} Text;

/* A sum that is not at its end: its nodes so far, -1 where there is none yet. */
typedef struct {
    int64_t sum, product;
    bool minus;
} Level;

enum { INTEGER, VARIABLE, SUM, PRODUCT, POWER };

INLINE int64_t add_node(Text *t, int64_t kind, int64_t first, int64_t second) {
    int64_t *node = t->table + NODE_NUMBERS * (t->nodes < MOST_NODES ? t->nodes : MOST_NODES);
    node[0] = kind;
    node[1] = first;
    node[2] = second;
    return t->nodes++;
}

/* The next byte, or 0 at the end, which is as wrong as a byte 0. */
INLINE unsigned next_byte(const Text *t) { return t->at < t->end ? *t->at : 0; }

/* Reads a number up to a limit, and stops at the digit that breaks a rule. After a 0 there is no further digit, so what follows it is not read here. */
INLINE bool read_digits(Text *t, uint64_t most, uint64_t *number) {
    unsigned digit = next_byte(t) - '0';
    if (digit > 9) return false;
    uint64_t value = digit;
    t->at++;
    while (value != 0 && (digit = next_byte(t) - '0') <= 9) {
        if (value > (most - digit) / 10) return false;
        value = 10 * value + digit;
        t->at++;
    }
    *number = value;
    return true;
}

INLINE void open_level(Text *t, Level *level) {
    *level = (Level){ -1, -1, next_byte(t) == '-' };
    t->at += level->minus;
}

/* Puts a factor to its term: the exponent if it has one, and the product with what stands before it. */
INLINE bool end_factor(Text *t, Level *level, int64_t node) {
    if (next_byte(t) == '^') {
        uint64_t exponent;
        t->at++;
        if (!read_digits(t, MOST_DEGREE, &exponent)) return false;
        node = add_node(t, POWER, node, (int64_t)exponent);
    }
    level->product = level->product < 0 ? node : add_node(t, PRODUCT, level->product, node);
    return true;
}

INLINE void end_term(Text *t, Level *level) {
    if (level->minus) {
        int64_t minus = add_node(t, INTEGER, -1, 0);
        level->product = add_node(t, PRODUCT, minus, level->product);
    }
    level->sum = level->sum < 0 ? level->product : add_node(t, SUM, level->sum, level->product);
    level->product = -1;
}

/* Reads a letter or a number. */
INLINE bool read_atom(Text *t, int64_t *node) {
    unsigned letter = next_byte(t) - 'a';
    uint64_t number;
    if (letter < VARIABLES) {
        t->at++;
        *node = add_node(t, VARIABLE, letter, 0);
        return true;
    }
    if (!read_digits(t, MOST_WEIGHT, &number)) return false;
    *node = add_node(t, INTEGER, (int64_t)number, 0);
    return true;
}

/* Reads a formula, with one level for each open bracket. Where it returns false it stands at the first byte that no formula has there. */
static bool read_formula(Text *t) {
    Level levels[MOST_BRACKETS + 1], *level = levels;
    open_level(t, level);
    for (;;) {
        int64_t node;
        while (next_byte(t) == '(') {
            if (level == levels + MOST_BRACKETS) return false;
            t->at++;
            open_level(t, ++level);
        }
        if (!read_atom(t, &node)) return false;
        for (;;) {
            if (!end_factor(t, level, node)) return false;
            unsigned byte = next_byte(t);
            if (byte == '*') break;
            end_term(t, level);
            level->minus = byte == '-';
            if (byte == '+' || byte == '-') break;
            if (level == levels) return t->at == t->end;
            if (byte != ')') return false;
            t->at++;
            node = level->sum;
            level--;
        }
        t->at++;
    }
}

uint64_t quick_text(const uint8_t *text, size_t text_length,
                    int64_t *table, size_t table_length) {
    Text t;
    if (table_length < REEVEBOOM_TABLE_PLACES) return refuse(REEVEBOOM_ROOM, 0);
    if (text_length > MOST_TEXT) return refuse(REEVEBOOM_TEXT, MOST_TEXT);
    t.at = text;
    t.end = text + text_length;
    t.nodes = 0;
    if (!read_formula(&t)) return refuse(REEVEBOOM_TEXT, (uint64_t)(t.at - text));
    if (t.nodes > MOST_NODES) return refuse(REEVEBOOM_NODES, 0);
    memcpy(table, t.table, NODE_NUMBERS * (size_t)t.nodes * sizeof *table);
    return (uint64_t)t.nodes;
}

/* ---- Sums. */

typedef struct {
    uint64_t *keys;
    int64_t *coefficients;
    int terms;
} Sum;

/* Room for the terms of a sum; twice as many for one that may turn out to be too wide. */
typedef struct {
    uint64_t keys[MOST_TERMS];
    int64_t coefficients[MOST_TERMS];
} Room;

typedef struct {
    uint64_t keys[2 * MOST_TERMS];
    int64_t coefficients[2 * MOST_TERMS];
    int terms;
} Wider;

/* A slot for each pattern of a box. The first `clean` slots are 0 and without mark between any two products. */
typedef struct {
    int64_t coefficients[SLOTS];
    uint64_t keys[SLOTS];
    uint8_t marks[SLOTS];
    int clean;
} Dense;

/* What is worked with on the way to a sum. */
typedef struct {
    Wider running;
    Room tail, step;
    Dense dense;
} Scratch;

static void set_one_term(Sum *sum, uint64_t key, int64_t coefficient) {
    sum->keys[0] = key;
    sum->coefficients[0] = coefficient;
    sum->terms = coefficient != 0;
}

/* Writes a sum times a term, whose coefficient is not 0. */
static void move(const uint64_t *restrict keys, const int64_t *restrict coefficients, int terms, uint64_t by, int64_t times,
                 uint64_t *restrict to_keys, int64_t *restrict to_coefficients) {
    for (int i = 0; i < terms; i++) to_keys[i] = keys[i] + by;
    for (int i = 0; i < terms; i++) to_coefficients[i] = coefficients[i] * times;
}

/* Writes the union of a sum and a row times a term, from `at` on, and gives its end. A term whose coefficient comes to 0 stays: spread counts it. No branch hangs
 * on which of two keys is the larger, since that cannot be foretold. */
static int merge(Wider *restrict w, int at, const Sum *sum, const Sum *row, uint64_t by, int64_t times) {
    const uint64_t *restrict keys = sum->keys, *restrict row_keys = row->keys;
    const int64_t *restrict coefficients = sum->coefficients, *restrict row_coefficients = row->coefficients;
    size_t i = 0, j = 0, n = (size_t)at, terms = (size_t)sum->terms, row_terms = (size_t)row->terms;
    while (i < terms && j < row_terms) {
        uint64_t x = keys[i], y = row_keys[j] + by;
        int64_t of_x = coefficients[i], of_y = row_coefficients[j] * times;
        size_t with_x = x >= y, with_y = y >= x;
        w->keys[n] = x > y ? x : y;
        w->coefficients[n++] = (of_x & -(int64_t)with_x) + (of_y & -(int64_t)with_y);
        i += with_x;
        j += with_y;
    }
    memcpy(w->keys + n, keys + i, (terms - i) * sizeof *w->keys);
    memcpy(w->coefficients + n, coefficients + i, (terms - i) * sizeof *w->coefficients);
    n += terms - i;
    move(row_keys + j, row_coefficients + j, (int)(row_terms - j), by, times, w->keys + n, w->coefficients + n);
    return (int)(n + row_terms - j);
}

/* Adds a row times a term to the running sum. Returns false if that is too wide. Only what does not stand before the whole row is merged. */
static bool add_row(Scratch *s, const Sum *row, uint64_t by, int64_t times) {
    Wider *w = &s->running;
    if (row->terms == 0) return true;
    uint64_t first = row->keys[0] + by;
    int at = 0, end = w->terms;
    while (at < end) {
        int middle = (at + end) / 2;
        if (w->keys[middle] > first) at = middle + 1;
        else end = middle;
    }
    Sum tail = { s->tail.keys, s->tail.coefficients, w->terms - at };
    memcpy(tail.keys, w->keys + at, (size_t)tail.terms * sizeof *w->keys);
    memcpy(tail.coefficients, w->coefficients + at, (size_t)tail.terms * sizeof *w->coefficients);
    w->terms = merge(w, at, &tail, row, by, times);
    return w->terms <= MOST_TERMS;
}

/* Adds the product of two sums to the running sum, with a row for each term of the shorter one. */
static bool add_rows(Scratch *s, const Sum *a, const Sum *b) {
    const Sum *few = a->terms < b->terms ? a : b, *many = few == a ? b : a;
    for (int i = 0; i < few->terms; i++) {
        if (!add_row(s, many, few->keys[i], few->coefficients[i])) return false;
    }
    return true;
}

/* The running sum without the terms that came to 0. */
static void finish(const Scratch *s, Sum *to) {
    int terms = 0;
    for (int i = 0; i < s->running.terms; i++) {
        to->keys[terms] = s->running.keys[i];
        to->coefficients[terms] = s->running.coefficients[i];
        terms += s->running.coefficients[i] != 0;
    }
    to->terms = terms;
}

static bool add_sums(Scratch *s, const Sum *a, const Sum *b, Sum *to) {
    s->running.terms = merge(&s->running, 0, a, b, 0, 1);
    if (s->running.terms > MOST_TERMS) return false;
    finish(s, to);
    return true;
}

/* ---- Boxes. */

/* The least and the largest of every byte of some keys, and whether h occurs. */
typedef struct {
    uint8_t low[KEY_BYTES], high[KEY_BYTES];
    bool h;
} Range;

/* How far apart in a box two patterns are that differ by one in one byte of the key. */
typedef struct {
    int16_t strides[KEY_BYTES];
    int offset, slots;
} Box;

static void range_of(const uint64_t *keys, int terms, Range *range) {
    Lanes low = lanes_of(UINT64_MAX), high = lanes_of(0);
    uint64_t h = 0;
    for (int i = 0; i < terms; i++) {
        low = least_lanes(low, lanes_of(keys[i]));
        high = largest_lanes(high, lanes_of(keys[i]));
        h |= power_of_h(keys[i]);
    }
    store(range->low, word_of(low));
    store(range->high, word_of(high));
    range->h = h != 0;
}

/* The range of the products of one range and the k-th powers of another. */
static Range product_range(const Range *a, const Range *b, int k) {
    Range c;
    for (int i = 0; i < KEY_BYTES; i++) {
        c.low[i] = (uint8_t)(a->low[i] + k * b->low[i]);
        c.high[i] = (uint8_t)(a->high[i] + k * b->high[i]);
    }
    c.h = a->h || (k > 0 && b->h);
    return c;
}

/* Lays out a box, so that the slots stand in the order of the keys. Returns false if it is too large. Where h does not occur, the last variable that varies needs no
 * room of its own: the degree and the others tell it. */
static bool lay_out(Box *box, const Range *range) {
    bool told = range->h;
    box->slots = 1;
    box->offset = 0;
    for (int i = 0; i < KEY_BYTES; i++) {
        int places = range->high[i] - range->low[i] + 1;
        bool needed = places > 1 && told;
        told = told || places > 1;
        box->strides[i] = (int16_t)(needed ? box->slots : 0);
        box->offset += box->strides[i] * range->low[i];
        if (needed) box->slots *= places;
        if (box->slots > SLOTS) return false;
    }
    return true;
}

/* The slots of some patterns, before the offset is taken off. Slots of products are sums of slots. */
static void find_slots(const Box *box, const Sum *sum, int offset, int *slots) {
    for (int i = 0; i < sum->terms; i++) slots[i] = strides_added(sum->keys[i], box->strides) - offset;
}

/* Slots are cleared when they are first needed, and after that by whoever empties them. */
static void make_clean(Dense *d, int slots) {
    slots = (slots + MARK_BLOCK - 1) & -MARK_BLOCK; /* Marks are looked at in blocks. */
    if (slots <= d->clean) return;
    memset(d->coefficients + d->clean, 0, (size_t)(slots - d->clean) * sizeof *d->coefficients);
    memset(d->marks + d->clean, 0, (size_t)(slots - d->clean));
    d->clean = slots;
}

/* Adds the product of two sums to the slots. */
static void fill(Dense *restrict d, const Sum *a, const int *restrict a_slots, const Sum *b, const int *restrict b_slots) {
    const uint64_t *restrict keys = b->keys;
    const int64_t *restrict coefficients = b->coefficients;
    for (int i = 0; i < a->terms; i++) {
        uint64_t key = a->keys[i];
        int64_t coefficient = a->coefficients[i];
        for (int j = 0, terms = b->terms; j < terms; j++) {
            int slot = a_slots[i] + b_slots[j];
            d->coefficients[slot] += coefficient * coefficients[j];
            d->keys[slot] = key + keys[j];
            d->marks[slot] = 1;
        }
    }
}

/* Empties the slots, from `top` down, into a sum, and tells where its terms stood. Returns false if more patterns were met than a sum may have. */
static bool empty(Dense *d, int top, Sum *to, int *to_slots) {
    int met = 0, terms = 0;
    for (int block = top & -MARK_BLOCK; block >= 0; block -= MARK_BLOCK) {
        unsigned mask = block_of_marks(d->marks + block);
        if (mask == 0) continue;
        memset(d->marks + block, 0, MARK_BLOCK);
        do {
            int bit = 31 - __builtin_clz(mask), slot = block + bit;
            mask ^= 1u << bit;
            if (++met > MOST_TERMS) return false;
            to->keys[terms] = d->keys[slot];
            to->coefficients[terms] = d->coefficients[slot];
            to_slots[terms] = slot;
            terms += d->coefficients[slot] != 0;
            d->coefficients[slot] = 0;
        } while (mask != 0);
    }
    to->terms = terms;
    return true;
}

/* ---- Products and powers. Each returns false if its spread is too large. */

/* A box pays if it is not much larger than the work that is done in it: the pairs of terms. */
static bool pays(const Box *box, int pairs) { return box->slots <= 16 * pairs; }

static bool product_fits_box(const Sum *a, const Sum *b, Box *box) {
    Range of_a, of_b;
    range_of(a->keys, a->terms, &of_a);
    range_of(b->keys, b->terms, &of_b);
    Range both = product_range(&of_a, &of_b, 1);
    return lay_out(box, &both) && pays(box, a->terms * b->terms);
}

/* The steps of a power have, one with another, some four times as many terms as the base, or more. */
static bool power_fits_box(const Sum *base, int k, Box *box) {
    static const Range empty_pattern;
    Range range;
    range_of(base->keys, base->terms, &range);
    range = product_range(&empty_pattern, &range, k);
    return lay_out(box, &range) && pays(box, 4 * base->terms * base->terms * k);
}

static bool multiply(Scratch *s, const Sum *a, const Sum *b, Sum *to) {
    const Sum *few = a->terms < b->terms ? a : b, *many = few == a ? b : a;
    Box box;
    if (few->terms <= 1) {
        to->terms = few->terms == 0 ? 0 : many->terms;
        if (to->terms > 0) move(many->keys, many->coefficients, many->terms, few->keys[0], few->coefficients[0], to->keys, to->coefficients);
        return true;
    }
    if (few->terms * many->terms >= 48 && product_fits_box(few, many, &box)) {
        int few_slots[MOST_TERMS], many_slots[MOST_TERMS];
        find_slots(&box, few, box.offset, few_slots);
        find_slots(&box, many, 0, many_slots);
        make_clean(&s->dense, box.slots);
        fill(&s->dense, few, few_slots, many, many_slots);
        return empty(&s->dense, few_slots[0] + many_slots[0], to, few_slots);
    }
    s->running.terms = 0;
    if (!add_rows(s, few, many)) return false;
    finish(s, to);
    return true;
}

/* A power of two terms, by the binomial theorem: its patterns are all different, and no step has more than 61. */
static void power_of_two_terms(const Sum *base, int k, Sum *to) {
    uint64_t choices[MOST_DEGREE + 1], x = (uint64_t)base->coefficients[0], y = (uint64_t)base->coefficients[1], power = 1;
    choices[0] = choices[k] = 1;
    for (int i = 1; 2 * i <= k; i++) choices[i] = choices[k - i] = choices[i - 1] * (uint64_t)(k - i + 1) / (uint64_t)i;
    for (int i = 0; i <= k; i++, power *= y) {
        to->keys[i] = (uint64_t)(k - i) * base->keys[0] + (uint64_t)i * base->keys[1];
        to->coefficients[i] = (int64_t)(choices[i] * power);
    }
    power = 1;
    for (int i = k; i >= 0; i--, power *= x) to->coefficients[i] = (int64_t)((uint64_t)to->coefficients[i] * power);
    to->terms = k + 1;
}

static void copy_sum(const Sum *from, Sum *to) {
    memcpy(to->keys, from->keys, (size_t)from->terms * sizeof *to->keys);
    memcpy(to->coefficients, from->coefficients, (size_t)from->terms * sizeof *to->coefficients);
    to->terms = from->terms;
}

/* A power in a box that has room for its last step. */
static bool power_in_box(Scratch *s, const Box *box, const Sum *base, int k, Sum *to) {
    int base_slots[MOST_TERMS], slots[MOST_TERMS];
    find_slots(box, base, box->offset / k, base_slots); /* The offset is that of k factors. */
    memcpy(slots, base_slots, sizeof slots);
    make_clean(&s->dense, box->slots);
    copy_sum(base, to);
    for (int step = 2; step <= k && to->terms > 0; step++) {
        int top = slots[0] + base_slots[0];
        fill(&s->dense, base, base_slots, to, slots);
        if (!empty(&s->dense, top, to, slots)) return false;
    }
    return true;
}

/* A power step by step, as its spread is judged. The steps are written to and fro, so that the last one comes to stand where it should. */
static bool power_by_steps(Scratch *s, const Sum *base, int k, Sum *to) {
    Box box;
    if (power_fits_box(base, k, &box)) return power_in_box(s, &box, base, k, to);
    Sum between = { s->step.keys, s->step.coefficients, 0 };
    const Sum *last = base;
    for (int i = 2; i <= k; i++) {
        Sum *next = (k - i) % 2 ? &between : to;
        if (!multiply(s, base, last, next)) return false;
        last = next;
    }
    return true;
}

static bool raise_sum(Scratch *s, const Sum *base, int k, Sum *to) {
    if (k == 0) {
        set_one_term(to, 0, 1);
    } else if (k == 1 || base->terms == 0) {
        copy_sum(base, to);
    } else if (base->terms == 1) {
        uint64_t power = 1;
        for (int i = 0; i < k; i++) power *= (uint64_t)base->coefficients[0];
        set_one_term(to, (uint64_t)k * base->keys[0], (int64_t)power);
    } else if (base->terms == 2) {
        power_of_two_terms(base, k, to);
    } else {
        return power_by_steps(s, base, k, to);
    }
    return true;
}

/* ---- What simplify and substitute end with. */

static uint64_t write_sum(const Sum *sum, uint8_t *result) {
    uint8_t *out = put_count(result, (uint64_t)sum->terms);
    for (int i = 0; i < sum->terms; i++) {
        uint64_t key = sum->keys[i];
        out = put_term(out, encode(sum->coefficients[i]), __builtin_bswap64(key << 8 | power_of_h(key)));
    }
    return (uint64_t)(out - result);
}

/* ---- Tables. */

typedef struct {
    Sum sum;
    uint64_t weight;
    unsigned degree;
} Node;

/* The nodes that were read, and how many places of the work areas their sums take. */
typedef struct {
    Node nodes[MOST_NODES];
    uint64_t *patterns;
    int64_t *coefficients;
    size_t used;
    Scratch scratch;
} Forest;

static bool well_formed(const int64_t *row, uint64_t index) {
    uint64_t first = (uint64_t)row[1], second = (uint64_t)row[2];
    switch (row[0]) {
    case INTEGER: return second == 0;
    case VARIABLE: return first < VARIABLES && second == 0;
    case SUM:
    case PRODUCT: return first < index && second < index;
    case POWER: return first < index && second <= MOST_DEGREE;
    default: return false;
    }
}

/* A weight raised to a power, by squares; 0^0 is 1. */
static uint64_t weight_power(uint64_t weight, unsigned exponent) {
    uint64_t power = 1;
    for (; exponent > 0; exponent >>= 1) {
        if (exponent & 1) power = cap((Wide)power * weight);
        weight = cap((Wide)weight * weight);
    }
    return power;
}

/* The formal degree and weight of a node that is well formed. */
static void judge(const Forest *f, const int64_t *row, Node *node) {
    if (row[0] <= VARIABLE) {
        node->degree = row[0] == VARIABLE;
        node->weight = row[0] == VARIABLE ? 1 : size_of(row[1]);
        return;
    }
    const Node *a = &f->nodes[row[1]];
    if (row[0] == POWER) {
        node->degree = a->degree * (unsigned)row[2];
        node->weight = weight_power(a->weight, (unsigned)row[2]);
        return;
    }
    const Node *b = &f->nodes[row[2]];
    if (row[0] == SUM) {
        node->degree = a->degree > b->degree ? a->degree : b->degree;
        node->weight = a->weight + b->weight;
    } else {
        node->degree = a->degree + b->degree;
        node->weight = cap((Wide)a->weight * b->weight);
    }
}

/* The key of one variable. */
static uint64_t key_of(unsigned variable) { return ONE_DEGREE | (variable < LAST_VARIABLE ? UINT64_C(1) << (48 - 8 * variable) : 0); }

/* The ordered sum of a node whose degree and weight are within the limits. */
static bool form(Forest *f, const int64_t *row, Sum *sum) {
    const Node *nodes = f->nodes;
    switch (row[0]) {
    case INTEGER: set_one_term(sum, 0, row[1]); return true;
    case VARIABLE: set_one_term(sum, key_of((unsigned)row[1]), 1); return true;
    case SUM: return add_sums(&f->scratch, &nodes[row[1]].sum, &nodes[row[2]].sum, sum);
    case PRODUCT: return multiply(&f->scratch, &nodes[row[1]].sum, &nodes[row[2]].sum, sum);
    default: return raise_sum(&f->scratch, &nodes[row[1]].sum, (int)row[2], sum);
    }
}

static uint64_t simplify(Forest *f, const int64_t *table, size_t nodes, uint8_t *result) {
    for (size_t i = 0; i < nodes; i++) {
        const int64_t *row = table + NODE_NUMBERS * i;
        Node *node = &f->nodes[i];
        if (!well_formed(row, i)) return refuse(REEVEBOOM_NODE, i);
        judge(f, row, node);
        if (node->degree > MOST_DEGREE) return refuse(REEVEBOOM_DEGREE, i);
        if (node->weight > MOST_WEIGHT) return refuse(REEVEBOOM_WEIGHT, i);
        node->sum = (Sum){ f->patterns + f->used, f->coefficients + f->used, 0 };
        if (!form(f, row, &node->sum)) return refuse(REEVEBOOM_SPREAD, i);
        f->used += (size_t)node->sum.terms;
    }
    return write_sum(&f->nodes[nodes - 1].sum, result);
}

uint64_t quick_simplify(const int64_t *table, size_t table_length,
                        uint8_t *result, size_t result_length,
                        uint64_t *patterns, size_t patterns_length,
                        int64_t *coefficients, size_t coefficients_length) {
    if (result_length < REEVEBOOM_RESULT_BYTES || patterns_length < REEVEBOOM_WORK_PLACES || coefficients_length < REEVEBOOM_WORK_PLACES)
        return refuse(REEVEBOOM_ROOM, 0);
    uint64_t number = refuse(REEVEBOOM_SHAPE, 0);
    if (table_length % NODE_NUMBERS == 0 && table_length > 0 && table_length <= NODE_NUMBERS * MOST_NODES) {
        Forest f;
        f.patterns = patterns;
        f.coefficients = coefficients;
        f.used = 0;
        f.scratch.dense.clean = 0;
        number = simplify(&f, table, table_length / NODE_NUMBERS, result);
    }
    leave_zero((char *)patterns, REEVEBOOM_WORK_PLACES * sizeof *patterns);
    leave_zero((char *)coefficients, REEVEBOOM_WORK_PLACES * sizeof *coefficients);
    return number;
}

/* ---- Substitution. */

typedef struct {
    unsigned variable;
    Sum sum;
    Room room;
} Pair;

/* The sum that pairs are applied to, and what one pair needs. Terms stand grouped by their power k of the pair's variable, and without it: group k from starts[k]
 * on. The powers of the pair's sum are in the work areas. */
typedef struct {
    Pair pairs[MOST_PAIRS];
    Sum sum, grouped, powers[MOST_DEGREE + 1];
    Room sum_room, grouped_room;
    uint8_t exponents[MOST_TERMS];
    int starts[MOST_DEGREE + 2];
    unsigned largest;
    uint64_t *patterns;
    int64_t *coefficients;
    size_t used;
    Scratch scratch;
} Change;

/* Reads the list. Gives 0, or the number of its refusal. */
static uint64_t read_list(Change *c, const uint8_t *list, size_t length, uint64_t *count) {
    Reader r = { list, length, 0 };
    size_t fault = read_count(&r, MOST_PAIRS, count);
    if (fault != NO_FAULT) return refuse(REEVEBOOM_LIST, fault);
    for (uint64_t i = 0; i < *count; i++) {
        Pair *pair = &c->pairs[i];
        uint64_t variable, terms;
        size_t start = r.place;
        fault = read_number(&r, &variable);
        if (fault != NO_FAULT) return refuse(REEVEBOOM_LIST, fault);
        if (variable >= VARIABLES) return refuse(REEVEBOOM_VARIABLE, start);
        fault = read_sum(&r, AS_KEY, pair->room.keys, pair->room.coefficients, &terms);
        if (fault != NO_FAULT) return refuse(REEVEBOOM_LIST, fault);
        pair->variable = (unsigned)variable;
        pair->sum = (Sum){ pair->room.keys, pair->room.coefficients, (int)terms };
    }
    return r.place < length ? refuse(REEVEBOOM_LIST, r.place) : 0;
}

/* Finds every term's power of the variable, and judges the degree and the weight. Gives 0 or the refusal. */
static unsigned judge_pair(Change *c, const Pair *pair) {
    uint64_t weights[MOST_DEGREE + 1], weight = 0, degree = pair->sum.terms ? pair->sum.keys[0] >> 56 : 0, most = 0;
    Wide total = 0;
    c->largest = 0;
    for (int i = 0; i < c->sum.terms; i++) {
        uint64_t key = c->sum.keys[i], k = pair->variable < LAST_VARIABLE ? key >> (48 - 8 * pair->variable) & 255 : power_of_h(key);
        uint64_t now = (key >> 56) - k + k * degree;
        c->exponents[i] = (uint8_t)k;
        c->largest = k > c->largest ? (unsigned)k : c->largest;
        most = now > most ? now : most;
    }
    if (most > MOST_DEGREE) return REEVEBOOM_DEGREE;
    for (int i = 0; i < pair->sum.terms; i++) weight += size_of(pair->sum.coefficients[i]);
    weights[0] = 1;
    for (unsigned k = 1; k <= c->largest; k++) weights[k] = cap((Wide)weights[k - 1] * weight);
    for (int i = 0; i < c->sum.terms; i++) total += (Wide)size_of(c->sum.coefficients[i]) * weights[c->exponents[i]];
    return total > MOST_WEIGHT ? REEVEBOOM_WEIGHT : 0;
}

/* Groups the terms by their power of the variable, and takes it out of them. All of a group lose the same, so they stay in order. */
static void group(Change *c, unsigned variable) {
    uint64_t one = key_of(variable);
    int *starts = c->starts, next[MOST_DEGREE + 1];
    memset(starts, 0, (c->largest + 2) * sizeof *starts);
    for (int i = 0; i < c->sum.terms; i++) starts[c->exponents[i] + 1]++;
    for (unsigned k = 0; k <= c->largest; k++) {
        next[k] = starts[k];
        starts[k + 1] += starts[k];
    }
    for (int i = 0; i < c->sum.terms; i++) {
        unsigned k = c->exponents[i];
        int at = next[k]++;
        c->grouped.keys[at] = c->sum.keys[i] - k * one;
        c->grouped.coefficients[at] = c->sum.coefficients[i];
    }
}

static Sum group_of(const Change *c, unsigned k) {
    int start = c->starts[k];
    return (Sum){ c->grouped.keys + start, c->grouped.coefficients + start, c->starts[k + 1] - start };
}

/* Forms the powers of the pair's sum. Those of one or two terms need no steps, so only those that a group needs are formed. */
static bool form_powers(Change *c, const Sum *sum) {
    c->used = 0;
    for (unsigned k = 0; k <= c->largest; k++) {
        Sum *power = &c->powers[k];
        *power = (Sum){ c->patterns + c->used, c->coefficients + c->used, 0 };
        if (k >= 2 && sum->terms > 2) {
            if (!multiply(&c->scratch, sum, &c->powers[k - 1], power)) return false;
        } else if (c->starts[k] < c->starts[k + 1]) {
            raise_sum(&c->scratch, sum, (int)k, power);
        } else if (k == 1) {
            copy_sum(sum, power);
        }
        c->used += (size_t)power->terms;
    }
    return true;
}

/* Whether the groups' products together go into a box. */
static bool groups_fit_box(const Change *c, const Sum *sum, Box *box) {
    Range of_sum, all;
    int pairs = 0;
    memset(all.low, 255, sizeof all.low);
    memset(all.high, 0, sizeof all.high);
    all.h = false;
    range_of(sum->keys, sum->terms, &of_sum);
    for (unsigned k = 0; k <= c->largest; k++) {
        Sum group = group_of(c, k);
        Range range;
        if (group.terms == 0 || c->powers[k].terms == 0) continue;
        range_of(group.keys, group.terms, &range);
        range = product_range(&range, &of_sum, (int)k);
        for (int i = 0; i < KEY_BYTES; i++) {
            all.low[i] = range.low[i] < all.low[i] ? range.low[i] : all.low[i];
            all.high[i] = range.high[i] > all.high[i] ? range.high[i] : all.high[i];
        }
        all.h = all.h || range.h;
        pairs += group.terms * c->powers[k].terms;
    }
    return pairs > 0 && lay_out(box, &all) && pays(box, pairs);
}

/* Adds the groups' products up, and makes that the sum. */
static bool join(Change *c, const Sum *sum) {
    Box box;
    int slots[MOST_TERMS], power_slots[MOST_TERMS];
    if (!groups_fit_box(c, sum, &box)) {
        c->scratch.running.terms = 0;
        for (unsigned k = 0; k <= c->largest; k++) {
            Sum group = group_of(c, k);
            if (!add_rows(&c->scratch, &group, &c->powers[k])) return false;
        }
        finish(&c->scratch, &c->sum);
        return true;
    }
    make_clean(&c->scratch.dense, box.slots);
    for (unsigned k = 0; k <= c->largest; k++) {
        Sum group = group_of(c, k);
        if (group.terms == 0) continue;
        find_slots(&box, &group, box.offset, slots);
        find_slots(&box, &c->powers[k], 0, power_slots);
        fill(&c->scratch.dense, &group, slots, &c->powers[k], power_slots);
    }
    return empty(&c->scratch.dense, box.slots - 1, &c->sum, slots);
}

static uint64_t substitute(Change *c, const uint8_t *bytes, size_t length, const uint8_t *list, size_t list_length, uint8_t *result) {
    uint64_t terms, count;
    size_t fault = read_whole(bytes, length, AS_KEY, c->sum_room.keys, c->sum_room.coefficients, &terms);
    if (fault != NO_FAULT) return refuse(REEVEBOOM_SUM, fault);
    uint64_t refused = read_list(c, list, list_length, &count);
    if (refused) return refused;
    c->sum = (Sum){ c->sum_room.keys, c->sum_room.coefficients, (int)terms };
    c->grouped = (Sum){ c->grouped_room.keys, c->grouped_room.coefficients, 0 };
    for (uint64_t i = 0; i < count; i++) {
        const Pair *pair = &c->pairs[i];
        unsigned refusal = judge_pair(c, pair);
        if (refusal) return refuse(refusal, i);
        if (c->largest == 0) continue; /* The variable does not occur, and so nothing changes. */
        group(c, pair->variable);
        if (!form_powers(c, &pair->sum) || !join(c, &pair->sum)) return refuse(REEVEBOOM_SPREAD, i);
    }
    return write_sum(&c->sum, result);
}

uint64_t quick_substitute(const uint8_t *sum, size_t sum_length,
                          const uint8_t *list, size_t list_length,
                          uint8_t *result, size_t result_length,
                          uint64_t *patterns, size_t patterns_length,
                          int64_t *coefficients, size_t coefficients_length) {
    if (result_length < REEVEBOOM_RESULT_BYTES || patterns_length < REEVEBOOM_WORK_PLACES || coefficients_length < REEVEBOOM_WORK_PLACES)
        return refuse(REEVEBOOM_ROOM, 0);
    Change c;
    c.patterns = patterns;
    c.coefficients = coefficients;
    c.scratch.dense.clean = 0;
    uint64_t number = substitute(&c, sum, sum_length, list, list_length, result);
    leave_zero((char *)patterns, REEVEBOOM_WORK_PLACES * sizeof *patterns);
    leave_zero((char *)coefficients, REEVEBOOM_WORK_PLACES * sizeof *coefficients);
    return number;
}
