/* Reeveboom, for hosts written in C or C++ on x86-64 (System V calls) and aarch64 (AAPCS64), 64 bits only.
 *
 * Link one of two static libraries, and never both, since both have reeveboom_estimate:
 * - libhost.a has every function that is declared here;
 * - librouter.a has the estimate alone.
 *
 * Rules for the caller of any function here:
 * - A slice is a pointer and a length, which counts elements and not bytes. The pointer is aligned for its elements and never null, not even where the length
 *   is 0. As many elements as the length says (at most PTRDIFF_MAX bytes) can be read there, and written too where the pointer is not to const.
 * - An area that is written to overlaps no other slice, and nobody else touches any of them during the call. So a result is not written over the sum that it is
 *   made from, however tempting that is for a slope or a substitution: take two areas, and swap them from call to call. Slices that are only read may
 *   overlap each other, or be the same.
 * What the elements are is free, and so is every length: whatever is wrong with them is told by the number that comes back.
 *
 * The functions keep nothing and allocate nothing, and call nothing but memcpy, memmove and memset, which the host has to have; so several threads may call them
 * at once, each with areas of its own. What they need of the stack is said with the sizes of the areas.
 */
#ifndef REEVEBOOM_H
#define REEVEBOOM_H

#include <stddef.h>
#include <stdint.h>

/* Version 4.2: three tools of this kind came before it. The first number goes up by 1 with an answer, a layout of bytes or a declaration that is no longer as it was, the second with what is added
 * beside them. As one number, for #if: 100 x the first + the second. */
#define REEVEBOOM_VERSION_MAJOR 4
#define REEVEBOOM_VERSION_MINOR 2
#define REEVEBOOM_VERSION (100 * REEVEBOOM_VERSION_MAJOR + REEVEBOOM_VERSION_MINOR)

/* The library takes lengths of 64 bits. Where size_t is shorter this does not compile; before C11 and C++11 that is an array of -1 places. */
#if defined(__cplusplus) && __cplusplus >= 201103L
static_assert(sizeof(size_t) == 8, "Reeveboom is for machines of 64 bits");
#elif !defined(__cplusplus) && defined(__STDC_VERSION__) && __STDC_VERSION__ >= 201112L
_Static_assert(sizeof(size_t) == 8, "Reeveboom is for machines of 64 bits");
#else
typedef char reeveboom_is_for_machines_of_64_bits[sizeof(size_t) == 8 ? 1 : -1];
#endif

#ifdef __cplusplus
extern "C" {
#endif

/* The variables: a to h. */
enum { REEVEBOOM_VARIABLES = 8 };

/* ---- Memory.
 *
 * How long areas must be at least (readings and tolerances: exactly). A longer area is fine: its further places stay as they are. */
enum {
    REEVEBOOM_TABLE_PLACES = 192,  /* a formula table, where a text is read into it: 1.5 KiB */
    REEVEBOOM_TERM_PLACES = 128,   /* patterns and coefficients, where a sum is unpacked into them: 1 KiB each */
    REEVEBOOM_WORK_PLACES = 8192,  /* patterns and coefficients, where they are work areas: 64 KiB each, so 128 KiB for both */
    REEVEBOOM_RESULT_BYTES = 2306, /* a packed result: 2.3 KiB */
    REEVEBOOM_READING_BYTES = 2 * REEVEBOOM_VARIABLES,
    REEVEBOOM_ANSWER_BYTES = 16,
    REEVEBOOM_TEXT_BYTES = 8192    /* a text that is written: 8 KiB */
};

/* How many bytes of the stack a call takes at most, with its arguments and the way back. They are measured and not proved: on the compiled library, with inputs that
 * reach the deep paths, and rounded up well, since another machine or compiler takes some bytes more. tests/stack.c fails where a call takes more than this. */
enum {
    REEVEBOOM_TEXT_STACK = 12 * 1024,
    REEVEBOOM_SIMPLIFY_STACK = 32 * 1024,
    REEVEBOOM_UNPACK_STACK = 4 * 1024,
    REEVEBOOM_PACK_STACK = 512,
    REEVEBOOM_SLOPE_STACK = 4 * 1024,
    REEVEBOOM_SUBSTITUTE_STACK = 32 * 1024,
    REEVEBOOM_ESTIMATE_STACK = 16 * 1024,
    REEVEBOOM_WRITE_STACK = 4 * 1024
};

/* The refusals. Each comes with a place, which is 0 where nothing else is said. */
enum {
    REEVEBOOM_ROOM = 1,     /* an area that is written to is too short */
    REEVEBOOM_SHAPE = 2,    /* a table's length is not 3 x (1 to 64); packing: the count is above 128, or above an area's length */
    REEVEBOOM_NODE = 3,     /* a node of a table breaks its rules: the node */
    REEVEBOOM_DEGREE = 4,   /* a degree is above 60: the node, or the pair of the list */
    REEVEBOOM_WEIGHT = 5,   /* a weight is above 2^62: the node, or the pair; a slope: 0 */
    REEVEBOOM_SPREAD = 6,   /* more than 128 different patterns: the node, or the pair */
    REEVEBOOM_SUM = 7,      /* the packed sum is at fault: the byte, or its length if it ends too soon; packing: the first bad term */
    REEVEBOOM_LIST = 8,     /* the list is at fault: the byte, or its length if it ends too soon */
    REEVEBOOM_VARIABLE = 9, /* there is no such variable; in a list: the byte of its number */
    REEVEBOOM_READING = 10, /* a length is not 16; or the first negative tolerance: 0 for a, up to 7 for h */
    REEVEBOOM_RANGE = 11,   /* the raised value is above 2^62 */
    REEVEBOOM_TEXT = 12,    /* no formula: how many bytes from the front some formula begins with; 1024 if the text is longer than that */
    REEVEBOOM_NODES = 13    /* the text needs more than 64 nodes */
};

/* ---- What comes back.
 *
 * Done, a function returns the number that is said with it, which is below 2^16. Refused, the estimate returns refusal x 2^16 + place, which is below 2^20, and every
 * other function refusal x 2^32 + place. On refusal tables, patterns and coefficients that were to hold a sum, results, written texts and answers stay as they
 * were.
 *
 * So one pair of functions takes the number of any of them apart.
 */

/* The refusal: 0 when it is done. */
static inline unsigned reeveboom_refusal(uint64_t number) {
    return (unsigned)(number >> 32 != 0 ? number >> 32 : number >> 16);
}

/* The place of the refusal. Done, it is the number itself. */
static inline uint32_t reeveboom_place(uint64_t number) {
    return (uint32_t)(number >> 32 != 0 ? number & 4294967295u : number & 65535u);
}

/* A refusal's name, as it is spelled above; "DONE" for 0, and "UNKNOWN" for a number that is none. */
static inline const char *reeveboom_refusal_name(unsigned refusal) {
    switch (refusal) {
    case 0: return "DONE";
    case REEVEBOOM_ROOM: return "ROOM";
    case REEVEBOOM_SHAPE: return "SHAPE";
    case REEVEBOOM_NODE: return "NODE";
    case REEVEBOOM_DEGREE: return "DEGREE";
    case REEVEBOOM_WEIGHT: return "WEIGHT";
    case REEVEBOOM_SPREAD: return "SPREAD";
    case REEVEBOOM_SUM: return "SUM";
    case REEVEBOOM_LIST: return "LIST";
    case REEVEBOOM_VARIABLE: return "VARIABLE";
    case REEVEBOOM_READING: return "READING";
    case REEVEBOOM_RANGE: return "RANGE";
    case REEVEBOOM_TEXT: return "TEXT";
    case REEVEBOOM_NODES: return "NODES";
    default: return "UNKNOWN";
    }
}

/* What it says, and what its place is: a sentence to print, without a capital or a full stop. */
static inline const char *reeveboom_refusal_sentence(unsigned refusal) {
    switch (refusal) {
    case 0: return "it is done";
    case REEVEBOOM_ROOM: return "an area that is written to is too short";
    case REEVEBOOM_SHAPE: return "the table's length is not 3 x (1 to 64), or there are more terms to pack than 128 or than an area has places";
    case REEVEBOOM_NODE: return "a node of the table breaks its rules; the place is the node";
    case REEVEBOOM_DEGREE: return "a degree is above 60; the place is the node of the table, or the pair of the list";
    case REEVEBOOM_WEIGHT: return "a weight is above 2^62; the place is the node of the table, or the pair of the list, and 0 for a slope";
    case REEVEBOOM_SPREAD: return "there are more than 128 different patterns; the place is the node of the table, or the pair of the list";
    case REEVEBOOM_SUM: return "the packed sum is damaged or ends too soon; the place is the byte, or its length if it ends too soon; where terms are packed, the first bad term";
    case REEVEBOOM_LIST: return "the list is damaged or ends too soon; the place is the byte, or its length if it ends too soon";
    case REEVEBOOM_VARIABLE: return "there is no such variable; in a list the place is the byte of its number";
    case REEVEBOOM_READING: return "readings or tolerances are not 16 bytes, and the place is 0; or a tolerance is negative, and the place is its variable, 0 for a";
    case REEVEBOOM_RANGE: return "the raised value is above 2^62, so there is no estimate";
    case REEVEBOOM_TEXT: return "the text is no formula; the place is how many of its bytes some formula begins with, or 1024 if it is longer than that";
    case REEVEBOOM_NODES: return "the text needs more than 64 nodes";
    default: return "there is no such refusal";
    }
}

/* ---- Typed formulas and tables. */

/* Reads a typed formula, as (a+b)^2-b^2, into a formula table: three numbers for each node, kind, first and second. The last node is the formula.
 *
 * text:  its bytes; no zero byte ends them, and no blank stands in them.
 * table: 192 places or more. Done, the first 3 x nodes are written, and the others stay.
 *
 * Returns the number of nodes, 1 to 64. Refusals: ROOM, TEXT, NODES.
 */
uint64_t reeveboom_text(const uint8_t *text, size_t text_length,
                        int64_t *table, size_t table_length);

/* Turns a formula table into one ordered sum, packed.
 *
 * table:  its length is three times the number of nodes, and not that of the area that it stands in.
 * result: 2306 bytes or more. Done, as many as the number says are written, and the rest stay.
 * patterns, coefficients: work areas of 8192 places or more each. Whatever they hold before, after any answer but ROOM their first 8192 places are zero; their
 *         further places stay, and after ROOM all stay.
 *
 * Returns the number of bytes, 1 to 2306. Refusals: ROOM, SHAPE, then for the nodes from the first on NODE, DEGREE, WEIGHT, SPREAD.
 */
uint64_t reeveboom_simplify(const int64_t *table, size_t table_length,
                            uint8_t *result, size_t result_length,
                            uint64_t *patterns, size_t patterns_length,
                            int64_t *coefficients, size_t coefficients_length);

/* ---- Packed sums. */

/* Unpacks a packed sum. The pattern of a term has the power of a in its highest byte, and that of h in its lowest.
 *
 * patterns, coefficients: 128 places or more each. Done, as many as the number says are written in both, and the others stay.
 *
 * Returns the number of terms, 0 to 128. Refusals: ROOM, SUM.
 */
uint64_t reeveboom_unpack(const uint8_t *sum, size_t sum_length,
                          uint64_t *patterns, size_t patterns_length,
                          int64_t *coefficients, size_t coefficients_length);

/* Packs the first `count` terms of two areas, which have to stand in order.
 *
 * result: 2306 bytes or more. Done, as many as the number says are written, and the rest stay.
 *
 * Returns the number of bytes, 1 to 2306. Refusals: ROOM (of the result), SHAPE, SUM.
 */
uint64_t reeveboom_pack(uint64_t count,
                        const uint64_t *patterns, size_t patterns_length,
                        const int64_t *coefficients, size_t coefficients_length,
                        uint8_t *result, size_t result_length);

/* The slope of a packed sum by one variable, packed.
 *
 * variable: 0 for a, up to 7 for h.
 * result:   2306 bytes or more. Done, as many as the number says are written, and the rest stay.
 *
 * Returns the number of bytes, 1 to 2306. Refusals: ROOM, SUM, VARIABLE, WEIGHT, SPREAD (which is never met).
 */
uint64_t reeveboom_slope(const uint8_t *sum, size_t sum_length,
                         uint64_t variable,
                         uint8_t *result, size_t result_length);

/* Puts sums for variables of a packed sum, one after the other.
 *
 * list:   the number of pairs, 0 to 8, and for each pair the variable's number and a packed sum, which is put for it. The places of LIST and VARIABLE count from
 *         the list's first byte, those of SUM from the sum's.
 * result: 2306 bytes or more. Done, as many as the number says are written, and the rest stay.
 * patterns, coefficients: work areas of 8192 places or more each, as those of reeveboom_simplify.
 *
 * Returns the number of bytes, 1 to 2306. Refusals: ROOM, SUM, then LIST or VARIABLE, then for the pairs from the first on DEGREE, WEIGHT, SPREAD.
 */
uint64_t reeveboom_substitute(const uint8_t *sum, size_t sum_length,
                              const uint8_t *list, size_t list_length,
                              uint8_t *result, size_t result_length,
                              uint64_t *patterns, size_t patterns_length,
                              int64_t *coefficients, size_t coefficients_length);

/* ---- Back to text. */

/* Writes a packed sum as text, as a^2+2*a*b: terms in their order, zero as 0. Read by reeveboom_text and simplified, it becomes the same bytes again; but a text
 * may be longer than the 1024 bytes, or need more than the 64 nodes, that reeveboom_text takes.
 *
 * text: 8192 bytes or more. Done, as many as the number says are written, and the rest stay. No zero byte ends them.
 *
 * Returns the number of bytes, at least 1 and never above 7424. Refusals: ROOM, SUM.
 */
uint64_t reeveboom_write(const uint8_t *sum, size_t sum_length,
                         uint8_t *text, size_t text_length);

/* ---- The estimate. */

/* The value of a packed sum at the readings, and its margin: wherever each true number is within its tolerance of its reading, the true value is
 * within the margin of the estimate.
 *
 * The raised value is the sum with all signs dropped, of its coefficients and of the readings, taken at the readings raised by their tolerances. The
 * margin is that less the same without raising.
 *
 * sum:        the bytes of a packed sum.
 * readings:   16 bytes: the readings of a to h, two bytes each, two's complement, low byte first.
 * tolerances: the same for their tolerances, none of them negative.
 * answer:     16 bytes or more. Done, the first 16 become the estimate and then the margin, eight bytes each, two's complement, low byte first,
 *             and the rest stay. On refusal all stay.
 *
 * Returns 16. Refusals, as refusal x 2^16 + place: ROOM, SUM, READING, RANGE.
 */
uint64_t reeveboom_estimate(const uint8_t *sum, size_t sum_length,
                            const uint8_t *readings, size_t readings_length,
                            const uint8_t *tolerances, size_t tolerances_length,
                            uint8_t *answer, size_t answer_length);

#ifdef __cplusplus
}
#endif

#endif
