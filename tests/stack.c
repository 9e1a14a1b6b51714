/* How much of the stack each exported function takes, and that it stays within what include/reeveboom.h says.
 *
 *   ./test-host
 *
 * Every call runs on a stack of its own, which holds a mark in every byte before. How deep the call went is where the marks end afterwards, less what a call of
 * nothing takes there. So the arguments that are passed on the stack and the way back count, and so does what memcpy, memmove and memset take. A part of the last
 * frame that is not written to does not count: the limits have room for it.
 *
 * The inputs are meant to reach the deep paths: texts with as many brackets as there may be, products and powers of many terms, pairs with large powers, the
 * longest sums and numbers, and refusals of all kinds. What is seen is the most over all of them.
 */
#define _XOPEN_SOURCE 600
#include <stdio.h>
#include <stdlib.h>
#include <string.h>
#include <ucontext.h>

#include "rules.h"
#include "reeveboom.h"

/* ---- The painted stack. */

enum { STACK_BYTES = 256 * 1024, MARK = 0xa5 };

static uint8_t stack[STACK_BYTES];
static ucontext_t outside, inside;

static void needs(int holds, const char *what) {
    if (!holds) {
        printf("stack: %s\n", what);
        exit(1);
    }
}

static void run_inside(void (*call)(void)) {
    memset(stack, MARK, sizeof stack);
    needs(getcontext(&inside) == 0, "no context");
    inside.uc_stack.ss_sp = stack;
    inside.uc_stack.ss_size = sizeof stack;
    inside.uc_link = &outside;
    makecontext(&inside, call, 0);
    needs(swapcontext(&outside, &inside) == 0, "no other stack");
}

/* How many bytes of the painted stack a call takes: it grows towards lower addresses. */
static size_t depth(void (*call)(void)) {
    size_t untouched = 0;
    run_inside(call);
    while (untouched < sizeof stack && stack[untouched] == MARK) untouched++;
    needs(untouched != 0, "a call took all of the painted stack");
    return sizeof stack - untouched;
}

/* ---- A call of each function, on what stands in these areas. */

static const uint8_t *text;
static const uint8_t *list;
static size_t text_length, table_length, sum_length, list_length;
static int no_room;
static uint64_t count, variable, number;
static int64_t table[REEVEBOOM_TABLE_PLACES];
static uint8_t sum[REEVEBOOM_RESULT_BYTES + 1], result[REEVEBOOM_RESULT_BYTES], readings[REEVEBOOM_READING_BYTES], tolerances[REEVEBOOM_READING_BYTES],
               answer[REEVEBOOM_ANSWER_BYTES], written[REEVEBOOM_TEXT_BYTES];
static uint64_t term_patterns[REEVEBOOM_TERM_PLACES], patterns[REEVEBOOM_WORK_PLACES];
static int64_t term_coefficients[REEVEBOOM_TERM_PLACES], coefficients[REEVEBOOM_WORK_PLACES];

/* An area of this file, and its length. One that is lent to be written to has none where no function is to have room. */
#define ALL_OF(area) area, sizeof area / sizeof *area
#define INTO(area) area, no_room ? 0 : sizeof area / sizeof *area
#define INTO_WORK INTO(patterns), INTO(coefficients)

static void call_nothing(void) {}
static void call_text(void) { number = reeveboom_text(text, text_length, INTO(table)); }
static void call_simplify(void) { number = reeveboom_simplify(table, table_length, INTO(result), INTO_WORK); }
static void call_unpack(void) { number = reeveboom_unpack(sum, sum_length, INTO(term_patterns), INTO(term_coefficients)); }
static void call_pack(void) { number = reeveboom_pack(count, ALL_OF(term_patterns), ALL_OF(term_coefficients), INTO(result)); }
static void call_slope(void) { number = reeveboom_slope(sum, sum_length, variable, INTO(result)); }
static void call_substitute(void) { number = reeveboom_substitute(sum, sum_length, list, list_length, INTO(result), INTO_WORK); }
static void call_write(void) { number = reeveboom_write(sum, sum_length, INTO(written)); }
static void call_estimate(void) { number = reeveboom_estimate(sum, sum_length, ALL_OF(readings), ALL_OF(tolerances), INTO(answer)); }

/* Sets of answers: 1 for done, and a bit for each refusal. */
#define DONE 1u
#define REFUSES(refusal) (1u << REEVEBOOM_##refusal)

enum { TEXT, SIMPLIFY, UNPACK, PACK, SLOPE, SUBSTITUTE, WRITE, ESTIMATE, FUNCTIONS };

/* What a function may take; which answers the inputs below have to reach, besides DONE and ROOM; the most that it has taken; and which answers were met. */
static struct {
    const char *name;
    void (*call)(void);
    size_t limit;
    unsigned wanted;
    size_t most;
    unsigned met;
} functions[FUNCTIONS] = {
    [TEXT] = { "reeveboom_text", call_text, REEVEBOOM_TEXT_STACK, REFUSES(TEXT) | REFUSES(NODES), 0, 0 },
    [SIMPLIFY] = { "reeveboom_simplify", call_simplify, REEVEBOOM_SIMPLIFY_STACK,
                   REFUSES(SHAPE) | REFUSES(NODE) | REFUSES(DEGREE) | REFUSES(WEIGHT) | REFUSES(SPREAD), 0, 0 },
    [UNPACK] = { "reeveboom_unpack", call_unpack, REEVEBOOM_UNPACK_STACK, REFUSES(SUM), 0, 0 },
    [PACK] = { "reeveboom_pack", call_pack, REEVEBOOM_PACK_STACK, REFUSES(SHAPE) | REFUSES(SUM), 0, 0 },
    [SLOPE] = { "reeveboom_slope", call_slope, REEVEBOOM_SLOPE_STACK, REFUSES(SUM) | REFUSES(VARIABLE) | REFUSES(WEIGHT), 0, 0 },
    [SUBSTITUTE] = { "reeveboom_substitute", call_substitute, REEVEBOOM_SUBSTITUTE_STACK,
                     REFUSES(SUM) | REFUSES(LIST) | REFUSES(DEGREE) | REFUSES(WEIGHT) | REFUSES(SPREAD), 0, 0 },
    [WRITE] = { "reeveboom_write", call_write, REEVEBOOM_WRITE_STACK, REFUSES(SUM), 0, 0 },
    [ESTIMATE] = { "reeveboom_estimate", call_estimate, REEVEBOOM_ESTIMATE_STACK, REFUSES(SUM) | REFUSES(READING) | REFUSES(RANGE), 0, 0 },
};

static size_t nothing;

/* Calls a function, and tells whether it was done. */
static int done(int function) {
    size_t taken = depth(functions[function].call) - nothing;
    if (taken > functions[function].most) functions[function].most = taken;
    functions[function].met |= 1u << (reeveboom_refusal(number) & 31u);
    return reeveboom_refusal(number) == 0;
}

/* ---- The inputs. */

/* The packed sum of a text. Its length, or 0. */
static size_t packed(const char *typed, uint8_t *into) {
    text = (const uint8_t *)typed;
    text_length = strlen(typed);
    if (!done(TEXT)) return 0;
    table_length = NODE_NUMBERS * (size_t)number;
    if (!done(SIMPLIFY)) return 0;
    memcpy(into, result, (size_t)number);
    return (size_t)number;
}

/* Lists: each of these pairs by itself, and all of them, one after the other. */
static const struct {
    char letter;
    const char *put;
} pairs[] = {
    { 'a', "0" },
    { 'a', "b-1" },
    { 'b', "2*a-c" },
    { 'a', "b+c+d+e+f+g+h" },
    { 'b', "4611686018427387904*a" },
    { 'c', "(1+a)*(1+b)*(1+c)*(1+d)*(1+e)*(1+f)*(1+g)" },
    { 'a', "1+b+c+d+e+f+g+h+b^2+c^3+d^4+e^5+f^6+g^7+h^8+b^9*c^9" },
    { 'h', "b^30" },
};

enum { PAIRS = sizeof pairs / sizeof *pairs };

static struct {
    uint8_t bytes[1 + PAIRS * (1 + REEVEBOOM_RESULT_BYTES)];
    size_t length;
} lists[PAIRS + 1];

static void add_pair(int l, int pair) {
    uint8_t *bytes = lists[l].bytes;
    if (lists[l].length == 0) lists[l].length = 1;
    bytes[0]++;
    bytes[lists[l].length++] = (uint8_t)(pairs[pair].letter - 'a');
    lists[l].length += packed(pairs[pair].put, bytes + lists[l].length);
}

static void make_lists(void) {
    for (int i = 0; i < PAIRS; i++) {
        add_pair(i, i);
        add_pair(PAIRS, i);
    }
}

static void estimates(void) {
    static const int given[][2] = { { 0, 0 }, { 1, 0 }, { -3, 1 }, { 32767, 32767 }, { -32768, 0 }, { 2, -1 } };
    for (size_t i = 0; i < sizeof given / sizeof *given; i++) {
        for (int v = 0; v < VARIABLES; v++) {
            readings[2 * v] = (uint8_t)((unsigned)given[i][0] & 255u);
            readings[2 * v + 1] = (uint8_t)((unsigned)given[i][0] >> 8 & 255u);
            tolerances[2 * v] = (uint8_t)((unsigned)given[i][1] & 255u);
            tolerances[2 * v + 1] = (uint8_t)((unsigned)given[i][1] >> 8 & 255u);
        }
        done(ESTIMATE);
    }
}

/* Everything that can be done with a packed sum. */
static void with_sum(void) {
    if (done(UNPACK)) {
        count = number;
        done(PACK);
        /* a term that stands twice */
        if (count > 1) {
            term_patterns[count - 1] = term_patterns[0];
            done(PACK);
        }
    }
    for (variable = 0; variable <= VARIABLES; variable++) done(SLOPE);
    for (int l = 0; l <= PAIRS; l++) {
        list = lists[l].bytes;
        list_length = lists[l].length;
        done(SUBSTITUTE);
        list_length--;
        done(SUBSTITUTE);
    }
    done(WRITE);
    estimates();
}

static void with_text(const char *typed) {
    sum_length = packed(typed, sum);
    if (sum_length == 0) return;
    with_sum();
    /* and where its last byte is missing, or one too many */
    sum_length--;
    with_sum();
    sum_length += 2;
    with_sum();
}

/* A text with as many brackets inside each other: what stands before each and after it, and what in the last one. */
static void with_brackets(int deep, const char *before, const char *after, const char *last) {
    char typed[MOST_TEXT] = "";
    for (int i = 0; i < deep; i++) strcat(strcat(typed, before), "(");
    strcat(typed, last);
    for (int i = 0; i < deep; i++) strcat(strcat(typed, ")"), after);
    with_text(typed);
}

static const char *const formulas[] = {
    "0", "1", "a", "a-a", "(a+b)^2-b^2", "4611686018427387904", "4611686018427387904+1",
    "3*a^2+2*a*b+5*c*d^2-7*e+12",
    "(a*b*c*d-e*f)^4+4*a*b*c*d*e*f*(e^2*f^2+a^2*b^2*c^2*d^2)",
    "(a-b)*(a+b)*(a^2+b^2)*(a^4+b^4)*(a^8+b^8)",
    "36028797018963968*a*(1+b)*(1+c)*(1+d)*(1+e)*(1+f)*(1+g)*(1+h)",
    "(1+a)*(1+b)*(1+c)*(1+d)*(1+e)*(1+f)*(1+g)*(1+h)",
    "(a+b+c+d+e+f+g+h)^3", "(a+b+c+d+e+f+g+h)^4", "(a+b+c+d+e+f+g+h)^2*(a+b+c+d+e+f+g+h)",
    "(a+b)^60", "(a+b)^60*a", "(2*a+1)^20", "(a+b+c)^14", "(a-1)^30*(a+1)^30", "(1+a+b)^7*(1+a-b)^7", "(1+a)^28*(1+b)*(1+a)^27",
    "(a+b)^4*(c+d)^4*(e+f)^3", "(1+a)^10*(1+b)^10",
    "(a+b+c+d+a^2+b^2+c^2+d^2+a^3+b^3+1)*(e+f+g+h+e^2+f^2+g^2+h^2+e^3+f^3+1)",
    "a^2*b^2*c^2*d^2*e^2*f^2*g^2*h^2", "(1+a)^60*2", "-4611686018427387904*a^10*b^10*c^10*d^10*e^10*f^4*g^3*h^3",
};

int main(void) {
    static char longest[MOST_TEXT + 1];
    int failed = 0;

    nothing = depth(call_nothing);
    make_lists();
    for (size_t i = 0; i < sizeof formulas / sizeof *formulas; i++) with_text(formulas[i]);
    for (int deep = MOST_BRACKETS - 1; deep <= MOST_BRACKETS + 1; deep++) {
        with_brackets(deep, "", "", "a");
        with_brackets(deep, "-", "", "a");
        with_brackets(deep, "a+", "", "a*b^2");
        with_brackets(deep, "a-2*", "^1", "-b");
        with_brackets(deep, "-a*b+c*", "*d-e", "f^60");
        with_brackets(deep, "a*", "^2", "123456789*");
    }
    for (size_t i = 0; i + 1 < sizeof longest; i++) longest[i] = i % 2 == 0 ? 'a' : '+';
    with_text(longest);
    longest[MOST_TEXT - 1] = '\0';
    with_text(longest);
    longest[2 * MOST_NODES - 1] = '\0';
    with_text(longest);
    longest[MOST_NODES - 1] = '\0';
    with_text(longest);
    /* no shape, nodes that break their rules, and no room */
    table[0] = 9;
    for (table_length = 0; table_length <= NODE_NUMBERS; table_length++) done(SIMPLIFY);
    no_room = 1;
    for (int f = 0; f < FUNCTIONS; f++) done(f);
    no_room = 0;
    count = MOST_TERMS + 1;
    done(PACK);

    for (int f = 0; f < FUNCTIONS; f++) {
        printf("stack: %s: %lu bytes, and may take %lu\n", functions[f].name, (unsigned long)functions[f].most, (unsigned long)functions[f].limit);
        if (functions[f].most > functions[f].limit) {
            printf("stack: %s takes more than include/reeveboom.h says\n", functions[f].name);
            failed = 1;
        }
        if (((functions[f].wanted | DONE | REFUSES(ROOM)) & ~functions[f].met) != 0) {
            printf("stack: %s has not given all of its answers here\n", functions[f].name);
            failed = 1;
        }
    }
    return failed;
}
