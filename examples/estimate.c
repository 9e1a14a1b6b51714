/* From a typed formula to an estimate and its margin, with every answer looked at on the way.
 *
 *   estimate                              (a+b)^2-b^2, with a = 10 within 1 and b = 3 within 2
 *   estimate FORMULA LETTER=READING~TOLERANCE ..
 *                                         another formula, and readings for its letters; one that is not named is 0, and without a tolerance it is exact
 *
 * The four steps of a host: the text becomes a table, the table a packed sum, and the sum with readings and tolerances an answer, whose bytes are two numbers. A
 * router does the first two once, keeps the packed sum, and does the third whenever it has new readings.
 */
#include <inttypes.h>
#include <stdio.h>
#include <stdlib.h>
#include <string.h>

#include "reeveboom.h"

/* ---- The library's areas. They are 132 KiB together, too much for many a stack. */

static int64_t table[REEVEBOOM_TABLE_PLACES];
static uint64_t patterns[REEVEBOOM_WORK_PLACES];
static int64_t coefficients[REEVEBOOM_WORK_PLACES];
static uint8_t sum[REEVEBOOM_RESULT_BYTES], readings[REEVEBOOM_READING_BYTES], tolerances[REEVEBOOM_READING_BYTES], answer[REEVEBOOM_ANSWER_BYTES];

/* What a step has answered, if it is done. If not, that is told, and the program ends. */
static size_t done(const char *step, uint64_t number) {
    unsigned refusal = reeveboom_refusal(number);
    if (refusal != 0) {
        printf("%s: refused with %s at %" PRIu32 ": %s\n", step, reeveboom_refusal_name(refusal), reeveboom_place(number), reeveboom_refusal_sentence(refusal));
        exit(1);
    }
    return (size_t)number;
}

/* ---- Numbers in bytes, low byte first. */

/* The number of variable v: 0 for a, up to 7 for h. */
static void put(uint8_t *bytes, int v, int16_t n) {
    uint16_t bits = (uint16_t)n;
    bytes[2 * v] = (uint8_t)(bits & 255u);
    bytes[2 * v + 1] = (uint8_t)(bits >> 8);
}

/* A number of the answer. */
static int64_t number_at(const uint8_t *bytes) {
    uint64_t bits = 0;
    int64_t n;
    for (int k = 7; k >= 0; k--) bits = bits << 8 | bytes[k];
    memcpy(&n, &bits, sizeof n);
    return n;
}

/* ---- The words of the command. */

static void bad_word(const char *word) {
    fprintf(stderr, "estimate: %s is no LETTER=READING~TOLERANCE, with a letter a to h and numbers from -32768 to 32767\n", word);
    exit(2);
}

/* A number of two bytes, and the rest of its word. */
static int16_t read_number(const char *word, char **rest) {
    const char *from = *rest;
    long n = strtol(from, rest, 10);
    if (*rest == from || n < INT16_MIN || n > INT16_MAX) bad_word(word);
    return (int16_t)n;
}

static void read_reading(const char *word) {
    int v = word[0] - 'a';
    char *rest;
    if (v < 0 || v >= REEVEBOOM_VARIABLES || word[1] != '=') bad_word(word);
    rest = (char *)word + 2;
    put(readings, v, read_number(word, &rest));
    if (*rest == '~') {
        rest++;
        put(tolerances, v, read_number(word, &rest));
    }
    if (*rest != '\0') bad_word(word);
}

int main(int count, char **words) {
    const char *text = count > 1 ? words[1] : "(a+b)^2-b^2";
    size_t nodes, length;
    int64_t estimate, margin;

    if (count > 1) {
        for (int i = 2; i < count; i++) read_reading(words[i]);
    } else {
        read_reading("a=10~1");
        read_reading("b=3~2");
    }

    nodes = done("text", reeveboom_text((const uint8_t *)text, strlen(text), table, REEVEBOOM_TABLE_PLACES));

    /* three numbers for each node, and not the whole area */
    length = done("simplify", reeveboom_simplify(table, 3 * nodes, sum, sizeof sum, patterns, REEVEBOOM_WORK_PLACES, coefficients, REEVEBOOM_WORK_PLACES));

    done("estimate", reeveboom_estimate(sum, length, readings, sizeof readings, tolerances, sizeof tolerances, answer, sizeof answer));

    /* estimate and margin are at most 2^62 together, so nothing runs over here */
    estimate = number_at(answer);
    margin = number_at(answer + 8);
    printf("estimate %" PRId64 ", margin %" PRId64 ": the true value is from %" PRId64 " to %" PRId64 "\n", estimate, margin, estimate - margin, estimate + margin);
    return 0;
}
