/* Another plain program of the same rules, which the benchmark takes in where one is given (bench/run OTHER.c).
 *
 * It has to have the functions declared here. They take the lent areas of their namesakes in reeveboom.h, some in another order, and a refusal comes back
 * as refusal x 65536 + place from every one of them. Below, each is brought to the order and the numbers of reeveboom.h. That is inline, so it costs nothing
 * when it is timed. An operation that is not declared here is not asked of it.
 */
#ifndef OTHER_H
#define OTHER_H

#include <stddef.h>
#include <stdint.h>

uint64_t plain_read_text(const uint8_t *text, size_t text_length, int64_t *table, size_t table_length);
uint64_t plain_simplify(const int64_t *table, size_t table_length, uint64_t *patterns, size_t patterns_length,
                        int64_t *coefficients, size_t coefficients_length, uint8_t *result, size_t result_length);
uint64_t plain_unpack(const uint8_t *sum, size_t sum_length, uint64_t *patterns, size_t patterns_length,
                      int64_t *coefficients, size_t coefficients_length);
uint64_t plain_pack(const uint64_t *patterns, size_t patterns_length, const int64_t *coefficients, size_t coefficients_length, uint64_t count,
                    uint8_t *result, size_t result_length);
uint64_t plain_slope(const uint8_t *sum, size_t sum_length, uint64_t variable, uint8_t *result, size_t result_length);
uint64_t plain_substitute(const uint8_t *sum, size_t sum_length, const uint8_t *list, size_t list_length, uint64_t *patterns, size_t patterns_length,
                          int64_t *coefficients, size_t coefficients_length, uint8_t *result, size_t result_length);
uint64_t plain_estimate(const uint8_t *sum, size_t sum_length, const uint8_t *readings, size_t readings_length,
                        const uint8_t *tolerances, size_t tolerances_length, uint8_t *answer, size_t answer_length);

/* Lengths and counts are below 65536, so the refusal goes up by sixteen bits and nothing else changes. */
static inline uint64_t other_number(uint64_t number) { return (number >> 16 << 32) | (number & 65535); }

static inline uint64_t other_text(const uint8_t *text, size_t text_length, int64_t *table, size_t table_length) {
    return other_number(plain_read_text(text, text_length, table, table_length));
}

static inline uint64_t other_simplify(const int64_t *table, size_t table_length, uint8_t *result, size_t result_length,
                                      uint64_t *patterns, size_t patterns_length, int64_t *coefficients, size_t coefficients_length) {
    return other_number(plain_simplify(table, table_length, patterns, patterns_length, coefficients, coefficients_length, result, result_length));
}

static inline uint64_t other_unpack(const uint8_t *sum, size_t sum_length, uint64_t *patterns, size_t patterns_length,
                                    int64_t *coefficients, size_t coefficients_length) {
    return other_number(plain_unpack(sum, sum_length, patterns, patterns_length, coefficients, coefficients_length));
}

static inline uint64_t other_pack(uint64_t count, const uint64_t *patterns, size_t patterns_length, const int64_t *coefficients, size_t coefficients_length,
                                  uint8_t *result, size_t result_length) {
    return other_number(plain_pack(patterns, patterns_length, coefficients, coefficients_length, count, result, result_length));
}

static inline uint64_t other_slope(const uint8_t *sum, size_t sum_length, uint64_t variable, uint8_t *result, size_t result_length) {
    return other_number(plain_slope(sum, sum_length, variable, result, result_length));
}

static inline uint64_t other_substitute(const uint8_t *sum, size_t sum_length, const uint8_t *list, size_t list_length, uint8_t *result, size_t result_length,
                                        uint64_t *patterns, size_t patterns_length, int64_t *coefficients, size_t coefficients_length) {
    return other_number(plain_substitute(sum, sum_length, list, list_length, patterns, patterns_length, coefficients, coefficients_length, result, result_length));
}

static inline uint64_t other_estimate(const uint8_t *sum, size_t sum_length, const uint8_t *readings, size_t readings_length,
                                      const uint8_t *tolerances, size_t tolerances_length, uint8_t *answer, size_t answer_length) {
    return plain_estimate(sum, sum_length, readings, readings_length, tolerances, tolerances_length, answer, answer_length);
}

#endif
