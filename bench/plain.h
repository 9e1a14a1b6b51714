/* The operations of Reeveboom in plain C, without proofs, written for speed: what the benchmark measures the library against.
 *
 * Every function takes the parameters of its namesake in reeveboom.h, returns the same numbers and leaves the same in every lent area; so its rules are
 * written there.
 */
#ifndef PLAIN_H
#define PLAIN_H

#include <stddef.h>
#include <stdint.h>

#ifdef __cplusplus
extern "C" {
#endif

uint64_t quick_text(const uint8_t *text, size_t text_length,
                    int64_t *table, size_t table_length);

uint64_t quick_simplify(const int64_t *table, size_t table_length,
                        uint8_t *result, size_t result_length,
                        uint64_t *patterns, size_t patterns_length,
                        int64_t *coefficients, size_t coefficients_length);

uint64_t quick_unpack(const uint8_t *sum, size_t sum_length,
                      uint64_t *patterns, size_t patterns_length,
                      int64_t *coefficients, size_t coefficients_length);

uint64_t quick_pack(uint64_t count,
                    const uint64_t *patterns, size_t patterns_length,
                    const int64_t *coefficients, size_t coefficients_length,
                    uint8_t *result, size_t result_length);

uint64_t quick_slope(const uint8_t *sum, size_t sum_length,
                     uint64_t variable,
                     uint8_t *result, size_t result_length);

uint64_t quick_substitute(const uint8_t *sum, size_t sum_length,
                          const uint8_t *list, size_t list_length,
                          uint8_t *result, size_t result_length,
                          uint64_t *patterns, size_t patterns_length,
                          int64_t *coefficients, size_t coefficients_length);

uint64_t quick_write(const uint8_t *sum, size_t sum_length,
                     uint8_t *text, size_t text_length);

uint64_t quick_estimate(const uint8_t *sum, size_t sum_length,
                        const uint8_t *readings, size_t readings_length,
                        const uint8_t *tolerances, size_t tolerances_length,
                        uint8_t *answer, size_t answer_length);

#ifdef __cplusplus
}
#endif

#endif
