#include <stddef.h>
#include <stdint.h>

/* Both have the arguments and duties of sidumza_parse. */
typedef void parse_fn(const uint16_t *table, size_t table_len, const uint8_t *input, size_t input_len, uint16_t *stack,
                      size_t stack_len, uint16_t *list, size_t list_len, uint16_t *second, size_t second_len,
                      uint64_t step_limit, uint64_t out[7]);

/* sidumza_parse of archives from before the second area. */
typedef void old_parse_fn(const uint16_t *table, size_t table_len, const uint8_t *input, size_t input_len, uint16_t *stack,
                          size_t stack_len, uint16_t *list, size_t list_len, uint64_t step_limit, uint64_t out[7]);

parse_fn plain_parse; /* the plain loop */
parse_fn tuned_parse; /* reductions apart by length, so that the branch predictor guesses it */
