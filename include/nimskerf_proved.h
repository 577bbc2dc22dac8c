/* The proved functions under those of nimskerf.h, as crate capi_c exports them.
 *
 * Their contracts speak of lists as the language knows them: a pointer that is not NULL, also where the length is 0,
 * aligned for its entries, to that many entries; and a list that a function writes (no `const`) shares memory with no
 * other list of the call. Programs call the functions of nimskerf.h, which see to this.
 */
#ifndef NIMSKERF_PROVED_H
#define NIMSKERF_PROVED_H

#include "nimskerf.h"

#ifdef __cplusplus
extern "C" {
#endif

NimskerfAnswer nimskerf_proved_plan(
    const uint8_t *start, size_t start_len,
    const uint8_t *goal, size_t goal_len,
    size_t dup_max, size_t swap_max, size_t max_len, size_t beneath,
    size_t max_expansions, size_t states_without, size_t states_with,
    const uint8_t *kinds, size_t kinds_len,
    const uint32_t *prices, size_t prices_len,
    uint16_t *steps, size_t steps_len,
    uint64_t *nodes, size_t nodes_len,
    uint64_t *heads, size_t heads_len,
    uint64_t *list, size_t list_len);

NimskerfReplayed nimskerf_proved_replay(
    const uint8_t *start, size_t start_len,
    const uint16_t *steps, size_t steps_len,
    size_t dup_max, size_t swap_max, size_t max_len, size_t beneath,
    const uint8_t *kinds, size_t kinds_len,
    uint8_t *result, size_t result_len,
    uint8_t *popped, size_t popped_len);

size_t nimskerf_proved_pops(const uint16_t *steps, size_t steps_len);

NimskerfRewound nimskerf_proved_rewind(
    const uint8_t *end, size_t end_len,
    const uint16_t *steps, size_t steps_len,
    const uint8_t *popped, size_t popped_len,
    size_t dup_max, size_t swap_max, size_t max_len, size_t beneath,
    const uint8_t *kinds, size_t kinds_len,
    uint8_t *result, size_t result_len);

NimskerfMarked nimskerf_proved_mark(
    const uint8_t *start, size_t start_len,
    const uint8_t *goal, size_t goal_len,
    const uint16_t *steps, size_t steps_len,
    size_t dup_max, size_t swap_max, size_t max_len, size_t beneath,
    const uint8_t *kinds, size_t kinds_len,
    const uint32_t *prices, size_t prices_len,
    uint32_t ceiling_gas, uint32_t ceiling_bytes);

NimskerfPacked nimskerf_proved_pack(const uint8_t *ids, size_t ids_len);

NimskerfBuilt nimskerf_proved_star_swap(
    const uint8_t *start, size_t start_len,
    const uint8_t *goal, size_t goal_len,
    size_t swap_max,
    uint16_t *steps, size_t steps_len);

NimskerfBuilt nimskerf_proved_delete_tail(
    const uint8_t *start, size_t start_len,
    const uint8_t *goal, size_t goal_len,
    size_t swap_max,
    uint16_t *steps, size_t steps_len);

#ifdef __cplusplus
}
#endif

#endif
