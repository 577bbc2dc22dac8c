/* The functions of nimskerf.h. They see that lists can be read and written, and call the proved functions.
 *
 * Nothing is refused here. In place of a list that cannot be handed on stands one with a fault of the number that the
 * header names, and the proved function refuses it in its turn.
 */
#include "nimskerf.h"
#include "nimskerf_proved.h"

#include <stdbool.h>

/* In place of keys: no key. */
static const uint8_t NO_KEY[1] = {255};
/* In place of steps: the first is none, and there are enough to be too many. */
static const uint16_t NO_STEPS[NIMSKERF_MAX_STEPS + 1] = {NIMSKERF_NO_STEP};
/* Where empty lists begin. */
static const uint64_t NOWHERE[1] = {0};

static const NimskerfQuestion NO_QUESTION = {.start = NO_KEY, .start_len = 1};
static const NimskerfLists NO_LISTS = {.steps_len = 0};

/* A list of a call, and the bytes of its entries. One that is only read is handed on as `const`. */
typedef struct {
    void *at;
    size_t len;
    size_t bytes;
} List;

/* More bytes than there are count as all there are. */
static inline List list(const void *at, size_t len, size_t width)
{
    size_t most = SIZE_MAX / width;
    return (List){(void *)at, len, len < most ? len * width : SIZE_MAX};
}

/* The list if it can be handed on: an empty one wherever it is, `other` for one that is NULL or not aligned. */
static inline List present(const void *at, size_t len, size_t width, List other)
{
    if (len == 0)
        return list(NOWHERE, 0, width);
    if (at == NULL || (uintptr_t)at % width != 0)
        return other;
    return list(at, len, width);
}

static inline List present_or_empty(const void *at, size_t len, size_t width)
{
    return present(at, len, width, list(NOWHERE, 0, width));
}

static inline List present_keys(const uint8_t *at, size_t len)
{
    return present(at, len, 1, list(NO_KEY, 1, 1));
}

static inline List present_steps(const uint16_t *at, size_t len)
{
    size_t most = NIMSKERF_MAX_STEPS + 1;
    return present(at, len, 2, list(NO_STEPS, len < most ? len : most, 2));
}

/* Whether one begins among the other's bytes. A difference below zero is greater than any number of bytes. */
static inline bool overlap(List a, List b)
{
    uintptr_t x = (uintptr_t)a.at, y = (uintptr_t)b.at;
    return y - x < a.bytes || x - y < b.bytes;
}

/* Empties each of the first `written` lists that overlaps another list of the call. Their bytes stay as they came, so
 * that a later comparison still sees them. */
static inline void part(List *lists, size_t written, size_t count)
{
    for (size_t i = 0; i < written; i++)
        for (size_t j = i + 1; j < count; j++)
            if (overlap(lists[i], lists[j])) {
                lists[i].len = 0;
                if (j < written)
                    lists[j].len = 0;
            }
}

static inline const NimskerfQuestion *asked(const NimskerfQuestion *question)
{
    return question != NULL ? question : &NO_QUESTION;
}

NimskerfAnswer nimskerf_plan(const NimskerfQuestion *question, const NimskerfLists *lists)
{
    enum { STEPS, NODES, HEADS, OPEN, WRITTEN, START = WRITTEN, GOAL, KINDS, PRICES, COUNT };
    const NimskerfQuestion *q = asked(question);
    const NimskerfLists *w = lists != NULL ? lists : &NO_LISTS;
    List l[COUNT] = {
        [STEPS] = present_or_empty(w->steps, w->steps_len, 2),
        [NODES] = present_or_empty(w->nodes, w->nodes_len, 8),
        [HEADS] = present_or_empty(w->heads, w->heads_len, 8),
        [OPEN] = present_or_empty(w->open, w->open_len, 8),
        [START] = present_keys(q->start, q->start_len),
        [GOAL] = present_keys(q->goal, q->goal_len),
        [KINDS] = present_or_empty(q->kinds, q->kinds_len, 1),
        [PRICES] = present_or_empty(q->prices, q->prices_len, 4),
    };
    part(l, WRITTEN, COUNT);
    return nimskerf_proved_plan(
        l[START].at, l[START].len,
        l[GOAL].at, l[GOAL].len,
        q->dup_max, q->swap_max, q->max_len, q->beneath,
        q->max_expansions, q->states_without, q->states_with,
        l[KINDS].at, l[KINDS].len,
        l[PRICES].at, l[PRICES].len,
        l[STEPS].at, l[STEPS].len,
        l[NODES].at, l[NODES].len,
        l[HEADS].at, l[HEADS].len,
        l[OPEN].at, l[OPEN].len);
}

NimskerfReplayed nimskerf_replay(
    const NimskerfQuestion *question,
    const uint16_t *steps, size_t steps_len,
    uint8_t *result, size_t result_len,
    uint8_t *popped, size_t popped_len)
{
    enum { RESULT, POPPED, WRITTEN, START = WRITTEN, STEPS, KINDS, COUNT };
    const NimskerfQuestion *q = asked(question);
    List l[COUNT] = {
        [RESULT] = present_or_empty(result, result_len, 1),
        [POPPED] = present_or_empty(popped, popped_len, 1),
        [START] = present_keys(q->start, q->start_len),
        [STEPS] = present_steps(steps, steps_len),
        [KINDS] = present_or_empty(q->kinds, q->kinds_len, 1),
    };
    part(l, WRITTEN, COUNT);
    return nimskerf_proved_replay(
        l[START].at, l[START].len,
        l[STEPS].at, l[STEPS].len,
        q->dup_max, q->swap_max, q->max_len, q->beneath,
        l[KINDS].at, l[KINDS].len,
        l[RESULT].at, l[RESULT].len,
        l[POPPED].at, l[POPPED].len);
}

size_t nimskerf_pops(const uint16_t *steps, size_t steps_len)
{
    List answer = present_or_empty(steps, steps_len, 2);
    return nimskerf_proved_pops(answer.at, answer.len);
}

NimskerfRewound nimskerf_rewind(
    const NimskerfQuestion *question,
    const uint8_t *end, size_t end_len,
    const uint16_t *steps, size_t steps_len,
    const uint8_t *popped, size_t popped_len,
    uint8_t *result, size_t result_len)
{
    enum { RESULT, WRITTEN, END = WRITTEN, STEPS, POPPED, KINDS, COUNT };
    const NimskerfQuestion *q = asked(question);
    List l[COUNT] = {
        [RESULT] = present_or_empty(result, result_len, 1),
        [END] = present_keys(end, end_len),
        [STEPS] = present_steps(steps, steps_len),
        [POPPED] = present_keys(popped, popped_len),
        [KINDS] = present_or_empty(q->kinds, q->kinds_len, 1),
    };
    part(l, WRITTEN, COUNT);
    return nimskerf_proved_rewind(
        l[END].at, l[END].len,
        l[STEPS].at, l[STEPS].len,
        l[POPPED].at, l[POPPED].len,
        q->dup_max, q->swap_max, q->max_len, q->beneath,
        l[KINDS].at, l[KINDS].len,
        l[RESULT].at, l[RESULT].len);
}

NimskerfMarked nimskerf_mark(
    const NimskerfQuestion *question,
    const uint16_t *steps, size_t steps_len,
    NimskerfCost ceiling)
{
    const NimskerfQuestion *q = asked(question);
    List start = present_keys(q->start, q->start_len);
    List goal = present_keys(q->goal, q->goal_len);
    List answer = present_steps(steps, steps_len);
    List kinds = present_or_empty(q->kinds, q->kinds_len, 1);
    List prices = present_or_empty(q->prices, q->prices_len, 4);
    return nimskerf_proved_mark(
        start.at, start.len,
        goal.at, goal.len,
        answer.at, answer.len,
        q->dup_max, q->swap_max, q->max_len, q->beneath,
        kinds.at, kinds.len,
        prices.at, prices.len,
        ceiling.gas, ceiling.bytes);
}

NimskerfPacked nimskerf_pack(const uint8_t *ids, size_t ids_len)
{
    List window = present_keys(ids, ids_len);
    return nimskerf_proved_pack(window.at, window.len);
}

/* What both builders take. */
typedef NimskerfBuilt Builder(
    const uint8_t *start, size_t start_len,
    const uint8_t *goal, size_t goal_len,
    size_t swap_max,
    uint16_t *steps, size_t steps_len);

static inline NimskerfBuilt build(
    Builder *builder, const NimskerfQuestion *question, uint16_t *steps, size_t steps_len)
{
    enum { STEPS, WRITTEN, START = WRITTEN, GOAL, COUNT };
    const NimskerfQuestion *q = asked(question);
    List l[COUNT] = {
        [STEPS] = present_or_empty(steps, steps_len, 2),
        [START] = present_keys(q->start, q->start_len),
        [GOAL] = present_keys(q->goal, q->goal_len),
    };
    part(l, WRITTEN, COUNT);
    return builder(
        l[START].at, l[START].len,
        l[GOAL].at, l[GOAL].len,
        q->swap_max,
        l[STEPS].at, l[STEPS].len);
}

NimskerfBuilt nimskerf_star_swap(const NimskerfQuestion *question, uint16_t *steps, size_t steps_len)
{
    return build(nimskerf_proved_star_swap, question, steps, steps_len);
}

NimskerfBuilt nimskerf_delete_tail(const NimskerfQuestion *question, uint16_t *steps, size_t steps_len)
{
    return build(nimskerf_proved_delete_tail, question, steps, steps_len);
}
