/* Calls every function of both headers with distinct values in every place and prints what comes back, a line each;
 * then the layout of every struct, then every constant, then the refusals that popped keys, stepping back and items
 * beneath brought. C and C++ must print tests/calls.txt, and so must Rust (rust/tests/declarations.rs) up to the
 * constants. */
#include "nimskerf.h"
#include "nimskerf_proved.h"

#include <inttypes.h>
#include <stdio.h>
#include <string.h>

enum { STATES = 471, ENTRIES = STATES + NIMSKERF_SPARE_ENTRIES, EXPANSIONS = 480, ROOM = ENTRIES * 8 + 8 };

/* Each list has room beyond its length, which no call may touch. */
static uint16_t steps[ROOM];
static uint64_t nodes[ROOM], heads[ROOM], open_list[ROOM];
static uint8_t result[64], popped[64], kinds[64];
static uint32_t prices[NIMSKERF_PRICES_LEN];

static const uint8_t START[64] = {6, 6, 3, 0, 2, 6, 2};
static const uint8_t GOAL[64] = {3, 5, 2};
static const uint8_t FIRST[64] = {0, 1, 2, 3, 4};
static const uint8_t TURNED[64] = {4, 2, 0, 1, 3};
static const uint8_t MENDED[64] = {0, 33, 2, 3, 4};

static void fill(void)
{
    memset(steps, 0xab, sizeof steps);
    memset(nodes, 0xab, sizeof nodes);
    memset(heads, 0xab, sizeof heads);
    memset(open_list, 0xab, sizeof open_list);
    memset(result, 0xab, sizeof result);
    memset(popped, 0xab, sizeof popped);
}

/* How many bytes at the end of a list are as `fill` left them. */
static size_t untouched(const void *list, size_t bytes)
{
    const unsigned char *at = (const unsigned char *)list;
    size_t count = 0;
    while (count < bytes && at[bytes - 1 - count] == 0xab)
        count++;
    return count;
}

static int kept(const void *list, size_t entry, size_t room, size_t used)
{
    return untouched(list, room * entry) >= (room - used) * entry;
}

static NimskerfQuestion question_of(const uint8_t *start, size_t start_len, const uint8_t *goal, size_t goal_len)
{
    NimskerfQuestion question = nimskerf_question();
    question.start = start;
    question.start_len = start_len;
    question.goal = goal;
    question.goal_len = goal_len;
    return question;
}

static NimskerfLists lists_of(void)
{
    NimskerfLists lists;
    lists.steps = steps;
    lists.steps_len = EXPANSIONS;
    lists.nodes = nodes;
    lists.nodes_len = ENTRIES * 8;
    lists.heads = heads;
    lists.heads_len = ENTRIES;
    lists.open = open_list;
    lists.open_len = ENTRIES * 4;
    return lists;
}

static void print_steps(size_t count)
{
    printf(" steps");
    for (size_t i = 0; i < count; i++)
        printf(" %u", (unsigned)steps[i]);
    printf(" then %s\n", kept(steps, 2, ROOM, count) ? "untouched" : "TOUCHED");
}

static void print_answer(const char *name, const char *through, NimskerfAnswer a)
{
    printf(
        "plan, %s, %s: refusal %" PRIu32 " found %" PRIu32 " step_count %zu plan %" PRIu32 "/%" PRIu32
        " ceiling %" PRIu32 "/%" PRIu32 " origin %" PRIu32 " ending %" PRIu32 " expansions %zu highest %zu lists %s",
        name, through, a.refusal, a.found, a.step_count, a.plan.gas, a.plan.bytes, a.ceiling.gas, a.ceiling.bytes,
        a.origin, a.ending, a.expansions, a.highest,
        kept(nodes, 8, ROOM, ENTRIES * 8) && kept(heads, 8, ROOM, ENTRIES) && kept(open_list, 8, ROOM, ENTRIES * 4)
            ? "kept"
            : "OVERRUN");
    print_steps(a.step_count);
}

static void plan(const char *name, const NimskerfQuestion *q)
{
    NimskerfLists l = lists_of();
    fill();
    print_answer(name, "checked", nimskerf_plan(q, &l));
    fill();
    print_answer(
        name, "proved",
        nimskerf_proved_plan(
            q->start, q->start_len, q->goal, q->goal_len, q->dup_max, q->swap_max, q->max_len, q->beneath,
            q->max_expansions, q->states_without, q->states_with, q->kinds, q->kinds_len, q->prices, q->prices_len,
            l.steps, l.steps_len, l.nodes, l.nodes_len, l.heads, l.heads_len, l.open, l.open_len));
}

static void plans(void)
{
    NimskerfQuestion q = question_of(START, 7, GOAL, 3);
    q.kinds = kinds;
    q.prices = prices;
    q.max_expansions = EXPANSIONS;
    q.states_without = STATES;
    q.states_with = 40;
    plan("search", &q);
    q.max_expansions = 300;
    plan("expansions", &q);
    q.max_expansions = EXPANSIONS;
    q.states_without = 100;
    plan("states", &q);

    q = question_of(FIRST, 3, TURNED + 2, 1);
    q.max_expansions = 0;
    q.states_without = 60;
    q.states_with = 70;
    plan("builder", &q);
    q.dup_max = 17;
    plan("reach", &q);
    q.dup_max = 16;
    q.max_len = 22;
    plan("window", &q);

    q = question_of(FIRST, 5, TURNED, 5);
    q.max_expansions = 90;
    q.states_without = 400;
    q.states_with = 12;
    plan("plan in hand", &q);
    q.dup_max = 2;
    q.swap_max = 5;
    q.max_len = 6;
    plan("narrow", &q);

    q = question_of(FIRST, 5, MENDED, 5);
    q.max_expansions = 90;
    q.states_without = 400;
    q.states_with = 300;
    plan("climbing", &q);
    q.beneath = 1018;
    plan("climbing to the stack's end", &q);
    q.beneath = 1019;
    plan("no room to climb", &q);
    q.beneath = 1020;
    plan("stack", &q);
    q.beneath = 0;
    q.goal = FIRST;
    plan("equal", &q);
}

static void print_keys(const char *list, const uint8_t *keys, size_t count)
{
    printf(" %s", list);
    for (size_t i = 0; i < count; i++)
        printf(" %u", (unsigned)keys[i]);
    printf(" then %s", kept(keys, 1, 64, count) ? "untouched" : "TOUCHED");
}

static void print_replayed(const char *name, const char *through, NimskerfReplayed r, size_t pops)
{
    printf("replay, %s, %s: refusal %" PRIu32 " index %zu length %zu highest %zu", name, through, r.refusal, r.index,
           r.length, r.highest);
    print_keys("result", result, r.length);
    print_keys("popped", popped, r.refusal == 0 ? pops : 0);
    printf("\n");
}

static void replay_into(
    const char *name, const NimskerfQuestion *q, const uint16_t *codes, size_t count, size_t result_len,
    size_t popped_len)
{
    fill();
    NimskerfReplayed r = nimskerf_replay(q, codes, count, result, result_len, popped, popped_len);
    print_replayed(name, "checked", r, nimskerf_pops(codes, count));
    fill();
    r = nimskerf_proved_replay(
        q->start, q->start_len, codes, count, q->dup_max, q->swap_max, q->max_len, q->beneath, q->kinds, q->kinds_len,
        result, result_len, popped, popped_len);
    print_replayed(name, "proved", r, nimskerf_proved_pops(codes, count));
}

static void replay(const char *name, const NimskerfQuestion *q, const uint16_t *codes, size_t count)
{
    replay_into(name, q, codes, count, 21, count + 1);
}

/* What a stepping back takes beside the question, and the length of its result list. */
typedef struct {
    const uint8_t *end;
    size_t end_len;
    const uint16_t *codes;
    size_t count;
    const uint8_t *popped;
    size_t popped_len;
    size_t result_len;
} Back;

static void print_rewound(const char *name, const char *through, NimskerfRewound r)
{
    printf("rewind, %s, %s: refusal %" PRIu32 " length %zu", name, through, r.refusal, r.length);
    print_keys("result", result, r.length);
    printf("\n");
}

static void rewind_from(const char *name, const NimskerfQuestion *q, const Back *b)
{
    fill();
    print_rewound(
        name, "checked",
        nimskerf_rewind(q, b->end, b->end_len, b->codes, b->count, b->popped, b->popped_len, result, b->result_len));
    fill();
    print_rewound(
        name, "proved",
        nimskerf_proved_rewind(
            b->end, b->end_len, b->codes, b->count, b->popped, b->popped_len, q->dup_max, q->swap_max, q->max_len,
            q->beneath, q->kinds, q->kinds_len, result, b->result_len));
}

static void print_marked(const char *name, const char *through, NimskerfMarked m)
{
    printf("mark, %s, %s: refusal %" PRIu32 " index %zu mark %" PRIu32 " highest %zu\n", name, through, m.refusal,
           m.index, m.mark, m.highest);
}

static void mark(const char *name, const NimskerfQuestion *q, const uint16_t *codes, size_t count, NimskerfCost ceiling)
{
    print_marked(name, "checked", nimskerf_mark(q, codes, count, ceiling));
    print_marked(
        name, "proved",
        nimskerf_proved_mark(
            q->start, q->start_len, q->goal, q->goal_len, codes, count, q->dup_max, q->swap_max, q->max_len, q->beneath,
            q->kinds, q->kinds_len, q->prices, q->prices_len, ceiling.gas, ceiling.bytes));
}

static void replays_and_marks(void)
{
    static const uint8_t end[64] = {32, 1, 0, 1};
    /* dup 1, push 32, dup 2, pop, swap 3, swap 3: 16 gas, 6 bytes. */
    static const uint16_t codes[8] = {257, 800, 258, 0, 515, 515, 1280};
    NimskerfQuestion q = question_of(FIRST, 2, end, 4);
    NimskerfCost ceiling = {16, 7};
    replay("allowed", &q, codes, 6);
    replay("not allowed", &q, codes, 7);
    mark("pass", &q, codes, 6, ceiling);
    ceiling.bytes = 5;
    mark("too dear", &q, codes, 6, ceiling);
    q.goal_len = 3;
    mark("elsewhere", &q, codes, 6, ceiling);
    mark("not allowed", &q, codes, 7, ceiling);
    q.dup_max = 2;
    replay("dup_max", &q, codes, 6);
    mark("dup_max", &q, codes, 6, ceiling);
    q.dup_max = 3;
    q.swap_max = 4;
    q.max_len = 5;
    replay("narrow", &q, codes, 6);
    mark("narrow", &q, codes, 6, ceiling);
    q.max_len = 6;
    q.beneath = 1019;
    replay("beneath", &q, codes, 6);
    mark("beneath", &q, codes, 6, ceiling);
    q.beneath = 1020;
    replay("full", &q, codes, 6);
    mark("full", &q, codes, 6, ceiling);
    q.beneath = 1023;
    replay("stack", &q, codes, 6);
    mark("stack", &q, codes, 6, ceiling);
}

/* From 0 1 2 by swap 2, pop, dup 1, pop, pop, load 5 to 5 0. */
static const uint16_t WALK[8] = {514, 0, 257, 0, 0, 1029, 800};
static const uint8_t WALK_END[64] = {5, 0, 32}, WALK_POPPED[64] = {2, 0, 1, 3};

static void steps_back(void)
{
    NimskerfQuestion q = question_of(FIRST, 3, GOAL, 3);
    Back b = {WALK_END, 2, WALK, 6, WALK_POPPED, 3, 22};
    replay("walk", &q, WALK, 6);
    printf("pops: %zu %zu\n", nimskerf_pops(WALK, 4), nimskerf_proved_pops(WALK, 4));
    /* Stepping back looks at neither window of the question. */
    q.start = q.goal = NULL;
    q.start_len = q.goal_len = 99;
    rewind_from("walk", &q, &b);
    b.popped_len = 4;
    rewind_from("a key too many", &q, &b);
    b.popped_len = 3;
    q.dup_max = 1;
    rewind_from("dup_max", &q, &b);
    q.dup_max = 2;
    q.swap_max = q.max_len = 3;
    rewind_from("narrow", &q, &b);
    b.result_len = 20;
    rewind_from("short", &q, &b);
    b.result_len = 22;
    q.max_len = 4;
    q.beneath = 1021;
    rewind_from("beneath", &q, &b);
    q.beneath = 1022;
    rewind_from("full", &q, &b);
    q.beneath = 1023;
    rewind_from("stack", &q, &b);
}

static void print_packed(const char *through, NimskerfPacked p)
{
    printf("pack, %s: refusal %" PRIu32 " lo %" PRIu64 " hi %" PRIu64 "\n", through, p.refusal, p.lo, p.hi);
}

static void packs(void)
{
    static const uint8_t window[64] = {1, 2, 3, 4, 5, 6, 7, 8, 9, 10, 11, 12, 13, 14};
    print_packed("checked", nimskerf_pack(window, 13));
    print_packed("proved", nimskerf_proved_pack(window, 13));
}

static void print_built(const char *name, NimskerfBuilt b)
{
    printf("%s: refusal %" PRIu32 " count %zu", name, b.refusal, b.count);
    print_steps(b.count);
}

static void builders(void)
{
    NimskerfQuestion q = question_of(FIRST, 5, TURNED, 5);
    q.swap_max = 6;
    fill();
    print_built("star_swap, checked", nimskerf_star_swap(&q, steps, 128));
    fill();
    print_built("star_swap, proved", nimskerf_proved_star_swap(FIRST, 5, TURNED, 5, 6, steps, 128));
    q.goal = FIRST;
    q.goal_len = 3;
    fill();
    print_built("delete_tail, checked", nimskerf_delete_tail(&q, steps, 128));
    fill();
    print_built("delete_tail, proved", nimskerf_proved_delete_tail(FIRST, 5, FIRST, 3, 6, steps, 128));
}

static void desk(void)
{
    NimskerfQuestion q = nimskerf_question();
    printf(
        "question: start %zu goal %zu dup_max %zu swap_max %zu max_len %zu max_expansions %zu states_without %zu "
        "states_with %zu kinds %zu prices %zu beneath %zu\n",
        q.start_len, q.goal_len, q.dup_max, q.swap_max, q.max_len, q.max_expansions, q.states_without, q.states_with,
        q.kinds_len, q.prices_len, q.beneath);
    printf("question, kinds:");
    for (size_t i = 0; i < q.kinds_len; i++)
        printf(" %u", (unsigned)q.kinds[i]);
    printf("\nquestion, prices:");
    for (size_t i = 0; i + 1 < q.prices_len; i += 2)
        printf(" %" PRIu32 "/%" PRIu32, q.prices[i], q.prices[i + 1]);
    printf("\n");
}

static void codes_and_texts(void)
{
    printf(
        "step: %u %u %u %u\n", (unsigned)nimskerf_step(2, 17), (unsigned)nimskerf_step(4, 63),
        (unsigned)nimskerf_step(256, 1), (unsigned)nimskerf_step(1, 256));
    printf("step_kind: %" PRIu32 " step_operand: %" PRIu32 "\n", nimskerf_step_kind(1085), nimskerf_step_operand(1085));
    for (unsigned code = 0; code <= 1280; code += 256)
        printf("step_word %u: %s\n", code, nimskerf_step_word((uint16_t)code));
    printf("step_word 1: %s\n", nimskerf_step_word(1));
    for (uint32_t n = 0; n <= 13; n++)
        printf("refusal_text %" PRIu32 ": %s\n", n, nimskerf_refusal_text(n));
    for (uint32_t n = 0; n <= 4; n++)
        printf("origin_text %" PRIu32 ": %s\n", n, nimskerf_origin_text(n));
    for (uint32_t n = 0; n <= 6; n++)
        printf("ending_text %" PRIu32 ": %s\n", n, nimskerf_ending_text(n));
    for (uint32_t n = 0; n <= 3; n++)
        printf("mark_text %" PRIu32 ": %s\n", n, nimskerf_mark_text(n));
    printf("version: %s\n", nimskerf_version());
}

#define SIZE(type) printf(#type ": %zu\n", sizeof(type))
#define PLACE(type, field) printf(#type "." #field ": %zu\n", offsetof(type, field))

static void layouts(void)
{
    SIZE(NimskerfCost);
    PLACE(NimskerfCost, gas);
    PLACE(NimskerfCost, bytes);
    SIZE(NimskerfQuestion);
    PLACE(NimskerfQuestion, start);
    PLACE(NimskerfQuestion, start_len);
    PLACE(NimskerfQuestion, goal);
    PLACE(NimskerfQuestion, goal_len);
    PLACE(NimskerfQuestion, dup_max);
    PLACE(NimskerfQuestion, swap_max);
    PLACE(NimskerfQuestion, max_len);
    PLACE(NimskerfQuestion, max_expansions);
    PLACE(NimskerfQuestion, states_without);
    PLACE(NimskerfQuestion, states_with);
    PLACE(NimskerfQuestion, kinds);
    PLACE(NimskerfQuestion, kinds_len);
    PLACE(NimskerfQuestion, prices);
    PLACE(NimskerfQuestion, prices_len);
    PLACE(NimskerfQuestion, beneath);
    SIZE(NimskerfLists);
    PLACE(NimskerfLists, steps);
    PLACE(NimskerfLists, steps_len);
    PLACE(NimskerfLists, nodes);
    PLACE(NimskerfLists, nodes_len);
    PLACE(NimskerfLists, heads);
    PLACE(NimskerfLists, heads_len);
    PLACE(NimskerfLists, open);
    PLACE(NimskerfLists, open_len);
    SIZE(NimskerfAnswer);
    PLACE(NimskerfAnswer, refusal);
    PLACE(NimskerfAnswer, found);
    PLACE(NimskerfAnswer, step_count);
    PLACE(NimskerfAnswer, plan.gas);
    PLACE(NimskerfAnswer, plan.bytes);
    PLACE(NimskerfAnswer, ceiling.gas);
    PLACE(NimskerfAnswer, ceiling.bytes);
    PLACE(NimskerfAnswer, origin);
    PLACE(NimskerfAnswer, ending);
    PLACE(NimskerfAnswer, expansions);
    PLACE(NimskerfAnswer, highest);
    SIZE(NimskerfReplayed);
    PLACE(NimskerfReplayed, refusal);
    PLACE(NimskerfReplayed, index);
    PLACE(NimskerfReplayed, length);
    PLACE(NimskerfReplayed, highest);
    SIZE(NimskerfRewound);
    PLACE(NimskerfRewound, refusal);
    PLACE(NimskerfRewound, length);
    SIZE(NimskerfMarked);
    PLACE(NimskerfMarked, refusal);
    PLACE(NimskerfMarked, index);
    PLACE(NimskerfMarked, mark);
    PLACE(NimskerfMarked, highest);
    SIZE(NimskerfPacked);
    PLACE(NimskerfPacked, refusal);
    PLACE(NimskerfPacked, lo);
    PLACE(NimskerfPacked, hi);
    SIZE(NimskerfBuilt);
    PLACE(NimskerfBuilt, refusal);
    PLACE(NimskerfBuilt, count);
}

#define CONSTANT(name) printf(#name ": %d\n", (int)(name))

static void constants(void)
{
    CONSTANT(NIMSKERF_DUP_MAX);
    CONSTANT(NIMSKERF_SWAP_MAX);
    CONSTANT(NIMSKERF_MAX_LEN);
    CONSTANT(NIMSKERF_STACK_LEN);
    CONSTANT(NIMSKERF_MAX_ALLOWANCE);
    CONSTANT(NIMSKERF_MAX_STEPS);
    CONSTANT(NIMSKERF_MAX_PRICE);
    CONSTANT(NIMSKERF_KEYS);
    CONSTANT(NIMSKERF_KINDS_LEN);
    CONSTANT(NIMSKERF_PRICES_LEN);
    CONSTANT(NIMSKERF_DEFAULT_EXPANSIONS);
    CONSTANT(NIMSKERF_DEFAULT_STATES);
    CONSTANT(NIMSKERF_RESULT_LEN);
    CONSTANT(NIMSKERF_MIN_STEPS_LEN);
    CONSTANT(NIMSKERF_STEPS_LEN(1000));
    CONSTANT(NIMSKERF_NODES_LEN(1000));
    CONSTANT(NIMSKERF_HEADS_LEN(1000));
    CONSTANT(NIMSKERF_OPEN_LEN(1000));
    CONSTANT(NIMSKERF_NODE_NUMBERS);
    CONSTANT(NIMSKERF_HEAD_NUMBERS);
    CONSTANT(NIMSKERF_OPEN_NUMBERS);
    CONSTANT(NIMSKERF_SPARE_ENTRIES);
    CONSTANT(NIMSKERF_KIND_VALUE);
    CONSTANT(NIMSKERF_KIND_IMMEDIATE);
    CONSTANT(NIMSKERF_KIND_ZERO);
    CONSTANT(NIMSKERF_STEP_POP);
    CONSTANT(NIMSKERF_STEP_DUP);
    CONSTANT(NIMSKERF_STEP_SWAP);
    CONSTANT(NIMSKERF_STEP_PUSH);
    CONSTANT(NIMSKERF_STEP_LOAD);
    CONSTANT(NIMSKERF_NO_STEP);
    CONSTANT(NIMSKERF_REFUSAL_NONE);
    CONSTANT(NIMSKERF_REFUSAL_REACH);
    CONSTANT(NIMSKERF_REFUSAL_WINDOW);
    CONSTANT(NIMSKERF_REFUSAL_ALLOWANCE);
    CONSTANT(NIMSKERF_REFUSAL_TABLE);
    CONSTANT(NIMSKERF_REFUSAL_KEY);
    CONSTANT(NIMSKERF_REFUSAL_LENGTH);
    CONSTANT(NIMSKERF_REFUSAL_SHORT);
    CONSTANT(NIMSKERF_REFUSAL_STEP);
    CONSTANT(NIMSKERF_REFUSAL_UNROUTABLE);
    CONSTANT(NIMSKERF_REFUSAL_NOT_A_TAIL);
    CONSTANT(NIMSKERF_REFUSAL_NO_START);
    CONSTANT(NIMSKERF_REFUSAL_STACK);
    CONSTANT(NIMSKERF_ORIGIN_NONE);
    CONSTANT(NIMSKERF_ORIGIN_DELETE_TAIL);
    CONSTANT(NIMSKERF_ORIGIN_DUP_AND_STAR);
    CONSTANT(NIMSKERF_ORIGIN_SEARCH);
    CONSTANT(NIMSKERF_ENDING_EQUAL);
    CONSTANT(NIMSKERF_ENDING_NO_SEARCH);
    CONSTANT(NIMSKERF_ENDING_DRAINED);
    CONSTANT(NIMSKERF_ENDING_CUT_OFF);
    CONSTANT(NIMSKERF_ENDING_STATES);
    CONSTANT(NIMSKERF_ENDING_EXPANSIONS);
    CONSTANT(NIMSKERF_MARK_PASS);
    CONSTANT(NIMSKERF_MARK_ELSEWHERE);
    CONSTANT(NIMSKERF_MARK_TOO_DEAR);
}

/* Popped lists shorter than the steps, though as long as the Pops; neither list has changed. */
static void short_lists(void)
{
    NimskerfQuestion q = question_of(FIRST, 3, GOAL, 3);
    replay_into("as long", &q, WALK, 6, 21, 6);
    replay_into("popped short", &q, WALK, 6, 21, 5);
    replay_into("as long as the Pops", &q, WALK, 6, 21, 3);
    replay_into("popped and result short", &q, WALK, 6, 20, 5);
    replay_into("result short", &q, WALK, 6, 20, 6);
    replay_into("no steps", &q, WALK, 0, 21, 0);
    replay_into("no Pops, popped short", &q, WALK, 1, 21, 0);
    replay_into("no Pops", &q, WALK, 1, 21, 1);
    replay_into("popped short before a step", &q, WALK, 7, 21, 6);
    q.max_len = 2;
    replay_into("popped short after a length", &q, WALK, 6, 21, 5);
    q.start_len = 2;
    replay_into("allowed after two Pops", &q, WALK + 3, 4, 21, 4);
    q.kinds = kinds;
    replay_into("not allowed after two Pops", &q, WALK + 3, 4, 21, 4);
}

static const uint16_t MANY[NIMSKERF_MAX_STEPS + 1] = {0};

/* All refusals of a stepping back at once, then without the first each time. */
static void refusals_back(void)
{
    static const uint8_t wrong[64] = {5, 0, 64}, wrong_popped[64] = {2, 0, 1, 64};
    NimskerfQuestion q = question_of(FIRST, 3, GOAL, 3);
    Back b = {wrong, 3, MANY, NIMSKERF_MAX_STEPS + 1, wrong_popped, 4, 20};
    q.swap_max = 18;
    q.max_len = 22;
    q.kinds_len = 63;
    q.beneath = 1022;
    rewind_from("all", &q, &b);
    q.swap_max = 17;
    rewind_from("all but 1", &q, &b);
    q.max_len = 2;
    rewind_from("all but 1, 2", &q, &b);
    b.count--;
    rewind_from("all but 1 to 3", &q, &b);
    q.kinds_len = 64;
    b.codes = WALK;
    b.count = 6;
    rewind_from("all but 1 to 4", &q, &b);
    b.end = WALK_END;
    rewind_from("a popped key past the Pops", &q, &b);
    b.popped_len = 3;
    rewind_from("all but 1 to 5", &q, &b);
    q.beneath = 1021;
    rewind_from("all but 1 to 5, 12", &q, &b);
    b.end_len = 2;
    rewind_from("all but 1 to 6, 12", &q, &b);
    b.result_len = 21;
    rewind_from("11 alone", &q, &b);
    q.max_len = 3;
    rewind_from("none", &q, &b);
}

/* One step each, popped keys 2 0: every way in which there is no start, beside steps that have one. */
static const struct {
    const char *name;
    uint16_t code;
    uint8_t end_len, popped_len, end[4];
} WAYS[] = {
    {"pop", 0, 3, 1, {5, 6, 7}},
    {"pop, full", 0, 4, 1, {5, 6, 7, 8}},
    {"pop, no key", 0, 3, 0, {5, 6, 7}},
    {"pop, two keys", 0, 3, 2, {5, 6, 7}},
    {"pop with an operand", 1, 3, 1, {5, 6, 7}},
    {"dup 1", 257, 3, 0, {6, 5, 6}},
    {"dup 1, a key too many", 257, 3, 1, {6, 5, 6}},
    {"dup 1, another key", 257, 3, 0, {5, 5, 6}},
    {"dup 1, no such place", 257, 2, 0, {5, 5}},
    {"dup 0, nothing", 256, 0, 0, {0}},
    {"dup 2, out of reach", 258, 4, 0, {7, 5, 6, 7}},
    {"swap 2", 514, 3, 0, {5, 6, 7}},
    {"swap 2, no such place", 514, 2, 0, {5, 6}},
    {"swap 3, out of reach", 515, 4, 0, {5, 6, 7, 8}},
    {"swap 0", 512, 3, 0, {5, 6, 7}},
    {"push 33", 801, 1, 0, {33}},
    {"push 33, another key", 801, 1, 0, {34}},
    {"push 33, nothing", 801, 0, 0, {0}},
    {"push 5, a value", 773, 1, 0, {5}},
    {"push 32", 800, 4, 0, {32, 1, 1, 1}},
    {"load 5", 1029, 4, 0, {5, 1, 1, 1}},
    {"load 5, another key", 1029, 1, 0, {6}},
    {"load 5, nothing", 1029, 0, 0, {0}},
    {"load 33, an immediate", 1057, 1, 0, {33}},
    {"load 64", 1088, 1, 0, {0}},
    {"another kind", 1280, 1, 0, {0}},
};

static void no_starts(void)
{
    NimskerfQuestion q = question_of(FIRST, 3, GOAL, 3);
    q.dup_max = 2;
    q.swap_max = 3;
    q.max_len = 4;
    for (size_t i = 0; i < sizeof WAYS / sizeof *WAYS; i++) {
        Back b = {WAYS[i].end, WAYS[i].end_len, &WAYS[i].code, 1, WALK_POPPED, WAYS[i].popped_len, 21};
        rewind_from(WAYS[i].name, &q, &b);
    }
}

/* Steps in a row. */
static void no_start_of_some(void)
{
    static const uint16_t push_pop[] = {801, 0}, pop_push[] = {0, 801}, pops[] = {0, 0, 0}, swap_pop[] = {514, 0};
    static const uint8_t keys[] = {33, 34, 35};
    NimskerfQuestion q = question_of(FIRST, 3, GOAL, 3);
    q.max_len = 3;
    Back b = {FIRST, 2, push_pop, 2, keys, 1, 21};
    rewind_from("push 33, pop 33", &q, &b);
    b.popped = keys + 1;
    rewind_from("push 33, pop 34", &q, &b);
    b.popped = keys;
    b.end_len = 3;
    rewind_from("push 33, pop 33, full", &q, &b);
    b.codes = pop_push;
    b.end = keys;
    rewind_from("pop 33, push 33, full", &q, &b);
    b.codes = pops;
    b.count = b.popped_len = 3;
    b.end_len = 0;
    rewind_from("pop 33, 34, 35", &q, &b);
    b.popped_len = 2;
    rewind_from("pop 33, 34, a key too few", &q, &b);
    b.popped_len = 3;
    b.end_len = 1;
    rewind_from("pop 33, 34, 35, full", &q, &b);
    b.codes = swap_pop;
    b.count = 2;
    b.popped_len = 1;
    b.end_len = 2;
    rewind_from("swap 2, pop 33", &q, &b);
    b.end_len = 1;
    rewind_from("swap 2, pop 33, no such place", &q, &b);
    b.count = 0;
    rewind_from("no steps, a key", &q, &b);
    b.popped_len = 0;
    rewind_from("no steps", &q, &b);
}

static void forth(const char *name, const NimskerfQuestion *q, const uint16_t *codes, size_t count, size_t result_len)
{
    NimskerfCost ceiling = {9, 9};
    plan(name, q);
    replay_into(name, q, codes, count, result_len, 64);
    mark(name, q, codes, count, ceiling);
}

/* All refusals of planner, replay and marking at once, then without the first each time. */
static void refusals_forth(void)
{
    static const uint8_t wrong[64] = {0, 1, 64};
    NimskerfQuestion q = question_of(wrong, 3, FIRST, 3);
    q.swap_max = 18;
    q.max_len = 22;
    q.max_expansions = EXPANSIONS + 1;
    q.states_without = 10;
    q.states_with = NIMSKERF_MAX_ALLOWANCE + 1;
    q.kinds_len = 63;
    q.beneath = 1022;
    forth("all", &q, MANY, NIMSKERF_MAX_STEPS + 1, 20);
    q.swap_max = 17;
    forth("all but 1", &q, MANY, NIMSKERF_MAX_STEPS + 1, 20);
    q.max_len = 2;
    forth("all but 1, 2", &q, MANY, NIMSKERF_MAX_STEPS + 1, 20);
    q.states_with = 10;
    forth("all but 1 to 3", &q, WALK + 1, 5, 20);
    q.kinds_len = 64;
    forth("all but 1 to 4", &q, WALK + 1, 5, 20);
    q.start = FIRST;
    forth("all but 1 to 5", &q, WALK + 1, 5, 20);
    q.beneath = 1021;
    forth("all but 1 to 5, 12", &q, WALK + 1, 5, 20);
    q.start_len = q.goal_len = 2;
    forth("all but 1 to 6, 12", &q, WALK + 1, 5, 20);
    q.max_expansions = EXPANSIONS;
    forth("8 alone", &q, WALK + 1, 5, 21);
    forth("none", &q, WALK + 3, 3, 21);
}

/* Key 33, then the keys 0 to 31 again and again. */
static uint8_t tower[1 + NIMSKERF_STACK_LEN + 1];
static const uint16_t PUSH_POP[] = {801, 0, 801, 801};

/* Windows of so many keys over so many items. */
static const struct {
    size_t len, beneath, max_len;
} STACKS[] = {
    {1024, 0, 21}, {1025, 0, 21}, {20, 1003, 21}, {21, 1003, 21}, {19, 1004, 21}, {20, 1004, 21},
    {21, 1004, 21}, {16, 1007, 21}, {16, 1008, 21}, {3, 1020, 21}, {4, 1020, 21}, {5, 1020, 21},
    {3, 1020, 3}, {0, 1023, 21}, {1, 1023, 21}, {2, 1023, 21}, {0, 1024, 21}, {1, 1024, 21},
    {0, 1025, 21}, {0, (size_t)1 << 32, 21}, {0, SIZE_MAX, 21}, {1, SIZE_MAX, 21},
};

/* From each of these windows push 33; back from it over a Pop of 33. */
static void stacks(void)
{
    NimskerfCost ceiling = {3, 2};
    for (size_t i = 0; i < sizeof STACKS / sizeof *STACKS; i++) {
        size_t len = STACKS[i].len;
        NimskerfQuestion q = question_of(tower + 1, len, tower, len + 1);
        Back b = {tower + 1, len, PUSH_POP + 1, 1, tower, 1, 21};
        char name[80];
        snprintf(name, sizeof name, "%zu over %zu, max_len %zu", len, STACKS[i].beneath, STACKS[i].max_len);
        q.beneath = STACKS[i].beneath;
        q.max_len = STACKS[i].max_len;
        q.max_expansions = 0;
        q.states_without = q.states_with = 10;
        plan(name, &q);
        replay(name, &q, PUSH_POP, 1);
        mark(name, &q, PUSH_POP, 1, ceiling);
        rewind_from(name, &q, &b);
    }
}

/* 1,023 items beneath, then 1,024, under empty windows. */
static void empty_windows(void)
{
    NimskerfQuestion q = question_of(FIRST, 0, GOAL, 0);
    NimskerfCost ceiling = {0, 0};
    Back b = {FIRST, 0, PUSH_POP, 2, tower, 1, 21};
    q.max_expansions = q.states_without = q.states_with = 10;
    q.beneath = 1023;
    plan("1023", &q);
    replay("1023, one key", &q, PUSH_POP, 3);
    replay("1023, two keys", &q, PUSH_POP, 4);
    mark("1023, two keys", &q, PUSH_POP, 4, ceiling);
    rewind_from("1023, one key", &q, &b);
    q.beneath = 1024;
    plan("1024", &q);
    replay("1024, one key", &q, PUSH_POP, 1);
    replay("1024", &q, PUSH_POP, 0);
    mark("1024", &q, PUSH_POP, 0, ceiling);
    rewind_from("1024, one key", &q, &b);
    b.count = b.popped_len = 0;
    rewind_from("1024", &q, &b);
}

/* A full stack, 1,022 items beneath two keys: what still goes. */
static void full_stack(void)
{
    /* swap 1, pop, dup 0, pop, load 5, swap 1, then one more. */
    static uint16_t codes[] = {513, 0, 256, 0, 1029, 513, 256};
    static const uint16_t more[] = {256, 801, 1029};
    static const char *const names[] = {"1022, then dup 0", "1022, then push 33", "1022, then load 5"};
    static const uint8_t goal[64] = {0, 1, 0}, doubled[64] = {0, 0};
    NimskerfQuestion q = question_of(FIRST, 2, goal, 3);
    NimskerfCost ceiling = {9, 9};
    Back b = {doubled, 2, codes + 2, 1, tower, 0, 21};
    q.max_expansions = q.states_without = q.states_with = 10;
    q.beneath = 1022;
    plan("1022", &q);
    mark("1022", &q, codes, 0, ceiling);
    replay("1022", &q, codes, 6);
    for (size_t i = 0; i < 3; i++) {
        codes[6] = more[i];
        replay(names[i], &q, codes, 7);
    }
    rewind_from("1022, dup 0", &q, &b);
    b.codes = PUSH_POP;
    b.count = 2;
    b.popped_len = 1;
    rewind_from("1022, push 33, pop 33", &q, &b);
    b.codes = PUSH_POP + 1;
    b.end = tower;
    rewind_from("1022, pop 33, push 33", &q, &b);
    b.end_len = 3;
    rewind_from("1022, three keys", &q, &b);
}

int main(void)
{
    for (size_t i = 0; i < 64; i++)
        kinds[i] = i < 40 ? (uint8_t)(i % 2) : 0;
    kinds[2] = NIMSKERF_KIND_ZERO;
    for (uint32_t i = 0; i < NIMSKERF_PRICES_LEN; i++)
        prices[i] = 2 + i * 7 % 13;
    for (size_t i = 0; i < sizeof tower; i++)
        tower[i] = i == 0 ? 33 : (uint8_t)((i - 1) % 32);
    plans();
    replays_and_marks();
    steps_back();
    packs();
    builders();
    desk();
    codes_and_texts();
    layouts();
    constants();
    short_lists();
    refusals_back();
    no_starts();
    no_start_of_some();
    refusals_forth();
    stacks();
    empty_windows();
    full_stack();
    return 0;
}
