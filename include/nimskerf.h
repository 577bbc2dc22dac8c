/* Nimskerf: plans, replays (forward and back) and marks stack windows.
 *
 * A window is a list of keys, top first, each a byte 0 to 63. A step is a 16-bit code, kind times 256 plus operand. A
 * question is a NimskerfQuestion: begin with nimskerf_question() and set what differs. Fields to come are set there to
 * a default that keeps every old answer, so a program compiled anew keeps its meaning.
 *
 * A list is a pointer to its first entry and the number of its entries. Any numbers and lists get an answer or a
 * refusal:
 * - NULL with length 0 is an empty list.
 * - NULL with another length, or a pointer that is not aligned for its entries, is refused in its turn: keys as 5, also
 *   those of an end and popped keys to be read; kinds and prices as 4; steps to be read as 8 at index 0, by stepping
 *   back as 11. A list to be written counts as empty: 7 in its turn.
 * - A list that a call writes and that shares memory with another list of the same call counts as empty: 7 in its turn.
 * - An empty list is too short for all that calls write but the popped keys of no steps.
 * - A NULL question has no tables and no windows: 4, from the builders 5. NULL for the lists of a planning: 7.
 * What stays with the caller is that a pointer other than NULL points to as many entries as its length says, and that
 * nobody else writes to them during the call.
 *
 * No function keeps a pointer, allocates, writes a global variable or ends the program, so threads may call with lists
 * of their own. Link with -lnimskerf (x86-64).
 */
#ifndef NIMSKERF_H
#define NIMSKERF_H

#include <stddef.h>
#include <stdint.h>

#ifdef __cplusplus
extern "C" {
#endif

#define NIMSKERF_VERSION "0.4.0"

/* Limits of a question. */
#define NIMSKERF_DUP_MAX 16          /* The greatest dup_max. */
#define NIMSKERF_SWAP_MAX 17         /* The greatest swap_max. */
#define NIMSKERF_MAX_LEN 21          /* The greatest max_len. */
#define NIMSKERF_STACK_LEN 1024      /* The most items of a stack: those beneath the window and those in it. */
#define NIMSKERF_MAX_ALLOWANCE 65536 /* The greatest allowance. */
#define NIMSKERF_MAX_STEPS 65536     /* The most steps of a replay, stepping back or marking. */
#define NIMSKERF_MAX_PRICE 30000     /* The greatest price. */
#define NIMSKERF_KEYS 64             /* Keys are 0 to 63. */
#define NIMSKERF_KINDS_LEN 64        /* The length of kinds. */
#define NIMSKERF_PRICES_LEN 196      /* The length of prices. */

/* What nimskerf_question sets as allowances. */
#define NIMSKERF_DEFAULT_EXPANSIONS 1000
#define NIMSKERF_DEFAULT_STATES 1000

/* Lengths of lists that calls write. A longer list costs no time. Replay's popped list is as long as its steps. */
#define NIMSKERF_RESULT_LEN 21     /* The result of replay and of stepping back. */
#define NIMSKERF_MIN_STEPS_LEN 128 /* A builder's steps. */
/* A planning's lists, by max_expansions and by the larger state allowance. */
#define NIMSKERF_STEPS_LEN(expansions) ((expansions) > NIMSKERF_MIN_STEPS_LEN ? (expansions) : NIMSKERF_MIN_STEPS_LEN)
#define NIMSKERF_NODES_LEN(states) (((states) + NIMSKERF_SPARE_ENTRIES) * NIMSKERF_NODE_NUMBERS)
#define NIMSKERF_HEADS_LEN(states) (((states) + NIMSKERF_SPARE_ENTRIES) * NIMSKERF_HEAD_NUMBERS)
#define NIMSKERF_OPEN_LEN(states) (((states) + NIMSKERF_SPARE_ENTRIES) * NIMSKERF_OPEN_NUMBERS)
/* Numbers to an entry of each work list, and entries beyond the larger state allowance. */
#define NIMSKERF_NODE_NUMBERS 8
#define NIMSKERF_HEAD_NUMBERS 1
#define NIMSKERF_OPEN_NUMBERS 4
#define NIMSKERF_SPARE_ENTRIES 50

/* What a key stands for. */
enum {
    NIMSKERF_KIND_VALUE = 0,
    NIMSKERF_KIND_IMMEDIATE = 1,
    NIMSKERF_KIND_ZERO = 2 /* The immediate zero; at most one key has this kind. */
};

/* Kinds of steps. */
enum {
    NIMSKERF_STEP_POP = 0,   /* Drops the top. Its operand is 0. */
    NIMSKERF_STEP_DUP = 1,   /* Copies the item at this place to the top. */
    NIMSKERF_STEP_SWAP = 2,  /* Exchanges the top with the item at this depth. */
    NIMSKERF_STEP_PUSH = 3,  /* Pushes this key, an immediate. */
    NIMSKERF_STEP_LOAD = 4,  /* Loads this key, a value. */
    NIMSKERF_NO_STEP = 65535 /* A code that is no step. */
};

/* Refusals. Of those that apply the first is given, in this order: 1 to 5, 12, 6 to 11. Beside a number every other
 * field is zero (but the index at 8), and no list has changed. */
enum {
    NIMSKERF_REFUSAL_NONE = 0,        /* No number refuses the call. */
    NIMSKERF_REFUSAL_REACH = 1,       /* dup_max is over 16 or swap_max is over 17. */
    NIMSKERF_REFUSAL_WINDOW = 2,      /* max_len is over 21. */
    NIMSKERF_REFUSAL_ALLOWANCE = 3,   /* An allowance is over 65,536, or a replay, stepping back or marking has more
                                         than 65,536 steps. */
    NIMSKERF_REFUSAL_TABLE = 4,       /* kinds are not 64 bytes, a kind is over 2, there is a second kind 2, prices are
                                         not 196 numbers, or a price is over 30,000. */
    NIMSKERF_REFUSAL_KEY = 5,         /* A start or goal key is 64 or more. Stepping back: an end key or any of the
                                         popped keys is. */
    NIMSKERF_REFUSAL_LENGTH = 6,      /* Planner: start or goal is longer than swap_max or than the smaller of max_len
                                         and 1,024 less beneath. Replay, marking and stepping back (its end): longer
                                         than max_len. Packing, star-swap and delete-tail: longer than 21. */
    NIMSKERF_REFUSAL_SHORT = 7,       /* Planner: a work list has fewer entries than the larger state allowance plus 50,
                                         or the step list is below the larger of 128 and max_expansions. Builders: the
                                         step list is below 128. Replay and stepping back: the result list is below 21.
                                         Replay: the popped list is shorter than the steps. */
    NIMSKERF_REFUSAL_STEP = 8,        /* Replay and marking: a step is not allowed; its index is returned too. */
    NIMSKERF_REFUSAL_UNROUTABLE = 9,  /* Star-swap: unequal lengths or key counts, or a misplaced position at swap_max
                                         or deeper. */
    NIMSKERF_REFUSAL_NOT_A_TAIL = 10, /* Delete-tail: goal is not a strictly shorter prefix of start, or start is longer
                                         than swap_max. */
    NIMSKERF_REFUSAL_NO_START = 11,   /* Stepping back: no start that replay accepts leads through the steps to the end
                                         with exactly these keys popped. */
    NIMSKERF_REFUSAL_STACK = 12       /* Tested after 5 and before 6. Planner, replay and marking: beneath and the
                                         start's length together are over 1,024. Stepping back: beneath and the end's
                                         length are. With nothing beneath, a window of over 1,024 keys has this number,
                                         6 before version 0.4. */
};

/* Where a plan comes from. */
enum {
    NIMSKERF_ORIGIN_NONE = 0,         /* No plan, or start equals goal. */
    NIMSKERF_ORIGIN_DELETE_TAIL = 1,  /* The builder delete-tail. */
    NIMSKERF_ORIGIN_DUP_AND_STAR = 2, /* The builder dup-and-star. */
    NIMSKERF_ORIGIN_SEARCH = 3        /* The search. */
};

/* How a planning ended. Endings 0, 2 and 3 are "by itself": higher allowances keep every field and step. */
enum {
    NIMSKERF_ENDING_EQUAL = 0,     /* Start equals goal. */
    NIMSKERF_ENDING_NO_SEARCH = 1, /* max_expansions is 0. */
    NIMSKERF_ENDING_DRAINED = 2,   /* The open list is empty. */
    NIMSKERF_ENDING_CUT_OFF = 3,   /* The least estimate left cannot improve on the bound. */
    NIMSKERF_ENDING_STATES = 4,    /* Nodes or open entries are over the state allowance. */
    NIMSKERF_ENDING_EXPANSIONS = 5 /* max_expansions states are expanded. */
};

/* What marking says of an answer. */
enum {
    NIMSKERF_MARK_PASS = 0,      /* The steps reach the goal at no more than the ceiling. */
    NIMSKERF_MARK_ELSEWHERE = 1, /* They end elsewhere. */
    NIMSKERF_MARK_TOO_DEAR = 2   /* They reach the goal above the ceiling. */
};

/* Gas and bytes; compared by gas, then bytes. */
typedef struct {
    uint32_t gas;
    uint32_t bytes;
} NimskerfCost;

/* A question. Each call reads only the fields that it takes. */
typedef struct {
    const uint8_t *start; /* The window at the beginning. */
    size_t start_len;
    const uint8_t *goal; /* The window to reach. */
    size_t goal_len;
    size_t dup_max;        /* 0 to 16: Dup copies items 0 to dup_max - 1. */
    size_t swap_max;       /* 0 to 17: Swap reaches items 1 to swap_max - 1. */
    size_t max_len;        /* 0 to 21: no window on the way is longer. */
    size_t max_expansions; /* States that may be expanded, 0 to 65,536. */
    size_t states_without; /* States and open entries held while no plan is in hand, 0 to 65,536. */
    size_t states_with;    /* States and open entries held with a plan in hand, 0 to 65,536. */
    const uint8_t *kinds;  /* 64 bytes, NIMSKERF_KIND_... of each key. */
    size_t kinds_len;
    const uint32_t *prices; /* 196 numbers, each at most 30,000: pairs gas, bytes of pop, Dup 0 to 15, Swap 0 to 16
                               (pair 0 unused but checked), pushing or loading key 0 to 63. */
    size_t prices_len;
    size_t beneath; /* Items of the stack beneath the window; the stack never has more than 1,024 in all. */
} NimskerfQuestion;

/* The lists lent to a planning. What the work lists nodes, heads and open hold before changes no answer; what they hold
 * after is left free. */
typedef struct {
    uint16_t *steps; /* Its first entries become the plan, the rest is untouched. NIMSKERF_STEPS_LEN. */
    size_t steps_len;
    uint64_t *nodes; /* NIMSKERF_NODES_LEN. */
    size_t nodes_len;
    uint64_t *heads; /* NIMSKERF_HEADS_LEN. Twice as many make a large search faster. */
    size_t heads_len;
    uint64_t *open; /* NIMSKERF_OPEN_LEN. */
    size_t open_len;
} NimskerfLists;

/* The planner's answer. Without a plan found, step_count, plan, ceiling, origin and highest are 0. */
typedef struct {
    uint32_t refusal;     /* NIMSKERF_REFUSAL_... */
    uint32_t found;       /* 1 if there is a plan, otherwise 0. */
    size_t step_count;    /* How many entries of the step list are the plan. */
    NimskerfCost plan;    /* The sum of the listed prices of the plan's steps. */
    NimskerfCost ceiling; /* The pass mark: what the goal cost when it was last recorded, or the builder's plan. The
                             plan costs no more. */
    uint32_t origin;      /* NIMSKERF_ORIGIN_... */
    uint32_t ending;      /* NIMSKERF_ENDING_... */
    size_t expansions;    /* How many states were expanded, at most max_expansions. */
    size_t highest;       /* The greatest length of a window on the plan's way, the start included. */
} NimskerfAnswer;

/* Replay's answer. */
typedef struct {
    uint32_t refusal; /* NIMSKERF_REFUSAL_... */
    size_t index;     /* At refusal 8 the index of the first step that is not allowed, otherwise 0. */
    size_t length;    /* The length of the end window, the first entries of the result list. */
    size_t highest;   /* The greatest length that the window reached, the start included. */
} NimskerfReplayed;

/* Stepping back's answer. */
typedef struct {
    uint32_t refusal; /* NIMSKERF_REFUSAL_... */
    size_t length;    /* The length of the start, the first entries of the result list. */
} NimskerfRewound;

/* Marking's answer. */
typedef struct {
    uint32_t refusal; /* NIMSKERF_REFUSAL_... */
    size_t index;     /* At refusal 8 the index of the first step that is not allowed, otherwise 0. */
    uint32_t mark;    /* NIMSKERF_MARK_... */
    size_t highest;   /* At every mark the greatest length that the window reached, the start included. */
} NimskerfMarked;

/* Packing's answer: six bits per key, top lowest, a marker bit above. */
typedef struct {
    uint32_t refusal; /* NIMSKERF_REFUSAL_... */
    uint64_t lo;      /* The low 64 bits of the packed window. */
    uint64_t hi;      /* The high 64 bits of the packed window. */
} NimskerfPacked;

/* A builder's answer. */
typedef struct {
    uint32_t refusal; /* NIMSKERF_REFUSAL_... */
    size_t count;     /* How many entries of the step list are the plan. */
} NimskerfBuilt;

/* A question with empty windows, nothing beneath, the greatest reaches and max_len, the allowances NIMSKERF_DEFAULT_...
 * and the exam desk's tables: pop 2/1, Dup 3/1, Swap 3/1, keys 0 to 31 values 6/3, key 32 zero 2/1, others immediates
 * 3/2. */
NimskerfQuestion nimskerf_question(void);

/* Plans from start to goal. */
NimskerfAnswer nimskerf_plan(const NimskerfQuestion *question, const NimskerfLists *lists);

/* Replays steps from start. Writes the end window, top first, over the first places of result, and the keys that were
 * popped, the first popped first, over the first nimskerf_pops(steps, steps_len) places of popped; the rest of both is
 * untouched. Takes start, dup_max, swap_max, max_len, beneath and kinds. */
NimskerfReplayed nimskerf_replay(
    const NimskerfQuestion *question,
    const uint16_t *steps, size_t steps_len,
    uint8_t *result, size_t result_len,
    uint8_t *popped, size_t popped_len);

/* How many entries of the popped list a replay of these steps writes: how many of the steps are Pops. */
size_t nimskerf_pops(const uint16_t *steps, size_t steps_len);

/* Steps back from end through steps. Writes the one start from which a replay of the steps ends there with exactly
 * these keys popped, the first popped first, over the first places of result; the rest is untouched. Takes dup_max,
 * swap_max, max_len, beneath and kinds. */
NimskerfRewound nimskerf_rewind(
    const NimskerfQuestion *question,
    const uint8_t *end, size_t end_len,
    const uint16_t *steps, size_t steps_len,
    const uint8_t *popped, size_t popped_len,
    uint8_t *result, size_t result_len);

/* Marks steps, whoever wrote them, against a ceiling. Takes all of the question but the allowances. */
NimskerfMarked nimskerf_mark(
    const NimskerfQuestion *question,
    const uint16_t *steps, size_t steps_len,
    NimskerfCost ceiling);

/* Packs a window into 128 bits. */
NimskerfPacked nimskerf_pack(const uint8_t *ids, size_t ids_len);

/* Writes the Swaps that turn start into goal over the first places of steps; the rest is untouched. Takes start, goal
 * and swap_max. */
NimskerfBuilt nimskerf_star_swap(const NimskerfQuestion *question, uint16_t *steps, size_t steps_len);

/* Writes the steps that drop the keys under the prefix goal of start over the first places of steps; the rest is
 * untouched. Takes start, goal and swap_max. */
NimskerfBuilt nimskerf_delete_tail(const NimskerfQuestion *question, uint16_t *steps, size_t steps_len);

/* The code of a step, NIMSKERF_NO_STEP if kind or operand is over 255. */
uint16_t nimskerf_step(uint32_t kind, uint32_t operand);

/* The parts of a code. */
uint32_t nimskerf_step_kind(uint16_t code);
uint32_t nimskerf_step_operand(uint16_t code);

/* The word that the desk prints for a step's kind: pop, dup, swap, push or load; for another code "no step". */
const char *nimskerf_step_word(uint16_t code);

/* A sentence for each number; for another number one that says so. */
const char *nimskerf_refusal_text(uint32_t refusal);
const char *nimskerf_origin_text(uint32_t origin);
const char *nimskerf_ending_text(uint32_t ending);
const char *nimskerf_mark_text(uint32_t mark);

/* The library's version: NIMSKERF_VERSION of the header it was built with. */
const char *nimskerf_version(void);

#ifdef __cplusplus
}
#endif

#endif
