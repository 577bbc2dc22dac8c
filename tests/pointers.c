/* Every list of every call as NULL, not aligned, empty, and overlapping each other list of the call. */
#include "nimskerf.h"

#include <stdalign.h>
#include <stdbool.h>
#include <stdio.h>
#include <string.h>

/* The lists stand this far apart, each in the middle of its room, so that one moves beside another and meets no third. */
enum { ROOM = 32768, STATES = 10, MANY = NIMSKERF_MAX_STEPS + 1 };

/* POPPED is written by a replay, GIVEN are the popped keys that a stepping back reads. */
enum { START, GOAL, KINDS, PRICES, CODES, END, GIVEN, RESULT, POPPED, STEPS, NODES, HEADS, OPEN, LISTS };

typedef struct {
    unsigned char *at;
    size_t len;
} List;

/* A call's numbers and lists. Lists that it does not take stay as they are. */
typedef struct {
    NimskerfQuestion numbers;
    List lists[LISTS];
} Call;

/* What came back: the two numbers that a refusal has, and whether all else is 0. */
typedef struct {
    uint32_t refusal;
    size_t index;
    bool bare;
} Outcome;

static alignas(64) unsigned char memory[LISTS][ROOM], before[LISTS][ROOM];
static const uint16_t many[MANY];
/* For the popped keys of more steps than a room has; they stay as they are. */
static unsigned char wide[MANY];

static const char *const NAMES[LISTS] = {"start",  "goal",   "kinds", "prices", "codes", "end", "given",
                                         "result", "popped", "steps", "nodes",  "heads", "open"};
static const size_t WIDTHS[LISTS] = {1, 1, 1, 4, 2, 1, 1, 1, 1, 2, 8, 8, 8};
static const uint32_t NUMBERS[LISTS] = {5, 5, 4, 4, 8, 5, 5, 7, 7, 7, 7, 7, 7};

static NimskerfQuestion question_of(const Call *c)
{
    NimskerfQuestion q = c->numbers;
    q.start = c->lists[START].at;
    q.start_len = c->lists[START].len;
    q.goal = c->lists[GOAL].at;
    q.goal_len = c->lists[GOAL].len;
    q.kinds = c->lists[KINDS].at;
    q.kinds_len = c->lists[KINDS].len;
    q.prices = (void *)c->lists[PRICES].at;
    q.prices_len = c->lists[PRICES].len;
    return q;
}

static Outcome plan(const Call *c)
{
    NimskerfQuestion q = question_of(c);
    NimskerfLists l = {
        (void *)c->lists[STEPS].at, c->lists[STEPS].len, (void *)c->lists[NODES].at, c->lists[NODES].len,
        (void *)c->lists[HEADS].at, c->lists[HEADS].len, (void *)c->lists[OPEN].at, c->lists[OPEN].len};
    NimskerfAnswer a = nimskerf_plan(&q, &l);
    return (Outcome){
        a.refusal, 0,
        !(a.found || a.step_count || a.plan.gas || a.plan.bytes || a.ceiling.gas || a.ceiling.bytes || a.origin ||
          a.ending || a.expansions || a.highest)};
}

static Outcome replay(const Call *c)
{
    NimskerfQuestion q = question_of(c);
    NimskerfReplayed r = nimskerf_replay(
        &q, (void *)c->lists[CODES].at, c->lists[CODES].len, c->lists[RESULT].at, c->lists[RESULT].len,
        c->lists[POPPED].at, c->lists[POPPED].len);
    return (Outcome){r.refusal, r.index, r.length == 0 && r.highest == 0};
}

static Outcome back(const Call *c)
{
    NimskerfQuestion q = question_of(c);
    NimskerfRewound r = nimskerf_rewind(
        &q, c->lists[END].at, c->lists[END].len, (void *)c->lists[CODES].at, c->lists[CODES].len, c->lists[GIVEN].at,
        c->lists[GIVEN].len, c->lists[RESULT].at, c->lists[RESULT].len);
    return (Outcome){r.refusal, 0, r.length == 0};
}

static Outcome mark(const Call *c)
{
    NimskerfQuestion q = question_of(c);
    NimskerfCost ceiling = {0, 0};
    NimskerfMarked m = nimskerf_mark(&q, (void *)c->lists[CODES].at, c->lists[CODES].len, ceiling);
    return (Outcome){m.refusal, m.index, m.mark == 0 && m.highest == 0};
}

static Outcome pack(const Call *c)
{
    NimskerfPacked p = nimskerf_pack(c->lists[START].at, c->lists[START].len);
    return (Outcome){p.refusal, 0, p.lo == 0 && p.hi == 0};
}

static Outcome built(NimskerfBuilt b)
{
    return (Outcome){b.refusal, 0, b.count == 0};
}

static Outcome star_swap(const Call *c)
{
    NimskerfQuestion q = question_of(c);
    return built(nimskerf_star_swap(&q, (void *)c->lists[STEPS].at, c->lists[STEPS].len));
}

static Outcome delete_tail(const Call *c)
{
    NimskerfQuestion q = question_of(c);
    return built(nimskerf_delete_tail(&q, (void *)c->lists[STEPS].at, c->lists[STEPS].len));
}

#define BIT(n) (1u << (n))

typedef struct {
    const char *name;
    Outcome (*ask)(const Call *);
    unsigned takes;   /* Lists, as bits. */
    unsigned writes;  /* Those of them that it writes. */
    unsigned refuses; /* Numbers. */
    size_t goal_len;  /* For a call that is accepted. */
} Function;

#define TABLES (BIT(1) | BIT(2) | BIT(3) | BIT(4) | BIT(5) | BIT(12) | BIT(6))
#define BUILDER (BIT(1) | BIT(5) | BIT(6) | BIT(7))

static const Function FUNCTIONS[] = {
    {"plan", plan, BIT(START) | BIT(GOAL) | BIT(KINDS) | BIT(PRICES) | BIT(STEPS) | BIT(NODES) | BIT(HEADS) | BIT(OPEN),
     BIT(STEPS) | BIT(NODES) | BIT(HEADS) | BIT(OPEN), TABLES | BIT(7), 3},
    {"replay", replay, BIT(START) | BIT(KINDS) | BIT(CODES) | BIT(RESULT) | BIT(POPPED), BIT(RESULT) | BIT(POPPED),
     TABLES | BIT(7) | BIT(8), 3},
    {"rewind", back, BIT(END) | BIT(KINDS) | BIT(CODES) | BIT(GIVEN) | BIT(RESULT), BIT(RESULT),
     TABLES | BIT(7) | BIT(11), 3},
    {"mark", mark, BIT(START) | BIT(GOAL) | BIT(KINDS) | BIT(PRICES) | BIT(CODES), 0, TABLES | BIT(8), 3},
    {"pack", pack, BIT(START), 0, BIT(5) | BIT(6), 3},
    {"star_swap", star_swap, BIT(START) | BIT(GOAL) | BIT(STEPS), BIT(STEPS), BUILDER | BIT(9), 3},
    {"delete_tail", delete_tail, BIT(START) | BIT(GOAL) | BIT(STEPS), BIT(STEPS), BUILDER | BIT(10), 2},
};

/* The numbers in the order in which they are tested. */
static const uint32_t TURNS[] = {1, 2, 3, 4, 5, 12, 6, 7, 8, 9, 10, 11};

static const size_t LENGTHS[LISTS] = {3, 3, 64, 196, 2, 3, 1, 21, 2, 128, 0, 0, 0};

/* The number for a list that cannot be read or written. A stepping back has no number for a step. */
static uint32_t number_of(const Function *f, int list)
{
    return list == CODES && f->refuses & BIT(11) ? 11 : NUMBERS[list];
}

static size_t bytes_of(const Call *c, int list)
{
    return c->lists[list].len * WIDTHS[list];
}

/* A call that is accepted: start, goal and end are 0 1 2, the kinds the desk's, the codes dup 0, pop, the popped key 0.
 * The prices are 0, and so is all around them: from any byte on they are prices. */
static Call accepted(const Function *f)
{
    static const uint16_t codes[2] = {256, 0};
    NimskerfQuestion desk = nimskerf_question();
    Call c = {.numbers = desk};
    memset(memory, 0xab, sizeof memory);
    for (int i = 0; i < LISTS; i++) {
        c.lists[i].at = memory[i] + ROOM / 2;
        c.lists[i].len = LENGTHS[i];
    }
    c.lists[GOAL].len = f->goal_len;
    c.lists[NODES].len = NIMSKERF_NODES_LEN(STATES);
    c.lists[HEADS].len = NIMSKERF_HEADS_LEN(STATES);
    c.lists[OPEN].len = NIMSKERF_OPEN_LEN(STATES);
    c.numbers.max_expansions = c.numbers.states_without = c.numbers.states_with = STATES;
    memcpy(c.lists[START].at, "\0\1\2", 3);
    memcpy(c.lists[GOAL].at, "\0\1\2", 3);
    memcpy(c.lists[END].at, "\0\1\2", 3);
    c.lists[GIVEN].at[0] = 0;
    memcpy(c.lists[KINDS].at, desk.kinds, desk.kinds_len);
    memset(memory[PRICES], 0, sizeof memory[PRICES]);
    memcpy(c.lists[CODES].at, codes, sizeof codes);
    return c;
}

/* Gives a call a fault of this number, 1 to 7 or 12, that has nothing to do with pointers. */
static void spoil(const Function *f, Call *c, uint32_t number)
{
    int window = f->takes & BIT(END) ? END : START;
    switch (number) {
    case 1: c->numbers.swap_max = NIMSKERF_SWAP_MAX + 1; break;
    case 2: c->numbers.max_len = NIMSKERF_MAX_LEN + 1; break;
    case 3:
        c->numbers.states_with = NIMSKERF_MAX_ALLOWANCE + 1;
        c->lists[CODES].len = MANY;
        if (c->lists[CODES].at != NULL && f->takes & BIT(CODES))
            c->lists[CODES].at = (void *)many;
        break;
    case 4: c->lists[KINDS].len--; break;
    case 5: memory[window][ROOM / 2] = NIMSKERF_KEYS; break;
    case 6:
        memset(memory[window] + ROOM / 2, 1, NIMSKERF_MAX_LEN + 1);
        c->lists[window].len = NIMSKERF_MAX_LEN + 1;
        break;
    case 12: c->numbers.beneath = SIZE_MAX; break;
    default: c->lists[RESULT].len--; break;
    }
}

static int failures;

static void report(const char *what, const char *function, const char *list, const char *other, bool holds)
{
    printf("%s %s: %s%s%s%s%s%s\n", holds ? "ok" : "FAIL", what, function, *list ? " " : "", list,
           *other ? " with " : "", other, holds ? "" : ": another answer");
    failures += !holds;
}

/* Asks, and sees the refusal with nothing beside it and nothing changed. */
static bool refused(const Function *f, const Call *c, uint32_t number)
{
    memcpy(before, memory, sizeof memory);
    Outcome o = f->ask(c);
    return o.refusal == number && o.index == 0 && o.bare && memcmp(before, memory, sizeof memory) == 0 &&
           memcmp(wide, many, sizeof wide) == 0;
}

static bool answered(const Function *f, const Call *c)
{
    return f->ask(c).refusal == 0;
}

/* The call's list somewhere else. More steps have a longer popped list. */
static Call with(const Function *f, int list, unsigned char *at, size_t len)
{
    Call c = accepted(f);
    c.lists[list].at = at;
    c.lists[list].len = len;
    if (list == CODES && len > LENGTHS[CODES]) {
        c.lists[POPPED].at = wide;
        c.lists[POPPED].len = len < MANY ? len : MANY;
    }
    return c;
}

/* With this list in this place the call is refused by this number, or by an earlier one that applies as well. A stack
 * that is too tall changes nothing where 12 comes later. */
static bool refused_in_turn(const Function *f, int list, unsigned char *at, size_t len, uint32_t number)
{
    Call c = with(f, list, at, len);
    bool holds = refused(f, &c, number);
    for (const uint32_t *earlier = TURNS; *earlier != number; earlier++) {
        c = with(f, list, at, len);
        if (f->refuses & BIT(*earlier)) {
            spoil(f, &c, *earlier);
            holds = refused(f, &c, *earlier) && holds;
        }
    }
    if (number <= 5) {
        c = with(f, list, at, len);
        spoil(f, &c, 12);
        holds = refused(f, &c, number) && holds;
    }
    return holds;
}

/* NULL with a length: the list's own, 1, or the greatest; for steps to be read that one is 3. */
static void null(const Function *f, int list)
{
    size_t len = accepted(f).lists[list].len;
    uint32_t number = number_of(f, list);
    bool holds = refused_in_turn(f, list, NULL, len, number);
    holds = refused_in_turn(f, list, NULL, 1, number) && holds;
    holds = refused_in_turn(f, list, NULL, SIZE_MAX, list == CODES ? 3 : number) && holds;
    if (list == CODES) {
        holds = refused_in_turn(f, list, NULL, MANY - 1, number) && holds;
        holds = refused_in_turn(f, list, NULL, MANY, 3) && holds;
    }
    report("NULL", f->name, NAMES[list], "", holds);
}

static void not_aligned(const Function *f, int list)
{
    Call c = accepted(f);
    bool holds = true;
    for (size_t by = 1; by < WIDTHS[list]; by++)
        holds = refused_in_turn(f, list, c.lists[list].at + by, c.lists[list].len, number_of(f, list)) && holds;
    report("not aligned", f->name, NAMES[list], "", holds);
}

/* An empty list is the same wherever it is: NULL, not aligned, or inside another list. */
static void empty(const Function *f, int list)
{
    Call c = with(f, list, memory[list], 0);
    Outcome plain = f->ask(&c);
    bool holds = true;
    for (int place = 0; place < 3; place++) {
        c = with(f, list, NULL, 0);
        c.lists[list].at = place == 0 ? NULL : place == 1 ? memory[list] + 1 : c.lists[STEPS].at + 8;
        Outcome o = f->ask(&c);
        holds = o.refusal == plain.refusal && o.index == plain.index && o.bare == plain.bare && holds;
    }
    report("empty", f->name, NAMES[list], "", holds);
}

/* The first place at or above `at` that is aligned for the list. */
static unsigned char *up(unsigned char *at, int list)
{
    size_t over = (uintptr_t)at % WIDTHS[list];
    return over == 0 ? at : at + WIDTHS[list] - over;
}

/* A list that is written, at another's first byte, last byte and inside it; just before and after it is nothing. */
static void overlapping(const Function *f, int written, int other)
{
    Call c = accepted(f);
    size_t len = c.lists[written].len, bytes = bytes_of(&c, written), width = WIDTHS[written];
    unsigned char *first = c.lists[other].at, *end = up(first + bytes_of(&c, other), written);
    bool holds = refused_in_turn(f, written, first, len, 7);
    holds = refused_in_turn(f, written, first + width - bytes, len, 7) && holds;
    holds = refused_in_turn(f, written, end - width, len, 7) && holds;
    holds = refused_in_turn(f, written, first - bytes / 2 / width * width, len, 7) && holds;
    c = with(f, written, first - bytes, len);
    holds = answered(f, &c) && holds;
    c = with(f, written, end, len);
    holds = answered(f, &c) && holds;
    report("overlap", f->name, NAMES[written], NAMES[other], holds);
}

/* More bytes than there are reach every other list. */
static void endless(const Function *f, int written)
{
    Call c = accepted(f);
    report("endless", f->name, NAMES[written], "",
           refused_in_turn(f, written, c.lists[written].at, SIZE_MAX, 7) &&
               refused_in_turn(f, written, c.lists[written].at, SIZE_MAX / WIDTHS[written] + 1, 7));
}

/* A stack that is too tall: packing and the builders do not look at it. */
static void too_tall(const Function *f)
{
    Call c = accepted(f);
    spoil(f, &c, 12);
    report("too tall", f->name, "", "", f->refuses & BIT(12) ? refused(f, &c, 12) : answered(f, &c));
}

/* Lists that are only read may be one, and a list that the call does not take may lie in one that it writes. */
static void shared(const Function *f)
{
    Call c = accepted(f);
    c.lists[GOAL].at = c.lists[START].at;
    c.lists[GIVEN].at = c.lists[END].at;
    bool holds = answered(f, &c);
    for (int i = 0; i < LISTS; i++)
        if (!(f->takes & BIT(i))) {
            c = accepted(f);
            c.lists[i].at = c.lists[f->writes & BIT(RESULT) ? RESULT : STEPS].at;
            holds = answered(f, &c) && holds;
        }
    report("shared", f->name, "lists", "", holds);
}

static void lists_of(const Function *f)
{
    Call c = accepted(f);
    report("accepted", f->name, "", "", answered(f, &c));
    too_tall(f);
    shared(f);
    for (int list = 0; list < LISTS; list++) {
        if (!(f->takes & BIT(list)))
            continue;
        null(f, list);
        empty(f, list);
        if (WIDTHS[list] > 1)
            not_aligned(f, list);
        if (!(f->writes & BIT(list)))
            continue;
        endless(f, list);
        for (int other = 0; other < LISTS; other++)
            if (other != list && f->takes & BIT(other))
                overlapping(f, list, other);
    }
}

/* No question, no lists. */
static void nothing(void)
{
    const Function *f = &FUNCTIONS[0];
    Call c = accepted(f);
    NimskerfQuestion q = question_of(&c);
    NimskerfCost ceiling = {0, 0};
    uint16_t *steps = (void *)c.lists[STEPS].at;
    unsigned char *result = c.lists[RESULT].at, *popped = c.lists[POPPED].at, *end = c.lists[END].at;
    NimskerfLists lists = {
        steps, 128, (void *)c.lists[NODES].at, c.lists[NODES].len, (void *)c.lists[HEADS].at, c.lists[HEADS].len,
        (void *)c.lists[OPEN].at, c.lists[OPEN].len};
    report("no question", "plan", "", "", nimskerf_plan(NULL, &lists).refusal == 4);
    report("no question", "replay", "", "", nimskerf_replay(NULL, steps, 2, result, 21, popped, 2).refusal == 4);
    NimskerfRewound rewound = nimskerf_rewind(NULL, end, 3, steps, 2, popped, 1, result, 21);
    report("no question", "rewind", "", "", rewound.refusal == 4);
    report("no question", "mark", "", "", nimskerf_mark(NULL, steps, 2, ceiling).refusal == 4);
    report("no question", "mark, too many steps", "", "", nimskerf_mark(NULL, many, MANY, ceiling).refusal == 3);
    report("no question", "star_swap", "", "", nimskerf_star_swap(NULL, steps, 128).refusal == 5);
    report("no question", "delete_tail", "", "", nimskerf_delete_tail(NULL, steps, 128).refusal == 5);
    report("no lists", "plan", "", "", nimskerf_plan(&q, NULL).refusal == 7);
    q.goal_len = 22;
    memset(memory[GOAL] + ROOM / 2, 1, 22);
    report("no lists", "plan, a long goal", "", "", nimskerf_plan(&q, NULL).refusal == 6);
    q.beneath = NIMSKERF_STACK_LEN - 2;
    report("no lists", "plan, a long goal, too tall", "", "", nimskerf_plan(&q, NULL).refusal == 12);
    report("no question, no lists", "plan", "", "", nimskerf_plan(NULL, NULL).refusal == 4);
}

/* No steps need no popped list: one that counts as empty will do, and nothing is written there. */
static void no_steps(void)
{
    static const int others[] = {START, KINDS, POPPED};
    const Function *f = &FUNCTIONS[1];
    Call c;
    for (size_t i = 0; i < sizeof others / sizeof *others; i++) {
        c = with(f, CODES, NULL, 0);
        c.lists[POPPED].at = c.lists[others[i]].at;
        memcpy(before, memory, sizeof memory);
        memcpy(before[RESULT] + ROOM / 2, "\0\1\2", 3);
        bool holds = answered(f, &c) && memcmp(before, memory, sizeof memory) == 0;
        report("no steps", f->name, NAMES[POPPED], NAMES[others[i]], holds);
    }
    c = with(f, CODES, NULL, 0);
    c.lists[POPPED].at = NULL;
    report("no steps", f->name, NAMES[POPPED], "NULL", answered(f, &c));
    c = with(f, POPPED, NULL, 1);
    c.lists[CODES].len = 1;
    report("one step", f->name, NAMES[POPPED], "NULL", refused(f, &c, 7));
    c = with(f, CODES, NULL, 0);
    c.lists[POPPED].at = c.lists[RESULT].at;
    report("no steps", f->name, NAMES[POPPED], NAMES[RESULT], refused(f, &c, 7));
}

/* How many Pops: none in a list that cannot be read. */
static void pops(void)
{
    static const uint16_t codes[] = {0, 256, 0, 1, 0, 65535, 0};
    static alignas(2) const unsigned char zeros[8];
    report("pops", "codes", "", "", nimskerf_pops(codes, 7) == 4 && nimskerf_pops(codes + 1, 4) == 2);
    report("pops", "many", "", "", nimskerf_pops(many, MANY) == MANY);
    report("pops", "aligned", "", "", nimskerf_pops((const void *)zeros, 3) == 3);
    report("pops", "not aligned", "", "", nimskerf_pops((const void *)(zeros + 1), 3) == 0);
    report("pops", "NULL", "", "", nimskerf_pops(NULL, 3) == 0 && nimskerf_pops(NULL, SIZE_MAX) == 0);
    report("pops", "empty", "", "", nimskerf_pops(NULL, 0) == 0 && nimskerf_pops(codes, 0) == 0);
}

int main(void)
{
    for (size_t i = 0; i < sizeof FUNCTIONS / sizeof *FUNCTIONS; i++)
        lists_of(&FUNCTIONS[i]);
    nothing();
    no_steps();
    pops();
    return failures != 0;
}
