/* The functions of nimskerf.h that plan nothing: the desk's question, step codes, sentences, the version. */
#include "nimskerf.h"

#define TIMES4(...) __VA_ARGS__, __VA_ARGS__, __VA_ARGS__, __VA_ARGS__
#define TIMES16(...) TIMES4(TIMES4(__VA_ARGS__))
#define TIMES32(...) TIMES16(__VA_ARGS__), TIMES16(__VA_ARGS__)
#define TIMES31(...) TIMES16(__VA_ARGS__), TIMES4(TIMES3(__VA_ARGS__)), TIMES3(__VA_ARGS__)
#define TIMES3(...) __VA_ARGS__, __VA_ARGS__, __VA_ARGS__

/* Keys 0 to 31, key 32, keys 33 to 63. */
static const uint8_t DESK_KINDS[NIMSKERF_KINDS_LEN] = {
    TIMES32(NIMSKERF_KIND_VALUE), NIMSKERF_KIND_ZERO, TIMES31(NIMSKERF_KIND_IMMEDIATE)};

/* Gas, bytes. */
#define POP_PRICE 2, 1
#define DUP_PRICE 3, 1
#define SWAP_PRICE 3, 1
#define VALUE_PRICE 6, 3
#define ZERO_PRICE 2, 1
#define IMMEDIATE_PRICE 3, 2

static const uint32_t DESK_PRICES[NIMSKERF_PRICES_LEN] = {
    POP_PRICE,
    TIMES16(DUP_PRICE),
    TIMES16(SWAP_PRICE), SWAP_PRICE,
    TIMES32(VALUE_PRICE), ZERO_PRICE, TIMES31(IMMEDIATE_PRICE)};

NimskerfQuestion nimskerf_question(void)
{
    return (NimskerfQuestion){
        .start = NULL, .start_len = 0,
        .goal = NULL, .goal_len = 0,
        .dup_max = NIMSKERF_DUP_MAX, .swap_max = NIMSKERF_SWAP_MAX, .max_len = NIMSKERF_MAX_LEN,
        .max_expansions = NIMSKERF_DEFAULT_EXPANSIONS,
        .states_without = NIMSKERF_DEFAULT_STATES, .states_with = NIMSKERF_DEFAULT_STATES,
        .kinds = DESK_KINDS, .kinds_len = NIMSKERF_KINDS_LEN,
        .prices = DESK_PRICES, .prices_len = NIMSKERF_PRICES_LEN,
        .beneath = 0};
}

uint16_t nimskerf_step(uint32_t kind, uint32_t operand)
{
    return kind < 256 && operand < 256 ? (uint16_t)(kind * 256 + operand) : NIMSKERF_NO_STEP;
}

uint32_t nimskerf_step_kind(uint16_t code)
{
    return code >> 8;
}

uint32_t nimskerf_step_operand(uint16_t code)
{
    return code & 255;
}

/* The text of a number: texts has `count` of them, then one for every other number. */
static const char *text_of(const char *const *texts, uint32_t count, uint32_t number)
{
    return texts[number < count ? number : count];
}

#define TEXT_OF(texts, number) text_of(texts, sizeof texts / sizeof *texts - 1, number)

const char *nimskerf_step_word(uint16_t code)
{
    static const char *const WORDS[] = {"pop", "dup", "swap", "push", "load", "no step"};
    /* A Pop with an operand is no step. */
    return TEXT_OF(WORDS, code < 256 && code != 0 ? NIMSKERF_NO_STEP : nimskerf_step_kind(code));
}

const char *nimskerf_refusal_text(uint32_t refusal)
{
    static const char *const TEXTS[] = {
        "The call is accepted.",
        "A reach is too wide: dup_max is over 16 or swap_max is over 17.",
        "The window is too tall: max_len is over 21.",
        "There is too much to do: an allowance is over 65,536, or there are more than 65,536 steps.",
        "A table is wrong: kinds must be 64 numbers up to 2 with at most one 2, prices 196 numbers up to 30,000.",
        "A key is 64 or more.",
        "A window is too long for the question or the call.",
        "A list that the call writes is too short, or shares memory with another list.",
        "A step is not allowed.",
        "No Swaps within reach turn start into goal.",
        "Goal is not a strictly shorter prefix of start, or start is longer than swap_max.",
        "No start leads through the steps to the end with these keys popped.",
        "The stack is too tall: the items beneath and the window are over 1,024.",
        "No refusal has this number."};
    return TEXT_OF(TEXTS, refusal);
}

const char *nimskerf_origin_text(uint32_t origin)
{
    static const char *const TEXTS[] = {
        "There is no plan, or nothing to do.",
        "The plan is the builder delete-tail's.",
        "The plan is the builder dup-and-star's.",
        "The plan was found by the search.",
        "No origin has this number."};
    return TEXT_OF(TEXTS, origin);
}

const char *nimskerf_ending_text(uint32_t ending)
{
    static const char *const TEXTS[] = {
        "Start equals goal.",
        "No search was asked for: max_expansions is 0.",
        "The search had nothing left to try.",
        "Nothing that the search had left to try could be better.",
        "The search reached its allowance of states.",
        "The search reached its allowance of expansions.",
        "No ending has this number."};
    return TEXT_OF(TEXTS, ending);
}

const char *nimskerf_mark_text(uint32_t mark)
{
    static const char *const TEXTS[] = {
        "The steps reach the goal at no more than the ceiling.",
        "The steps end elsewhere.",
        "The steps reach the goal above the ceiling.",
        "No mark has this number."};
    return TEXT_OF(TEXTS, mark);
}

const char *nimskerf_version(void)
{
    return NIMSKERF_VERSION;
}
