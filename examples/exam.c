/* Asks a question, plans, marks a right, a dear, a wrong and a forbidden answer, and walks back through one of them.
 *
 *     cc exam.c $(pkg-config --cflags --libs nimskerf) -o exam
 */
#include <nimskerf.h>

#include <stdio.h>
#include <string.h>

static void print_step(uint16_t step)
{
    printf(" %s", nimskerf_step_word(step));
    if (nimskerf_step_kind(step) != NIMSKERF_STEP_POP)
        printf(" %u", (unsigned)nimskerf_step_operand(step));
}

static void print_steps(const char *whose, const uint16_t *steps, size_t count)
{
    printf("%s:", whose);
    for (size_t i = 0; i < count; i++) {
        printf("%s", i == 0 ? "" : ",");
        print_step(steps[i]);
    }
    printf("\n");
}

static void print_highest(size_t highest)
{
    printf("  At its highest the window had %zu keys.\n", highest);
}

static void mark(const NimskerfQuestion *question, NimskerfCost pass_mark, const uint16_t *answer, size_t count)
{
    NimskerfMarked marked = nimskerf_mark(question, answer, count, pass_mark);
    print_steps("An answer", answer, count);
    if (marked.refusal != NIMSKERF_REFUSAL_NONE) {
        printf("  Step %zu: %s\n", marked.index, nimskerf_refusal_text(marked.refusal));
        return;
    }
    printf("  %s\n", nimskerf_mark_text(marked.mark));
    print_highest(marked.highest);
}

static void print_window(const uint8_t *window, size_t length)
{
    printf(":");
    for (size_t i = 0; i < length; i++)
        printf(" %u", (unsigned)window[i]);
    printf("\n");
}

/* Replays an answer of at most 8 steps, then takes back a step at a time. */
static void walk_back(const NimskerfQuestion *question, const uint16_t *answer, size_t count)
{
    uint8_t after[NIMSKERF_RESULT_LEN], before[NIMSKERF_RESULT_LEN], popped[8];
    NimskerfReplayed replayed = nimskerf_replay(
        question, answer, count, after, sizeof after, popped, sizeof popped);
    print_steps("Back through an answer", answer, count);
    if (replayed.refusal != NIMSKERF_REFUSAL_NONE) {
        printf("  %s\n", nimskerf_refusal_text(replayed.refusal));
        return;
    }
    size_t length = replayed.length;
    printf("  at the end");
    print_window(after, length);
    for (size_t left = count; left > 0; left--) {
        const uint16_t *step = &answer[left - 1];
        const uint8_t *key = &popped[nimskerf_pops(answer, left - 1)];
        length = nimskerf_rewind(
            question, after, length, step, 1, key, nimskerf_pops(step, 1), before, sizeof before).length;
        printf("  before");
        print_step(*step);
        print_window(before, length);
        memcpy(after, before, length);
    }
}

int main(void)
{
    static const uint8_t start[] = {0, 1, 2}, goal[] = {0};
    static uint16_t steps[NIMSKERF_STEPS_LEN(NIMSKERF_DEFAULT_EXPANSIONS)];
    static uint64_t nodes[NIMSKERF_NODES_LEN(NIMSKERF_DEFAULT_STATES)];
    static uint64_t heads[NIMSKERF_HEADS_LEN(NIMSKERF_DEFAULT_STATES)];
    static uint64_t open[NIMSKERF_OPEN_LEN(NIMSKERF_DEFAULT_STATES)];
#define LIST(list) list, sizeof list / sizeof *list
    const NimskerfLists lists = {LIST(steps), LIST(nodes), LIST(heads), LIST(open)};

    NimskerfQuestion question = nimskerf_question();
    question.start = start;
    question.start_len = sizeof start;
    question.goal = goal;
    question.goal_len = sizeof goal;

    NimskerfAnswer answer = nimskerf_plan(&question, &lists);
    if (answer.refusal != NIMSKERF_REFUSAL_NONE || !answer.found) {
        printf("No plan: %s\n", nimskerf_refusal_text(answer.refusal));
        return 1;
    }
    print_steps("The plan", steps, answer.step_count);
    printf("  %s\n  %s\n", nimskerf_origin_text(answer.origin), nimskerf_ending_text(answer.ending));
    print_highest(answer.highest);
    printf("The pass mark: %u gas, %u bytes\n", (unsigned)answer.ceiling.gas, (unsigned)answer.ceiling.bytes);

    const uint16_t pop = nimskerf_step(NIMSKERF_STEP_POP, 0), swap2 = nimskerf_step(NIMSKERF_STEP_SWAP, 2);
    const uint16_t dup0 = nimskerf_step(NIMSKERF_STEP_DUP, 0), swap3 = nimskerf_step(NIMSKERF_STEP_SWAP, 3);
    const uint16_t dup9 = nimskerf_step(NIMSKERF_STEP_DUP, 9);
    const uint16_t right[] = {swap2, pop, pop}, dear[] = {dup0, swap3, pop, pop, pop}, wrong[] = {pop, pop};
    const uint16_t not_allowed[] = {pop, dup9};
    mark(&question, answer.ceiling, LIST(right));
    mark(&question, answer.ceiling, LIST(dear));
    mark(&question, answer.ceiling, LIST(wrong));
    mark(&question, answer.ceiling, LIST(not_allowed));
    walk_back(&question, LIST(dear));
    return 0;
}
