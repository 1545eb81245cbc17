/* Plans the trace on standard input step by step and prints its lines: what the program `plan` prints. */
#include "print.h"

/* The steps until one is refused; the refusal. */
static uint64_t take_steps(planner_plan *plan, uint64_t *steps)
{
    static uint64_t words[PLANNER_STEP_WORDS];
    uint64_t told;
    while (PLANNER_WORD_ANSWER(told = planner_step(plan, words, PLANNER_STEP_WORDS)) == 0) {
        for (uint64_t i = 0; i < PLANNER_WORD_VALUE(told); i++)
            print_decision(&words[PLANNER_DECISION * i]);
        *steps += 1;
    }
    return PLANNER_WORD_ANSWER(told);
}

int main(void)
{
    static uint8_t trace[KEPT];
    static planner_plan plan; /* zeros, as its first load asks */
    uint64_t steps = 0;

    size_t length = fread(trace, 1, sizeof trace, stdin);
    uint64_t loaded = planner_load(trace, length, &plan);
    if (PLANNER_WORD_ANSWER(loaded) != 0) {
        printf("refused %" PRIu64 " at %" PRIu64 "\n", PLANNER_WORD_ANSWER(loaded), PLANNER_WORD_VALUE(loaded));
    } else {
        uint64_t refusal = take_steps(&plan, &steps);
        if (refusal == PLANNER_NO_EVENT)
            printf("end %" PRIu64 "\n", steps);
        else
            printf("refused %" PRIu64 "\n", refusal);
    }
    if (ferror(stdin) || fflush(stdout) != 0) {
        perror("steps");
        return 1;
    }
    return 0;
}
