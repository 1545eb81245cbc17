/* Plans the trace on standard input by the library and prints its lines: what the program `plan` prints. */
#include "print.h"

static void print_last(const uint64_t *words)
{
    uint64_t answer = words[PLANNER_ANSWER];
    if (answer == PLANNER_PLANNED)
        printf("end %" PRIu64 "\n", words[PLANNER_STEPS]);
    else if (answer == PLANNER_NOT_PERMITTED)
        printf("refused %" PRIu64 "\n", answer);
    else
        printf("refused %" PRIu64 " at %" PRIu64 "\n", answer, words[PLANNER_PLACE]);
}

int main(void)
{
    static uint8_t trace[KEPT];
    static uint64_t words[PLANNER_RUN_WORDS];

    size_t length = fread(trace, 1, sizeof trace, stdin);
    if (ferror(stdin)) {
        perror("example: standard input");
        return 1;
    }
    if (planner_run(trace, length, words, PLANNER_RUN_WORDS) == PLANNER_SHORT_WORDS) {
        fprintf(stderr, "example: the library wants more than %d words: header and archive are not of one version\n", PLANNER_RUN_WORDS);
        return 1;
    }
    for (uint64_t i = 0; i < words[PLANNER_DECISIONS]; i++)
        print_decision(&words[PLANNER_HEAD + PLANNER_DECISION * i]);
    print_last(words);
    if (fflush(stdout) != 0) {
        perror("example: standard output");
        return 1;
    }
    return 0;
}
