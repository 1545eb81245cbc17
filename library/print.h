/* What both examples have: the input that is kept, and a decision as the program `plan` prints it. */
#ifndef PRINT_H
#define PRINT_H

#include "gpu_planner.h"

#include <inttypes.h>
#include <stdio.h>

/* One byte over what a trace may have is enough to refuse it by. */
#define KEPT 65537

static const char *const kinds[] = {
    [PLANNER_ARRIVED] = "arrived",
    [PLANNER_FAILED] = "failed",
    [PLANNER_COMPLETED] = "completed",
    [PLANNER_EVICTED] = "evicted",
    [PLANNER_STARTED] = "started",
};

/* The fourth word of an arrival and of a failure says nothing, and is not printed. */
static void print_decision(const uint64_t *words)
{
    uint64_t kind = words[PLANNER_KIND];
    printf("%016" PRIx64 " %s %" PRIu64, words[PLANNER_TIME], kinds[kind], words[PLANNER_JOB]);
    if (kind != PLANNER_ARRIVED && kind != PLANNER_FAILED)
        printf(" %" PRIu64, words[PLANNER_OTHER]);
    putchar('\n');
}

#endif
