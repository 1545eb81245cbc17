/* Holds the library to the second program on every input of libFuzzer, between pages that nobody may touch.
 *
 * Three runs of an input: the archive as delivered, the same code with counters, by which the fuzzer is guided, and the second
 * program, with counters too. All words of the three are compared, and any difference aborts. The trace is read-only during the
 * call, and trace and words stand right before or right behind a page without access, so that a wrong access ends the run. */
#define _DEFAULT_SOURCE

#include "../gpu_planner.h"

#include <stdio.h>
#include <stdlib.h>
#include <string.h>
#include <sys/mman.h>
#include <unistd.h>

typedef uint64_t run_function(const uint8_t *trace, size_t trace_len, uint64_t *words, size_t words_len);

run_function planner_covered_run;
run_function second_run;

/* The counters of our code, one an edge, and where each edge is; the linker says where they begin and end. */
struct edge {
    void *at;
    uintptr_t flags;
};
extern uint8_t planner_counters[] __asm__("__start___planner_cntrs");
extern uint8_t planner_counters_end[] __asm__("__stop___planner_cntrs");
extern struct edge planner_edges[] __asm__("__start___planner_pcs");

/* Of the sanitizer's runtime: the function that an address belongs to. */
void __sanitizer_symbolize_pc(void *at, const char *form, char *text, size_t text_bytes);

#define TRACE_BYTES 73728             /* whole pages, more than a trace may have */
#define MORE_WORDS 1016               /* lent beyond what is asked for, in some runs */
#define WORDS (PLANNER_RUN_WORDS + MORE_WORDS)
#define WORD_BYTES (WORDS * sizeof(uint64_t))
#define UNTOUCHED 0xA5A55A5AA5A55A5Au /* no word of a plan has these bits */

static uint8_t *trace_room;
static uint8_t *words_room;
static size_t words_room_bytes;
static uint64_t expected[WORDS];
static uint8_t *seen;
static uint64_t inputs, planned, refused, not_permitted, decisions, most_decisions;

static void differ(const char *what)
{
    fprintf(stderr, "library: %s\n", what);
    abort();
}

/* Whole pages between two pages without access. */
static uint8_t *guarded(size_t bytes)
{
    size_t page = (size_t)sysconf(_SC_PAGESIZE);
    uint8_t *all = mmap(NULL, bytes + 2 * page, PROT_READ | PROT_WRITE, MAP_PRIVATE | MAP_ANONYMOUS, -1, 0);
    if (all == MAP_FAILED || mprotect(all, page, PROT_NONE) != 0 || mprotect(all + page + bytes, page, PROT_NONE) != 0)
        differ("no guarded pages");
    return all + page;
}

/* Edges stand function by function. */
static size_t report_unmet(size_t edges)
{
    char function[200], last[200] = "";
    size_t met = 0, unmet = 0;
    for (size_t i = 0; i <= edges; i++) {
        if (i < edges && seen[i] != 0) {
            met++;
            continue;
        }
        if (i < edges)
            __sanitizer_symbolize_pc(planner_edges[i].at, "%f", function, sizeof function);
        if (i == edges || strcmp(function, last) != 0) {
            if (unmet > 0)
                printf("library: not met: %zu of %s\n", unmet, last);
            unmet = 0;
            memcpy(last, function, sizeof last);
        }
        unmet++;
    }
    return met;
}

static void report(void)
{
    size_t edges = (size_t)(planner_counters_end - planner_counters), met = report_unmet(edges);
    printf("library: %llu inputs: %llu planned to their end, %llu stopped by 12, %llu refused; %llu decisions, at most %llu for an input\n",
           (unsigned long long)inputs, (unsigned long long)planned, (unsigned long long)not_permitted, (unsigned long long)refused,
           (unsigned long long)decisions, (unsigned long long)most_decisions);
    printf("library: %zu of %zu edges of our code were met\n", met, edges);
}

static void prepare(void)
{
    size_t page = (size_t)sysconf(_SC_PAGESIZE);
    trace_room = guarded(TRACE_BYTES);
    words_room_bytes = (WORD_BYTES + page - 1) / page * page;
    words_room = guarded(words_room_bytes);
    seen = calloc((size_t)(planner_counters_end - planner_counters), 1);
    if (seen == NULL)
        differ("no memory");
    atexit(report);
}

static void fill(uint64_t *words, size_t number)
{
    for (size_t i = 0; i < number; i++)
        words[i] = UNTOUCHED;
}

/* Runs with so many words lent, at the end of the room or at its start, and leaves them there; all around them is untouched. */
static uint64_t *run_in_room(run_function *run, const uint8_t *trace, size_t length, size_t lent, int at_end, uint64_t *answer)
{
    uint64_t *room = (uint64_t *)(void *)words_room;
    size_t all = words_room_bytes / sizeof(uint64_t), before = at_end ? all - lent : 0;
    fill(room, all);
    *answer = run(trace, length, room + before, lent);
    for (size_t i = 0; i < all; i++)
        if ((i < before || i >= before + lent) && room[i] != UNTOUCHED)
            differ("a word outside those lent was written");
    return room + before;
}

/* Too few words: 10, and every word as it was. */
static void run_short(run_function *run, const uint8_t *trace, size_t length, size_t lent)
{
    uint64_t answer, *words = run_in_room(run, trace, length, lent, 1, &answer);
    if (answer != PLANNER_SHORT_WORDS)
        differ("too few words are not refused");
    for (size_t i = 0; i < lent; i++)
        if (words[i] != UNTOUCHED)
            differ("a word was written though there are too few");
}

static void run_same(run_function *run, const uint8_t *trace, size_t length, size_t lent, int at_end)
{
    uint64_t answer, *words = run_in_room(run, trace, length, lent, at_end, &answer);
    if (answer != expected[PLANNER_ANSWER])
        differ("the answer is not the second program's");
    if (memcmp(words, expected, lent * sizeof(uint64_t)) != 0)
        differ("the words are not the second program's");
}

static void count(void)
{
    uint64_t made = expected[PLANNER_DECISIONS];
    inputs++;
    decisions += made;
    if (made > most_decisions)
        most_decisions = made;
    if (expected[PLANNER_ANSWER] == PLANNER_PLANNED)
        planned++;
    else if (expected[PLANNER_ANSWER] == PLANNER_NOT_PERMITTED)
        not_permitted++;
    else
        refused++;
    for (uint8_t *counter = planner_counters; counter < planner_counters_end; counter++)
        seen[counter - planner_counters] |= *counter;
}

int LLVMFuzzerTestOneInput(const uint8_t *input, size_t length)
{
    if (trace_room == NULL)
        prepare();
    if (length > TRACE_BYTES)
        return -1;
    /* what is varied beside the bytes is drawn from them, so that an input says all about its run */
    size_t sum = length;
    for (size_t i = 0; i < length; i++)
        sum = sum * 31 + input[i];
    int at_end = sum / 2 % 2, trace_at_end = sum % 2;
    size_t lent = PLANNER_RUN_WORDS + (sum / 4 % 2 ? sum / 8 % (MORE_WORDS + 1) : 0);

    uint8_t *trace = trace_room + (trace_at_end ? TRACE_BYTES - length : 0);
    memcpy(trace, input, length);
    if (mprotect(trace_room, TRACE_BYTES, PROT_READ) != 0)
        differ("no read-only pages");

    fill(expected, lent);
    second_run(trace, length, expected, lent);
    run_same(planner_run, trace, length, lent, at_end);
    run_same(planner_covered_run, trace, length, lent, at_end);
    run_short(planner_run, trace, length, sum / 16 % PLANNER_RUN_WORDS);
    run_short(planner_covered_run, trace, length, sum / 16 % PLANNER_RUN_WORDS);

    if (mprotect(trace_room, TRACE_BYTES, PROT_READ | PROT_WRITE) != 0)
        differ("no writable pages");
    if (memcmp(trace, input, length) != 0)
        differ("the trace was changed");
    count();
    return 0;
}
