/* The proved GPU planner as a library: a whole trace planned by one call, or a plan taken on step by step.
 *
 * Link target/staticlib/libgpu_planner.a, which `library/archive` writes; it links into x86-64 Linux programs alone.
 * The library keeps nothing between calls, takes no memory from the system, reads and writes no file, and changes no word but
 * those lent to it. Calls may run at the same time on several threads, each with words of its own. */
#ifndef GPU_PLANNER_H
#define GPU_PLANNER_H

#include <stddef.h>
#include <stdint.h>

#ifdef __cplusplus
extern "C" {
#endif

/* The stack that a call takes at most, in bytes: measured, not proved. A thread with a smaller one, as musl's 128 KiB, is ended by
 * a fault when it calls; the 8 MiB of a main thread and the 2 MiB of Rust's threads are enough. */
#define PLANNER_STACK_BYTES 786432

/* ---- a whole trace in one call */

/* The words that planner_run has to be lent: the head, four words for each decision that a trace can bring about, and what the
 * last step asks for. */
#define PLANNER_RUN_WORDS 5128

/* The head: what stands in the first words after a run. */
#define PLANNER_ANSWER 0    /* the answer, the same number that planner_run returns */
#define PLANNER_PLACE 1     /* after the answers 1 to 9 the byte of the trace that shows the cause, counted from 0; else 0 */
#define PLANNER_STEPS 2     /* how many steps were taken; each takes one event */
#define PLANNER_DECISIONS 3 /* how many decisions follow */
#define PLANNER_HEAD 4      /* where the first decision stands */

/* A decision is four words, and the next follows at once. */
#define PLANNER_TIME 0      /* seconds, as the bits of a double: from 0.0 to 2^40, never a NaN, never -0.0 */
#define PLANNER_KIND 1      /* one of the kinds below */
#define PLANNER_JOB 2       /* the job: how many job records stand before its own in the trace */
#define PLANNER_OTHER 3     /* what the kind says */
#define PLANNER_DECISION 4  /* the words of a decision */

/* The kinds, and what the fourth word of each says. */
#define PLANNER_ARRIVED 1   /* the job arrives and waits; 0 */
#define PLANNER_FAILED 2    /* the gang job waited longer than its timeout and is given up; 0 */
#define PLANNER_COMPLETED 3 /* the job is done; the GPUs or, with a profile, slices that it gives back */
#define PLANNER_EVICTED 4   /* the job makes way and waits again; the job that it makes way for */
#define PLANNER_STARTED 5   /* the job starts at the time; its GPUs or, with a profile, its slices */

/* The answers. After 1 to 9 the trace was not loaded: there is no step and no decision. The README says what to do about each. */
#define PLANNER_PLANNED 0       /* planned to its end; a job that still waits waits for ever */
#define PLANNER_CUT_SHORT 1     /* the trace stops in the middle of a record, or without an end record; the place is its length */
#define PLANNER_NUMBER 2        /* a number is longer than it has to be, or does not fit 64 bits */
#define PLANNER_RECORD 3        /* a record has a kind over 6 */
#define PLANNER_RANGE 4         /* a field is out of its range */
#define PLANNER_NO_NODE 5       /* a GPU comes before any node */
#define PLANNER_TWICE 6         /* options, the quota of a tenant or a profile is there a second time */
#define PLANNER_FULL 7          /* the 33rd node, 129th GPU or 129th job */
#define PLANNER_BYTES_AFTER 8   /* bytes follow the end record */
#define PLANNER_TOO_LONG 9      /* the trace has over 65,536 bytes */
#define PLANNER_SHORT_WORDS 10  /* fewer than PLANNER_RUN_WORDS words were lent; no word was written, not even the answer */
#define PLANNER_NOT_PERMITTED 12 /* a step would have to keep a number over 2^40; what was decided before it stands */

/* Plans the trace of trace_len bytes to its end, and writes head and decisions to the words_len words lent. Returns the answer.
 *
 * Any bytes may be handed in, and any number of them: what is wrong with a trace is answered. The caller sees to the pointers:
 * - trace points to trace_len bytes, words to words_len words of 8 bytes, aligned as a uint64_t; the two do not overlap, and
 *   nothing else writes them during the call;
 * - neither is null, also where its length is 0.
 * The bytes of the trace are only read. Of the words, those behind the last decision are left as they were. */
uint64_t planner_run(const uint8_t *trace, size_t trace_len, uint64_t *words, size_t words_len);

/* ---- a step at a time */

/* A plan, lent to each call: 47,768 bytes, aligned as a uint64_t. Set it to zero before its first load, and after that hand in only
 * what a call left in it: nothing else writes it. Its bytes between the fields may change, so that memcmp says nothing. */
typedef struct {
    uint64_t words[5971];
} planner_plan;

/* The words that a step has to be lent: four for each of 129 decisions. */
#define PLANNER_STEP_WORDS 516

/* Further answers of these calls. */
#define PLANNER_NO_EVENT 11 /* of a step: no event is left */
#define PLANNER_NO_JOB 13   /* of the question: there is no job of that number */

/* Each call returns one word: the answer in its upper half, 0 where it is no refusal, and a value in its lower half. */
#define PLANNER_WORD_ANSWER(word) ((uint64_t)(word) >> 32)
#define PLANNER_WORD_VALUE(word) ((uint64_t)(word) & 0xffffffff)

/* Makes a plan of the trace. Refused by 1 to 9, the value is the place and the plan is the empty one. */
uint64_t planner_load(const uint8_t *trace, size_t trace_len, planner_plan *plan);

/* Takes the next event. The value is the number of decisions, which stand in front of the words, four words each. Refused by 10, 11
 * or 12, it changes neither the plan nor a word. */
uint64_t planner_step(planner_plan *plan, uint64_t *words, size_t words_len);

/* Whether a job could be placed now: the value is 1 for yes and 0 for no. */
uint64_t planner_can_place(const planner_plan *plan, size_t job);

#ifdef __cplusplus
}
#endif

#endif
