/* Plans the traces named on the command line on four threads at once, and says how much stack a call took at most.
 *
 * Each thread has words of its own and a stack that is filled before, so that what a call overwrote can be seen. The words
 * have to be those of a call that runs alone, and the stack no more than the header says. */
#define _DEFAULT_SOURCE

#include "gpu_planner.h"

#include <pthread.h>
#include <stdio.h>
#include <stdlib.h>
#include <string.h>
#include <sys/mman.h>

#define THREADS 4
#define STACK_BYTES (4u << 20)
#define UNTOUCHED 0xA5
#define KEPT 65537

struct trace {
    uint8_t *bytes;
    size_t length;
    uint64_t words[PLANNER_RUN_WORDS];
};

struct work {
    struct trace *traces;
    int number;
    int wrong;
    uint8_t *stack;
};

static void stop(const char *what)
{
    fprintf(stderr, "threads: %s\n", what);
    exit(1);
}

static void read_trace(struct trace *trace, const char *name)
{
    FILE *file = fopen(name, "rb");
    trace->bytes = malloc(KEPT);
    if (file == NULL || trace->bytes == NULL)
        stop(name);
    trace->length = fread(trace->bytes, 1, KEPT, file);
    fclose(file);
    planner_run(trace->bytes, trace->length, trace->words, PLANNER_RUN_WORDS);
}

static void *plan_all(void *all)
{
    struct work *work = all;
    uint64_t *words = calloc(PLANNER_RUN_WORDS, sizeof *words);
    if (words == NULL)
        stop("no memory");
    for (int i = 0; i < work->number; i++) {
        struct trace *trace = &work->traces[i];
        memset(words, 0, PLANNER_RUN_WORDS * sizeof *words);
        planner_run(trace->bytes, trace->length, words, PLANNER_RUN_WORDS);
        work->wrong += memcmp(words, trace->words, PLANNER_RUN_WORDS * sizeof *words) != 0;
    }
    free(words);
    return NULL;
}

static pthread_t start(struct work *work)
{
    pthread_attr_t attributes;
    pthread_t thread;
    work->stack = mmap(NULL, STACK_BYTES, PROT_READ | PROT_WRITE, MAP_PRIVATE | MAP_ANONYMOUS, -1, 0);
    if (work->stack == MAP_FAILED)
        stop("no stack");
    memset(work->stack, UNTOUCHED, STACK_BYTES);
    if (pthread_attr_init(&attributes) != 0 || pthread_attr_setstack(&attributes, work->stack, STACK_BYTES) != 0 ||
        pthread_create(&thread, &attributes, plan_all, work) != 0)
        stop("no thread");
    return thread;
}

int main(int count, char **names)
{
    static struct work works[THREADS];
    pthread_t threads[THREADS];
    size_t most = 0;
    int number = count - 1, wrong = 0;
    struct trace *traces = calloc((size_t)number + 1, sizeof *traces);
    if (traces == NULL)
        stop("no memory");
    for (int i = 0; i < number; i++)
        read_trace(&traces[i], names[i + 1]);
    for (int i = 0; i < THREADS; i++) {
        works[i] = (struct work){.traces = traces, .number = number};
        threads[i] = start(&works[i]);
    }
    for (int i = 0; i < THREADS; i++) {
        pthread_join(threads[i], NULL);
        wrong += works[i].wrong;
        size_t left = 0;
        while (left < STACK_BYTES && works[i].stack[left] == UNTOUCHED)
            left++;
        most = STACK_BYTES - left > most ? STACK_BYTES - left : most;
    }
    printf("threads: %d traces on %d threads at once, %d with other words; at most %zu bytes of stack, %d are said\n", number, THREADS, wrong, most,
           PLANNER_STACK_BYTES);
    return wrong != 0 || most > PLANNER_STACK_BYTES;
}
