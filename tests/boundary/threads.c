/* Several threads at once, each with a record of its own and little stack: each gets what the document says. */
#define _POSIX_C_SOURCE 200809L
#include "check.h"
#include <pthread.h>
#include <stdio.h>
#include <string.h>

#define THREADS 4
#define RUNS 200

/* A call takes less than 64 KB of stack; the rest is for the thread itself and for a search's record and texts. */
#define STACK (64 * 1024 + 16 * 1024)

/* The four tasks of the source on reservation tables: starts 0, 3, 1, 2, latency 5, 27 nodes. */
static const char TASKS[] = "A0010400\nA1040003000000080000\nA10200030000\nA1040003000000080000\nA103000500000001\n";
static const char PLAN[] = "B0010400050000001B\nB1000000\nB1010003\nB1020001\nB1030002\n";

typedef struct work {
    pthread_t thread;
    uint32_t budget;
    int right;
} work;

/* 1 if a text was written and is the one due. */
static int written(planner_text text, const uint8_t *buffer, const char *due) {
    return text.refusal == 0 && text.length == strlen(due) && memcmp(buffer, due, text.length) == 0;
}

/* One search in small budgets, with both texts at its end and its plan judged: 1 if it comes out as the document has it. */
static int search(uint32_t budget) {
    static const uint16_t due[4] = {0, 3, 1, 2};
    planner_record record;
    planner_answer answer;
    uint16_t starts[4];
    uint8_t plan[PLANNER_PLAN_TEXT], batch[sizeof TASKS];
    if (open_text(TASKS, &record) != 0)
        return 0;
    do
        answer = planner_run(&record, budget, starts, 4);
    while (answer.kind == PLANNER_SPENT);
    return answer.kind == PLANNER_PLAN && answer.latency == 5 && answer.total == 27 && memcmp(starts, due, sizeof due) == 0 &&
           written(planner_write_plan(&record, plan, sizeof plan), plan, PLAN) &&
           written(planner_write_batch(&record, batch, sizeof batch), batch, TASKS) &&
           planner_judge(batch, strlen(TASKS), plan, strlen(PLAN)) == 0;
}

/* A chain of 24 jobs, each 10 ticks after the one before: every round but the last raises a start, and there are 24. The last may not be later. */
static int chain(const char *file) {
    planner_record record;
    uint16_t starts[PLANNER_JOBS];
    planner_answer answer;
    int k;
    if (open_text(file, &record) != 0)
        return 0;
    answer = planner_run(&record, 1, starts, PLANNER_JOBS);
    for (k = 0; k < PLANNER_JOBS; k++)
        if (answer.kind != PLANNER_PLAN || starts[k] != 10 * k)
            return 0;
    return answer.latency == 231 && answer.total == 1;
}

static char long_file[ROOM];

/* The file of the chain: station k % 16 for job k, no two of one station within 16 ticks. */
static void write_chain(void) {
    char *end = long_file + sprintf(long_file, "A0021817\n");
    int k;
    for (k = 0; k < PLANNER_JOBS; k++)
        end += sprintf(end, "A101%04X\n", 1u << k % 16);
    for (k = 1; k < PLANNER_JOBS; k++)
        end += sprintf(end, "A2%02X%02X000A\n", k - 1, k);
    sprintf(end, "A317000000E6\n");
}

static void *searches(void *given) {
    work *mine = given;
    int k;
    mine->right += chain(long_file);
    for (k = 0; k < RUNS; k++)
        mine->right += search(mine->budget);
    return NULL;
}

void check_threads(void) {
    pthread_attr_t little;
    work all[THREADS];
    int k;
    begin("four threads of 80 KB of stack with 201 searches each, one of 24 rounds");
    write_chain();
    same(pthread_attr_init(&little), 0);
    same(pthread_attr_setstacksize(&little, STACK), 0);
    for (k = 0; k < THREADS; k++) {
        all[k].budget = (uint32_t)k + 1;
        all[k].right = 0;
        same(pthread_create(&all[k].thread, &little, searches, &all[k]), 0);
    }
    for (k = 0; k < THREADS; k++) {
        same(pthread_join(all[k].thread, NULL), 0);
        same(all[k].right, RUNS + 1);
    }
}
