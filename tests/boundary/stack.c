/* How much stack each call takes, read off a stack that was full of one byte before the call. What a call only reserves and never writes to does
 * not show; its frames are touched page by page. */
#define _POSIX_C_SOURCE 200809L
#include "check.h"
#include <pthread.h>
#include <stdio.h>
#include <stdlib.h>
#include <string.h>

/* What the header promises of every call, and a stack with room for four times as much. */
#define PROMISED (64 * 1024)
#define PAINTED (4 * PROMISED)
#define PAINT 0xA5
#define PAGE 4096

/* A plan text of about 1 MB: a line of 19 bytes and lines of 9. */
#define LARGE (19 + 9 * 116506)

static uint8_t file[ROOM], text[ROOM], large[LARGE];
static size_t length;
static uint16_t starts[PLANNER_JOBS];
static planner_record record;

/* The text that is judged. */
static const uint8_t *plan;
static size_t plan_length;

/* What the calls answered. */
static uint8_t opened, judged;
static planner_answer answer;
static planner_text written;

/* The calls, each as a thread makes it, and none: what a thread takes by itself. */
static void *none(void *given) {
    return given;
}

static void *opening(void *given) {
    opened = planner_open(file, length, &record);
    return given;
}

static void *running(void *given) {
    answer = planner_run(&record, 1000, starts, PLANNER_JOBS);
    return given;
}

static void *writing_plan(void *given) {
    written = planner_write_plan(&record, text, sizeof text);
    return given;
}

static void *writing_batch(void *given) {
    written = planner_write_batch(&record, text, sizeof text);
    return given;
}

static void *judging(void *given) {
    judged = planner_judge(file, length, plan, plan_length);
    return given;
}

/* The bytes from the top of a thread's stack down to the lowest that it wrote to. */
static long taken(void *(*call)(void *)) {
    pthread_attr_t painted;
    pthread_t thread;
    void *memory = NULL;
    uint8_t *stack;
    long k = 0;
    same(posix_memalign(&memory, PAGE, PAINTED), 0);
    if (memory == NULL)
        return 0;
    stack = memory;
    memset(stack, PAINT, PAINTED);
    same(pthread_attr_init(&painted), 0);
    same(pthread_attr_setstack(&painted, stack, PAINTED), 0);
    if (pthread_create(&thread, &painted, call, NULL) == 0)
        same(pthread_join(thread, NULL), 0);
    while (k < PAINTED && stack[k] == PAINT)
        k++;
    free(memory);
    return PAINTED - k;
}

/* A call takes something, and less than the header promises. */
static long call_takes(void *(*call)(void *)) {
    long more = taken(call) - taken(none);
    same(more > 0 && more < PROMISED, 1);
    return more;
}

/* A batch at the limits of jobs, ticks, delays, windows and rests. The windows say nothing that the delays do not. The delays are a chain of all jobs, so that each round but the last raises a start; no job holds
 * a station. With a ring, the last job is 229 ticks after the first at most and 230 at least, so that every round raises a start and none are least. */
static plain chain(int ring) {
    plain batch = idle(PLANNER_JOBS, PLANNER_TICKS, PLANNER_DELAYS);
    int k;
    for (k = 0; k < PLANNER_DELAYS; k++) {
        batch.from[k] = k % (PLANNER_JOBS - 1);
        batch.to[k] = batch.from[k] + 1;
        batch.weight[k] = 10;
    }
    for (k = 0; k < PLANNER_JOBS; k++)
        give_window(&batch, k, k, 60000);
    for (k = 0; k < PLANNER_STATIONS; k++)
        give_rest(&batch, k, PLANNER_REST);
    if (ring) {
        batch.from[0] = PLANNER_JOBS - 1;
        batch.to[0] = 0;
        batch.weight[0] = -229;
    }
    return batch;
}

/* The document's batch of 1,024 clashes: 11 jobs, none of them longer than 16 ticks. */
static plain crowded(void) {
    plain batch = idle(11, 16, 0);
    int i, a;
    batch.ticks[8] = 1;
    batch.ticks[10] = 13;
    for (i = 0; i < 11; i++)
        for (a = 0; a < batch.ticks[i]; a++)
            batch.masks[i][a] = i < 9 ? 1 : 2;
    return batch;
}

/* The plan text of that batch's jobs one after the other, 16 ticks each; its length. */
static size_t one_by_one(uint8_t *into) {
    char *out = (char *)into;
    int i;
    out += sprintf(out, "B0010B%04X00000001\n", 16 * 10 + 13);
    for (i = 0; i < 11; i++)
        out += sprintf(out, "B1%02X%04X\n", i, 16 * i);
    return (size_t)(out - (char *)into);
}

/* What judging a text takes, with the answer that is due. */
static long judging_takes(const uint8_t *given, size_t given_length, int due) {
    long bytes;
    plan = given;
    plan_length = given_length;
    bytes = call_takes(judging);
    same(judged, due);
    return bytes;
}

static void check_answered(void) {
    plain met = chain(0);
    long bytes[5];
    begin("each call takes less than 64 KB of stack");
    length = file_of(&met, file);
    bytes[0] = call_takes(opening);
    same(opened, 0);
    bytes[1] = call_takes(running);
    same_answer(answer, PLANNER_PLAN, 0, 10 * (PLANNER_JOBS - 1), 1);
    bytes[2] = call_takes(writing_plan);
    same(written.refusal, 0);
    same((long)written.length, PLANNER_PLAN_TEXT);
    bytes[3] = judging_takes(text, written.length, 0);
    bytes[4] = call_takes(writing_batch);
    same(written.refusal, 0);
    same((long)written.length, PLANNER_BATCH_TEXT);
    printf("  bytes of stack: planner_open %ld, planner_run %ld, planner_write_plan %ld, planner_judge %ld, planner_write_batch %ld\n",
           bytes[0], bytes[1], bytes[2], bytes[3], bytes[4]);
}

static void check_refused(void) {
    plain unmet = chain(1);
    long bytes[3];
    begin("and so does a call that is refused after every round");
    length = file_of(&unmet, file);
    bytes[0] = call_takes(opening);
    same(opened, PLANNER_REFUSAL_DELAYS);
    record.batch.delays[0].from = PLANNER_JOBS - 1;
    record.batch.delays[0].to = 0;
    record.batch.delays[0].weight = -229;
    bytes[1] = call_takes(running);
    same_answer(answer, PLANNER_REFUSED, PLANNER_REFUSAL_RECORD, 0, 0);
    bytes[2] = judging_takes(text, 0, PLANNER_REFUSAL_DELAYS);
    printf("  bytes of stack: planner_open %ld, planner_run %ld, planner_judge %ld\n", bytes[0], bytes[1], bytes[2]);
}

static void check_judged(void) {
    plain batch = crowded();
    size_t small = one_by_one(text), k;
    long bytes[5];
    begin("and so does judging with 1,024 clashes, refused or not, and a text of 1 MB");
    length = file_of(&batch, file);
    bytes[0] = judging_takes(text, small, 0);
    for (k = 0; k < LARGE; k++)
        large[k] = text[k < small ? k : 19 + (k - 19) % 9];
    bytes[1] = judging_takes(large, LARGE, PLANNER_REFUSAL_ORDER);
    large[LARGE - 2] = 'G';
    bytes[2] = judging_takes(large, LARGE, PLANNER_REFUSAL_FORM);
    text[9]++;
    bytes[3] = judging_takes(text, small, PLANNER_REFUSAL_INVALID);
    text[small - 9] = '\n';
    bytes[4] = judging_takes(text, small, PLANNER_REFUSAL_FORM);
    printf("  bytes of stack: planner_judge %ld where it passes, %ld and %ld with 1 MB, refused %ld and %ld\n", bytes[0], bytes[1], bytes[2], bytes[3], bytes[4]);
}

void check_stack(void) {
    check_answered();
    check_refused();
    check_judged();
}
