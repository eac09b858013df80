/* Searches whose results the documents give: the answers, the record after each run, the starts, and the memory that stays. */
#include "check.h"
#include <string.h>

/* Jobs of 16 ticks that hold station 0 in the last one, and in the first one. */
#define LAST_TICK "A1100000000000000000000000000000000000000000000000000000000000000001\n"
#define FIRST_TICK "A1100001000000000000000000000000000000000000000000000000000000000000\n"

static void opened(const char *text, room *memory) {
    fill(memory, 0xA5);
    same(open_text(text, &memory->record), 0);
}

/* One run with `count` starts out of four, filled with A5 before. The batch and all around the record stay. */
static planner_answer run_starts(room *memory, uint32_t budget, uint16_t starts[4], size_t count) {
    planner_batch before;
    planner_answer answer;
    memcpy(&before, &memory->record.batch, sizeof before);
    memset(starts, 0xA5, 4 * sizeof starts[0]);
    answer = planner_run(&memory->record, budget, starts, count);
    same_edges(memory, 0xA5);
    same_bytes(&memory->record.batch, &before, sizeof before);
    return answer;
}

static void same_starts(const uint16_t starts[4], int a, int b, int c, int d) {
    same(starts[0], a);
    same(starts[1], b);
    same(starts[2], c);
    same(starts[3], d);
}

static void same_turn(planner_turn got, int clash, int side) {
    same(got.clash, clash);
    same(got.side, side);
}

/* The first plan that the steps find, 0 and 1, has latency 4; the second, 1 and 0, has 3. */
static void check_c3(void) {
    room memory;
    planner_record *record = &memory.record;
    uint16_t starts[4];
    begin("C3 node by node: budgets 0, 1, 1, 1, and again after the end");
    opened(C3, &memory);
    same_answer(run_starts(&memory, 0, starts, 2), PLANNER_SPENT, 0, 0, 0);
    same_starts(starts, 0xA5A5, 0xA5A5, 0xA5A5, 0xA5A5);
    same_answer(run_starts(&memory, 1, starts, 2), PLANNER_SPENT, 0, 0, 1);
    same_turn(record->path[0], 0, 0);
    same_turn(record->path[1], PLANNER_EMPTY_CLASH, PLANNER_EMPTY_SIDE);
    same(record->found, 0);
    same_answer(run_starts(&memory, 1, starts, 2), PLANNER_SPENT, 0, 0, 2);
    same_turn(record->path[0], 0, 1);
    same(record->found, 1);
    same(record->latency, 4);
    same(record->starts[0], 0);
    same(record->starts[1], 1);
    same(record->ended, 0);
    same_starts(starts, 0xA5A5, 0xA5A5, 0xA5A5, 0xA5A5);
    same_answer(run_starts(&memory, 1, starts, 4), PLANNER_PLAN, 0, 3, 3);
    same_starts(starts, 1, 0, 0xA5A5, 0xA5A5);
    same_turn(record->path[0], PLANNER_EMPTY_CLASH, PLANNER_EMPTY_SIDE);
    same(record->ended, 1);
    same(record->latency, 3);
    same(record->starts[0], 1);
    same(record->starts[1], 0);
    same((long)record->total, 3);
    same_answer(run_starts(&memory, PLANNER_BUDGET, starts, 2), PLANNER_PLAN, 0, 3, 3);
    same_starts(starts, 1, 0, 0xA5A5, 0xA5A5);
}

static void check_c5(void) {
    room memory;
    uint16_t starts[4];
    begin("C5: no plan after 3 nodes, starts untouched");
    opened(C5, &memory);
    same_answer(run_starts(&memory, 2, starts, 2), PLANNER_SPENT, 0, 0, 2);
    same_answer(run_starts(&memory, 5, starts, 2), PLANNER_NO_PLAN, 0, 0, 3);
    same_starts(starts, 0xA5A5, 0xA5A5, 0xA5A5, 0xA5A5);
    same(memory.record.found, 0);
    same(memory.record.latency, 0);
    same(memory.record.ended, 1);
}

/* examples/wedding.batch: jobs 0 and 1 clash at distances 1 and 2; the delays' least starts are 0, 2, 3 and meet the second. */
static void check_wedding(void) {
    room memory;
    uint16_t starts[4];
    begin("the wedding example: the first turn, then starts 0, 3, 4 with latency 6 after 3 nodes");
    opened("A0010304\nA1040002000200080008\nA10200040008\nA10200100020\nA200010002\nA20100FFFC\nA201020001\nA20201FFFF\n", &memory);
    same_answer(run_starts(&memory, 1, starts, 3), PLANNER_SPENT, 0, 0, 1);
    same_turn(memory.record.path[0], 1, 0);
    same_answer(run_starts(&memory, PLANNER_BUDGET, starts, 3), PLANNER_PLAN, 0, 6, 3);
    same_starts(starts, 0, 3, 4, 0xA5A5);
}

static void check_large(void) {
    room memory;
    uint16_t starts[4];
    begin("C10: numbers of two bytes in starts and latency");
    opened("A0010201\nA1010001\nA1010002\nA2000103E8\n", &memory);
    same_answer(run_starts(&memory, 1, starts, 2), PLANNER_PLAN, 0, 1001, 1);
    same_starts(starts, 0, 1000, 0xA5A5, 0xA5A5);
    same(memory.record.latency, 1001);
    same(memory.record.starts[1], 1000);
    opened("A0010201\nA1010001\nA1010002\nA20001FC18\n", &memory);
    same_answer(run_starts(&memory, 1, starts, 2), PLANNER_PLAN, 0, 1, 1);
    same_starts(starts, 0, 0, 0xA5A5, 0xA5A5);
}

/* A job finishes when its last station lets go: after 1 tick of C8's two. */
static void check_c8(void) {
    room memory;
    uint16_t starts[4];
    begin("C8: an empty tick at the end does not count");
    opened(C8, &memory);
    same_answer(run_starts(&memory, 1, starts, 1), PLANNER_PLAN, 0, 1, 1);
    same_starts(starts, 0, 0xA5A5, 0xA5A5, 0xA5A5);
    same(memory.record.latency, 1);
    begin("an empty tick before a held one counts, and a job that holds none decides with its start");
    opened("A0010100\nA10400000001000000FF\n", &memory);
    same_answer(run_starts(&memory, 1, starts, 1), PLANNER_PLAN, 0, 4, 1);
    opened("A0010201\nA1010001\nA103000000000000\nA200010005\n", &memory);
    same_answer(run_starts(&memory, 1, starts, 2), PLANNER_PLAN, 0, 5, 1);
    same_starts(starts, 0, 5, 0xA5A5, 0xA5A5);
}

/* The ended record again with each budget, and a best of latency 0 that came from elsewhere: no node is below it. */
static void check_zero(void) {
    room memory;
    planner_record *record = &memory.record;
    uint16_t starts[4];
    begin("jobs that hold nothing: a plan of latency 0, and again after the end");
    opened(IDLE, &memory);
    same_answer(run_starts(&memory, 0, starts, 3), PLANNER_SPENT, 0, 0, 0);
    same(record->found, 0);
    same_answer(run_starts(&memory, 1, starts, 3), PLANNER_PLAN, 0, 0, 1);
    same_starts(starts, 0, 0, 0, 0xA5A5);
    same(record->found, 1);
    same(record->latency, 0);
    same(record->ended, 1);
    same_answer(run_starts(&memory, 0, starts, 3), PLANNER_PLAN, 0, 0, 1);
    same_answer(run_starts(&memory, PLANNER_BUDGET, starts, 3), PLANNER_PLAN, 0, 0, 1);
    same_starts(starts, 0, 0, 0, 0xA5A5);
    same(record->found, 1);
    begin("a best of latency 0 is a best: with found 1 a search ends at its next node, with found 0 it goes on");
    opened(C3, &memory);
    record->found = 1;
    record->starts[1] = 7;
    same_answer(run_starts(&memory, 1, starts, 2), PLANNER_PLAN, 0, 0, 1);
    same_starts(starts, 0, 7, 0xA5A5, 0xA5A5);
    opened(C3, &memory);
    record->starts[1] = 7;
    same_answer(run_starts(&memory, 1, starts, 2), PLANNER_SPENT, 0, 0, 1);
    same_answer(run_starts(&memory, 2, starts, 2), PLANNER_PLAN, 0, 3, 3);
}

/* examples/wedding-windows.batch: jobs 0, 1 and 3 have windows, and without any one of them the starts are others. */
static void check_windows(void) {
    room memory;
    planner_record *record = &memory.record;
    uint16_t starts[4];
    int k;
    begin("the wedding example of edition 02: starts 1, 4, 0, 3 with latency 7 after 11 nodes, as budgets share them out");
    opened(WINDOWS, &memory);
    same(record->batch.edition, 2);
    for (k = 1; k < 11; k++)
        same_answer(run_starts(&memory, 1, starts, 4), PLANNER_SPENT, 0, 0, k);
    same_answer(run_starts(&memory, 1, starts, 4), PLANNER_PLAN, 0, 7, 11);
    same_starts(starts, 1, 4, 0, 3);
    same(record->latency, 7);
    same(record->starts[1], 4);
    opened(WINDOWS, &memory);
    same_answer(run_starts(&memory, PLANNER_BUDGET, starts, 4), PLANNER_PLAN, 0, 7, 11);
    same_starts(starts, 1, 4, 0, 3);
    begin("the same in edition 01, without its windows: starts 0, 2, 2, 4 with latency 6 after 21 nodes");
    opened(WINDOWS, &memory);
    record->batch.edition = 1;
    for (k = 0; k < 4; k++) {
        record->batch.windows[k].lined = 0;
        record->batch.windows[k].earliest = 0;
        record->batch.windows[k].latest = 65535;
    }
    same_answer(run_starts(&memory, PLANNER_BUDGET, starts, 4), PLANNER_PLAN, 0, 6, 21);
    same_starts(starts, 0, 2, 2, 4);
    begin("no plan because of two windows: examples/too-late.batch");
    opened("A0020200\nA10200010001\nA1010001\nA30000000000\nA30100000001\n", &memory);
    same_answer(run_starts(&memory, 4, starts, 2), PLANNER_SPENT, 0, 0, 4);
    same_answer(run_starts(&memory, 1, starts, 2), PLANNER_NO_PLAN, 0, 0, 5);
    same_starts(starts, 0xA5A5, 0xA5A5, 0xA5A5, 0xA5A5);
    begin("what stands in places that do not count is left");
    opened(C3, &memory);
    memset(&record->batch.windows[2], 0xA5, 22 * sizeof record->batch.windows[2]);
    memset(&record->batch.jobs[2], 0xA5, 22 * sizeof record->batch.jobs[2]);
    same_answer(run_starts(&memory, 3, starts, 2), PLANNER_PLAN, 0, 3, 3);
}

/* examples/laminator.batch: jobs 0 and 1 hold station 3, which rests 2 ticks; job 0 holds it in two ticks that follow each other. */
static void check_rests(void) {
    room memory;
    planner_record *record = &memory.record;
    uint16_t starts[4];
    int k;
    begin("the example with a rest: starts 0, 4, 1 with latency 7 after 15 nodes, as budgets share them out");
    opened(RESTS, &memory);
    same(record->batch.rests[3], 2);
    for (k = 1; k < 15; k++)
        same_answer(run_starts(&memory, 1, starts, 3), PLANNER_SPENT, 0, 0, k);
    same_answer(run_starts(&memory, 1, starts, 3), PLANNER_PLAN, 0, 7, 15);
    same_starts(starts, 0, 4, 1, 0xA5A5);
    opened(RESTS, &memory);
    same_answer(run_starts(&memory, PLANNER_BUDGET, starts, 3), PLANNER_PLAN, 0, 7, 15);
    same_starts(starts, 0, 4, 1, 0xA5A5);
    begin("the same without its rest: starts 0, 2, 1 with latency 5 after 7 nodes");
    opened(RESTS, &memory);
    record->batch.rests[3] = 0;
    same_answer(run_starts(&memory, PLANNER_BUDGET, starts, 3), PLANNER_PLAN, 0, 5, 7);
    same_starts(starts, 0, 2, 1, 0xA5A5);
    begin("distances 22 and -22 are clashes of a rest of 7, distances 23 and -23 are not");
    opened("A0020202\n" LAST_TICK FIRST_TICK "A200010016\nA20100FFEA\nA40007\n", &memory);
    same_answer(run_starts(&memory, 3, starts, 2), PLANNER_NO_PLAN, 0, 0, 3);
    opened("A0020202\n" LAST_TICK FIRST_TICK "A200010017\nA20100FFE9\nA40007\n", &memory);
    same_answer(run_starts(&memory, 3, starts, 2), PLANNER_PLAN, 0, 24, 1);
    opened("A0020202\n" FIRST_TICK LAST_TICK "A20001FFEA\nA201000016\nA40007\n", &memory);
    same_answer(run_starts(&memory, 3, starts, 2), PLANNER_NO_PLAN, 0, 0, 3);
    opened("A0020202\n" FIRST_TICK LAST_TICK "A20001FFE9\nA201000017\nA40007\n", &memory);
    same_answer(run_starts(&memory, 3, starts, 2), PLANNER_PLAN, 0, 24, 1);
    same_starts(starts, 23, 0, 0xA5A5, 0xA5A5);
}

void check_answers(void) {
    check_c3();
    check_c5();
    check_wedding();
    check_large();
    check_c8();
    check_zero();
    check_windows();
    check_rests();
}
