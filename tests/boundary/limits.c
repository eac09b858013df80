/* Each limit of the header provoked at the limit and one past it. */
#include "check.h"
#include <string.h>

/* Opening's answer for a batch. */
static int opening(const plain *batch, planner_record *record) {
    uint8_t file[ROOM];
    return planner_open(file, file_of(batch, file), record);
}

static void check_counts(void) {
    planner_record record;
    plain batch = idle(PLANNER_JOBS, 1, 0);
    begin("PLANNER_JOBS: 1 to 24");
    same(opening(&batch, &record), 0);
    same(record.batch.n, 24);
    batch = idle(PLANNER_JOBS + 1, 1, 0);
    same(opening(&batch, &record), PLANNER_REFUSAL_COUNT);
    batch = idle(1, 1, 0);
    same(opening(&batch, &record), 0);
    begin("PLANNER_DELAYS: 0 to 128");
    batch = idle(2, 1, PLANNER_DELAYS);
    same(opening(&batch, &record), 0);
    same(record.batch.m, 128);
    batch = idle(2, 1, PLANNER_DELAYS + 1);
    same(opening(&batch, &record), PLANNER_REFUSAL_COUNT);
    begin("PLANNER_TICKS: 1 to 16");
    batch = idle(1, PLANNER_TICKS, 0);
    same(opening(&batch, &record), 0);
    same(record.batch.jobs[0].ticks, 16);
    same(open_text("A0010100\nA111"
                   "0000000000000000000000000000000000000000000000000000000000000000"
                   "0000\n", &record), PLANNER_REFUSAL_COUNT);
    same(open_text("A0010100\nA100\n", &record), PLANNER_REFUSAL_COUNT);
}

static void check_weights(void) {
    static const int signs[2] = {1, -1};
    planner_record record;
    plain batch = idle(2, 1, 1);
    int s;
    begin("PLANNER_WEIGHT: -1,000 to 1,000");
    for (s = 0; s < 2; s++) {
        batch.weight[0] = signs[s] * PLANNER_WEIGHT;
        same(opening(&batch, &record), 0);
        same(record.batch.delays[0].weight, signs[s] * 1000);
        batch.weight[0] = signs[s] * (PLANNER_WEIGHT + 1);
        same(opening(&batch, &record), PLANNER_REFUSAL_WEIGHT);
    }
}

/* The document's test batch: 1,024 clashes with 13 ticks in the last job, more with 14. */
static plain crowded(int last) {
    plain batch = idle(11, 16, 0);
    int i, a;
    batch.ticks[8] = 1;
    batch.ticks[10] = last;
    for (i = 0; i < 11; i++)
        for (a = 0; a < batch.ticks[i]; a++)
            batch.masks[i][a] = i < 9 ? 1 : 2;
    return batch;
}

static void check_turns(void) {
    planner_record record;
    plain batch = crowded(13);
    int k;
    begin("PLANNER_TURNS: 1,024 clashes, and a path with a turn on each; 1,025 clashes");
    same(opening(&batch, &record), 0);
    for (k = 0; k < PLANNER_TURNS; k++) {
        record.path[k].clash = (uint16_t)(PLANNER_TURNS - 1 - k);
        record.path[k].side = (uint16_t)(k % 2);
    }
    same_answer(run(&record, 0), PLANNER_SPENT, 0, 0, 0);
    for (k = 0; k < PLANNER_TURNS; k++)
        same(record.path[k].clash, PLANNER_TURNS - 1 - k);
    record.path[PLANNER_TURNS - 1].clash = PLANNER_TURNS;
    same_answer(run(&record, 0), PLANNER_REFUSED, PLANNER_REFUSAL_RECORD, 0, 0);
    batch = crowded(14);
    same(opening(&batch, &record), PLANNER_REFUSAL_CLASHES);
}

/* 12 jobs of one tick, and two of 10 ticks and more on another station; both stations rest 7 ticks: 1,024 clashes with 11 ticks in the last job, one
 * more with 12. */
static plain resting(int last) {
    plain batch = idle(14, 1, 0);
    int i, a;
    batch.ticks[12] = 10;
    batch.ticks[13] = last;
    for (i = 0; i < 14; i++)
        for (a = 0; a < batch.ticks[i]; a++)
            batch.masks[i][a] = i < 12 ? 1 : 2;
    give_rest(&batch, 0, PLANNER_REST);
    give_rest(&batch, 1, PLANNER_REST);
    return batch;
}

static void check_resting_turns(void) {
    planner_record record;
    plain batch = resting(11);
    begin("PLANNER_TURNS with rests: 1,024 clashes, and a turn on the last one; 1,025 clashes");
    same(opening(&batch, &record), 0);
    record.path[0].clash = PLANNER_TURNS - 1;
    same_answer(run(&record, 0), PLANNER_SPENT, 0, 0, 0);
    record.path[0].clash = PLANNER_TURNS;
    same_answer(run(&record, 0), PLANNER_REFUSED, PLANNER_REFUSAL_RECORD, 0, 0);
    batch = resting(12);
    same(opening(&batch, &record), PLANNER_REFUSAL_CLASHES);
    give_rest(&batch, 1, PLANNER_REST - 1);
    same(opening(&batch, &record), 0);
    record.batch.rests[1] = PLANNER_REST;
    same_answer(run(&record, 0), PLANNER_REFUSED, PLANNER_REFUSAL_RECORD, 0, 0);
    record.batch.rests[0] = PLANNER_REST - 1;
    same_answer(run(&record, 0), PLANNER_SPENT, 0, 0, 0);
}

static void check_rest(void) {
    planner_record record;
    plain batch;
    int s;
    begin("PLANNER_STATIONS and PLANNER_REST: stations 0 to 15, 1 to 7 ticks");
    same(PLANNER_STATIONS, 16);
    for (s = 0; s < PLANNER_STATIONS; s++) {
        batch = idle(2, 1, 0);
        give_rest(&batch, s, 1);
        same(opening(&batch, &record), 0);
        same(record.batch.rests[s], 1);
        give_rest(&batch, s, PLANNER_REST);
        same(opening(&batch, &record), 0);
        same(record.batch.rests[s], 7);
        give_rest(&batch, s, PLANNER_REST + 1);
        same(opening(&batch, &record), PLANNER_REFUSAL_REST);
    }
    same(open_text("A0020100\nA1010001\nA40F07\n", &record), 0);
    same(open_text("A0020100\nA1010001\nA41007\n", &record), PLANNER_REFUSAL_REST);
    same(open_text("A0020100\nA1010001\nA40F00\n", &record), PLANNER_REFUSAL_REST);
}

static void check_earliest(void) {
    planner_record record;
    plain batch = idle(2, 1, 0);
    begin("PLANNER_EARLIEST: 0 to 20,000, and not above the latest start");
    give_window(&batch, 1, PLANNER_EARLIEST, 65535);
    same(opening(&batch, &record), 0);
    same(record.batch.windows[1].earliest, 20000);
    give_window(&batch, 1, PLANNER_EARLIEST + 1, 65535);
    same(opening(&batch, &record), PLANNER_REFUSAL_WINDOW);
    give_window(&batch, 1, PLANNER_EARLIEST, PLANNER_EARLIEST);
    same(opening(&batch, &record), 0);
    give_window(&batch, 1, PLANNER_EARLIEST, PLANNER_EARLIEST - 1);
    same(opening(&batch, &record), PLANNER_REFUSAL_WINDOW);
    give_window(&batch, 1, 0, 0);
    same(opening(&batch, &record), 0);
}

/* 24 jobs of 16 ticks, the last one held, each 1,000 ticks after the one before, the first not before tick 20,000. */
static void check_latest_start(void) {
    planner_record record;
    plain batch = idle(24, 16, 23);
    int k;
    begin("PLANNER_START and PLANNER_LATENCY, reached by a search");
    for (k = 0; k < 24; k++)
        batch.masks[k][15] = 1;
    for (k = 0; k < 23; k++) {
        batch.from[k] = k;
        batch.to[k] = k + 1;
        batch.weight[k] = 1000;
    }
    give_window(&batch, 0, PLANNER_EARLIEST, 65535);
    same(opening(&batch, &record), 0);
    same_answer(run(&record, 1), PLANNER_PLAN, 0, PLANNER_LATENCY, 1);
    same(record.starts[23], PLANNER_START);
    give_window(&batch, 23, 0, PLANNER_START);
    same(opening(&batch, &record), 0);
    same_answer(run(&record, 1), PLANNER_PLAN, 0, PLANNER_LATENCY, 1);
    give_window(&batch, 23, 0, PLANNER_START - 1);
    same(opening(&batch, &record), PLANNER_REFUSAL_DELAYS);
}

/* No start passes PLANNER_START, but a record that came from elsewhere may hold it, in both editions. */
static void check_best(void) {
    planner_record record;
    begin("PLANNER_START and PLANNER_LATENCY");
    same(open_text(C3, &record), 0);
    record.ended = record.found = 1;
    record.starts[0] = PLANNER_START;
    record.latency = PLANNER_LATENCY;
    same_answer(run(&record, 0), PLANNER_PLAN, 0, 43016, 0);
    record.batch.edition = 2;
    same_answer(run(&record, 0), PLANNER_PLAN, 0, 43016, 0);
    record.starts[0] = PLANNER_START + 1;
    same_answer(run(&record, 0), PLANNER_REFUSED, PLANNER_REFUSAL_RECORD, 0, 0);
    record.starts[0] = PLANNER_START;
    record.latency = PLANNER_LATENCY + 1;
    same_answer(run(&record, 0), PLANNER_REFUSED, PLANNER_REFUSAL_RECORD, 0, 0);
}

static void check_nodes(void) {
    planner_record record;
    begin("PLANNER_BUDGET: 1,000,000");
    same(open_text(C3, &record), 0);
    same_answer(run(&record, PLANNER_BUDGET + 1), PLANNER_REFUSED, PLANNER_REFUSAL_BUDGET, 0, 0);
    same_answer(run(&record, PLANNER_BUDGET), PLANNER_PLAN, 0, 3, 3);
    begin("PLANNER_TOTAL: 100,000,000, not asked of an ended search");
    same(open_text(C3, &record), 0);
    record.total = PLANNER_TOTAL - 1;
    same_answer(run(&record, 2), PLANNER_REFUSED, PLANNER_REFUSAL_TOTAL, 0, 0);
    same_answer(run(&record, 1), PLANNER_SPENT, 0, 0, 100000000);
    same_answer(run(&record, 1), PLANNER_REFUSED, PLANNER_REFUSAL_TOTAL, 0, 0);
    same_answer(run(&record, 0), PLANNER_SPENT, 0, 0, 100000000);
    same(open_text("A0010100\nA1010001\n", &record), 0);
    record.total = PLANNER_TOTAL - 1;
    same_answer(run(&record, 1), PLANNER_PLAN, 0, 1, 100000000);
    same_answer(run(&record, PLANNER_BUDGET), PLANNER_PLAN, 0, 1, 100000000);
}

static void check_empty(void) {
    planner_record record;
    begin("PLANNER_EMPTY_CLASH and PLANNER_EMPTY_SIDE: the one turn that is empty");
    same(open_text(C3, &record), 0);
    memset(record.path, 0, sizeof record.path);
    same_answer(run(&record, 0), PLANNER_REFUSED, PLANNER_REFUSAL_RECORD, 0, 0);
    same(open_text(C3, &record), 0);
    record.path[0].clash = PLANNER_EMPTY_CLASH - 1;
    same_answer(run(&record, 0), PLANNER_REFUSED, PLANNER_REFUSAL_RECORD, 0, 0);
    record.path[0].clash = PLANNER_EMPTY_CLASH;
    record.path[0].side = PLANNER_EMPTY_SIDE + 1;
    same_answer(run(&record, 0), PLANNER_REFUSED, PLANNER_REFUSAL_RECORD, 0, 0);
    record.path[0].side = PLANNER_EMPTY_SIDE;
    same_answer(run(&record, 0), PLANNER_SPENT, 0, 0, 0);
}

void check_limits(void) {
    check_counts();
    check_weights();
    check_turns();
    check_resting_turns();
    check_rest();
    check_earliest();
    check_latest_start();
    check_best();
    check_nodes();
    check_empty();
}
