/* The record's layout, found by opening files that fill every place with known numbers: what the header's names read is what the file says,
 * every field is written whatever stood there, and nothing outside the record is. */
#include "check.h"
#include <string.h>

/* Job k holds stations by 16 different masks; the others hold one station each, so that the clashes stay below 1,024. Two of three jobs have a window,
 * and seven of eight stations a rest. */
static plain filled(int k) {
    plain batch = idle(24, 0, 128);
    int i, a, d;
    for (i = 0; i < 24; i++) {
        batch.ticks[i] = i == k ? 16 : 1 + (i * 5 + k) % 16;
        for (a = 0; a < batch.ticks[i]; a++)
            batch.masks[i][a] = i == k ? 0x0F01 + 0x0EF3 * a + i : 1 << i % 16;
    }
    for (d = 0; d < 128; d++) {
        batch.from[d] = (d + k) % 24;
        batch.to[d] = (d + k + 1 + (d / 24 + d) % 23) % 24;
        batch.weight[d] = batch.from[d] < batch.to[d] ? 20 - (d * 37 + k) % 1021 : -900 - (d + k) % 101;
    }
    for (i = 0; i < 24; i++)
        if ((i + k) % 3 != 0)
            give_window(&batch, i, PLANNER_EARLIEST - 771 * i - k, 65535 - 97 * i - k);
    for (i = 0; i < 16; i++)
        give_rest(&batch, i, (i + k) % 8);
    return batch;
}

static void same_jobs(const planner_batch *got, const plain *due) {
    int i, a;
    for (i = 0; i < PLANNER_JOBS; i++) {
        same(got->jobs[i].ticks, due->ticks[i]);
        for (a = 0; a < PLANNER_TICKS; a++)
            same(got->jobs[i].masks[a], due->masks[i][a]);
    }
}

static void same_delays(const planner_batch *got, const plain *due) {
    int k;
    for (k = 0; k < PLANNER_DELAYS; k++) {
        same(got->delays[k].from, due->from[k]);
        same(got->delays[k].to, due->to[k]);
        same(got->delays[k].weight, due->weight[k]);
    }
}

static void same_windows(const planner_batch *got, const plain *due) {
    int i;
    for (i = 0; i < PLANNER_JOBS; i++) {
        same(got->windows[i].lined, due->lined[i]);
        same(got->windows[i].earliest, due->earliest[i]);
        same(got->windows[i].latest, due->latest[i]);
    }
}

static void same_rests(const planner_batch *got, const plain *due) {
    int s;
    for (s = 0; s < PLANNER_STATIONS; s++)
        same(got->rests[s], due->rests[s]);
}

/* All but the batch: no nodes, no best, not ended, an empty path. */
static void same_unsearched(const planner_record *got) {
    int k;
    same((long)got->total, 0);
    same(got->latency, 0);
    same(got->found, 0);
    same(got->ended, 0);
    for (k = 0; k < PLANNER_JOBS; k++)
        same(got->starts[k], 0);
    for (k = 0; k < PLANNER_TURNS; k++) {
        same(got->path[k].clash, PLANNER_EMPTY_CLASH);
        same(got->path[k].side, PLANNER_EMPTY_SIDE);
    }
}

/* Opens the file over two fillings; the edges stay, and the record is read by `compare`. Both records have the same bytes. A refused file leaves every
 * byte: there is nothing to compare. */
static void opened(const plain *batch, int refusal, void (*compare)(const planner_record *, const plain *)) {
    static const int fillings[2] = {0xA5, 0x5A};
    uint8_t file[ROOM], copy[ROOM];
    size_t length = file_of(batch, file);
    room memory;
    planner_record first;
    int f;
    memcpy(copy, file, length);
    for (f = 0; f < 2; f++) {
        fill(&memory, fillings[f]);
        same(planner_open(file, length, &memory.record), refusal);
        same_edges(&memory, fillings[f]);
        same_bytes(file, copy, length);
        if (refusal == 0)
            compare(&memory.record, batch);
        else
            same_fill(&memory.record, fillings[f], sizeof memory.record);
        if (f == 0)
            memcpy(&first, &memory.record, sizeof first);
        else if (refusal == 0)
            same_bytes(&memory.record, &first, sizeof first);
    }
}

static void jobs(const planner_record *record, const plain *due) {
    same(record->batch.n, due->n);
    same_jobs(&record->batch, due);
}

static void delays(const planner_record *record, const plain *due) {
    same(record->batch.m, due->m);
    same_delays(&record->batch, due);
}

static void windows(const planner_record *record, const plain *due) {
    same(record->batch.edition, due->edition);
    same_windows(&record->batch, due);
}

static void rests(const planner_record *record, const plain *due) {
    same(record->batch.edition, due->edition);
    same_rests(&record->batch, due);
}

static void unsearched(const planner_record *record, const plain *due) {
    (void)due;
    same_unsearched(record);
}

/* The fields' types by their largest values: all are unsigned but for the weight. */
static void check_types(void) {
    planner_record record;
    planner_answer answer;
    planner_text text;
    begin("the header's types: each field of bytes FF");
    memset(&record, 0xFF, sizeof record);
    memset(&answer, 0xFF, sizeof answer);
    memset(&text, 0xFF, sizeof text);
    same((long)record.total, 0xFFFFFFFF);
    same(record.latency, 0xFFFF);
    same(record.found, 0xFF);
    same(record.ended, 0xFF);
    same(record.starts[PLANNER_JOBS - 1], 0xFFFF);
    same(record.batch.n, 0xFF);
    same(record.batch.m, 0xFF);
    same(record.batch.edition, 0xFFFF);
    same(record.batch.jobs[PLANNER_JOBS - 1].ticks, 0xFFFF);
    same(record.batch.jobs[PLANNER_JOBS - 1].masks[PLANNER_TICKS - 1], 0xFFFF);
    same(record.batch.delays[PLANNER_DELAYS - 1].from, 0xFF);
    same(record.batch.delays[PLANNER_DELAYS - 1].to, 0xFF);
    same(record.batch.delays[PLANNER_DELAYS - 1].weight, -1);
    same(record.batch.windows[PLANNER_JOBS - 1].lined, 0xFFFF);
    same(record.batch.windows[PLANNER_JOBS - 1].earliest, 0xFFFF);
    same(record.batch.windows[PLANNER_JOBS - 1].latest, 0xFFFF);
    same(record.batch.rests[PLANNER_STATIONS - 1], 0xFF);
    same(record.path[PLANNER_TURNS - 1].clash, 0xFFFF);
    same(record.path[PLANNER_TURNS - 1].side, 0xFFFF);
    same(answer.kind, 0xFF);
    same(answer.refusal, 0xFF);
    same(answer.latency, 0xFFFF);
    same((long)answer.total, 0xFFFFFFFF);
    same(text.length == (size_t)-1, 1);
    same(text.refusal, 0xFF);
}

/* The bytes of a field. */
#define SIZE(type, field) ((long)sizeof(((type *)0)->field))

/* A struct that has its fields one after the other, with nothing between them and nothing after the last, has no padding. */
static void check_padding(void) {
    begin("no padding: the sizes of a struct's fields add up to its own");
    same(SIZE(planner_delay, from) + SIZE(planner_delay, to) + SIZE(planner_delay, weight), (long)sizeof(planner_delay));
    same(SIZE(planner_job, ticks) + SIZE(planner_job, masks), (long)sizeof(planner_job));
    same(SIZE(planner_window, lined) + SIZE(planner_window, earliest) + SIZE(planner_window, latest), (long)sizeof(planner_window));
    same(SIZE(planner_batch, n) + SIZE(planner_batch, m) + SIZE(planner_batch, edition) + SIZE(planner_batch, jobs) + SIZE(planner_batch, delays) +
             SIZE(planner_batch, windows) + SIZE(planner_batch, rests), (long)sizeof(planner_batch));
    same(SIZE(planner_turn, clash) + SIZE(planner_turn, side), (long)sizeof(planner_turn));
    same(SIZE(planner_record, total) + SIZE(planner_record, latency) + SIZE(planner_record, found) + SIZE(planner_record, ended) +
             SIZE(planner_record, starts) + SIZE(planner_record, batch) + SIZE(planner_record, path), (long)sizeof(planner_record));
    same(SIZE(planner_batch, jobs), PLANNER_JOBS * (long)sizeof(planner_job));
    same(SIZE(planner_batch, delays), PLANNER_DELAYS * (long)sizeof(planner_delay));
    same(SIZE(planner_batch, windows), PLANNER_JOBS * (long)sizeof(planner_window));
    same(SIZE(planner_batch, rests), PLANNER_STATIONS);
    same(SIZE(planner_record, path), PLANNER_TURNS * (long)sizeof(planner_turn));
}

static void check_offsets(void) {
    begin("sizes, and where each field begins");
    same((long)sizeof(planner_delay), 4);
    same(offsetof(planner_delay, from), 0);
    same(offsetof(planner_delay, to), 1);
    same(offsetof(planner_delay, weight), 2);
    same((long)sizeof(planner_job), 34);
    same(offsetof(planner_job, ticks), 0);
    same(offsetof(planner_job, masks), 2);
    same((long)sizeof(planner_window), 6);
    same(offsetof(planner_window, lined), 0);
    same(offsetof(planner_window, earliest), 2);
    same(offsetof(planner_window, latest), 4);
    same((long)sizeof(planner_batch), 1492);
    same(offsetof(planner_batch, n), 0);
    same(offsetof(planner_batch, m), 1);
    same(offsetof(planner_batch, edition), 2);
    same(offsetof(planner_batch, jobs), 4);
    same(offsetof(planner_batch, delays), 820);
    same(offsetof(planner_batch, windows), 1332);
    same(offsetof(planner_batch, rests), 1476);
    same((long)sizeof(planner_turn), 4);
    same(offsetof(planner_turn, clash), 0);
    same(offsetof(planner_turn, side), 2);
    same((long)sizeof(planner_record), 5644);
    same(offsetof(planner_record, total), 0);
    same(offsetof(planner_record, latency), 4);
    same(offsetof(planner_record, found), 6);
    same(offsetof(planner_record, ended), 7);
    same(offsetof(planner_record, starts), 8);
    same(offsetof(planner_record, batch), 56);
    same(offsetof(planner_record, path), 1548);
}

/* Rests of all stations, of one, and none: each of the 16 places by the header's name. */
static void check_rests(void) {
    plain batch;
    int k;
    begin("a file with rests: each of the 16 by the header's names, with a line and without");
    for (k = 0; k < 24; k++) {
        batch = filled(k);
        opened(&batch, 0, rests);
    }
    for (k = 0; k < PLANNER_STATIONS; k++) {
        batch = idle(2, 3, 1);
        give_rest(&batch, k, 1 + k % PLANNER_REST);
        opened(&batch, 0, rests);
    }
    for (k = 0; k < PLANNER_STATIONS; k++)
        give_rest(&batch, k, PLANNER_REST - k % PLANNER_REST);
    opened(&batch, 0, rests);
    batch = idle(2, 3, 1);
    opened(&batch, 0, rests);
}

/* A refused file leaves the record as it was, to the byte, wherever it is refused. */
static void check_refused(void) {
    plain batch = idle(2, 3, 1);
    begin("a refused file leaves the record as it was, to the byte, wherever it is refused");
    batch.weight[0] = 1001;
    opened(&batch, PLANNER_REFUSAL_WEIGHT, NULL);
    batch = filled(3);
    batch.from[127] = 24;
    opened(&batch, PLANNER_REFUSAL_JOB, NULL);
    batch = filled(4);
    give_window(&batch, 23, PLANNER_EARLIEST + 1, 65535);
    opened(&batch, PLANNER_REFUSAL_WINDOW, NULL);
    batch = filled(5);
    give_rest(&batch, 15, PLANNER_REST + 1);
    opened(&batch, PLANNER_REFUSAL_REST, NULL);
    batch = filled(5);
    batch.edition = 3;
    opened(&batch, PLANNER_REFUSAL_EDITION, NULL);
    batch.edition = 1;
    opened(&batch, PLANNER_REFUSAL_EXTRA, NULL);
    batch = idle(0, 1, 0);
    opened(&batch, PLANNER_REFUSAL_COUNT, NULL);
}

void check_layout(void) {
    plain batch;
    int k;
    check_types();
    check_padding();
    check_offsets();
    begin("a file of 24 jobs: n, ticks and masks by the header's names, each job in turn with 16 different masks");
    for (k = 0; k < 24; k++) {
        batch = filled(k);
        opened(&batch, 0, jobs);
    }
    begin("a file of 128 delays: m, from, to and weight by the header's names, weights of both signs");
    for (k = 0; k < 24; k++) {
        batch = filled(k);
        opened(&batch, 0, delays);
    }
    begin("a file of edition 02: the edition and each of the 24 windows by the header's names, with a line and without");
    for (k = 0; k < 24; k++) {
        batch = filled(k);
        opened(&batch, 0, windows);
    }
    begin("a fresh record: total, latency, found, ended, starts and path");
    batch = filled(0);
    opened(&batch, 0, unsearched);
    begin("a small file leaves 0 in the places that it does not use, and 65,535 for a latest start");
    batch = idle(2, 3, 1);
    opened(&batch, 0, jobs);
    opened(&batch, 0, delays);
    opened(&batch, 0, windows);
    batch.edition = 2;
    opened(&batch, 0, windows);
    give_window(&batch, 1, 0, 65535);
    opened(&batch, 0, windows);
    give_window(&batch, 0, 3, 7);
    opened(&batch, 0, jobs);
    opened(&batch, 0, windows);
    check_rests();
    check_refused();
}
