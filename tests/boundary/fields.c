/* Each field found once more from the other side: it is changed by the header's name, and the calls answer accordingly. */
#include "check.h"
#include <string.h>

/* Of a record that is not sound every call that reads one is refused with 12 and leaves the record as it is. */
static void same_unsound(const planner_record *record) {
    planner_record copy;
    uint8_t buffer[PLANNER_BATCH_TEXT];
    planner_text text;
    memcpy(&copy, record, sizeof copy);
    same_answer(run(&copy, 1), PLANNER_REFUSED, PLANNER_REFUSAL_RECORD, 0, 0);
    same_bytes(&copy, record, sizeof copy);
    text = planner_write_plan(record, buffer, sizeof buffer);
    same((long)text.length, 0);
    same(text.refusal, PLANNER_REFUSAL_RECORD);
    text = planner_write_batch(record, buffer, sizeof buffer);
    same((long)text.length, 0);
    same(text.refusal, PLANNER_REFUSAL_RECORD);
}

/* Of a sound record a run with budget 0 is answered and counts nothing. */
static void same_sound(const planner_record *record) {
    planner_record copy;
    memcpy(&copy, record, sizeof copy);
    same(run(&copy, 0).refusal, 0);
    same((long)copy.total, (long)record->total);
}

/* An open search of 24 jobs with 16 clashes: job 0 holds a station for 16 ticks, job 1 in its first. */
static planner_record searching(void) {
    plain batch = idle(24, 16, 128);
    planner_record record;
    int a;
    for (a = 0; a < 16; a++)
        batch.masks[0][a] = 1;
    batch.masks[1][0] = 1;
    open_plain(&batch, &record);
    return record;
}

/* The same, ended, with the best that the names say. */
static planner_record ended(void) {
    planner_record record = searching();
    int i;
    record.ended = 1;
    record.found = 1;
    record.latency = 5003;
    record.total = 0x01020304;
    for (i = 0; i < PLANNER_JOBS; i++)
        record.starts[i] = (uint16_t)(i * 911 + 257);
    return record;
}

static void check_total(void) {
    planner_record record = searching();
    begin("total: a run counts on from it; its limit");
    record.total = 0x01020304;
    same_answer(run(&record, 1), PLANNER_SPENT, 0, 0, 0x01020305);
    same((long)record.total, 0x01020305);
    record.total = PLANNER_TOTAL;
    same_sound(&record);
    record.total = PLANNER_TOTAL + 1;
    same_unsound(&record);
    record.total = 0xFFFFFFFF;
    same_unsound(&record);
}

static void check_best(void) {
    planner_record record = ended();
    uint16_t starts[PLANNER_JOBS + 2];
    int i;
    begin("ended, found, latency, starts: an ended search answers them");
    memset(starts, 0xA5, sizeof starts);
    same_answer(planner_run(&record, 7, starts, PLANNER_JOBS + 2), PLANNER_PLAN, 0, 5003, 0x01020304);
    for (i = 0; i < PLANNER_JOBS; i++)
        same(starts[i], i * 911 + 257);
    same_fill(starts + PLANNER_JOBS, 0xA5, 2 * sizeof starts[0]);
    record.found = 0x80;
    record.ended = 0x02;
    same_answer(run(&record, 7), PLANNER_PLAN, 0, 5003, 0x01020304);
    same(record.found, 1);
    same(record.ended, 1);
    record = ended();
    record.found = 0;
    same_answer(run(&record, 7), PLANNER_NO_PLAN, 0, 0, 0x01020304);
    same(record.latency, 0);
    record = ended();
    record.ended = 0;
    same_answer(run(&record, 0), PLANNER_SPENT, 0, 0, 0x01020304);
    begin("latency and each of the 24 starts: their limits");
    record = ended();
    record.latency = PLANNER_LATENCY;
    same_answer(run(&record, 1), PLANNER_PLAN, 0, PLANNER_LATENCY, 0x01020304);
    record.latency = PLANNER_LATENCY + 1;
    same_unsound(&record);
    for (i = 0; i < PLANNER_JOBS; i++) {
        record = ended();
        record.starts[i] = PLANNER_START;
        same_sound(&record);
        record.starts[i] = PLANNER_START + 1;
        same_unsound(&record);
        record.found = 0;
        same_sound(&record);
    }
}

static void check_counts(void) {
    planner_record record;
    int i;
    begin("n, m and each of the 24 ticks: their limits");
    record = searching();
    record.batch.n = 0;
    same_unsound(&record);
    record.batch.n = PLANNER_JOBS + 1;
    same_unsound(&record);
    record.batch.n = 2;
    same_sound(&record);
    record.batch.m = PLANNER_DELAYS + 1;
    same_unsound(&record);
    for (i = 0; i < PLANNER_JOBS; i++) {
        record = searching();
        record.batch.jobs[i].ticks = 0;
        same_unsound(&record);
        record.batch.jobs[i].ticks = PLANNER_TICKS + 1;
        same_unsound(&record);
        record.batch.jobs[i].ticks = 0x0101;
        same_unsound(&record);
        record.batch.jobs[i].ticks = 1;
        same_sound(&record);
    }
}

static void check_delays(void) {
    planner_record record;
    int k;
    begin("from, to and weight of each of the 128 delays: their limits");
    for (k = 0; k < PLANNER_DELAYS; k++) {
        record = searching();
        record.batch.delays[k].from = PLANNER_JOBS;
        same_unsound(&record);
        record.batch.delays[k].from = 1;
        same_unsound(&record);
        record.batch.delays[k].from = 2;
        record.batch.delays[k].to = PLANNER_JOBS;
        same_unsound(&record);
        record.batch.delays[k].to = 3;
        record.batch.delays[k].weight = PLANNER_WEIGHT + 1;
        same_unsound(&record);
        record.batch.delays[k].weight = -PLANNER_WEIGHT - 1;
        same_unsound(&record);
        record.batch.delays[k].weight = -PLANNER_WEIGHT;
        same_sound(&record);
        record.batch.delays[k].weight = PLANNER_WEIGHT;
        same_sound(&record);
    }
}

static void check_masks(void) {
    plain batch;
    planner_record record;
    uint8_t due[ROOM], got[ROOM];
    size_t length;
    planner_text text;
    int i, a;
    begin("each of the 384 masks: the batch text has it");
    for (i = 0; i < PLANNER_JOBS; i++) {
        batch = idle(24, 16, 0);
        open_plain(&batch, &record);
        for (a = 0; a < PLANNER_TICKS; a++) {
            batch.masks[i][a] = 0xFFFF - 3000 * a - i;
            record.batch.jobs[i].masks[a] = (uint16_t)(0xFFFF - 3000 * a - i);
            length = file_of(&batch, due);
            text = planner_write_batch(&record, got, sizeof got);
            same((long)text.length, (long)length);
            same_bytes(got, due, length);
        }
    }
}

static void check_path(void) {
    planner_record record;
    int k;
    begin("path: a turn in its first place; wrong turns in each of the 1,024 places");
    record = searching();
    record.path[0].clash = 15;
    same_sound(&record);
    record.path[0].side = 1;
    same_sound(&record);
    record.path[0].side = 2;
    same_unsound(&record);
    record.path[0].side = 0x0100;
    same_unsound(&record);
    record.path[0].side = 0x0101;
    same_unsound(&record);
    record.path[0].side = 0;
    record.path[0].clash = 16;
    same_unsound(&record);
    record.path[0].clash = 7;
    record.path[1].clash = 7;
    same_unsound(&record);
    for (k = 0; k < PLANNER_TURNS; k++) {
        record = searching();
        record.path[k].side = 1;
        same_unsound(&record);
        record.path[k].side = 0;
        record.path[k].clash = 0;
        if (k == 0)
            same_sound(&record);
        else
            same_unsound(&record);
    }
    begin("ended with an empty path; ended with a turn");
    record = searching();
    record.ended = 1;
    same_answer(run(&record, 1), PLANNER_NO_PLAN, 0, 0, 0);
    record.path[0].clash = 0;
    same_unsound(&record);
}

static void check_edition(void) {
    static const uint16_t others[5] = {0, 3, 0x0101, 0x0102, 0xFFFF};
    planner_record record = searching();
    int k;
    begin("edition: 1 and 2 and no other, and a line in edition 2 alone");
    same(record.batch.edition, 1);
    for (k = 0; k < 5; k++) {
        record.batch.edition = others[k];
        same_unsound(&record);
    }
    record.batch.edition = 2;
    same_sound(&record);
    for (k = 0; k < PLANNER_JOBS; k++) {
        record = searching();
        record.batch.windows[k].lined = 1;
        same_unsound(&record);
        record.batch.edition = 2;
        same_sound(&record);
        record.batch.windows[k].lined = 0x0100;
        same_sound(&record);
        record.batch.edition = 1;
        same_unsound(&record);
    }
}

/* Sets a window by the header's names. */
static void set_window(planner_record *record, int job, int lined, int earliest, int latest) {
    record->batch.windows[job].lined = (uint16_t)lined;
    record->batch.windows[job].earliest = (uint16_t)earliest;
    record->batch.windows[job].latest = (uint16_t)latest;
}

static void check_windows(void) {
    planner_record record;
    int i;
    begin("lined, earliest and latest of each of the 24 windows: their limits, with a line and without");
    for (i = 0; i < PLANNER_JOBS; i++) {
        record = searching();
        record.batch.edition = 2;
        set_window(&record, i, 0, 1, 65535);
        same_unsound(&record);
        set_window(&record, i, 0, 0, 65534);
        same_unsound(&record);
        set_window(&record, i, 0, 0, 65535);
        same_sound(&record);
        set_window(&record, i, 1, PLANNER_EARLIEST, 65535);
        same_sound(&record);
        set_window(&record, i, 1, PLANNER_EARLIEST + 1, 65535);
        same_unsound(&record);
        set_window(&record, i, 1, 65535, 65535);
        same_unsound(&record);
        set_window(&record, i, 1, PLANNER_EARLIEST, PLANNER_EARLIEST - 1);
        same_unsound(&record);
        set_window(&record, i, 0xFFFF, 1, 0);
        same_unsound(&record);
        set_window(&record, i, 0xFFFF, 0, 0);
        same_sound(&record);
        set_window(&record, i, 2, 7, 7);
        same_sound(&record);
    }
    begin("delays and windows that cannot be met together");
    record = searching();
    record.batch.edition = 2;
    record.batch.m = 1;
    record.batch.delays[0].weight = 100;
    set_window(&record, 0, 1, 30, 65535);
    set_window(&record, 1, 1, 0, 130);
    same_sound(&record);
    set_window(&record, 1, 1, 0, 129);
    same_unsound(&record);
    set_window(&record, 0, 1, 29, 65535);
    same_sound(&record);
    record.batch.delays[0].weight = 101;
    same_unsound(&record);
    begin("windows past n do not count");
    record = searching();
    record.batch.n = 2;
    for (i = 2; i < PLANNER_JOBS; i++) {
        set_window(&record, i, i, 65535 - i, i);
        same_sound(&record);
    }
    record.batch.n = 3;
    same_unsound(&record);
}

/* The windows decide what a run comes to, and stand in the batch text. */
static void check_ends(void) {
    planner_record record;
    uint8_t text[ROOM];
    begin("a window set by the header's names: C3 with job 0 at tick 0 at the latest");
    same(open_text(C3, &record), 0);
    record.batch.edition = 2;
    set_window(&record, 0, 1, 0, 0);
    same_answer(run(&record, 3), PLANNER_PLAN, 0, 4, 3);
    same(record.starts[0], 0);
    same(record.starts[1], 1);
    same((long)planner_write_batch(&record, text, sizeof text).length, (long)strlen(C3) + 13);
    same_bytes(text, "A0020200\nA1010001\nA103000100020002\nA30000000000\n", strlen(C3) + 13);
    begin("and with job 1 not before tick 5");
    same(open_text(C3, &record), 0);
    record.batch.edition = 2;
    set_window(&record, 1, 0x8000, 5, 65535);
    same_answer(run(&record, 3), PLANNER_PLAN, 0, 8, 1);
    same(record.starts[0], 0);
    same(record.starts[1], 5);
    same(record.batch.windows[1].lined, 0x8000);
}

static void check_rests(void) {
    planner_record record;
    int s;
    begin("each of the 16 rests: its limit, and none in edition 1");
    for (s = 0; s < PLANNER_STATIONS; s++) {
        record = searching();
        record.batch.edition = 2;
        record.batch.rests[s] = PLANNER_REST;
        same_sound(&record);
        record.batch.rests[s] = PLANNER_REST + 1;
        same_unsound(&record);
        record.batch.rests[s] = 0xFF;
        same_unsound(&record);
        record.batch.edition = 1;
        record.batch.rests[s] = 1;
        same_unsound(&record);
        record.batch.rests[s] = 0;
        same_sound(&record);
    }
    begin("rests widen the list of clashes: 16 without, 18 with one tick, 30 with seven; another station's does not");
    record = searching();
    record.batch.edition = 2;
    record.path[0].clash = 16;
    same_unsound(&record);
    record.batch.rests[1] = 7;
    same_unsound(&record);
    record.batch.rests[0] = 1;
    same_sound(&record);
    record.path[0].clash = 18;
    same_unsound(&record);
    record.batch.rests[0] = 7;
    record.path[0].clash = 29;
    same_sound(&record);
    record.path[0].clash = 30;
    same_unsound(&record);
}

/* The rests decide what a run comes to, and stand in the batch text. */
static void check_rested(void) {
    static const char due[] = "A0020200\nA1010001\nA103000100020002\nA40002\nA40F07\n";
    planner_record record;
    uint8_t text[ROOM];
    begin("a rest set by the header's names: C3 with station 0 resting 2 ticks");
    same(open_text(C3, &record), 0);
    record.batch.edition = 2;
    record.batch.rests[0] = 2;
    record.batch.rests[15] = 7;
    same_answer(run(&record, 1000), PLANNER_PLAN, 0, 4, 11);
    same(record.starts[0], 3);
    same(record.starts[1], 0);
    same((long)planner_write_batch(&record, text, sizeof text).length, (long)strlen(due));
    same_bytes(text, due, strlen(due));
}

void check_fields(void) {
    check_total();
    check_best();
    check_counts();
    check_delays();
    check_masks();
    check_path();
    check_edition();
    check_windows();
    check_ends();
    check_rests();
    check_rested();
}
