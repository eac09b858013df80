/* Counting cases, building files, and memory with a known byte all around. */
#include "check.h"
#include <stdio.h>
#include <string.h>

const char *const C3 = "A0010200\nA1010001\nA103000100020002\n";
const char *const C3_PLAN = "B00102000300000003\nB1000001\nB1010000\n";
const char *const C5 = "A0010202\nA1010001\nA1010001\nA200010000\nA201000000\n";
const char *const C8 = "A0010100\nA10200010000\n";
const char *const C8_PLAN = "B00101000100000001\nB1000000\n";
const char *const IDLE = "A0010300\nA1010000\nA10200000000\nA1010000\n";
const char *const IDLE_PLAN = "B00103000000000001\nB1000000\nB1010000\nB1020000\n";
const char *const WINDOWS = "A0020402\nA103000200020010\nA103000200020008\nA10200040010\nA10200020010\nA202030001\nA20302FFFD\n"
                            "A3000001FFFF\nA3010003FFFF\nA30300000003\n";
const char *const WINDOWS_PLAN = "B0010400070000000B\nB1000001\nB1010004\nB1020000\nB1030003\n";
const char *const RESTS = "A0020300\nA1040002000800080020\nA103000200080020\nA10200020020\nA40302\n";
const char *const RESTS_PLAN = "B0010300070000000F\nB1000000\nB1010004\nB1020001\n";

static const char *present;
static long compared, unlike, passed, failed;

static void end(void) {
    if (present == NULL)
        return;
    if (compared == 0)
        printf("  wrong: %s: nothing was compared\n", present);
    else if (unlike == 0)
        printf("  right: %s (%ld compared)\n", present, compared);
    else
        printf("  wrong: %s (%ld of %ld compared)\n", present, unlike, compared);
    if (compared > 0 && unlike == 0)
        passed++;
    else
        failed++;
    present = NULL;
}

void begin(const char *name) {
    end();
    present = name;
    compared = unlike = 0;
}

void same(long got, long due) {
    compared++;
    if (got != due && unlike++ < 3)
        printf("    %s: comparison %ld: got %ld, due %ld\n", present, compared, got, due);
}

void same_bytes(const void *got, const void *due, size_t length) {
    const uint8_t *left = got, *right = due;
    size_t k = 0;
    while (k < length && left[k] == right[k])
        k++;
    compared++;
    if (k < length && unlike++ < 3)
        printf("    %s: comparison %ld: byte %lu: got %d, due %d\n", present, compared, (unsigned long)k, left[k], right[k]);
}

void same_fill(const void *got, int byte, size_t length) {
    uint8_t due[2 * ROOM];
    memset(due, byte, sizeof due);
    same_bytes(got, due, length);
}

int counted(void) {
    end();
    printf("%ld passed, %ld failed\n", passed, failed);
    return passed > 0 && failed == 0 ? 0 : 1;
}

size_t file_of(const plain *batch, uint8_t *file) {
    char *out = (char *)file;
    int i, a;
    out += sprintf(out, "A0%02X%02X%02X\n", batch->edition, batch->n, batch->m);
    for (i = 0; i < batch->n && i < 24; i++) {
        out += sprintf(out, "A1%02X", batch->ticks[i]);
        for (a = 0; a < batch->ticks[i] && a < 16; a++)
            out += sprintf(out, "%04X", batch->masks[i][a]);
        out += sprintf(out, "\n");
    }
    for (i = 0; i < batch->m && i < 128; i++)
        out += sprintf(out, "A2%02X%02X%04X\n", batch->from[i], batch->to[i], batch->weight[i] & 0xFFFF);
    for (i = 0; i < 24; i++)
        if (batch->lined[i])
            out += sprintf(out, "A3%02X%04X%04X\n", i, batch->earliest[i], batch->latest[i]);
    for (i = 0; i < 16; i++)
        if (batch->rests[i] != 0)
            out += sprintf(out, "A4%02X%02X\n", i, batch->rests[i]);
    return (size_t)(out - (char *)file);
}

plain idle(int n, int p, int m) {
    plain batch;
    int k;
    memset(&batch, 0, sizeof batch);
    batch.n = n;
    batch.m = m;
    batch.edition = 1;
    for (k = 0; k < 24 && k < n; k++)
        batch.ticks[k] = p;
    for (k = 0; k < 24; k++)
        batch.latest[k] = 65535;
    for (k = 0; k < 128 && k < m; k++)
        batch.to[k] = 1;
    return batch;
}

void give_window(plain *batch, int job, int earliest, int latest) {
    batch->edition = 2;
    batch->lined[job] = 1;
    batch->earliest[job] = earliest;
    batch->latest[job] = latest;
}

void give_rest(plain *batch, int station, int ticks) {
    batch->edition = 2;
    batch->rests[station] = ticks;
}

void fill(room *memory, int byte) {
    memset(memory, byte, sizeof *memory);
}

void same_edges(const room *memory, int byte) {
    same_fill(memory->before, byte, EDGE);
    same_fill(memory->after, byte, EDGE);
}

uint8_t open_text(const char *text, planner_record *record) {
    return planner_open((const uint8_t *)text, strlen(text), record);
}

void open_plain(const plain *batch, planner_record *record) {
    uint8_t file[ROOM];
    same(planner_open(file, file_of(batch, file), record), 0);
}

planner_answer run(planner_record *record, uint32_t budget) {
    uint16_t starts[PLANNER_JOBS];
    memset(starts, 0, sizeof starts);
    return planner_run(record, budget, starts, PLANNER_JOBS);
}

void same_answer(planner_answer got, int kind, int refusal, long latency, long total) {
    same(got.kind, kind);
    same(got.refusal, refusal);
    same(got.latency, latency);
    same((long)got.total, total);
}
