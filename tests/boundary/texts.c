/* Plan text and batch text: what is written, what is left, and the longest of each in a buffer that fits exactly. */
#include "check.h"
#include <string.h>

typedef planner_text (*writer)(const planner_record *, uint8_t *, size_t);

/* The text into buffers that are too short, exact, and longer; the record and the bytes past the text stay. */
static void same_text(writer write, const planner_record *record, const uint8_t *due, size_t length) {
    planner_record before;
    uint8_t buffer[ROOM];
    planner_text got;
    memcpy(&before, record, sizeof before);
    memset(buffer, '.', sizeof buffer);
    got = write(record, buffer, length - 1);
    same((long)got.length, 0);
    same(got.refusal, PLANNER_REFUSAL_BUFFER);
    same_fill(buffer, '.', sizeof buffer);
    got = write(record, buffer, length);
    same((long)got.length, (long)length);
    same(got.refusal, 0);
    same_bytes(buffer, due, length);
    same_fill(buffer + length, '.', sizeof buffer - length);
    memset(buffer, '#', sizeof buffer);
    got = write(record, buffer, sizeof buffer);
    same((long)got.length, (long)length);
    same(got.refusal, 0);
    same_bytes(buffer, due, length);
    same_fill(buffer + length, '#', sizeof buffer - length);
    same_bytes(record, &before, sizeof before);
}

static void same_string(writer write, const planner_record *record, const char *due) {
    same_text(write, record, (const uint8_t *)due, strlen(due));
}

static void check_short(void) {
    planner_record record;
    memset(&record, 0xA5, sizeof record);
    begin("C3: both texts");
    same(open_text(C3, &record), 0);
    same_string(planner_write_batch, &record, C3);
    same(run(&record, 3).kind, PLANNER_PLAN);
    same_string(planner_write_plan, &record, C3_PLAN);
    same_string(planner_write_batch, &record, C3);
    begin("C8 and jobs that hold nothing: latencies 1 and 0");
    same(open_text(C8, &record), 0);
    same(run(&record, 1).kind, PLANNER_PLAN);
    same_string(planner_write_plan, &record, C8_PLAN);
    same_string(planner_write_batch, &record, C8);
    same(open_text(IDLE, &record), 0);
    same(run(&record, 1).kind, PLANNER_PLAN);
    same_string(planner_write_plan, &record, IDLE_PLAN);
    same_string(planner_write_batch, &record, IDLE);
    begin("C5: the line for no plan");
    same(open_text(C5, &record), 0);
    same(run(&record, 3).kind, PLANNER_NO_PLAN);
    same_string(planner_write_plan, &record, "B200000003\n");
    same_string(planner_write_batch, &record, C5);
}

/* Edition 02 comes back byte for byte, with no line, with some, and with one that says nothing; its plan text has 01. */
static void check_windows(void) {
    static const char *const files[4] = {"A0020100\nA1010001\n", "A0020100\nA1010001\nA3000000FFFF\n", "A0020100\nA1010001\nA30000030004\n",
                                         "A0020300\nA1010001\nA1010002\nA1010004\nA30100050009\nA3024E20FFFF\n"};
    planner_record record;
    int k;
    begin("edition 02: both texts");
    same(open_text(WINDOWS, &record), 0);
    same_string(planner_write_batch, &record, WINDOWS);
    same(run(&record, 11).kind, PLANNER_PLAN);
    same_string(planner_write_plan, &record, WINDOWS_PLAN);
    same_string(planner_write_batch, &record, WINDOWS);
    for (k = 0; k < 4; k++) {
        same(open_text(files[k], &record), 0);
        same_string(planner_write_batch, &record, files[k]);
        same(run(&record, 1).kind, PLANNER_PLAN);
        same_string(planner_write_batch, &record, files[k]);
    }
}

/* Rests come back byte for byte, behind windows and without them. */
static void check_rests(void) {
    static const char *const files[3] = {"A0020100\nA1010001\nA40001\n", "A0020200\nA1010001\nA1010002\nA3010000FFFF\nA40007\nA40F03\n",
                                         "A0020100\nA1010001\nA40001\nA40102\nA40203\nA40304\nA40405\nA40506\nA40607\nA40701\nA40802\n"
                                         "A40903\nA40A04\nA40B05\nA40C06\nA40D07\nA40E01\nA40F02\n"};
    planner_record record;
    int k;
    begin("rests: both texts");
    same(open_text(RESTS, &record), 0);
    same_string(planner_write_batch, &record, RESTS);
    same(run(&record, 15).kind, PLANNER_PLAN);
    same_string(planner_write_plan, &record, RESTS_PLAN);
    same_string(planner_write_batch, &record, RESTS);
    for (k = 0; k < 3; k++) {
        same(open_text(files[k], &record), 0);
        same_string(planner_write_batch, &record, files[k]);
        same(run(&record, 1).kind, PLANNER_PLAN);
        same_string(planner_write_batch, &record, files[k]);
    }
}

/* 24 jobs, each 978 to 1,000 ticks after the one before: a line of 19 bytes and 24 of 9. They hold nothing, so that the latency is the last
 * start, 22,747. */
static void check_longest_plan(void) {
    plain batch = idle(24, 16, 23);
    planner_record record;
    char due[ROOM], *out = due;
    static const char digits[] = "0123456789ABCDEF";
    int i, start = 0, nibble;
    begin("PLANNER_PLAN_TEXT: the plan text of 24 jobs");
    for (i = 0; i < 23; i++) {
        batch.from[i] = i;
        batch.to[i] = i + 1;
        batch.weight[i] = 1000 - i;
    }
    open_plain(&batch, &record);
    same(run(&record, 1).kind, PLANNER_PLAN);
    out += strlen(strcpy(out, "B0011858DB00000001\n"));
    for (i = 0; i < 24; i++) {
        out += strlen(strcpy(out, "B1"));
        *out++ = digits[i / 16];
        *out++ = digits[i % 16];
        for (nibble = 12; nibble >= 0; nibble -= 4)
            *out++ = digits[start >> nibble & 15];
        *out++ = '\n';
        start += 1000 - i;
    }
    same((long)(out - due), PLANNER_PLAN_TEXT);
    same_text(planner_write_plan, &record, (const uint8_t *)due, PLANNER_PLAN_TEXT);
}

static void check_longest_batch(void) {
    plain batch = idle(24, 16, 128);
    planner_record record;
    uint8_t file[ROOM];
    int k;
    begin("PLANNER_BATCH_TEXT: the batch text of 24 jobs of 16 ticks, 128 delays, 24 windows and 16 rests");
    for (k = 0; k < 16; k++) {
        batch.masks[k][k] = 0x8421 + k;
        give_rest(&batch, k, 1);
    }
    for (k = 0; k < 128; k++)
        batch.weight[k] = 1000 - 15 * k;
    for (k = 0; k < 24; k++)
        give_window(&batch, k, 20000 - 800 * k, 65535 - k);
    open_plain(&batch, &record);
    same((long)file_of(&batch, file), PLANNER_BATCH_TEXT);
    same_text(planner_write_batch, &record, file, PLANNER_BATCH_TEXT);
}

void check_texts(void) {
    check_short();
    check_windows();
    check_rests();
    check_longest_plan();
    check_longest_batch();
}
