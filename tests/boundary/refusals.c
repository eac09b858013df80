/* Each refusal 1 to 16, 20 and 21 provoked and compared with its name, and what a refused call leaves. judge.c has 17 to 19. */
#include "check.h"
#include <string.h>

static void refused_file(const char *name, const char *text, int refusal, int number) {
    planner_record record;
    memset(&record, 0xA5, sizeof record);
    begin(name);
    same(refusal, number);
    same(open_text(text, &record), refusal);
    same_fill(&record, 0xA5, sizeof record);
}

static void check_opening(void) {
    refused_file("1: an odd count of digits", "A0010\n", PLANNER_REFUSAL_LINE, 1);
    refused_file("2: a job line too short for its ticks", "A0010100\nA10100\n", PLANNER_REFUSAL_FRAME, 2);
    refused_file("3: edition 03", "A0030100\nA1010001\n", PLANNER_REFUSAL_EDITION, 3);
    refused_file("3: edition 00", "A0000100\nA1010001\n", PLANNER_REFUSAL_EDITION, 3);
    refused_file("4: no jobs", "A0010000\n", PLANNER_REFUSAL_COUNT, 4);
    refused_file("5: a delay from a job to itself", "A0010201\nA1010001\nA1010002\nA200000001\n", PLANNER_REFUSAL_JOB, 5);
    refused_file("6: weight 1,001", "A0010201\nA1010001\nA1010002\nA2000103E9\n", PLANNER_REFUSAL_WEIGHT, 6);
    refused_file("7: an empty file", "", PLANNER_REFUSAL_MISSING, 7);
    refused_file("8: 0A after the last frame", "A0010100\nA1010001\n\n", PLANNER_REFUSAL_EXTRA, 8);
    refused_file("10: C6", "A0010202\nA1010001\nA1010002\nA200010001\nA201000000\n", PLANNER_REFUSAL_DELAYS, 10);
}

/* After the lines of two jobs, without delays. */
static void refused_further(const char *name, const char *lines, int refusal, int number) {
    char text[ROOM] = "A0020200\nA1010001\nA1010002\n";
    strcat(text, lines);
    refused_file(name, text, refusal, number);
}

static void check_further(void) {
    refused_further("1: an empty further line", "\n", PLANNER_REFUSAL_LINE, 1);
    refused_further("1: a further line without 0A", "A30000000001", PLANNER_REFUSAL_LINE, 1);
    refused_further("1: a further line in lower case", "a30000000001\n", PLANNER_REFUSAL_LINE, 1);
    refused_further("2: kind A5, which is not known", "A505020001\n", PLANNER_REFUSAL_FRAME, 2);
    refused_further("2: kind FF, which is not known", "FF0000000001\n", PLANNER_REFUSAL_FRAME, 2);
    refused_further("2: a delay after the last one", "A200010001\n", PLANNER_REFUSAL_FRAME, 2);
    refused_further("2: a kind that falls", "A30000000001\nA200010001\n", PLANNER_REFUSAL_FRAME, 2);
    refused_further("2: a window of 5 bytes", "A300000000\n", PLANNER_REFUSAL_FRAME, 2);
    refused_further("2: a window of 7 bytes, of a job of n", "A3020000000100\n", PLANNER_REFUSAL_FRAME, 2);
    refused_further("20: a window of a job of n", "A30200000001\n", PLANNER_REFUSAL_WINDOW, 20);
    refused_further("20: a window of job 255", "A3FF00000001\n", PLANNER_REFUSAL_WINDOW, 20);
    refused_further("20: two windows of one job", "A30000000001\nA30000000001\n", PLANNER_REFUSAL_WINDOW, 20);
    refused_further("20: windows of jobs that fall", "A30100000001\nA30000000001\n", PLANNER_REFUSAL_WINDOW, 20);
    refused_further("20: earliest 20,001", "A3004E21FFFF\n", PLANNER_REFUSAL_WINDOW, 20);
    refused_further("20: earliest above latest", "A30000020001\n", PLANNER_REFUSAL_WINDOW, 20);
    refused_further("20 in one line before 1 in the next", "A30000020001\nG\n", PLANNER_REFUSAL_WINDOW, 20);
    refused_file("8: a window in edition 01", "A0010100\nA1010001\nA30000000001\n", PLANNER_REFUSAL_EXTRA, 8);
    refused_file("20 before 10", "A0020202\nA1010001\nA1010002\nA200010001\nA201000000\nA30000020001\n", PLANNER_REFUSAL_WINDOW, 20);
    refused_file("10: a delay past a latest start", "A0020201\nA1010001\nA1010002\nA200010005\nA30100000004\n", PLANNER_REFUSAL_DELAYS, 10);
}

static void check_rests(void) {
    refused_further("1: a rest without 0A", "A40001", PLANNER_REFUSAL_LINE, 1);
    refused_further("1: a rest in lower case", "a40001\n", PLANNER_REFUSAL_LINE, 1);
    refused_further("2: a rest of 2 bytes, of station 16", "A410\n", PLANNER_REFUSAL_FRAME, 2);
    refused_further("2: a rest of 4 bytes, of no ticks", "A4000000\n", PLANNER_REFUSAL_FRAME, 2);
    refused_further("2: a window behind a rest", "A40001\nA30000000001\n", PLANNER_REFUSAL_FRAME, 2);
    refused_further("2: a delay behind a rest", "A40001\nA200010001\n", PLANNER_REFUSAL_FRAME, 2);
    refused_further("2: kind A5 behind a rest", "A40001\nA505020001\n", PLANNER_REFUSAL_FRAME, 2);
    refused_further("20 in a window before 21 in a rest", "A30000020001\nA41001\n", PLANNER_REFUSAL_WINDOW, 20);
    refused_further("21: a rest of station 16", "A41001\n", PLANNER_REFUSAL_REST, 21);
    refused_further("21: a rest of station 255", "A4FF01\n", PLANNER_REFUSAL_REST, 21);
    refused_further("21: two rests of one station", "A40001\nA40001\n", PLANNER_REFUSAL_REST, 21);
    refused_further("21: rests of stations that fall", "A30100000001\nA40101\nA40001\n", PLANNER_REFUSAL_REST, 21);
    refused_further("21: rest 0", "A40000\n", PLANNER_REFUSAL_REST, 21);
    refused_further("21: rest 8", "A40008\n", PLANNER_REFUSAL_REST, 21);
    refused_further("21: rest 255", "A400FF\n", PLANNER_REFUSAL_REST, 21);
    refused_further("21 in one line before 1 in the next", "A40000\nG\n", PLANNER_REFUSAL_REST, 21);
    refused_file("8: a rest in edition 01", "A0010100\nA1010001\nA40001\n", PLANNER_REFUSAL_EXTRA, 8);
    refused_file("21 before 10", "A0020202\nA1010001\nA1010002\nA200010001\nA201000000\nA40000\n", PLANNER_REFUSAL_REST, 21);
    refused_file("10 with a rest", "A0020202\nA1010001\nA1010002\nA200010001\nA201000000\nA40007\n", PLANNER_REFUSAL_DELAYS, 10);
}

static void check_clashes(void) {
    plain batch = idle(9, 16, 0);
    planner_record record;
    uint8_t file[ROOM];
    int i, a;
    memset(&record, 0xA5, sizeof record);
    begin("9: 9 jobs of 16 masks 0001, 1,116 clashes");
    for (i = 0; i < 9; i++)
        for (a = 0; a < 16; a++)
            batch.masks[i][a] = 1;
    same(PLANNER_REFUSAL_CLASHES, 9);
    same(planner_open(file, file_of(&batch, file), &record), PLANNER_REFUSAL_CLASHES);
    same_fill(&record, 0xA5, sizeof record);
    begin("9: 13 jobs of one mask 0001 that rests 7 ticks, 1,170 clashes");
    batch = idle(13, 1, 0);
    for (i = 0; i < 13; i++)
        batch.masks[i][0] = 1;
    give_rest(&batch, 0, 7);
    same(planner_open(file, file_of(&batch, file), &record), PLANNER_REFUSAL_CLASHES);
    same_fill(&record, 0xA5, sizeof record);
}

/* A refused run leaves every byte of the record and of the starts. */
static void refused_run(const room *before, uint32_t budget, size_t count, int refusal, int number) {
    room after;
    uint16_t starts[2];
    memcpy(&after, before, sizeof after);
    memset(starts, 0xA5, sizeof starts);
    same(refusal, number);
    same_answer(planner_run(&after.record, budget, starts, count), PLANNER_REFUSED, refusal, 0, 0);
    same_bytes(&after, before, sizeof after);
    same_fill(starts, 0xA5, sizeof starts);
}

static void check_running(void) {
    room memory;
    int k;
    fill(&memory, 0xA5);
    begin("11: budget 1,000,001, asked before 12, 13 and 14");
    same(open_text(C3, &memory.record), 0);
    for (k = 2; k < PLANNER_JOBS; k++) { /* places that do not count */
        memory.record.batch.jobs[k].ticks = 0xA5A5;
        memory.record.batch.windows[k].lined = 0xA5A5;
    }
    refused_run(&memory, PLANNER_BUDGET + 1, 2, PLANNER_REFUSAL_BUDGET, 11);
    refused_run(&memory, 0xFFFFFFFF, 0, PLANNER_REFUSAL_BUDGET, 11);
    begin("13: one place too few in the starts, asked before 14");
    refused_run(&memory, 1, 1, PLANNER_REFUSAL_STARTS, 13);
    refused_run(&memory, 1, 0, PLANNER_REFUSAL_STARTS, 13);
    memory.record.total = PLANNER_TOTAL;
    refused_run(&memory, 1, 1, PLANNER_REFUSAL_STARTS, 13);
    begin("14: total 99,999,999 and budget 2");
    memory.record.total = PLANNER_TOTAL - 1;
    refused_run(&memory, 2, 2, PLANNER_REFUSAL_TOTAL, 14);
    begin("12: total 100,000,001, asked before 13");
    memory.record.total = PLANNER_TOTAL + 1;
    refused_run(&memory, 1, 2, PLANNER_REFUSAL_RECORD, 12);
    refused_run(&memory, 1, 0, PLANNER_REFUSAL_RECORD, 12);
    refused_run(&memory, PLANNER_BUDGET + 1, 0, PLANNER_REFUSAL_BUDGET, 11);
    begin("12: records of one byte all over");
    fill(&memory, 0x00);
    refused_run(&memory, 1, 2, PLANNER_REFUSAL_RECORD, 12);
    fill(&memory, 0x01);
    refused_run(&memory, 1, 2, PLANNER_REFUSAL_RECORD, 12);
    fill(&memory, 0xFF);
    refused_run(&memory, 1, 2, PLANNER_REFUSAL_RECORD, 12);
}

static void refused_text(planner_text got, int refusal, int number) {
    same(refusal, number);
    same((long)got.length, 0);
    same(got.refusal, refusal);
}

static void check_writing(void) {
    planner_record record;
    uint8_t buffer[ROOM];
    memset(buffer, '.', sizeof buffer);
    begin("15: a plan text of a fresh search, asked before 16");
    same(open_text(C3, &record), 0);
    refused_text(planner_write_plan(&record, buffer, sizeof buffer), PLANNER_REFUSAL_UNENDED, 15);
    refused_text(planner_write_plan(&record, buffer, 0), PLANNER_REFUSAL_UNENDED, 15);
    begin("16: buffers of no bytes");
    refused_text(planner_write_batch(&record, buffer, 0), PLANNER_REFUSAL_BUFFER, 16);
    same(run(&record, 3).kind, PLANNER_PLAN);
    refused_text(planner_write_plan(&record, buffer, 0), PLANNER_REFUSAL_BUFFER, 16);
    begin("12 of both texts, asked before 15 and 16");
    record.batch.n = 0;
    refused_text(planner_write_plan(&record, buffer, 0), PLANNER_REFUSAL_RECORD, 12);
    refused_text(planner_write_batch(&record, buffer, 0), PLANNER_REFUSAL_RECORD, 12);
    begin("a refused text leaves the buffer");
    same_fill(buffer, '.', sizeof buffer);
}

void check_refusals(void) {
    check_opening();
    check_further();
    check_rests();
    check_clashes();
    check_running();
    check_writing();
}
