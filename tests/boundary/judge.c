/* Judging: each of its answers provoked and compared with its name, a text cut at every length, and texts of 1 MB, files and texts that share memory, and that
 * all memory stays. */
#include "check.h"
#include <string.h>

/* About 1 MB of plan text: a B0 line and job lines. */
#define HEAD 19
#define LINE 9
#define LINES 116506
#define LARGE (HEAD + LINE * LINES)

/* A file and a text, each with room around it. */
typedef struct two {
    uint8_t file[ROOM], text[ROOM];
} two;

/* The answer for two strings. They stay, and so does what stands around them. */
static int judged(const char *file, const char *text) {
    two memory, before;
    uint8_t answer;
    memset(&memory, 0xA5, sizeof memory);
    memcpy(memory.file + EDGE, file, strlen(file));
    memcpy(memory.text + EDGE, text, strlen(text));
    memcpy(&before, &memory, sizeof before);
    answer = planner_judge(memory.file + EDGE, strlen(file), memory.text + EDGE, strlen(text));
    same_bytes(&memory, &before, sizeof before);
    return answer;
}

/* Batches: one job of one tick; job 1 one tick after job 0; one job of 16 ticks. */
static const char C2[] = "A0010100\nA1010001\n";
static const char C7[] = "A0010202\nA1010001\nA1010002\nA200010001\nA20100FFFF\n";
static const char SIXTEEN[] = "A0010100\nA1100001000100010001000100010001000100010001000100010001000100010001\n";

static void check_passing(void) {
    begin("0: C3's plan as it is printed, other totals, longer plans, empty ticks, the last starts");
    same(judged(C3, C3_PLAN), 0);
    same(judged(C3, "B00102000300000000\nB1000001\nB1010000\n"), 0);
    same(judged(C3, "B001020003FFFFFFFF\nB1000001\nB1010000\n"), 0);
    same(judged(C3, "B00102000400000002\nB1000000\nB1010001\n"), 0);
    same(judged(C3, "B00102100300000003\nB1001001\nB1011000\n"), 0);
    same(judged(C7, "B00102000200000001\nB1000000\nB1010001\n"), 0);
    same(judged(C2, "B00101FFFF00000001\nB100FFFE\n"), 0);
    same(judged(SIXTEEN, "B00101FFFF00000001\nB100FFEF\n"), 0);
    same(judged(C8, C8_PLAN), 0);
    same(judged(C8, "B00101FFFF00000001\nB100FFFE\n"), 0);
    same(judged(IDLE, IDLE_PLAN), 0);
    same(judged(IDLE, "B00103FFFF00000001\nB1000000\nB101FFFF\nB1020000\n"), 0);
}

/* One job from tick 3 to tick 5; and examples/wedding-windows.batch, of whose windows each is missed once. */
static void check_windows(void) {
    static const char ONE[] = "A0020100\nA1010001\nA30000030005\n";
    begin("windows: starts at both ends pass, those outside are 19");
    same(judged(ONE, "B00101000400000000\nB1000003\n"), 0);
    same(judged(ONE, "B00101000600000000\nB1000005\n"), 0);
    same(judged(ONE, "B00101000300000000\nB1000002\n"), PLANNER_REFUSAL_INVALID);
    same(judged(ONE, "B00101000700000000\nB1000006\n"), PLANNER_REFUSAL_INVALID);
    same(judged(ONE, "B00101000000000000\nB100FFFF\n"), PLANNER_REFUSAL_INVALID);
    same(judged(ONE, "B00201000400000000\nB1000003\n"), PLANNER_REFUSAL_FORM);
    same(judged(WINDOWS, WINDOWS_PLAN), 0);
    same(judged(WINDOWS, "B0010400070000000B\nB1000000\nB1010004\nB1020000\nB1030003\n"), PLANNER_REFUSAL_INVALID);
    same(judged(WINDOWS, "B0010400060000000B\nB1000003\nB1010001\nB1020000\nB1030000\n"), PLANNER_REFUSAL_INVALID);
    same(judged(WINDOWS, "B0010400080000000B\nB1000002\nB1010005\nB1020001\nB1030004\n"), PLANNER_REFUSAL_INVALID);
}

/* Two jobs of one tick on a station that rests 3 ticks; a job whose own ticks are closer; and examples/laminator.batch. */
static void check_rests(void) {
    static const char TWO[] = "A0020200\nA1010001\nA1010001\nA40003\n";
    begin("rests: held ticks of two jobs as far apart as the rest are 19, a tick further they pass");
    same(judged(TWO, "B00102000500000000\nB1000000\nB1010004\n"), 0);
    same(judged(TWO, "B00102000500000000\nB1000004\nB1010000\n"), 0);
    same(judged(TWO, "B00102000400000000\nB1000000\nB1010003\n"), PLANNER_REFUSAL_INVALID);
    same(judged(TWO, "B00102000400000000\nB1000003\nB1010000\n"), PLANNER_REFUSAL_INVALID);
    same(judged(TWO, "B00102000100000000\nB1000000\nB1010000\n"), PLANNER_REFUSAL_INVALID);
    same(judged(TWO, "B00102FFFF00000000\nB100FFFA\nB101FFFE\n"), 0);
    same(judged(TWO, "B00102FFFF00000000\nB100FFFB\nB101FFFE\n"), PLANNER_REFUSAL_INVALID);
    same(judged(TWO, "B00202000500000000\nB1000000\nB1010004\n"), PLANNER_REFUSAL_FORM);
    same(judged("A0020100\nA103000100000001\nA40007\n", "B00101000300000000\nB1000000\n"), 0);
    same(judged("A0020200\nA1010001\nA1010002\nA40007\nA40107\n", "B00102000100000000\nB1000000\nB1010000\n"), 0);
    same(judged(RESTS, RESTS_PLAN), 0);
    same(judged(RESTS, "B00103000600000000\nB1000000\nB1010003\nB1020001\n"), PLANNER_REFUSAL_INVALID);
    same(judged(RESTS, "B00103000500000000\nB1000000\nB1010002\nB1020001\n"), PLANNER_REFUSAL_INVALID);
}

static void check_form(void) {
    begin("17: texts that are not one B0 line with 01 and then only B1 lines, each of its length");
    same(PLANNER_REFUSAL_FORM, 17);
    same(judged(C3, ""), PLANNER_REFUSAL_FORM);
    same(judged(C3, "\n"), PLANNER_REFUSAL_FORM);
    same(judged(C5, "B200000003\n"), PLANNER_REFUSAL_FORM);
    same(judged(C3, "B1000001\nB1010000\n"), PLANNER_REFUSAL_FORM);
    same(judged(C3, "b00102000300000003\nb1000001\nb1010000\n"), PLANNER_REFUSAL_FORM);
    same(judged(C3, "B00102000300000003\r\nB1000001\r\nB1010000\r\n"), PLANNER_REFUSAL_FORM);
    same(judged(C3, "B00202000300000003\nB1000001\nB1010000\n"), PLANNER_REFUSAL_FORM);
    same(judged(C3, "B001020003000003\nB1000001\nB1010000\n"), PLANNER_REFUSAL_FORM);
    same(judged(C3, "B0010200030000000003\nB1000001\nB1010000\n"), PLANNER_REFUSAL_FORM);
    same(judged(C3, "B00102000300000003\nB10001\nB1010000\n"), PLANNER_REFUSAL_FORM);
    same(judged(C3, "B00102000300000003\nB1000001\nB101000000\n"), PLANNER_REFUSAL_FORM);
    same(judged(C3, "B00102000300000003\nB00102000300000003\nB1000001\nB1010000\n"), PLANNER_REFUSAL_FORM);
    same(judged(C3, "B00102000300000003\nB1000001\nB1010000\n\n"), PLANNER_REFUSAL_FORM);
    same(judged(C3, "B00102000300000003\nB1000001\nB1010000"), PLANNER_REFUSAL_FORM);
}

static void check_jobs(void) {
    begin("18: another n, and job lines that are not jobs 0 to n - 1 in order; 17 is asked before");
    same(PLANNER_REFUSAL_ORDER, 18);
    same(judged(C3, "B00101000300000003\nB1000001\nB1010000\n"), PLANNER_REFUSAL_ORDER);
    same(judged(C3, "B00103000300000003\nB1000001\nB1010000\n"), PLANNER_REFUSAL_ORDER);
    same(judged(C3, "B00102000300000003\n"), PLANNER_REFUSAL_ORDER);
    same(judged(C3, "B00102000300000003\nB1000001\n"), PLANNER_REFUSAL_ORDER);
    same(judged(C3, "B00102000300000003\nB1010000\nB1000001\n"), PLANNER_REFUSAL_ORDER);
    same(judged(C3, "B00102000300000003\nB1000001\nB1000001\nB1010000\n"), PLANNER_REFUSAL_ORDER);
    same(judged(C3, "B00102000300000003\nB1000001\nB1010000\nB1020000\n"), PLANNER_REFUSAL_ORDER);
    same(judged(C3, "B00102000300000003\nB1010000\nB1000001\nB2\n"), PLANNER_REFUSAL_FORM);
}

static void check_invalid(void) {
    begin("19: delays, stations and latency, with nothing that wraps; 17 and 18 are asked before");
    same(PLANNER_REFUSAL_INVALID, 19);
    same(judged(C7, "B00102000100000001\nB1000000\nB1010000\n"), PLANNER_REFUSAL_INVALID);
    same(judged(C7, "B00102000300000001\nB1000000\nB1010002\n"), PLANNER_REFUSAL_INVALID);
    same(judged(C3, "B00102000300000003\nB1000000\nB1010000\n"), PLANNER_REFUSAL_INVALID);
    same(judged(C3, "B00102000200000003\nB1000001\nB1010000\n"), PLANNER_REFUSAL_INVALID);
    same(judged(C3, "B00102000400000003\nB1000001\nB1010000\n"), PLANNER_REFUSAL_INVALID);
    same(judged(C2, "B00101000000000001\nB100FFFF\n"), PLANNER_REFUSAL_INVALID);
    same(judged(SIXTEEN, "B00101000F00000001\nB100FFFF\n"), PLANNER_REFUSAL_INVALID);
    same(judged(C8, "B00101000200000001\nB1000000\n"), PLANNER_REFUSAL_INVALID);
    same(judged(C8, "B00101000000000001\nB100FFFF\n"), PLANNER_REFUSAL_INVALID);
    same(judged(IDLE, "B00103000100000001\nB1000000\nB1010000\nB1020000\n"), PLANNER_REFUSAL_INVALID);
    same(judged(IDLE, "B00103000000000001\nB1000000\nB101FFFF\nB1020000\n"), PLANNER_REFUSAL_INVALID);
    same(judged(IDLE, "B00103FFFE00000001\nB1000000\nB101FFFF\nB1020000\n"), PLANNER_REFUSAL_INVALID);
    same(judged(C3, "B00102000300000003\nB1010000\nB1000000\n"), PLANNER_REFUSAL_ORDER);
    same(judged(C3, "B00102000300000003\nB1000000\nB1010000"), PLANNER_REFUSAL_FORM);
}

/* As planner_open refuses the file, whatever the text is. */
static void refused_file(const char *file, int refusal) {
    planner_record record;
    same(open_text(file, &record), refusal);
    same(judged(file, C3_PLAN), refusal);
    same(judged(file, ""), refusal);
    same(judged(file, file), refusal);
}

static void check_files(void) {
    plain batch = idle(9, 16, 0);
    char crowd[ROOM];
    int i, a;
    begin("1 to 10, 20 and 21: the file's refusals, asked before the text's");
    refused_file("A0010\n", PLANNER_REFUSAL_LINE);
    refused_file("A0010100\nA10100\n", PLANNER_REFUSAL_FRAME);
    refused_file("A0030100\nA1010001\n", PLANNER_REFUSAL_EDITION);
    refused_file("A0020100\nA1010001\nA30000020001\n", PLANNER_REFUSAL_WINDOW);
    refused_file("A0020100\nA1010001\n\n", PLANNER_REFUSAL_LINE);
    refused_file("A0020100\nA1010001\nA40008\n", PLANNER_REFUSAL_REST);
    refused_file("A0020100\nA1010001\nA50001\n", PLANNER_REFUSAL_FRAME);
    refused_file("A0010100\nA1010001\nA30000000001\n", PLANNER_REFUSAL_EXTRA);
    refused_file("A0010100\nA1010001\nA40001\n", PLANNER_REFUSAL_EXTRA);
    refused_file("A0020201\nA1010001\nA1010002\nA200010005\nA30100000004\n", PLANNER_REFUSAL_DELAYS);
    refused_file("A0010000\n", PLANNER_REFUSAL_COUNT);
    refused_file("A0010201\nA1010001\nA1010002\nA200000001\n", PLANNER_REFUSAL_JOB);
    refused_file("A0010201\nA1010001\nA1010002\nA2000103E9\n", PLANNER_REFUSAL_WEIGHT);
    refused_file("", PLANNER_REFUSAL_MISSING);
    refused_file("A0010100\nA1010001\n\n", PLANNER_REFUSAL_EXTRA);
    refused_file("A0010202\nA1010001\nA1010002\nA200010001\nA201000000\n", PLANNER_REFUSAL_DELAYS);
    for (i = 0; i < 9; i++)
        for (a = 0; a < 16; a++)
            batch.masks[i][a] = 1;
    crowd[file_of(&batch, (uint8_t *)crowd)] = 0;
    refused_file(crowd, PLANNER_REFUSAL_CLASHES);
}

static void check_lengths(void) {
    const uint8_t *file = (const uint8_t *)C3, *text = (const uint8_t *)C3_PLAN;
    size_t whole = strlen(C3), all = strlen(C3_PLAN), length;
    int due;
    begin("lengths from 0 up to the whole file and the whole text");
    for (length = 0; length < whole; length++) {
        due = length == 0 || C3[length - 1] == '\n' ? PLANNER_REFUSAL_MISSING : PLANNER_REFUSAL_LINE;
        same(planner_judge(file, length, text, all), due);
        same(planner_judge(file, length, text, 0), due);
    }
    for (length = 0; length < all; length++) {
        due = length > 0 && C3_PLAN[length - 1] == '\n' ? PLANNER_REFUSAL_ORDER : PLANNER_REFUSAL_FORM;
        same(planner_judge(file, whole, text, length), due);
    }
    same(planner_judge(file, whole, text, all), 0);
}

static void check_large(void) {
    static uint8_t large[LARGE], before[LARGE];
    const uint8_t *file = (const uint8_t *)C3;
    int k;
    begin("a text of 116,506 job lines, 1 MB: 18; with one byte of its last line wrong: 17");
    memcpy(large, C3_PLAN, strlen(C3_PLAN));
    for (k = 0; k < LINES; k++)
        memcpy(large + HEAD + LINE * k, C3_PLAN + HEAD + LINE * (k % 2), LINE);
    memcpy(before, large, sizeof large);
    same(planner_judge(file, strlen(C3), large, sizeof large), PLANNER_REFUSAL_ORDER);
    same(planner_judge(file, strlen(C3), large, sizeof large - 1), PLANNER_REFUSAL_FORM);
    same_bytes(large, before, sizeof large);
    for (k = 1; k <= LINE; k++) {
        large[LARGE - k] = 'a';
        same(planner_judge(file, strlen(C3), large, sizeof large), PLANNER_REFUSAL_FORM);
        large[LARGE - k] = before[LARGE - k];
    }
    memset(large, '\n', sizeof large);
    same(planner_judge(file, strlen(C3), large, sizeof large), PLANNER_REFUSAL_FORM);
    memset(large, '0', sizeof large);
    same(planner_judge(file, strlen(C3), large, sizeof large), PLANNER_REFUSAL_FORM);
    same(planner_judge(large, sizeof large, before, sizeof before), PLANNER_REFUSAL_LINE);
}

/* The last job's masks, but for one byte, are the B0 line of a plan of this file. */
static void check_shared(void) {
    static const char memory[] = "A0010100\nA10500B00101000500000001\nB1000000\n";
    const uint8_t *bytes = (const uint8_t *)memory, *file = (const uint8_t *)C3;
    size_t ends = strlen("A0010100\nA10500B00101000500000001\n"), begins = strlen("A0010100\nA10500");
    begin("file and text in one memory: the same, and overlapping");
    same(planner_judge(file, strlen(C3), file, strlen(C3)), PLANNER_REFUSAL_FORM);
    same(planner_judge(bytes, ends, bytes, ends), PLANNER_REFUSAL_FORM);
    same(planner_judge(bytes, ends, bytes + begins, strlen(memory) - begins), 0);
    same(planner_judge(bytes, ends, bytes + begins, ends - begins), PLANNER_REFUSAL_ORDER);
    same(planner_judge(bytes, ends, bytes, strlen(memory)), PLANNER_REFUSAL_FORM);
    same(planner_judge(bytes, strlen(memory), bytes + begins, strlen(memory) - begins), PLANNER_REFUSAL_EXTRA);
}

/* 24 jobs, each 1,000 ticks after the one before. */
static void check_written(void) {
    plain batch = idle(24, 16, 23);
    planner_record record;
    uint8_t file[ROOM], text[PLANNER_PLAN_TEXT];
    size_t length;
    planner_text written;
    int k;
    begin("the plan text of a search passes as it is written, and not with another latency");
    for (k = 0; k < 23; k++) {
        batch.from[k] = k;
        batch.to[k] = k + 1;
        batch.weight[k] = 1000;
    }
    length = file_of(&batch, file);
    open_plain(&batch, &record);
    same(run(&record, 1).kind, PLANNER_PLAN);
    written = planner_write_plan(&record, text, sizeof text);
    same((long)written.length, PLANNER_PLAN_TEXT);
    same(planner_judge(file, length, text, written.length), 0);
    text[9]++;
    same(planner_judge(file, length, text, written.length), PLANNER_REFUSAL_INVALID);
    text[9] -= 2;
    same(planner_judge(file, length, text, written.length), PLANNER_REFUSAL_INVALID);
}

void check_judge(void) {
    check_passing();
    check_windows();
    check_rests();
    check_form();
    check_jobs();
    check_invalid();
    check_files();
    check_lengths();
    check_large();
    check_shared();
    check_written();
}
