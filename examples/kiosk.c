/* A kiosk's redraw loop around the planner: each redraw, every 16 ms, gives it at most about 4 ms, in a budget of
 * nodes chosen from the measured rate.
 *
 * `kiosk FILE` draws its progress on one line of standard error and prints the plan text on standard output. It
 * waits for the next redraw only where standard error is a terminal. A search that would pass its limit of nodes
 * leaves the best plan found, which is told on standard error. Exit status: 0 with a text, 1 if the file or a run
 * is refused or the text cannot be written, 2 with wrong usage or a file that cannot be read.
 *
 * cc -std=c99 -O2 -I include -o target/kiosk examples/kiosk.c crates/planner_c/out/libplanner_c.a
 */
#define _POSIX_C_SOURCE 200809L
#include "planner.h"
#include <stdio.h>
#include <time.h>
#include <unistd.h>

#define FRAME 0.016 /* seconds from redraw to redraw */
#define SHARE 0.004 /* of which the planner gets these */
#define FIRST 64    /* the first budget, before anything is measured */
#define ROOM 65536  /* the bytes of a file that are looked at, far more than the longest batch has */

static const char *const words[] = {
    "accepted",
    "a line without 0A, without digits, with an odd count, or with another byte than 0-9 and A-F",
    "the first byte is no kind that is due there, or the length is wrong",
    "the edition is neither 01 nor 02",
    "n, m or p is outside its limits (1 to 24 jobs, at most 128 delays, 1 to 16 ticks)",
    "a delay names a job of n or above, or one job twice",
    "a weight is outside -1,000 to 1,000",
    "the file ends where a frame is due",
    "bytes after the last frame of edition 01",
    "more than 1,024 clashes",
    "no starts meet the delays and the windows",
    "a budget above 1,000,000",
    "the record is not sound",
    "the starts list is shorter than n",
    "the search has not ended, and total + budget is above 100,000,000",
    "a plan text is wanted of a search that has not ended",
    "the text is longer than the buffer",
    "the plan text is not one B0 line with 01 and then only B1 lines, each of its length",
    "the plan text's n is not the batch's, or its job lines are not jobs 0 to n - 1 in order",
    "the plan is not valid, or its latency is wrong",
    "a window's job is of n or above or not above the window's before, or its earliest start is above 20,000 or above its latest",
    "a rest's station is above 15 or not above the rest's before, or its ticks are outside 1 to 7",
};

static double now(void) {
    struct timespec time;
    clock_gettime(CLOCK_MONOTONIC, &time);
    return (double)time.tv_sec + (double)time.tv_nsec / 1e9;
}

/* Waits for the rest of a frame; nothing where the frame is over. */
static void rest(double seconds) {
    struct timespec time = {0, 0};
    if (seconds <= 0)
        return;
    time.tv_nsec = (long)(seconds * 1e9);
    nanosleep(&time, NULL);
}

/* The next frame's budget: as many nodes as the last rate fits into the share. It at most doubles, since later
 * nodes may be slower.
 */
static uint32_t next_budget(const planner_record *record, uint32_t visited, double took) {
    double fitting = took > 0 ? visited * SHARE / took : PLANNER_BUDGET;
    if (fitting > 2.0 * visited)
        fitting = 2.0 * visited;
    if (fitting > PLANNER_BUDGET)
        fitting = PLANNER_BUDGET;
    if (fitting > PLANNER_TOTAL - record->total)
        fitting = PLANNER_TOTAL - record->total;
    return fitting < 1 ? 1 : (uint32_t)fitting;
}

/* One line: the frame, the nodes so far, the best plan so far, and the planner's time in this frame. */
static void draw(long frame, const planner_record *record, double took) {
    fprintf(stderr, "\rframe %ld: %lu nodes, ", frame, (unsigned long)record->total);
    if (record->found)
        fprintf(stderr, "best latency %d, ", record->latency);
    else
        fprintf(stderr, record->ended ? "no plan, " : "no plan yet, ");
    fprintf(stderr, "%.1f ms   ", took * 1000);
}

/* Frame after frame until the search has ended, or is refused because it would pass its limit of nodes. */
static planner_answer redraw(planner_record *record) {
    uint16_t starts[PLANNER_JOBS];
    uint32_t budget = FIRST;
    long frame;
    for (frame = 1;; frame++) {
        double begin = now(), took;
        planner_answer answer = planner_run(record, budget, starts, PLANNER_JOBS);
        took = now() - begin;
        draw(frame, record, took);
        if (answer.kind != PLANNER_SPENT) {
            fprintf(stderr, "\n");
            return answer;
        }
        budget = next_budget(record, budget, took);
        if (isatty(STDERR_FILENO))
            rest(FRAME - (now() - begin));
    }
}

static int refused(int number) {
    fprintf(stderr, "kiosk: refused, number %d: %s\n", number, words[number]);
    return 1;
}

/* The best plan of a search that was not brought to its end: valid, and perhaps not the shortest. */
static void tell_best(const planner_record *record) {
    int i;
    if (!record->found)
        return;
    fprintf(stderr, "kiosk: best plan so far, latency %d: starts", record->latency);
    for (i = 0; i < record->batch.n; i++)
        fprintf(stderr, " %d", record->starts[i]);
    fprintf(stderr, "\n");
}

int main(int count, char **arguments) {
    static uint8_t file[ROOM];
    static planner_record record;
    uint8_t text[PLANNER_PLAN_TEXT];
    planner_text written;
    planner_answer answer;
    uint8_t opened;
    size_t length;
    FILE *in;
    if (count != 2) {
        fprintf(stderr, "usage: kiosk FILE\n");
        return 2;
    }
    in = fopen(arguments[1], "rb");
    if (in == NULL) {
        perror(arguments[1]);
        return 2;
    }
    length = fread(file, 1, sizeof file, in);
    if (ferror(in)) {
        perror(arguments[1]);
        return 2;
    }
    fclose(in);
    opened = planner_open(file, length, &record);
    if (opened != 0)
        return refused(opened);
    answer = redraw(&record);
    if (answer.kind == PLANNER_REFUSED) {
        tell_best(&record);
        return refused(answer.refusal);
    }
    written = planner_write_plan(&record, text, sizeof text);
    if (written.refusal != 0)
        return refused(written.refusal);
    return fwrite(text, 1, written.length, stdout) == written.length && fflush(stdout) == 0 ? 0 : 1;
}
