/* The kiosk batch planner's library: libplanner_c.a, made by `rt lib` in crates/planner_c. Linux, x86-64; C99 or C++.
 *
 * A batch file is opened once; its search is then run in budgets of nodes, as small as the caller likes, until the
 * answer is a plan or no plan; then the plan is written as text. The search lives in a planner_record that the
 * caller owns and keeps between the calls. A caller that stops before the end, or meets PLANNER_REFUSAL_TOTAL, has
 * the best plan found so far in the record: found, latency and starts. It is valid and perhaps not the shortest,
 * and its text cannot be written. A plan text, wherever it comes from, is judged beside its batch file; that needs
 * no record.
 *
 * A file of edition 02 may give jobs a window, an earliest and a latest start, and stations a rest. A plan with a
 * start outside its window is not valid, and neither is one in which two jobs hold a station in ticks that are no
 * further apart than its rest. A job's own ticks need no rest between them.
 *
 * A plan's latency is the first tick from which on no job holds a station, or the latest start of a job that holds
 * none, if that is later. Empty ticks at the end of a job do not count. Where no job holds a station it may be 0.
 *
 * For every call:
 * - No pointer may be null, also where the length that goes with it is 0. Each is aligned for its type and valid
 *   for the length given, and no memory that a call may write overlaps other memory passed to it.
 * - The call keeps no pointer, allocates nothing, and has no state of its own: what it does depends on its
 *   arguments alone. Calls may be made from several threads at once as long as they share no memory that one of
 *   them writes.
 * - Every call ends, a run after at most its budget of nodes. It takes less than 64 KB of stack.
 * - Any bytes may stand in a record: one that makes no sense is refused with 12.
 * - A refused call leaves all memory as it was.
 * - A record has no padding: every byte of it belongs to a field, and an opening that is not refused writes them
 *   all. Two records whose fields are the same are the same bytes.
 */
#ifndef PLANNER_H
#define PLANNER_H

#include <stddef.h>
#include <stdint.h>

#ifdef __cplusplus
extern "C" {
#endif

/* ---- the version */

/* It rises whenever the record's layout, a number's meaning or a call changes, and when a call is added. A program
 * compiled with this header links only with an archive of the same version: with gcc and clang every file that
 * includes the header refers to planner_version_5, a name that no archive of another version has. With another
 * compiler, or with --gc-sections and a gcc before 11 or a clang before 13, call planner_version_5() somewhere in
 * the program; it answers PLANNER_VERSION. (Since 3, empty ticks at the end of a job do not count in the latency.
 * Since 4, a record has an edition and windows and no padding, and found and ended have one byte each. Since 5, a
 * batch has the rests of its stations, and a path's clashes are numbered with them.)
 */
#define PLANNER_VERSION 5
uint32_t planner_version_5(void);

#if defined(__GNUC__)
#pragma GCC diagnostic push
#pragma GCC diagnostic ignored "-Wattributes" /* of a compiler that knows `retain` and an assembler that does not */
#if defined(__has_attribute)
#if __has_attribute(__retain__)
__attribute__((__retain__)) /* --gc-sections keeps it */
#endif
#endif
__attribute__((__used__)) static uint32_t (*const planner_linked)(void) = planner_version_5;
#pragma GCC diagnostic pop
#endif

/* ---- the limits */

#define PLANNER_JOBS 24            /* the most jobs of a batch; the least is 1 */
#define PLANNER_DELAYS 128         /* the most delays of a batch */
#define PLANNER_TICKS 16           /* the most ticks of a job; the least is 1 */
#define PLANNER_STATIONS 16        /* the stations, numbered 0 to 15 */
#define PLANNER_WEIGHT 1000        /* a delay's weight is -1000 to 1000 */
#define PLANNER_TURNS 1024         /* the places of a path, and the most clashes of a batch */
#define PLANNER_EARLIEST 20000     /* the largest earliest start of a job; a latest start is two bytes */
#define PLANNER_REST 7             /* the longest rest of a station, in ticks */
#define PLANNER_START 43000        /* the largest start of a sound record's best */
#define PLANNER_LATENCY 43016      /* the largest latency of a sound record's best */
#define PLANNER_BUDGET 1000000     /* the most nodes of one run */
#define PLANNER_TOTAL 100000000    /* the most nodes of a whole search */
#define PLANNER_PLAN_TEXT 235      /* the bytes of the longest plan text */
#define PLANNER_BATCH_TEXT 3497    /* the bytes of the longest batch text, which is the longest batch file */

/* ---- the record of a search */

/* A delay: job `to` starts at least `weight` ticks after job `from`. */
typedef struct planner_delay {
    uint8_t from;
    uint8_t to;
    int16_t weight;
} planner_delay;

/* A job: bit s of masks[a] is set where it holds station s in its tick a, for a below `ticks`. */
typedef struct planner_job {
    uint16_t ticks;
    uint16_t masks[PLANNER_TICKS];
} planner_job;

/* A job's window: it starts at `earliest` or later, and at `latest` or earlier. `lined` is 0 where the file has no line
 * for it, and anything else where it has one; opening writes 0 or 1. Without a line `earliest` is 0 and `latest` 65535.
 */
typedef struct planner_window {
    uint16_t lined;
    uint16_t earliest;
    uint16_t latest;
} planner_window;

/* A batch: the first n jobs with their windows, the first m delays and all rests count. rests[s] is the rest of station
 * s, 0 where the file has no line for it. In edition 1 no job has a line and no station a rest.
 */
typedef struct planner_batch {
    uint8_t n;
    uint8_t m;
    uint16_t edition;
    planner_job jobs[PLANNER_JOBS];
    planner_delay delays[PLANNER_DELAYS];
    planner_window windows[PLANNER_JOBS];
    uint8_t rests[PLANNER_STATIONS];
} planner_batch;

/* A turn of the search: the number of a clash in the batch's list, and the side taken, 0 for a larger distance or 1
 * for a smaller one. The list has the clashes by i, then j, then distance, -22 to 22, all rising, numbered from 0.
 */
typedef struct planner_turn {
    uint16_t clash;
    uint16_t side;
} planner_turn;

/* The turn of a path's place that is empty. */
#define PLANNER_EMPTY_CLASH 65535
#define PLANNER_EMPTY_SIDE 0

/* A search. Plain data: it may be copied, kept, and read at any time between calls. The planner writes found and
 * ended as 0 or 1, and latency as 0 while found is 0. Any other found or ended counts as 1, and with found 0 any
 * other latency counts as 0: a run that is answered, also one that visits no node, brings these fields to the
 * planner's own values.
 */
typedef struct planner_record {
    uint32_t total;                     /* nodes visited so far */
    uint16_t latency;                   /* the latency of the best plan so far, 0 where found is 0 */
    uint8_t found;                      /* 0 where there is no plan yet, else there is one */
    uint8_t ended;                      /* 0 while the search goes on, else it has ended */
    uint16_t starts[PLANNER_JOBS];      /* the starts of the best plan so far: the first batch.n count */
    planner_batch batch;                /* as the file has it; no run changes it */
    planner_turn path[PLANNER_TURNS];   /* where the search stands; empty places after the last turn */
} planner_record;

/* ---- the answers */

/* That a plan is the shortest valid one, and that no valid plan exists, holds for a record that planner_open of this
 * version made and that nothing but planner_run has changed since. A sound record from elsewhere is answered as it
 * stands: its best is taken for a plan and its path for the part of the search that is done.
 *
 * These four are values of `kind`: with PLANNER_REFUSED, one of the PLANNER_REFUSAL_ numbers below stands in
 * `refusal`.
 */
#define PLANNER_SPENT 0      /* the budget is used and the search goes on: run again */
#define PLANNER_PLAN 1       /* the search has ended with the shortest valid plan */
#define PLANNER_NO_PLAN 2    /* the search has ended: no valid plan exists */
#define PLANNER_REFUSED 3    /* the call was refused */

typedef struct planner_answer {
    uint8_t kind;        /* PLANNER_SPENT, PLANNER_PLAN, PLANNER_NO_PLAN or PLANNER_REFUSED */
    uint8_t refusal;     /* 11 to 14 if refused, else 0 */
    uint16_t latency;    /* the plan's latency; 0 unless the kind is PLANNER_PLAN */
    uint32_t total;      /* nodes visited since the opening; 0 if refused */
} planner_answer;

typedef struct planner_text {
    size_t length;      /* the bytes written; 0 if refused */
    uint8_t refusal;    /* 12, 15 or 16 if refused, else 0 */
} planner_text;

/* ---- the refusals: where several conditions hold, a call gives the first in the order that it asks them */

/* 1 to 10, 20 and 21 are answers of planner_open, 11 to 16 values of `refusal`, 1 to 10 and 17 to 21 answers of
 * planner_judge; PLANNER_REFUSED, above, is a value of `kind`.
 */
#define PLANNER_REFUSAL_LINE 1       /* a line without 0A, without digits, with an odd count, or with another byte than 0-9 and A-F */
#define PLANNER_REFUSAL_FRAME 2      /* the first byte is no kind that is due there, or the length is wrong */
#define PLANNER_REFUSAL_EDITION 3    /* the edition is neither 01 nor 02 */
#define PLANNER_REFUSAL_COUNT 4      /* n, m or p is outside its limits (1 to 24 jobs, at most 128 delays, 1 to 16 ticks) */
#define PLANNER_REFUSAL_JOB 5        /* a delay names a job of n or above, or one job twice */
#define PLANNER_REFUSAL_WEIGHT 6     /* a weight is outside -1,000 to 1,000 */
#define PLANNER_REFUSAL_MISSING 7    /* the file ends where a frame is due */
#define PLANNER_REFUSAL_EXTRA 8      /* bytes after the last frame of edition 01 */
#define PLANNER_REFUSAL_CLASHES 9    /* more than 1,024 clashes */
#define PLANNER_REFUSAL_DELAYS 10    /* no starts meet the delays and the windows */
#define PLANNER_REFUSAL_BUDGET 11    /* a budget above 1,000,000 */
#define PLANNER_REFUSAL_RECORD 12    /* the record is not sound */
#define PLANNER_REFUSAL_STARTS 13    /* the starts list is shorter than n */
#define PLANNER_REFUSAL_TOTAL 14     /* the search has not ended, and total + budget is above 100,000,000 */
#define PLANNER_REFUSAL_UNENDED 15   /* a plan text is wanted of a search that has not ended */
#define PLANNER_REFUSAL_BUFFER 16    /* the text is longer than the buffer */
#define PLANNER_REFUSAL_FORM 17      /* the plan text is not one B0 line with 01 and then only B1 lines, each of its length */
#define PLANNER_REFUSAL_ORDER 18     /* the plan text's n is not the batch's, or its job lines are not jobs 0 to n - 1 in order */
#define PLANNER_REFUSAL_INVALID 19   /* the plan is not valid, or its latency is wrong */
#define PLANNER_REFUSAL_WINDOW 20    /* a window's job is of n or above or not above the window's before, or its earliest start is above 20,000 or above its latest */
#define PLANNER_REFUSAL_REST 21      /* a rest's station is above 15 or not above the rest's before, or its ticks are outside 1 to 7 */

/* ---- the calls */

/* Opens a batch file of `length` bytes.
 * Answers 0: the record is the fresh search of the file's batch, with 0 in the places that the batch does not use; a
 * window without a line has `latest` 65535.
 * Answers 1 to 10, 20 or 21: refused. The record is left as it was.
 * Asked line by line, in a line PLANNER_REFUSAL_MISSING first and then _LINE, _FRAME, _EDITION, _COUNT, _JOB,
 * _WEIGHT, _WINDOW, _REST; after the last line _EXTRA, _CLASHES, _DELAYS.
 */
uint8_t planner_open(const uint8_t *file, size_t length, planner_record *record);

/* Visits nodes until the search has ended or `budget` of them are visited; on a search that has ended it visits
 * none and answers again. Reads and writes the record, but for its batch, which stays as it is.
 * `starts` has `count` places, at least batch.n of them (PLANNER_JOBS always do): with PLANNER_PLAN the first
 * batch.n become the plan's starts and the rest is left, else all are left.
 * Refused, asked in this order: PLANNER_REFUSAL_BUDGET, _RECORD, _STARTS, _TOTAL. The record and the starts are
 * then left as they were. After _TOTAL a smaller budget may still be answered, up to PLANNER_TOTAL nodes in all.
 */
planner_answer planner_run(planner_record *record, uint32_t budget, uint16_t *starts, size_t count);

/* Writes the plan text of a search that has ended, or its one line for no plan, into the first bytes of `buffer`
 * and answers their number. No zero byte is added; the rest of the `capacity` bytes and the record are left.
 * PLANNER_PLAN_TEXT bytes always do.
 * Refused, asked in this order: PLANNER_REFUSAL_RECORD, _UNENDED, _BUFFER. The buffer is then left as it was.
 */
planner_text planner_write_plan(const planner_record *record, uint8_t *buffer, size_t capacity);

/* Writes the batch file of the record, byte for byte the file that was opened, into the first bytes of `buffer` and
 * answers their number. No zero byte is added; the rest of the `capacity` bytes and the record are left.
 * PLANNER_BATCH_TEXT bytes always do.
 * Refused, asked in this order: PLANNER_REFUSAL_RECORD, _BUFFER. The buffer is then left as it was.
 */
planner_text planner_write_batch(const planner_record *record, uint8_t *buffer, size_t capacity);

/* Judges a plan text of `text_length` bytes with the batch file that it is for, of `file_length` bytes.
 * Answers 0: the file opens, the text is in form and names the batch's jobs in order, its starts are a valid plan,
 * and its latency is theirs. Neither the total nor whether the plan is the shortest is judged. A start may be later
 * than PLANNER_START, but a plan whose latency does not fit two bytes does not pass.
 * Answers 1 to 10, 20 or 21: the file is refused, as by planner_open.
 * Answers 17 to 19: the text is refused. Asked in this order, after the file: PLANNER_REFUSAL_FORM of the whole
 * text, _ORDER, _INVALID.
 * Neither is written to; they may overlap or be the same memory.
 */
uint8_t planner_judge(const uint8_t *file, size_t file_length, const uint8_t *text, size_t text_length);

#ifdef __cplusplus
}
#endif

/* ---- the layout that the library works with, asked of the compiler */

#if defined(__cplusplus) && __cplusplus >= 201103L
#define PLANNER_LAYOUT(name, condition) static_assert(condition, "planner.h: layout of " #name)
#elif !defined(__cplusplus) && defined(__STDC_VERSION__) && __STDC_VERSION__ >= 201112L
#define PLANNER_LAYOUT(name, condition) _Static_assert(condition, "planner.h: layout of " #name)
#else
#define PLANNER_LAYOUT(name, condition) typedef char planner_layout_of_##name[(condition) ? 1 : -1]
#endif

PLANNER_LAYOUT(delay, sizeof(planner_delay) == 4 && offsetof(planner_delay, to) == 1);
PLANNER_LAYOUT(delay_weight, offsetof(planner_delay, weight) == 2);
PLANNER_LAYOUT(job, sizeof(planner_job) == 34 && offsetof(planner_job, masks) == 2);
PLANNER_LAYOUT(window, sizeof(planner_window) == 6 && offsetof(planner_window, earliest) == 2);
PLANNER_LAYOUT(window_latest, offsetof(planner_window, latest) == 4);
PLANNER_LAYOUT(batch, sizeof(planner_batch) == 1492 && offsetof(planner_batch, m) == 1);
PLANNER_LAYOUT(batch_edition, offsetof(planner_batch, edition) == 2);
PLANNER_LAYOUT(batch_lists, offsetof(planner_batch, jobs) == 4 && offsetof(planner_batch, delays) == 820);
PLANNER_LAYOUT(batch_windows, offsetof(planner_batch, windows) == 1332);
PLANNER_LAYOUT(batch_rests, offsetof(planner_batch, rests) == 1476);
PLANNER_LAYOUT(turn, sizeof(planner_turn) == 4 && offsetof(planner_turn, side) == 2);
PLANNER_LAYOUT(record, sizeof(planner_record) == 5644 && offsetof(planner_record, latency) == 4);
PLANNER_LAYOUT(record_flags, offsetof(planner_record, found) == 6 && offsetof(planner_record, ended) == 7);
PLANNER_LAYOUT(record_lists, offsetof(planner_record, starts) == 8 && offsetof(planner_record, batch) == 56);
PLANNER_LAYOUT(record_path, offsetof(planner_record, path) == 1548);
PLANNER_LAYOUT(answer, sizeof(planner_answer) == 8 && offsetof(planner_answer, refusal) == 1);
PLANNER_LAYOUT(answer_values, offsetof(planner_answer, latency) == 2 && offsetof(planner_answer, total) == 4);
PLANNER_LAYOUT(text, sizeof(planner_text) == 16 && offsetof(planner_text, refusal) == 8);

#undef PLANNER_LAYOUT

#endif
