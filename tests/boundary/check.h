/* What the checks of the C boundary share: cases that count, batches in plain numbers, and memory with a known byte all around. */
#ifndef CHECK_H
#define CHECK_H

#include "planner.h"

/* Begins a case by its name and ends the one before. A case is wrong when a comparison fails or when it compared nothing. */
void begin(const char *name);

/* Compare within the present case: two numbers, two stretches of memory, a stretch of memory with one byte all over. */
void same(long got, long due);
void same_bytes(const void *got, const void *due, size_t length);
void same_fill(const void *got, int byte, size_t length);

/* Ends the last case and prints 'N passed, M failed'; the program's exit status. */
int counted(void);

/* A batch in plain numbers, apart from the header's structs. */
typedef struct plain {
    int n, m, edition;
    int ticks[24], masks[24][16];
    int from[128], to[128], weight[128];
    int lined[24], earliest[24], latest[24];
    int rests[16];
} plain;

/* Room for a file of any batch here, limits passed by one included. */
#define ROOM 4096

/* Writes the batch file by the format's text; its length. */
size_t file_of(const plain *batch, uint8_t *file);

/* A batch of edition 01: n jobs of p ticks that hold nothing, and m delays of weight 0 that close no ring. */
plain idle(int n, int p, int m);

/* Gives a job of a batch a window, and the batch edition 02. */
void give_window(plain *batch, int job, int earliest, int latest);

/* Gives a station of a batch a rest, and the batch edition 02. */
void give_rest(plain *batch, int station, int ticks);

/* A record with 64 bytes of canary before and after. */
#define EDGE 64
typedef struct room {
    uint8_t before[EDGE];
    planner_record record;
    uint8_t after[EDGE];
} room;

/* Fills all of it, the record too, with one byte; compares the edges with it. */
void fill(room *memory, int byte);
void same_edges(const room *memory, int byte);

/* Opens a file given as text. */
uint8_t open_text(const char *text, planner_record *record);

/* Opens a batch; the case is wrong unless it is accepted. */
void open_plain(const plain *batch, planner_record *record);

/* Runs with 24 starts that are not looked at. */
planner_answer run(planner_record *record, uint32_t budget);

/* Compares an answer's four values. */
void same_answer(planner_answer got, int kind, int refusal, long latency, long total);

/* The document's batch C3, whose plan of latency 3 starts at 1 and 0 and takes 3 nodes, that plan as it is printed, and C5, which has no plan and
 * takes 3 nodes. Its C8, one job of a held tick and an empty one, with the plan of latency 1; and three jobs that hold nothing, with the plan of
 * latency 0. examples/wedding-windows.batch, of edition 02, with its plan, which takes 11 nodes, and examples/laminator.batch with its plan, which
 * takes 15. */
extern const char *const C3;
extern const char *const C3_PLAN;
extern const char *const C5;
extern const char *const C8;
extern const char *const C8_PLAN;
extern const char *const IDLE;
extern const char *const IDLE_PLAN;
extern const char *const WINDOWS;
extern const char *const WINDOWS_PLAN;
extern const char *const RESTS;
extern const char *const RESTS_PLAN;

/* The groups. */
void check_version(void);
void check_layout(void);
void check_fields(void);
void check_answers(void);
void check_refusals(void);
void check_limits(void);
void check_texts(void);
void check_judge(void);
void check_threads(void);
void check_stack(void);

#endif
