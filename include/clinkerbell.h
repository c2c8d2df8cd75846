/* Clinkerbell for C and C++: judge a task table, start a dispatcher on it, move the dispatcher forward tick by tick.
 *
 * The functions are proved to meet their contracts (crates/firmware/src/lib.rt). They keep nothing between calls, allocate nothing, call
 * nothing but memcpy and memset, and end for every input. What the caller must see to is what C does not express in a type:
 *   - a pointer is not null, also where the length is 0; bytes are as many as the length says;
 *   - table and answer do not overlap; nobody else writes the table, the answer or the record during a call.
 *
 * Tasks, phases and pieces are numbered from 1; 0 stands for none. Bit 0 of a mask is task 1. Time is a whole number of ticks. */
#ifndef CLINKERBELL_H
#define CLINKERBELL_H

#include <stdbool.h>
#include <stddef.h>
#include <stdint.h>

#ifdef __cplusplus
extern "C" {
#endif

#define CLINKERBELL_TASKS 32         /* a table has at most so many tasks */
#define CLINKERBELL_TASK_PHASES 8    /* a task has at most so many phases */
#define CLINKERBELL_PHASES 256       /* places for the phases of all tasks: phase j of task i stands at 8 * (i - 1) + (j - 1) */
#define CLINKERBELL_ANSWER_ROOM 1162 /* an answer buffer has at least so many bytes */

/* Why a table is turned away, and the place that goes with it. */
enum {
    CLINKERBELL_ANSWERED = 0,   /* it is not turned away */
    CLINKERBELL_NO_ROOM = 1,    /* answer buffer under 1,162 bytes; place 0 */
    CLINKERBELL_ENDS = 2,       /* the table ends where a number's byte is due; place: the table's length */
    CLINKERBELL_MALFORMED = 3,  /* eight bytes all with the top bit set, or a zero last byte in a longer number; place: the number's first byte */
    CLINKERBELL_RANGE = 4,      /* a number outside its range; place: its first byte */
    CLINKERBELL_TRAILING = 5,   /* bytes after the last phase; place: the first such byte */
    CLINKERBELL_HORIZON = 6,    /* the least common multiple of the spacings is above 1,000,000,000,000; place 0 */
    CLINKERBELL_CROWDED = 7     /* more than 1,000,000 jobs within it; place 0 */
};

/* ---- the judge */

/* What the judge returns. */
typedef struct {
    uint32_t reason; /* 0: answered. Otherwise the table is turned away, and the buffer is as it was. */
    uint64_t place;  /* the place that goes with the reason; 0 where answered */
    uint64_t length; /* the answer's length in bytes; 0 where turned away */
} clinkerbell_outcome;

/* Judges the table and writes the answer to the front of the buffer; bytes behind the answer stay as they were.
 * Accepted: 0, H, points examined, then for each task its counts in phase order and its longest piece.
 * Refused: 1, witness, demand, points examined, blocked task, blocked phase. */
clinkerbell_outcome clinkerbell_judge(const uint8_t *table, size_t table_length, uint8_t *answer, size_t answer_length);

/* ---- the dispatcher */

/* The record. The caller keeps it and passes it to every tick; all of it is plain numbers, so it may be copied and stored.
 * A record with a number outside its range is taken as the empty record (all zeros), which runs nothing and lets nothing in. */
typedef struct {
    uint32_t tasks;                           /* number of tasks; 0 in the empty record only */
    uint32_t spacing[CLINKERBELL_TASKS];      /* of each task: least spacing T */
    uint32_t deadline[CLINKERBELL_TASKS];     /* relative deadline D */
    uint32_t phases[CLINKERBELL_TASKS];       /* number of phases */
    uint32_t work[CLINKERBELL_PHASES];        /* of each phase: work c */
    uint32_t cost[CLINKERBELL_PHASES];        /* switching cost q */
    uint32_t counts[CLINKERBELL_PHASES];      /* number of pieces x */
    uint32_t since[CLINKERBELL_TASKS];        /* ticks since the last admitted release, stopping at T */
    uint32_t unfinished[CLINKERBELL_TASKS];   /* 1 where a job is unfinished, otherwise 0 */
    uint32_t left[CLINKERBELL_TASKS];         /* of an unfinished job: time left to its deadline, stopping at 0 */
    uint32_t phase[CLINKERBELL_TASKS];        /* phase running or next due */
    uint32_t piece[CLINKERBELL_TASKS];        /* piece running or next due */
    uint32_t running;                         /* the task whose piece is running */
    uint64_t ticks;                           /* ticks left of that piece */
} clinkerbell_dispatcher;

/* How a start went. */
enum { CLINKERBELL_READY = 0, CLINKERBELL_REFUSED = 1, CLINKERBELL_TURNED_AWAY = 2 };

/* What starting returns. Fields that do not apply are 0, and the record is the empty one unless ready. */
typedef struct {
    uint32_t how;                  /* CLINKERBELL_READY, CLINKERBELL_REFUSED or CLINKERBELL_TURNED_AWAY */
    uint32_t reason;               /* turned away: the reason, 2 to 7, */
    uint64_t place;                /* and its place */
    uint64_t witness;              /* refused: the least length up to which no choice of counts works, */
    uint64_t demand;               /* the demand there, */
    uint64_t points;               /* the test points examined, */
    uint32_t task;                 /* the blocked task and phase, 0 and 0 where the demand alone exceeds the witness */
    uint32_t phase;
    clinkerbell_dispatcher record; /* ready: the record before its first tick */
} clinkerbell_started;

/* Reads and judges the table, and starts a dispatcher on it where it is accepted. */
clinkerbell_started clinkerbell_start(const uint8_t *table, size_t table_length);

/* What a tick answers. */
typedef struct {
    uint32_t let_in;      /* the asked-for releases that were let in */
    uint32_t turned_away; /* the others that were asked for */
    uint32_t number;      /* how many were let in */
    uint32_t task;        /* the task that ran in this tick, its phase and piece; three zeros for none */
    uint32_t phase;
    uint32_t piece;
    bool ended;           /* the piece ended */
    bool finished;        /* and with it the job */
} clinkerbell_answer;

/* Moves the record forward by one tick. mask: the releases asked for; flag: whether the piece that runs in this tick ends with it. */
clinkerbell_answer clinkerbell_tick(clinkerbell_dispatcher *record, uint32_t mask, bool flag);

#ifdef __cplusplus
}
#endif

#endif
