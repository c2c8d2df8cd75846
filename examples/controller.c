/* A small node controller on Clinkerbell: a power cap loop, fan control, and key handling in a secure world share one processor.
 * It judges its task table, starts the dispatcher and runs it for 120 ticks (a tick is a millisecond) with a simulated release line and
 * timer, and prints who was let in, who ran, and whether every deadline was met. Build and run it with examples/run. */
#include <stdio.h>
#include "clinkerbell.h"

enum { TICKS = 120, COLUMNS = 60, POWER = 1, FAN = 2, KEYS = 3, TASKS = 3 };

static const char *const names[TASKS + 1] = {"", "power cap loop", "fan control", "key handling"};

/* The table. Each task: T, D, number of phases; each phase: work c, switching cost q. Every number here is below 128, so it is one byte. */
static const uint8_t table[] = {
    TASKS,
    10, 8, 1, /* power cap loop: every 10 ms, done within 8 */
    2, 1,     /*   read the rails and set the cap */
    20, 18, 2, /* fan control: every 20 ms, done within 18 */
    3, 1,      /*   read the tachometers */
    1, 0,      /*   set the duty */
    60, 60, 3, /* key handling: at most once in 60 ms; each piece pays two world switches */
    4, 2,      /*   unseal the key */
    6, 2,      /*   sign */
    1, 1,      /*   wipe */
};

/* ---- the verdict, for a person */

/* One number of an answer: groups of seven bits, lowest first, the top bit set in every byte but the last. */
static uint64_t number_at(const uint8_t *bytes, size_t *at) {
    uint64_t value = 0;
    for (unsigned shift = 0;; shift += 7) {
        uint8_t byte = bytes[(*at)++];
        value |= (uint64_t)(byte & 127) << shift;
        if (byte < 128) return value;
    }
}

static void print_accepted(const uint8_t *answer, const clinkerbell_dispatcher *record) {
    size_t at = 1;
    uint64_t horizon = number_at(answer, &at);
    uint64_t points = number_at(answer, &at);
    printf("accepted: the %llu test points up to %llu ms decide it\n", (unsigned long long)points, (unsigned long long)horizon);
    for (uint32_t task = 1; task <= record->tasks; task++) {
        printf("  %-15s every %2u ms, within %2u: pieces", names[task], record->spacing[task - 1], record->deadline[task - 1]);
        for (uint32_t phase = 0; phase < record->phases[task - 1]; phase++) printf(" %llu", (unsigned long long)number_at(answer, &at));
        printf(", the longest %llu ms\n", (unsigned long long)number_at(answer, &at));
    }
}

/* ---- the world outside: a release line and a timer */

/* The releases asked for in a tick. The power line bounces in tick 29, and the host asks for a signature again too soon, in tick 41. */
static uint32_t release_line(int tick) {
    uint32_t mask = 0;
    if (tick % 10 == 0 || tick == 29) mask |= 1u << (POWER - 1);
    if (tick % 20 == 0) mask |= 1u << (FAN - 1);
    if (tick == 3 || tick == 41 || tick == 63) mask |= 1u << (KEYS - 1);
    return mask;
}

/* Whether the running piece is done by the end of this tick though it has ticks left: the power loop's every other job needs only two. */
static bool done_early(const clinkerbell_dispatcher *record, int tick) {
    return record->running == POWER && record->ticks == 2 && tick / 10 % 2 == 1;
}

/* ---- what happened, counted from the answers alone */

typedef struct {
    int released;                  /* tick of the unfinished job's release; -1 for none */
    int admitted, away, finished;  /* counts */
    int late, worst;               /* jobs past their deadline; most ticks from release to finish */
    char chart[TICKS];             /* one letter a tick */
} log_entry;

static log_entry logs[TASKS + 1];

static void take_answer(int tick, clinkerbell_answer a, const clinkerbell_dispatcher *record) {
    for (int task = 1; task <= TASKS; task++) {
        log_entry *l = &logs[task];
        uint32_t bit = 1u << (task - 1);
        l->chart[tick] = l->released < 0 ? ' ' : '.';
        if (a.let_in & bit) { l->admitted++; l->released = tick; l->chart[tick] = '>'; }
        if (a.turned_away & bit) { l->away++; l->chart[tick] = 'x'; }
    }
    if (a.task == 0) return;
    log_entry *l = &logs[a.task];
    l->chart[tick] = (char)('0' + a.phase);
    if (!a.finished) return;
    int taken = tick - l->released + 1;
    l->finished++;
    if (taken > (int)record->deadline[a.task - 1]) l->late++;
    if (taken > l->worst) l->worst = taken;
    l->released = -1;
}

/* A job that is still unfinished when the run ends is late where its deadline has passed. */
static int count_late(const clinkerbell_dispatcher *record) {
    int late = 0;
    for (int task = 1; task <= TASKS; task++) {
        log_entry *l = &logs[task];
        if (l->released >= 0 && TICKS - l->released > (int)record->deadline[task - 1]) l->late++;
        late += l->late;
    }
    return late;
}

static void print_run(void) {
    for (int from = 0; from < TICKS; from += COLUMNS) {
        printf("\n%15s ", "tick");
        for (int tick = from; tick < from + COLUMNS; tick += 10) printf("%-10d", tick);
        printf("\n");
        for (int task = 1; task <= TASKS; task++) printf("%15s %.*s\n", names[task], COLUMNS, logs[task].chart + from);
    }
    printf("\na digit: the phase that runs; >: let in, another runs; x: turned away; .: waiting\n\n");
    for (int task = 1; task <= TASKS; task++) {
        const log_entry *l = &logs[task];
        printf("%15s: %2d let in, %d turned away, %2d finished, %d late, slowest %d ms\n", names[task], l->admitted, l->away, l->finished, l->late, l->worst);
    }
}

int main(void) {
    uint8_t answer[CLINKERBELL_ANSWER_ROOM];
    clinkerbell_outcome judged = clinkerbell_judge(table, sizeof table, answer, sizeof answer);
    if (judged.reason != CLINKERBELL_ANSWERED) {
        printf("turned away: reason %u at byte %llu\n", judged.reason, (unsigned long long)judged.place);
        return 1;
    }
    clinkerbell_started started = clinkerbell_start(table, sizeof table);
    if (started.how != CLINKERBELL_READY) {
        printf("refused: nothing works up to %llu ms, where the demand is %llu\n", (unsigned long long)started.witness, (unsigned long long)started.demand);
        return 1;
    }
    clinkerbell_dispatcher record = started.record;
    print_accepted(answer, &record);
    for (int task = 1; task <= TASKS; task++) logs[task].released = -1;
    for (int tick = 0; tick < TICKS; tick++)
        take_answer(tick, clinkerbell_tick(&record, release_line(tick), done_early(&record, tick)), &record);
    int late = count_late(&record);
    print_run();
    printf("%s\n", late == 0 ? "every deadline was met" : "A DEADLINE WAS MISSED");
    return late == 0 ? 0 : 1;
}
