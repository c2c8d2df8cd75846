// Times the proved calls and the same in plain C, one after the other in one run, after seeing that they answer alike.
//   bench read|worst|papers|tick        nanoseconds a call (a tick) of each, the least of several rounds, and their ratio
//   bench tick-proved N | tick-plain N  N ticks of one only, for counting instructions
#include "plain.h"
#include <math.h>
#include <stdio.h>
#include <stdlib.h>
#include <time.h>

static uint64_t seed = 20;
static uint32_t rnd(void) { seed = seed * 6364136223846793005u + 1442695040888963407u; return (uint32_t)(seed >> 33); }
static double uniform(void) { return rnd() / 2147483648.0; }

static double now(void) {
    struct timespec t;
    clock_gettime(CLOCK_MONOTONIC, &t);
    return t.tv_sec * 1e9 + t.tv_nsec;
}

typedef struct { uint8_t bytes[2500]; size_t length; } table;

// 32 tasks of 8 phases and a byte behind them: all of it is read, and it is turned away for reason 5.
static void full_table(table *t) {
    size_t at = plain_put(t->bytes, 0, 32);
    for (int i = 0; i < 32; i++) {
        at = plain_put(t->bytes, plain_put(t->bytes, plain_put(t->bytes, at, 1000000000), 1000000000), 8);
        for (int j = 0; j < 8; j++) at = plain_put(t->bytes, plain_put(t->bytes, at, 9000000 + j), 10000000);
    }
    t->bytes[at] = 0;
    t->length = at + 1;
}

static size_t one_phase(uint8_t *b, size_t at, uint64_t T, uint64_t D, uint64_t c, uint64_t q) {
    const uint64_t numbers[5] = {T, D, 1, c, q};
    for (int k = 0; k < 5; k++) at = plain_put(b, at, numbers[k]);
    return at;
}

// The worst legal table: T = 32 with D from 2 to 32, c = 1, and one task T = D = 1,000,000 with eight phases c = 9: 968,750 test points.
static void worst_table(table *t) {
    size_t at = plain_put(t->bytes, 0, 32);
    for (uint64_t i = 2; i <= 32; i++) at = one_phase(t->bytes, at, 32, i, 1, 0);
    at = plain_put(t->bytes, plain_put(t->bytes, plain_put(t->bytes, at, 1000000), 1000000), 8);
    for (int j = 0; j < 8; j++) at = plain_put(t->bytes, plain_put(t->bytes, at, 9), 0);
    t->length = at;
}

// A table in the papers' style: 3 to 20 tasks, utilisations by UUniFast, one to three phases, constrained deadlines.
static void papers_table(table *t) {
    static const uint64_t spacings[] = {1000, 2000, 2500, 4000, 5000, 8000, 10000, 12500, 20000, 25000, 40000, 50000, 100000, 125000, 200000};
    uint32_t n = 3 + rnd() % 18;
    double left = 0.3 + 0.6 * uniform();
    size_t at = plain_put(t->bytes, 0, n);
    for (uint32_t i = 0; i < n; i++) {
        double rest = i + 1 < n ? left * pow(uniform(), 1.0 / (n - i - 1)) : 0, share = left - rest;
        uint64_t T = spacings[rnd() % 15], work = (uint64_t)(share * T), phases = 1 + rnd() % 3;
        left = rest;
        at = plain_put(t->bytes, at, T);
        at = plain_put(t->bytes, at, work + (uint64_t)((T - work) * (0.5 + 0.5 * uniform())));
        at = plain_put(t->bytes, at, phases);
        for (uint64_t j = 0; j < phases; j++) {
            uint64_t c = work / phases;
            at = plain_put(t->bytes, plain_put(t->bytes, at, c ? c : 1), 1 + rnd() % 5);
        }
    }
    t->length = at;
}

typedef clinkerbell_outcome judge_call(const uint8_t *, size_t, uint8_t *, size_t);

static double judge_once(judge_call *judge, const table *tables, int count, int repeat) {
    uint8_t answer[1162];
    double from = now();
    for (int r = 0; r < repeat; r++)
        for (int k = 0; k < count; k++) judge(tables[k].bytes, tables[k].length, answer, sizeof answer);
    return (now() - from) / ((double)count * repeat);
}

static void alike(const table *tables, int count) {
    for (int k = 0; k < count; k++) {
        uint8_t a[1162], b[1162];
        memset(a, 0xA5, sizeof a);
        memset(b, 0xA5, sizeof b);
        clinkerbell_outcome x = clinkerbell_judge(tables[k].bytes, tables[k].length, a, sizeof a);
        clinkerbell_outcome y = plain_judge(tables[k].bytes, tables[k].length, b, sizeof b);
        if (x.reason != y.reason || x.place != y.place || x.length != y.length || memcmp(a, b, sizeof a)) {
            printf("table %d: the answers DIFFER\n", k);
            exit(1);
        }
    }
}

static void judge_bench(const char *name, const table *tables, int count, int repeat) {
    double proved = 1e18, plain = 1e18;
    alike(tables, count);
    for (int round = 0; round < 7; round++) {
        double a = judge_once(clinkerbell_judge, tables, count, repeat), b = judge_once(plain_judge, tables, count, repeat);
        if (a < proved) proved = a;
        if (b < plain) plain = b;
    }
    printf("%s: proved %.0f ns, plain C %.0f ns, ratio %.2f\n", name, proved, plain, proved / plain);
}

// A record of 32 tasks of two phases, at rest.
static void sample(clinkerbell_dispatcher *d) {
    memset(d, 0, sizeof *d);
    d->tasks = 32;
    for (uint32_t i = 0; i < 32; i++) {
        d->spacing[i] = d->since[i] = 200 + 13 * i;
        d->deadline[i] = 150 + 13 * i;
        d->phases[i] = 2;
        for (uint32_t j = 0; j < 2; j++) {
            d->work[8 * i + j] = 3 + i % 3;
            d->cost[8 * i + j] = j == 0;
            d->counts[8 * i + j] = 1 + j;
        }
    }
}

typedef clinkerbell_answer tick_call(clinkerbell_dispatcher *, uint32_t, bool);

static uint64_t ticks(tick_call *tick, uint64_t n) {
    clinkerbell_dispatcher d;
    uint64_t sum = 0;
    uint32_t mask = 1;
    sample(&d);
    for (uint64_t k = 0; k < n; k++) {
        clinkerbell_answer a = tick(&d, mask, mask % 16 == 0);
        mask = mask * 1664525u + 1013904223u;
        sum = sum * 31 + a.let_in + a.task + a.finished;
    }
    return sum;
}

static void tick_bench(void) {
    double proved = 1e18, plain = 1e18;
    uint64_t n = 200000, x = 0, y = 0;
    for (int round = 0; round < 7; round++) {
        double from = now();
        x = ticks(clinkerbell_tick, n);
        double middle = now();
        y = ticks(plain_tick, n);
        double to = now();
        if ((middle - from) / n < proved) proved = (middle - from) / n;
        if ((to - middle) / n < plain) plain = (to - middle) / n;
    }
    printf("tick: proved %.0f ns, plain C %.0f ns, ratio %.2f%s\n", proved, plain, proved / plain, x == y ? "" : ", the answers DIFFER");
}

int main(int count, char **words) {
    static table tables[1000];
    const char *what = count > 1 ? words[1] : "";
    uint64_t n = count > 2 ? strtoull(words[2], 0, 10) : 0;
    if (!strcmp(what, "read")) { full_table(tables); judge_bench("reading a full table", tables, 1, 20000); }
    else if (!strcmp(what, "worst")) { worst_table(tables); judge_bench("judging the worst legal table", tables, 1, 3); }
    else if (!strcmp(what, "papers")) {
        for (int k = 0; k < 1000; k++) papers_table(&tables[k]);
        judge_bench("judging 1,000 tables in the papers' style", tables, 1000, 3);
    }
    else if (!strcmp(what, "tick")) tick_bench();
    else if (!strcmp(what, "tick-proved")) printf("%lu\n", ticks(clinkerbell_tick, n));
    else if (!strcmp(what, "tick-plain")) printf("%lu\n", ticks(plain_tick, n));
    else return 2;
    return 0;
}
