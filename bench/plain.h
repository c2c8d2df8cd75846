// The judge and the dispatcher in careful plain C, for comparison: the same calls, the same algorithm, the same answers, no proof.
#ifndef PLAIN_H
#define PLAIN_H
#include "../include/clinkerbell.h"
#include <string.h>

enum { TASKS_MOST = 32, PHASES_MOST = 8, ROOM = 1162 };
static const uint64_t SPACING_MOST = 1000000000, WORK_MOST = 10000000, COST_MOST = 10000000;
static const uint64_t HORIZON_MOST = 1000000000000, JOBS_MOST = 1000000;

typedef struct {
    uint32_t tasks, spacing[32], deadline[32], phases[32], work[256], cost[256];
} plain_table;

typedef struct { uint32_t reason; uint64_t place; } plain_reading;

// ---- reading

typedef struct { const uint8_t *bytes; size_t length, at; uint32_t reason; uint64_t place; } plain_cursor;

static inline uint64_t plain_number(plain_cursor *s, uint64_t least, uint64_t most) {
    size_t first = s->at;
    uint64_t value = 0;
    for (int k = 0; k < 8; k++) {
        if (s->at >= s->length) { s->reason = 2; s->place = s->length; return 0; }
        uint64_t b = s->bytes[s->at++];
        value |= (b & 127) << (7 * k);
        if (b < 128) {
            if (k > 0 && b == 0) break;
            if (value < least || value > most) { s->reason = 4; s->place = first; return 0; }
            return value;
        }
    }
    s->reason = 3;
    s->place = first;
    return 0;
}

static bool plain_task(plain_cursor *s, plain_table *t, uint32_t i) {
    t->spacing[i] = (uint32_t)plain_number(s, 1, SPACING_MOST);
    if (s->reason) return false;
    t->deadline[i] = (uint32_t)plain_number(s, 1, t->spacing[i]);
    if (s->reason) return false;
    t->phases[i] = (uint32_t)plain_number(s, 1, PHASES_MOST);
    if (s->reason) return false;
    for (uint32_t p = 8 * i; p < 8 * i + t->phases[i]; p++) {
        t->work[p] = (uint32_t)plain_number(s, 1, WORK_MOST);
        if (s->reason) return false;
        t->cost[p] = (uint32_t)plain_number(s, 0, COST_MOST);
        if (s->reason) return false;
    }
    return true;
}

static uint64_t plain_gcd(uint64_t a, uint64_t b) { return b == 0 ? a : plain_gcd(b, a % b); }

// The least common multiple of the spacings, or 0 where it is above its limit.
static uint64_t plain_horizon(const plain_table *t) {
    uint64_t h = 1;
    for (uint32_t i = 0; i < t->tasks; i++) {
        uint64_t k = t->spacing[i] / plain_gcd(h, t->spacing[i]);
        if (HORIZON_MOST / h < k) return 0;
        h *= k;
    }
    return h;
}

static plain_reading plain_read(const uint8_t *bytes, size_t length, plain_table *t, uint64_t *h) {
    plain_cursor s = {bytes, length, 0, 0, 0};
    memset(t, 0, sizeof *t);
    t->tasks = (uint32_t)plain_number(&s, 1, TASKS_MOST);
    for (uint32_t i = 0; !s.reason && i < t->tasks; i++) plain_task(&s, t, i);
    if (s.reason) return (plain_reading){s.reason, s.place};
    if (s.at < length) return (plain_reading){5, s.at};
    *h = plain_horizon(t);
    if (*h == 0) return (plain_reading){6, 0};
    uint64_t jobs = 0;
    for (uint32_t i = 0; i < t->tasks; i++) jobs += *h / t->spacing[i];
    if (jobs > JOBS_MOST) return (plain_reading){7, 0};
    return (plain_reading){0, 0};
}

// ---- the walk over the test points

typedef struct { bool accepted; uint64_t at, demand, points; uint32_t task, phase; uint64_t cuts[32]; } plain_walked;

static uint64_t plain_budget(const plain_table *t, uint32_t i, uint64_t low) {
    uint64_t sum = 0;
    for (uint32_t p = 8 * i; p < 8 * i + t->phases[i]; p++) {
        uint64_t room = low - t->cost[p];
        sum += t->work[p] + (t->work[p] + room - 1) / room * t->cost[p];
    }
    return sum;
}

// The first phase of a task with a deadline above the point whose cost is at least the margin; whether there is one.
static bool plain_stuck(const plain_table *t, uint64_t at, uint64_t margin, plain_walked *w) {
    for (uint32_t i = 0; i < t->tasks; i++)
        if (t->deadline[i] > at)
            for (uint32_t j = 0; j < t->phases[i]; j++)
                if (t->cost[8 * i + j] >= margin) { w->task = i + 1; w->phase = j + 1; return true; }
    return false;
}

static void plain_walk(const plain_table *t, uint64_t h, plain_walked *w) {
    uint64_t next[32], spacing[32], budget[32] = {0}, low = HORIZON_MOST, demand = 0;
    uint32_t n = t->tasks;
    memset(w, 0, sizeof *w);
    uint64_t at = t->deadline[0];
    for (uint32_t i = 0; i < n; i++) {
        next[i] = t->deadline[i];
        spacing[i] = t->spacing[i];
        if (next[i] < at) at = next[i];
    }
    for (;;) {
        if (at > h) { w->accepted = true; return; }
        uint64_t soonest = UINT64_MAX;
        for (uint32_t i = 0; i < n; i++) {
            if (next[i] == at) {
                if (t->deadline[i] == at) { budget[i] = plain_budget(t, i, low); w->cuts[i] = low; }
                demand += budget[i];
                next[i] = at + spacing[i];
            }
            if (next[i] < soonest) soonest = next[i];
        }
        w->points++;
        w->at = at;
        w->demand = demand;
        if (demand > at) return;
        uint64_t margin = at - demand;
        if (margin < low) {
            if (plain_stuck(t, at, margin, w)) return;
            low = margin;
        }
        at = soonest;
    }
}

// ---- the answer

static size_t plain_put(uint8_t *out, size_t at, uint64_t v) {
    for (; v >= 128; v /= 128) out[at++] = (uint8_t)(v % 128 + 128);
    out[at++] = (uint8_t)v;
    return at;
}

static size_t plain_accepted(const plain_table *t, uint64_t h, const plain_walked *w, uint8_t *out) {
    size_t at = plain_put(out, plain_put(out, plain_put(out, 0, 0), h), w->points);
    for (uint32_t i = 0; i < t->tasks; i++) {
        uint64_t longest = 0;
        for (uint32_t p = 8 * i; p < 8 * i + t->phases[i]; p++) {
            uint64_t room = w->cuts[i] - t->cost[p], x = (t->work[p] + room - 1) / room;
            uint64_t piece = (t->work[p] + x - 1) / x + t->cost[p];
            if (piece > longest) longest = piece;
            at = plain_put(out, at, x);
        }
        at = plain_put(out, at, longest);
    }
    return at;
}

static size_t plain_refused(const plain_walked *w, uint8_t *out) {
    const uint64_t numbers[6] = {1, w->at, w->demand, w->points, w->task, w->phase};
    size_t at = 0;
    for (int k = 0; k < 6; k++) at = plain_put(out, at, numbers[k]);
    return at;
}

__attribute__((noinline)) static clinkerbell_outcome plain_judge(const uint8_t *table, size_t length, uint8_t *out, size_t room) {
    plain_table t;
    plain_walked w;
    uint64_t h = 0;
    if (room < ROOM) return (clinkerbell_outcome){1, 0, 0};
    plain_reading r = plain_read(table, length, &t, &h);
    if (r.reason) return (clinkerbell_outcome){r.reason, r.place, 0};
    plain_walk(&t, h, &w);
    return (clinkerbell_outcome){0, 0, w.accepted ? plain_accepted(&t, h, &w, out) : plain_refused(&w, out)};
}

// ---- the dispatcher

static inline uint64_t plain_due(const clinkerbell_dispatcher *d, uint32_t i) {
    uint32_t p = 8 * i + d->phase[i] - 1, c = d->work[p], x = d->counts[p];
    return (uint64_t)(c / x) + (d->piece[i] <= c % x) + d->cost[p];
}

static bool plain_task_in(const clinkerbell_dispatcher *d, uint32_t i) {
    uint32_t m = d->phases[i];
    if (i < d->tasks) {
        if (!(d->spacing[i] - 1 < SPACING_MOST && d->deadline[i] - 1 < d->spacing[i] && m - 1 < 8)) return false;
        for (uint32_t p = 8 * i; p < 8 * i + m; p++)
            if (!(d->work[p] - 1 < WORK_MOST && d->cost[p] <= COST_MOST && d->counts[p] - 1 < d->work[p])) return false;
    } else if (d->spacing[i] | d->deadline[i] | m)
        return false;
    for (uint32_t p = 8 * i + m; p < 8 * i + 8; p++)
        if (d->work[p] | d->cost[p] | d->counts[p]) return false;
    if (d->since[i] > d->spacing[i] || d->unfinished[i] > 1) return false;
    if (d->unfinished[i])
        return d->left[i] <= d->deadline[i] && d->phase[i] - 1 < m && d->piece[i] - 1 < d->counts[8 * i + d->phase[i] - 1];
    return !(d->left[i] | d->phase[i] | d->piece[i]);
}

static bool plain_in_range(const clinkerbell_dispatcher *d) {
    if (d->tasks > 32) return false;
    for (uint32_t i = 0; i < 32; i++)
        if (!plain_task_in(d, i)) return false;
    if (d->running == 0) return d->ticks == 0;
    if (d->running > d->tasks || !d->unfinished[d->running - 1]) return false;
    return d->ticks >= 1 && d->ticks <= plain_due(d, d->running - 1);
}

static void plain_admit(clinkerbell_dispatcher *d, uint32_t mask, clinkerbell_answer *a) {
    for (uint32_t m = mask; m; m &= m - 1) {
        uint32_t i = (uint32_t)__builtin_ctz(m);
        if (i < d->tasks && !d->unfinished[i] && d->since[i] >= d->spacing[i]) {
            d->unfinished[i] = 1;
            d->since[i] = 0;
            d->left[i] = d->deadline[i];
            d->phase[i] = d->piece[i] = 1;
            a->let_in |= 1u << i;
        }
    }
    a->turned_away = mask & ~a->let_in;
    a->number = (uint32_t)__builtin_popcount(a->let_in);
}

static void plain_pick(clinkerbell_dispatcher *d) {
    uint32_t best = 0, least = 0;
    if (d->running) return;
    for (uint32_t i = 0; i < d->tasks; i++)
        if (d->unfinished[i] && (!best || d->left[i] < least)) { best = i + 1; least = d->left[i]; }
    if (best) { d->running = best; d->ticks = plain_due(d, best - 1); }
}

static void plain_use(clinkerbell_dispatcher *d, bool flag, clinkerbell_answer *a) {
    if (!d->running) return;
    uint32_t i = d->running - 1;
    a->task = d->running;
    a->phase = d->phase[i];
    a->piece = d->piece[i];
    if (--d->ticks != 0 && !flag) return;
    a->ended = true;
    d->running = 0;
    d->ticks = 0;
    if (d->piece[i] < d->counts[8 * i + d->phase[i] - 1]) d->piece[i]++;
    else if (d->phase[i] < d->phases[i]) { d->phase[i]++; d->piece[i] = 1; }
    else { a->finished = true; d->unfinished[i] = d->left[i] = d->phase[i] = d->piece[i] = 0; }
}

// One tick with the same check of every field's range.
__attribute__((noinline)) static clinkerbell_answer plain_tick(clinkerbell_dispatcher *d, uint32_t mask, bool flag) {
    clinkerbell_answer a;
    memset(&a, 0, sizeof a);
    if (!plain_in_range(d)) memset(d, 0, sizeof *d);
    plain_admit(d, mask, &a);
    plain_pick(d);
    plain_use(d, flag, &a);
    for (uint32_t i = 0; i < 32; i++) {
        d->since[i] += d->since[i] < d->spacing[i];
        d->left[i] -= d->left[i] != 0;
    }
    return a;
}
#endif
