/* Feeds the C calls from standard input for papers/compare: a letter a step, numbers in this machine's byte order. */
#include <stdbool.h>
#include <stddef.h>
#include <stdint.h>
#include <stdio.h>
#include <stdlib.h>
#include <string.h>

#include "clinkerbell.h"

#define GUARD 64
#define GUARD_BYTE 0xA5

_Static_assert(sizeof(clinkerbell_dispatcher) == 1026 * 4 + 8, "the record has no gaps");
_Static_assert(sizeof(clinkerbell_started) == 48 + sizeof(clinkerbell_dispatcher), "what starting answers has no gaps");

static clinkerbell_dispatcher record;

static void take(void *to, size_t length)
{
    if (length > 0 && fread(to, 1, length, stdin) != length)
        exit(3);
}

static void give(const void *from, size_t length)
{
    if (length > 0 && fwrite(from, 1, length, stdout) != length)
        exit(4);
}

static uint32_t take_word(void)
{
    uint32_t word;
    take(&word, sizeof word);
    return word;
}

/* Memory of this length with guard bytes on both sides. */
static uint8_t *guarded(size_t length)
{
    uint8_t *whole = malloc(length + 2 * GUARD);
    if (whole == NULL)
        exit(5);
    memset(whole, GUARD_BYTE, length + 2 * GUARD);
    return whole + GUARD;
}

static bool guards_stand(const uint8_t *memory, size_t length)
{
    for (size_t place = 0; place < GUARD; place++)
        if (memory[length + place] != GUARD_BYTE || memory[(ptrdiff_t)place - GUARD] != GUARD_BYTE)
            return false;
    return true;
}

/* J: table and answer buffer in; outcome, buffer, and whether everything around them is as it was, out. */
static void judge_step(void)
{
    size_t table_length = take_word(), answer_length = take_word();
    uint8_t *table = guarded(table_length), *kept = guarded(table_length), *answer = guarded(answer_length);
    take(table, table_length);
    take(answer, answer_length);
    memcpy(kept, table, table_length);
    clinkerbell_outcome outcome = clinkerbell_judge(table, table_length, answer, answer_length);
    uint8_t intact = guards_stand(table, table_length) && guards_stand(answer, answer_length)
        && memcmp(table, kept, table_length) == 0;
    give(&outcome.reason, sizeof outcome.reason);
    give(&outcome.place, sizeof outcome.place);
    give(&outcome.length, sizeof outcome.length);
    give(answer, answer_length);
    give(&intact, 1);
    free(table - GUARD);
    free(kept - GUARD);
    free(answer - GUARD);
}

/* S: table in, what starting answers out; its record is the one that ticks from now on. */
static void start_step(void)
{
    size_t table_length = take_word();
    uint8_t *table = guarded(table_length);
    take(table, table_length);
    clinkerbell_started started = clinkerbell_start(table, table_length);
    record = started.record;
    give(&started, sizeof started);
    free(table - GUARD);
}

/* T: requests in, the answer of each tick and the record behind the last out. */
static void ticks_step(void)
{
    for (uint32_t left = take_word(); left > 0; left--) {
        uint32_t mask = take_word();
        uint8_t flag;
        take(&flag, 1);
        clinkerbell_answer answer = clinkerbell_tick(&record, mask, flag != 0);
        uint32_t words[6] = {answer.let_in, answer.turned_away, answer.number, answer.task, answer.phase, answer.piece};
        uint8_t ends[2] = {answer.ended, answer.finished};
        give(words, sizeof words);
        give(ends, sizeof ends);
    }
    give(&record, sizeof record);
}

int main(void)
{
    for (int step = getchar(); step != EOF; step = getchar()) {
        switch (step) {
        case 'J': judge_step(); break;
        case 'S': start_step(); break;
        case 'R': take(&record, sizeof record); break;
        case 'T': ticks_step(); break;
        default: return 2;
        }
    }
    return fflush(stdout) == 0 ? 0 : 4;
}
