/* How many instructions the engine's calls take on a Cortex-M: the most that is found over boards that are kept full. It runs under QEMU with -icount, where the system timer (SysTick)
   moves with the instructions alone, and no other time is meant by it. tools/cortex-m builds and runs this; docs/FIRMWARE.md has the figures.

   Standard input: a line with K and with how many positions follow, and then these, four bytes each, in rising order. The marks stand at these positions; where none follow, one after
   another. Printed are the most instructions of a Value, a Mark, a Query and a Close, and how many calls were counted.

   As many marks are active as may be. A Value comes, then a Close of the oldest, the newest or any mark, then a Mark and a Query. The values rise, fall, rise and now and then fall below
   all others, are equal, or are any; and so on until the words have been reordered three times with a full board. Before each of these times sixty marks are asked for, and some that are
   closed; at the end sixty are closed, and Values fall step by step below all that were given. As the longest calls of docs/BENCH.md, these are the most that were found, and no bound. */
#include "filkotar.h"

#include <inttypes.h>
#include <stdio.h>
#include <stdlib.h>

enum { MOST = 4096, PLACES = 60000, SOME = 60 };

static uint64_t area[512 + 64 * MOST];
static uint64_t words;
static filkotar_session session;
static uint32_t places[PLACES];
static size_t place_count;

/* the active marks: a queue that also gives from its middle */
static uint32_t active[MOST], closed[SOME];
static size_t marks, oldest, closed_count;

/* SysTick counts down 24 bits, here at the processor's clock */
static volatile uint32_t *const systick = (volatile uint32_t *)0xe000e010;

static uint32_t ticks_between(uint32_t before, uint32_t after)
{
    return (before - after) & 0xffffff;
}

/* what a thousand instructions take */
static uint32_t ticks_of_1000;

/* reads SysTick, runs so many instructions that do nothing, and reads it again */
#define TICKS_OF(count, before, after) \
    __asm__ volatile("ldr %0, [%2]\n .rept " #count "\n nop\n .endr\n ldr %1, [%2]" : "=&r"(before), "=&r"(after) : "r"(&systick[2]) : "memory")

static void start_clock(void)
{
    uint32_t before, after, none;

    systick[1] = 0xffffff;
    systick[2] = 0;
    systick[0] = 5;
    TICKS_OF(0, before, after); /* the timer's first ticks after its start are not yet even */
    TICKS_OF(0, before, after);
    none = ticks_between(before, after);
    TICKS_OF(1000, before, after);
    ticks_of_1000 = ticks_between(before, after) - none;
}

static uint32_t instructions(uint32_t ticks)
{
    return (uint32_t)(((uint64_t)ticks * 1000 + ticks_of_1000 / 2) / ticks_of_1000);
}

/* Each call goes through a pointer, so that a function that only returns can be called in the same way: what that takes beside its one instruction is the caller's. */
__attribute__((naked, noinline)) static void nothing(void)
{
    __asm__("bx lr");
}

static filkotar_answer (*volatile value_call)(filkotar_session, uint64_t *, uint64_t, int32_t);
static filkotar_answer (*volatile mark_call)(filkotar_session, uint64_t *, uint64_t);
static filkotar_answer (*volatile query_call)(filkotar_session, const uint64_t *, uint64_t, uint32_t);
static filkotar_answer (*volatile close_call)(filkotar_session, uint64_t *, uint64_t, uint32_t);

enum { VALUE, MARK, QUERY, CLOSE, KINDS };

static uint32_t most[KINDS], callers[KINDS], counted;

static void count(int kind, uint32_t ticks)
{
    uint32_t taken = instructions(ticks) - callers[kind];

    counted++;
    if (taken > most[kind]) {
        most[kind] = taken;
    }
}

__attribute__((noinline)) static uint32_t call(int kind, uint32_t argument, filkotar_answer *answer)
{
    uint32_t before, after;

    switch (kind) {
    case VALUE:
        before = systick[2];
        *answer = value_call(session, area, words, (int32_t)argument);
        after = systick[2];
        break;
    case MARK:
        before = systick[2];
        *answer = mark_call(session, area, words);
        after = systick[2];
        break;
    case QUERY:
        before = systick[2];
        *answer = query_call(session, area, words, argument);
        after = systick[2];
        break;
    default:
        before = systick[2];
        *answer = close_call(session, area, words, argument);
        after = systick[2];
    }
    return ticks_between(before, after);
}

static void learn_callers(void)
{
    filkotar_answer none;
    int kind;

    value_call = (filkotar_answer(*)(filkotar_session, uint64_t *, uint64_t, int32_t))nothing;
    mark_call = (filkotar_answer(*)(filkotar_session, uint64_t *, uint64_t))nothing;
    query_call = (filkotar_answer(*)(filkotar_session, const uint64_t *, uint64_t, uint32_t))nothing;
    close_call = (filkotar_answer(*)(filkotar_session, uint64_t *, uint64_t, uint32_t))nothing;
    for (kind = 0; kind < KINDS; kind++) {
        callers[kind] = instructions(call(kind, 0, &none)) - 1;
    }
    value_call = filkotar_value;
    mark_call = filkotar_mark;
    query_call = filkotar_query;
    close_call = filkotar_close;
}

static filkotar_answer give(int kind, uint32_t argument, uint32_t number)
{
    filkotar_answer answer;

    count(kind, call(kind, argument, &answer));
    if (answer.number != number) {
        printf("a call of kind %d with %" PRIu32 " gets %" PRIu32 "\n", kind, argument, answer.number);
        exit(1);
    }
    session = answer.session;
    return answer;
}

static uint32_t chance(uint32_t below)
{
    static uint64_t state = UINT64_C(0x123456789abcdef1);

    state ^= state >> 12;
    state ^= state << 25;
    state ^= state >> 27;
    return (uint32_t)((state * UINT64_C(0x2545f4914f6cdd1d)) >> 32) % below;
}

/* the n-th oldest of the active marks */
static uint32_t *mark_at(size_t n)
{
    return &active[(oldest + n) % MOST];
}

static uint32_t taken_out(size_t n)
{
    uint32_t position = *mark_at(n);

    if (n == 0) {
        oldest = (oldest + 1) % MOST;
    } else {
        for (; n + 1 < marks; n++) {
            *mark_at(n) = *mark_at(n + 1);
        }
    }
    marks--;
    closed[closed_count++ % SOME] = position;
    return position;
}

static void ask_some(void)
{
    size_t n, step = marks / SOME + 1;

    for (n = 0; n < marks; n += step) {
        give(QUERY, *mark_at(n), FILKOTAR_ACCEPTED);
    }
    for (n = 0; n < closed_count && n < SOME; n++) {
        give(QUERY, closed[n], FILKOTAR_NOT_ACTIVE);
        give(CLOSE, closed[n], FILKOTAR_NOT_ACTIVE);
    }
}

enum { RISING, FALLING, SAWTOOTH, CONSTANT, ANY, SHAPES };
enum { OLDEST, NEWEST, EITHER, CLOSINGS };

static void play(size_t limit, int shape, int closing)
{
    int32_t v = 0, least = 0;
    size_t i, n, turns = 0;
    filkotar_answer answer = filkotar_open(area, words);

    session = answer.session;
    marks = oldest = closed_count = 0;
    for (i = 0; turns < 3; i++) {
        int crowded, full;

        switch (shape) {
        case RISING:
            v += 2;
            break;
        case FALLING:
            v -= 2;
            break;
        case SAWTOOTH:
            v = i % (limit / 2 + 9) == 0 ? -(int32_t)i : v + 2;
            break;
        case CONSTANT:
            v = 12;
            break;
        default:
            v = (int32_t)chance(UINT32_MAX);
        }
        least = v < least ? v : least;
        if (place_count != 0) {
            if (i == place_count) {
                printf("more than %lu positions are needed\n", (unsigned long)place_count);
                exit(1);
            }
            session.present = places[i] - 1; /* as so many Values above all others would leave it */
        }
        give(VALUE, (uint32_t)v, FILKOTAR_ACCEPTED);
        crowded = marks == limit;
        if (crowded) {
            n = closing == OLDEST ? 0 : closing == NEWEST ? limit - 1 : chance((uint32_t)limit);
            give(CLOSE, taken_out(n), FILKOTAR_ACCEPTED);
        }
        full = area[1] >= area[2]; /* the next Mark reorders; so bench/engine knows it, too */
        if (crowded && full) {
            ask_some();
        }
        give(MARK, 0, FILKOTAR_ACCEPTED);
        *mark_at(marks++) = session.present;
        give(QUERY, *mark_at(chance((uint32_t)marks)), FILKOTAR_ACCEPTED);
        turns += crowded && full;
    }
    ask_some();
    for (n = 0; n < SOME && marks > 1; n++) {
        give(CLOSE, taken_out(chance((uint32_t)marks)), FILKOTAR_ACCEPTED);
    }
    for (n = 1; n <= SOME; n++) {
        give(VALUE, (uint32_t)(int32_t)(v - ((int64_t)v - least + 1) * (int64_t)n / SOME), FILKOTAR_ACCEPTED);
        give(QUERY, *mark_at(0), FILKOTAR_ACCEPTED);
    }
}

int main(void)
{
    char line[32];
    unsigned long limit = 0, follow = 0;
    int shape, closing;

    if (fgets(line, sizeof line, stdin) == NULL || sscanf(line, "%lu %lu", &limit, &follow) != 2 || limit < 1 || limit > MOST || follow > PLACES) {
        printf("no K, or not from 1 to %d, or too many positions\n", (int)MOST);
        return 1;
    }
    place_count = fread(places, sizeof places[0], follow, stdin);
    words = 512 + 64 * (uint64_t)limit;
    start_clock();
    learn_callers();
    for (shape = 0; shape < SHAPES; shape++) {
        for (closing = 0; closing < CLOSINGS; closing++) {
            play(limit, shape, closing);
        }
    }
    printf("%" PRIu32 " %" PRIu32 " %" PRIu32 " %" PRIu32 " %" PRIu32 "\n", most[VALUE], most[MARK], most[QUERY], most[CLOSE], counted);
    return 0;
}
