/* Stored takes from C: how they are used; then every range of short takes and many of a longer one; rough readings of these with every budget that matters; refusals; and an index that
   was not built from the take. tests/takes_c.py works out the same lines. */
#include "filkotar.h"
#include "filkotar.h" /* a second time changes nothing */

#include <inttypes.h>
#include <stdio.h>
#include <string.h>

/* the types that are declared are those that are promised */
static uint32_t (*const build)(const int32_t *, uint64_t, int32_t *, uint64_t) = filkotar_build;
static filkotar_found (*const search)(const int32_t *, uint64_t, const int32_t *, uint64_t, uint64_t, uint64_t) = filkotar_search;
static filkotar_reading (*const rough)(const int32_t *, uint64_t, const int32_t *, uint64_t, uint64_t, uint64_t, uint64_t) = filkotar_rough;

static void print(filkotar_found f)
{
    printf("%" PRIu32 " %" PRId32 " %" PRIu64 "\n", f.number, f.value, f.place);
}

static void print_reading(filkotar_reading r)
{
    printf("%" PRIu64 " %" PRIu32 " %" PRIu32 " %" PRId32 " %" PRId32 "\n", r.looks, r.number, r.known, r.high, r.low);
}

/* HOW A TAKE IS SEARCHED. A take of 1000 values has 16 blocks: 15 of 64 values, and one of the last 40. */
static void example(void)
{
    static int32_t take[1000], entries[16];
    uint32_t noise = 1;
    size_t i;

    for (i = 0; i < 1000; i++) {
        noise = noise * 1664525u + 1013904223u;
        take[i] = (int32_t)(noise >> 16) % 301 - 100;
    }
    printf("a take of 1000\n");

    /* once, when the take is finished */
    printf("%" PRIu32 "\n", build(take, 1000, entries, 16));

    /* the whole take; 600 values of it; some within one block; one; and a range that is none */
    print(search(take, 1000, entries, 16, 0, 999));
    print(search(take, 1000, entries, 16, 100, 699));
    print(search(take, 1000, entries, 16, 130, 140));
    print(search(take, 1000, entries, 16, 7, 7));
    print(search(take, 1000, entries, 16, 0, 1000));

    /* 600 values of it roughly: with 3 looks; with one for each of the ten blocks that they meet; and with as many as there are */
    print_reading(rough(take, 1000, entries, 16, 100, 699, 3));
    print_reading(rough(take, 1000, entries, 16, 100, 699, 10));
    print_reading(rough(take, 1000, entries, 16, 100, 699, UINT64_MAX));
}

/* THE REST IS TESTS. A take and an index, with words around each that stay as they are. */
enum { AROUND = 16, LONGEST = 4100, MOST = (LONGEST + 63) / 64 };

static struct {
    int32_t before[AROUND], take[LONGEST + AROUND], entries[MOST + AROUND];
} memory, copy;

static int32_t *const take = memory.take, *const entries = memory.entries;

/* many values; few; one; rising; falling; and both ends of the range */
enum { KINDS = 6 };

static int32_t value(int kind, uint64_t i, uint32_t noise)
{
    static const int32_t ends[] = {INT32_MIN, 0, INT32_MAX};

    switch (kind) {
    case 0:
        return (int32_t)(noise >> 16) % 301 - 100;
    case 1:
        return (int32_t)(noise >> 16) % 3;
    case 2:
        return 12;
    case 3:
        return (int32_t)i;
    case 4:
        return -(int32_t)i;
    default:
        return ends[(noise >> 16) % 3];
    }
}

/* a take of `length` values, and `blocks` entries of an index; all the rest has a pattern of its own */
static void fill(int kind, uint64_t length, int of_index, uint64_t blocks)
{
    uint32_t noise = 1;
    uint64_t i;

    memset(&memory, 0xa5, sizeof memory);
    for (i = 0; i < length; i++) {
        noise = noise * 1664525u + 1013904223u;
        take[i] = value(kind, i, noise);
    }
    for (i = 0; i < blocks; i++) {
        noise = noise * 1664525u + 1013904223u;
        entries[i] = value(of_index, i, noise);
    }
    memcpy(&copy, &memory, sizeof memory);
}

/* were something else written than `blocks` entries, a line would say so */
static void kept(uint64_t blocks)
{
    memcpy(copy.entries, memory.entries, (size_t)blocks * sizeof copy.entries[0]);
    if (memcmp(&copy, &memory, sizeof memory) != 0) {
        printf("something else is written\n");
    }
}

/* many numbers in one (FNV-1a, over whole numbers) */
static uint64_t sum;

static void begin(void)
{
    sum = UINT64_C(0xcbf29ce484222325);
}

static void add(uint64_t x)
{
    sum = (sum ^ x) * UINT64_C(0x100000001b3);
}

static void add_found(filkotar_found f)
{
    add(f.number);
    add((uint32_t)f.value);
    add(f.place);
}

static void add_reading(filkotar_reading r)
{
    add(r.looks);
    add(r.number);
    add(r.known);
    add((uint32_t)r.high);
    add((uint32_t)r.low);
}

/* An index, and every range of a take; of a long take those that begin and end at the first, second or last value of a block. */
static void ranges(int kind, uint64_t length, int all)
{
    uint64_t blocks = length / 64 + (length % 64 != 0), count = 0, i, j, b;
    uint32_t number;

    fill(kind, length, 5, blocks);
    number = build(take, length, entries, blocks);
    kept(blocks);
    memcpy(&copy, &memory, sizeof memory);
    begin();
    for (b = 0; b < blocks; b++) {
        add((uint32_t)entries[b]);
    }
    printf("kind %d, %" PRIu64 " values: %" PRIu32 ", %" PRIu64 " blocks %016" PRIx64 ", ", kind, length, number, blocks, sum);
    begin();
    for (i = 0; i < length; i++) {
        for (j = i; j < length; j++) {
            if (all || ((i + 1) % 64 <= 2 && (j + 1) % 64 <= 2)) {
                add_found(search(take, length, entries, blocks, i, j));
                count++;
            }
        }
    }
    printf("%" PRIu64 " ranges %016" PRIx64 "\n", count, sum);
    kept(0);
}

static void every_range(void)
{
    static const uint64_t lengths[] = {0, 1, 2, 63, 64, 65, 127, 128, 129, 200, 260};
    size_t n;
    int kind;

    for (n = 0; n < sizeof lengths / sizeof lengths[0]; n++) {
        for (kind = 0; kind < KINDS; kind++) {
            ranges(kind, lengths[n], 1);
        }
    }
    ranges(0, LONGEST, 0);
    ranges(1, LONGEST, 0);
}

/* Rough readings of the ranges that begin and end beside the ends of blocks, with every budget up to one more than there are looks, and with the largest; over the take's own index, or over
   one that was not built from it. */
static void readings(int kind, uint64_t length, int of_index, int own)
{
    uint64_t blocks = (length + 63) / 64, count = 0, i, j, budget;

    fill(kind, length, of_index, blocks);
    if (own) {
        build(take, length, entries, blocks);
        memcpy(&copy, &memory, sizeof memory);
    }
    begin();
    for (i = 0; i < length; i++) {
        for (j = i; j < length; j++) {
            if ((i + 2) % 64 <= 3 && (j + 2) % 64 <= 3) {
                for (budget = 0; budget <= blocks + 129; budget++) {
                    add_reading(rough(take, length, entries, blocks, i, j, budget));
                    count++;
                }
                add_reading(rough(take, length, entries, blocks, i, j, UINT64_MAX));
                count++;
            }
        }
    }
    printf("kind %d, %" PRIu64 " values, %s: %" PRIu64 " readings %016" PRIx64 "\n", kind, length, own ? "their index" : "another index", count, sum);
    kept(0);
}

static void every_reading(void)
{
    static const uint64_t lengths[] = {1, 2, 64, 65, 129, 200};
    size_t n, budget;
    int kind;

    fill(3, 200, 5, 4);
    printf("a take of 0 to 199: %" PRIu32 "\n", build(take, 200, entries, 4));
    for (budget = 0; budget <= 81; budget++) {
        print_reading(rough(take, 200, entries, 4, 10, 150, budget));
    }
    for (n = 0; n < sizeof lengths / sizeof lengths[0]; n++) {
        for (kind = 0; kind < KINDS; kind++) {
            readings(kind, lengths[n], 5 - kind, 1);
            readings(kind, lengths[n], 5 - kind, 0);
        }
    }
}

/* Ranges that are none, with numbers far above the take's length. The lower 32 bits of some are in the take. */
static void no_ranges(void)
{
    static const uint64_t at[] = {
        0, 1, 64, 127, 128, 129, 130, UINT32_MAX, UINT64_C(1) << 32, (UINT64_C(1) << 32) + 64, UINT64_C(1) << 58, (UINT64_C(1) << 58) + 1, INT64_MAX, UINT64_C(1) << 63,
        (UINT64_C(1) << 63) + 64, UINT64_MAX - 1, UINT64_MAX
    };
    size_t n, m;

    fill(0, 129, 5, 3);
    printf("a take of 129: %" PRIu32 "\n", build(take, 129, entries, 3));
    memcpy(&copy, &memory, sizeof memory);
    for (n = 0; n < sizeof at / sizeof at[0]; n++) {
        for (m = 0; m < sizeof at / sizeof at[0]; m++) {
            printf("%" PRIu64 " to %" PRIu64 ": ", at[n], at[m]);
            print(search(take, 129, entries, 3, at[n], at[m]));
            print_reading(rough(take, 129, entries, 3, at[n], at[m], at[(n + m) % (sizeof at / sizeof at[0])]));
        }
    }
    kept(0);
}

/* An index of another length: 15, which comes before 14. Nothing is written. */
static void other_lengths(void)
{
    static const uint64_t lengths[] = {0, 1, 63, 64, 65, 128, 129, 192};
    uint64_t blocks;
    size_t n;

    for (n = 0; n < sizeof lengths / sizeof lengths[0]; n++) {
        for (blocks = 0; blocks <= 4; blocks++) {
            uint32_t number;

            fill(0, lengths[n], 5, blocks);
            number = build(take, lengths[n], entries, blocks);
            kept(number == 0 ? blocks : 0);
            memcpy(&copy, &memory, sizeof memory);
            printf("%" PRIu64 " values, %" PRIu64 " entries: %" PRIu32 "\n", lengths[n], blocks, number);
            print(search(take, lengths[n], entries, blocks, 0, 0));
            print(search(take, lengths[n], entries, blocks, 1, 0));
            print(search(take, lengths[n], entries, blocks, 0, lengths[n]));
            print_reading(rough(take, lengths[n], entries, blocks, 0, 0, 0));
            print_reading(rough(take, lengths[n], entries, blocks, 0, 0, 1));
            print_reading(rough(take, lengths[n], entries, blocks, 1, 0, 0));
            print_reading(rough(take, lengths[n], entries, blocks, 0, lengths[n], UINT64_MAX));
            kept(0);
        }
    }
    printf("no take, no index\n");
    printf("%" PRIu32 "\n", build(NULL, 0, NULL, 0));
    printf("%" PRIu32 "\n", build(NULL, 0, entries, 1));
    printf("%" PRIu32 "\n", build(take, 1, NULL, 0));
    print(search(NULL, 0, NULL, 0, 0, 0));
    print(search(NULL, 0, NULL, 0, 1, 0));
    print(search(NULL, 0, NULL, 0, 0, UINT64_MAX));
    print(search(NULL, 0, entries, 1, 0, 0));
    print(search(take, 1, NULL, 0, 0, 0));
    print_reading(rough(NULL, 0, NULL, 0, 0, 0, 0));
    print_reading(rough(NULL, 0, NULL, 0, 0, UINT64_MAX, UINT64_MAX));
    print_reading(rough(NULL, 0, entries, 1, 0, 0, 1));
    print_reading(rough(take, 1, NULL, 0, 0, 0, 1));
    kept(0);
}

/* Indexes that were not built from the take: how many ranges are accepted. Value and place are the search's own choice, but for the place being in the range. */
static void other_indexes(void)
{
    static const uint64_t lengths[] = {1, 64, 65, 129, 260};
    size_t n;
    int kind, of_index;

    for (n = 0; n < sizeof lengths / sizeof lengths[0]; n++) {
        for (kind = 0; kind < KINDS; kind++) {
            for (of_index = 0; of_index < KINDS; of_index++) {
                uint64_t length = lengths[n], blocks = (length + 63) / 64, accepted = 0, refused = 0, outside = 0, i, j;

                fill(kind, length, of_index, blocks);
                for (i = 0; i <= length; i++) {
                    for (j = 0; j <= length; j++) {
                        filkotar_found f = search(take, length, entries, blocks, i, j);

                        accepted += f.number == 0;
                        refused += f.number == 14 && f.value == 0 && f.place == 0;
                        outside += f.number == 0 && (f.place < i || j < f.place);
                    }
                }
                printf("%" PRIu64 " values, another index: %" PRIu64 " accepted, %" PRIu64 " refused, %" PRIu64 " outside\n", length, accepted, refused, outside);
                kept(0);
            }
        }
    }
}

int main(void)
{
    example();
    every_range();
    every_reading();
    no_ranges();
    other_lengths();
    other_indexes();
    return 0;
}
