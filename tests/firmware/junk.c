/* Sessions that no call returned, and words that no call left. Whatever they are, a call writes nothing but the first 2 * width of the words that it is lent, and the number and the
   session that it gives are the promised ones; these are printed after twenty values. tests/window_c.py works out the same lines. */
#include "filkotar.h"

#include <inttypes.h>
#include <stdio.h>
#include <string.h>

enum { AROUND = 64, MOST = 8192 };

static uint64_t memory[AROUND + MOST + AROUND], copy[AROUND + MOST + AROUND];

/* zeros, ones, small numbers, and any */
static uint64_t filler(int kind, uint64_t i)
{
    switch (kind) {
    case 0:
        return 0;
    case 1:
        return UINT64_MAX;
    case 2:
        return i;
    default:
        return (i + 1) * UINT64_C(0x9e3779b97f4a7c15);
    }
}

/* whether the memory before the lent words, and that after the first `own` of them, is as it was */
static int kept(size_t own)
{
    size_t end = AROUND + own;

    return memcmp(memory, copy, AROUND * sizeof memory[0]) == 0 && memcmp(memory + end, copy + end, sizeof memory - end * sizeof memory[0]) == 0;
}

static void play(uint64_t length, uint64_t width, uint32_t present, int kind)
{
    static const int32_t values[] = {5, INT32_MAX, -5, INT32_MIN, 0};
    filkotar_window_answer a;
    size_t i;

    for (i = 0; i < sizeof memory / sizeof memory[0]; i++) {
        copy[i] = memory[i] = filler(kind, i);
    }
    a.number = 0;
    a.session.words = length;
    a.session.width = width;
    a.session.present = present;
    for (i = 0; i < 20; i++) {
        a = filkotar_window_value(a.session, memory + AROUND, length, values[i % 5]);
    }
    printf("%" PRIu32 " of %" PRIu64 " %" PRIu64 " %" PRIu32 "%s\n", a.number, a.session.words, a.session.width, a.session.present,
        kept((size_t)(width <= length / 2 ? 2 * width : length)) ? "" : ", other words written");
}

int main(void)
{
    static const uint64_t lengths[] = {1, 2, 8, MOST};
    static const uint64_t widths[] = {0, 1, 3, 4, 7, 4096, 4097, UINT64_C(1) << 63, UINT64_MAX};
    static const uint32_t presents[] = {0, 7, 4294967286};
    size_t i, j, k;
    int kind;

    for (i = 0; i < sizeof lengths / sizeof lengths[0]; i++) {
        for (j = 0; j < sizeof widths / sizeof widths[0]; j++) {
            for (k = 0; k < sizeof presents / sizeof presents[0]; k++) {
                for (kind = 0; kind < 4; kind++) {
                    play(lengths[i], widths[j], presents[k], kind);
                }
            }
        }
    }
    return 0;
}
