/* The look-ahead window from C: how it is used, then its refusals. Of each call the answer is printed: number, value and place, then the session's words, width and
   present. tests/window_c.py works out the same lines. */
#include "filkotar.h"
#include "filkotar.h" /* a second time changes nothing */

#include <inttypes.h>
#include <stdio.h>
#include <string.h>

/* the types that are declared are those that are promised */
static filkotar_window_answer (*const window_open)(uint64_t *, uint64_t, uint64_t) = filkotar_window_open;
static filkotar_window_answer (*const window_value)(filkotar_window, uint64_t *, uint64_t, int32_t) = filkotar_window_value;

static void print(filkotar_window_answer a)
{
    printf("%" PRIu32 " %" PRId32 " %" PRIu32 " of %" PRIu64 " %" PRIu64 " %" PRIu32 "\n",
        a.number, a.value, a.place, a.session.words, a.session.width, a.session.present);
}

static uint64_t area[2 * 4096 + 8];

/* A limiter that looks ahead: 144 values are three milliseconds at 48 kHz. Printed is each answer that shows another value or place than the one before. */
static void limiter(uint64_t width, int count)
{
    filkotar_window_answer before, now = window_open(area, 2 * width, width);
    uint32_t noise = 1;
    int i;

    printf("the last %" PRIu64 " of %d\n", width, count);
    print(now);
    for (i = 0; i < count; i++) {
        int32_t headroom;

        noise = noise * 1664525u + 1013904223u;
        headroom = (int32_t)(noise >> 16) % 301 - 100;
        before = now;
        now = window_value(now.session, area, 2 * width, headroom);
        if (now.value != before.value || now.place != before.place) {
            print(now);
        }
    }
    print(now);
}

/* Short windows, on as few words as they may have: equal values, and both ends of the range. */
static void short_windows(void)
{
    static const int32_t values[] = {
        3, 1, 2, 2, 2, 2, 5, 4, 4, 7, INT32_MAX, INT32_MAX, INT32_MAX, INT32_MAX, INT32_MIN, INT32_MAX, INT32_MIN, INT32_MIN, 0, -1, 0, 1, 2, 3
    };
    uint64_t width;
    size_t i;

    for (width = 1; width <= 3; width++) {
        filkotar_window_answer a = window_open(area, 2 * width, width);

        printf("the last %" PRIu64 "\n", width);
        print(a);
        for (i = 0; i < sizeof values / sizeof values[0]; i++) {
            a = window_value(a.session, area, 2 * width, values[i]);
            print(a);
        }
    }
}

static uint64_t copy[2 * 4096 + 8];

/* Openings of every outcome. One that is refused writes nothing, and an open one nothing after the window's own words. */
static void openings(void)
{
    static const uint64_t widths[] = {0, 1, 2, 144, 4095, 4096, 4097, UINT64_C(1) << 63, (UINT64_C(1) << 63) + 1, UINT64_MAX};
    static const uint64_t lengths[] = {0, 1, 2, 3, 4, 287, 288, 8189, 8190, 8191, 8192, 8200};
    size_t i, j;

    for (i = 0; i < sizeof widths / sizeof widths[0]; i++) {
        for (j = 0; j < sizeof lengths / sizeof lengths[0]; j++) {
            filkotar_window_answer a;
            size_t own;

            memset(area, 0xa5, sizeof area);
            memcpy(copy, area, sizeof area);
            a = window_open(area, lengths[j], widths[i]);
            own = a.number == 0 ? (size_t)(2 * widths[i]) : 0;
            printf("the last %" PRIu64 " on %" PRIu64 " words%s: ", widths[i], lengths[j],
                memcmp(area + own, copy + own, sizeof area - own * sizeof area[0]) == 0 ? "" : ", others written");
            print(a);
        }
    }
    print(window_open(NULL, 0, 0));
    print(window_open(NULL, 0, 1));
}

/* A value that is refused: were a word written, a line would say so. */
static void refused(filkotar_window s, uint64_t *lent, uint64_t length)
{
    memcpy(copy, area, sizeof area);
    print(window_value(s, lent, length, -1000));
    if (memcmp(area, copy, sizeof area) != 0) {
        printf("a word is written\n");
    }
}

static void refusals(void)
{
    filkotar_window_answer a = window_open(area, 5, 2);
    filkotar_window s = {0, 0, 0}; /* not open */

    printf("refusals\n");
    a = window_value(a.session, area, 5, 9);
    print(a);
    refused(s, area, 5);
    refused(s, area, 0);
    refused(s, NULL, 0);
    s.width = UINT64_MAX;
    s.present = UINT32_MAX; /* nor is this, and 4 comes before 6 */
    refused(s, area, 5);
    refused(a.session, area, 4);
    refused(a.session, area, 6);
    refused(a.session, area, 8200);
    refused(a.session, NULL, 0);
    a = window_value(a.session, area, 5, 10); /* nothing has happened in between */
    print(a);

    a.session.present = 4294967294; /* one position is left; the window did not come there, so value and place may be any */
    a = window_value(a.session, area, 5, 11);
    printf("%" PRIu32 " of %" PRIu64 " %" PRIu64 " %" PRIu32 "\n", a.number, a.session.words, a.session.width, a.session.present);
    refused(a.session, area, 5);
    refused(a.session, area, 6); /* 5 comes before 6 */
}

int main(void)
{
    limiter(144, 1000);
    limiter(4096, 6000);
    short_windows();
    openings();
    refusals();
    return 0;
}
