/* A firmware that uses the level engine and nothing else of the library. tools/bench-firmware compiles it, looks up how much of the library is linked with it, and prints what it prints:
   of each number of marks the words and the bytes that they take, and last the bytes of a session and of an answer. It ends with 1 where an area holds another number of marks. */
#include "filkotar.h"

#include <inttypes.h>
#include <stdio.h>

static uint64_t area[FILKOTAR_WORDS(4096)];

/* How many marks `length` words hold: positions are marked, one after another, until a mark is refused. The last that was accepted is then queried and closed. */
static uint64_t held(uint64_t length)
{
    filkotar_answer a = filkotar_open(area, length);
    uint64_t marks = 0;
    uint32_t last = 0;

    if (a.number != FILKOTAR_ACCEPTED) {
        return 0;
    }
    for (;;) {
        a = filkotar_value(a.session, area, length, (int32_t)marks);
        a = filkotar_mark(a.session, area, length);
        if (a.number != FILKOTAR_ACCEPTED) {
            break;
        }
        last = a.session.present;
        marks++;
    }
    if (a.number != FILKOTAR_FULL || a.session.active != marks) {
        return 0;
    }
    a = filkotar_query(a.session, area, length, last);
    if (a.number != FILKOTAR_ACCEPTED || a.place != last) {
        return 0;
    }
    a = filkotar_close(a.session, area, length, last);
    return a.number == FILKOTAR_ACCEPTED ? marks : 0;
}

int main(void)
{
    static const uint64_t numbers[] = {1, 8, 60, 4096};
    size_t n;

    for (n = 0; n < sizeof numbers / sizeof numbers[0]; n++) {
        uint64_t words = FILKOTAR_WORDS(numbers[n]);

        if (held(words) != numbers[n] || held(words - 1) != numbers[n] - 1) {
            fprintf(stderr, "%" PRIu64 " words hold another number of marks than %" PRIu64 ", or one word fewer does not hold one fewer\n", words, numbers[n]);
            return 1;
        }
        printf("%" PRIu64 " %" PRIu64 " %" PRIu64 "\n", numbers[n], words, (uint64_t)sizeof area[0] * words);
    }
    printf("%u %u\n", (unsigned)sizeof(filkotar_session), (unsigned)sizeof(filkotar_answer));
    return 0;
}
