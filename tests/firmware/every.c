/* Goes through every value, from the least to the greatest, and prints the least and each whose gain is not that of the value before, and last how many values there
   were. tests/gain.py works out the same lines. */
#include "filkotar.h"

#include <inttypes.h>
#include <stdio.h>

int main(void)
{
    uint16_t before = filkotar_gain(INT32_MIN);
    int64_t value;
    uint64_t values = 1;

    printf("%" PRId32 " %" PRIu16 "\n", INT32_MIN, before);
    for (value = (int64_t)INT32_MIN + 1; value <= INT32_MAX; value++) {
        uint16_t now = filkotar_gain((int32_t)value);

        values++;
        if (now != before) {
            printf("%" PRId64 " %" PRIu16 "\n", value, now);
            before = now;
        }
    }
    printf("%" PRIu64 " values\n", values);
    return 0;
}
