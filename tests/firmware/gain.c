/* Prints values and their gains, as the pedal's C firmware is given them. tests/gain.py works out the same lines. */
#include "filkotar.h"
#include "filkotar.h" /* a second time changes nothing */

#include <inttypes.h>
#include <stdio.h>

/* the types that are declared are those that are promised */
static uint16_t (*const gain)(int32_t) = filkotar_gain;

static void print(int32_t value)
{
    printf("%" PRId32 " %" PRIu16 "\n", value, gain(value));
}

int main(void)
{
    static const int32_t others[] = {
        INT32_MIN, INT32_MIN + 1, INT32_MAX - 1, INT32_MAX, /* both ends */
        -65536, -65616, 65456, 65535, 32768, -512, -336 /* another gain by their lower 16 or 8 bits */
    };
    size_t i;
    int32_t value;

    for (value = -300; value <= 10; value++) {
        print(value);
    }
    for (i = 0; i < sizeof others / sizeof others[0]; i++) {
        print(others[i]);
    }
    return 0;
}
