/* A take of more than 2^32 values, so that places and the numbers of a range need more than 32 bits. All values are 0 but three, and memory that is only read stays the system's page of
   zeros, so that the 16 GiB take little. Where the system does not give them, the program ends with status 77. tests/takes_c.py works out the same lines. */
#define _DEFAULT_SOURCE
#include "filkotar.h"

#include <inttypes.h>
#include <stdio.h>
#include <sys/mman.h>

#define LENGTH ((UINT64_C(1) << 32) + 200)
#define BLOCKS ((UINT64_C(1) << 26) + 4)

static int32_t *zeros(uint64_t count)
{
    size_t bytes = (size_t)count * sizeof(int32_t);
    void *p = mmap(NULL, bytes, PROT_READ | PROT_WRITE, MAP_PRIVATE | MAP_ANONYMOUS | MAP_NORESERVE, -1, 0);

    if (p == MAP_FAILED) {
        return NULL;
    }
    madvise(p, bytes, MADV_HUGEPAGE); /* only quicker */
    return (int32_t *)p;
}

int main(void)
{
    static const uint64_t at[] = {
        0, 5, 6, 199, 200, UINT32_MAX - 1, UINT32_MAX, LENGTH - 200, LENGTH - 195, LENGTH - 190, LENGTH - 189, LENGTH - 73, LENGTH - 72, LENGTH - 1, LENGTH, UINT64_MAX
    };
    int32_t *take = zeros(LENGTH), *entries = zeros(BLOCKS);
    uint64_t b;
    size_t n, m;

    if (take == NULL || entries == NULL) {
        return 77;
    }
    take[5] = -3;
    take[UINT32_MAX] = -2;
    take[LENGTH - 190] = -1;
    entries[7] = entries[BLOCKS - 1] = 9; /* as everything else, written anew */
    printf("%" PRIu64 " values, %" PRIu64 " blocks: %" PRIu32 "\n", LENGTH, BLOCKS, filkotar_build(take, LENGTH, entries, BLOCKS));
    for (b = 0; b < BLOCKS; b++) {
        if (entries[b] != 0) {
            printf("block %" PRIu64 ": %" PRId32 "\n", b, entries[b]);
        }
    }
    for (n = 0; n < sizeof at / sizeof at[0]; n++) {
        for (m = 0; m < sizeof at / sizeof at[0]; m++) {
            filkotar_found f = filkotar_search(take, LENGTH, entries, BLOCKS, at[n], at[m]);

            printf("%" PRIu64 " to %" PRIu64 ": %" PRIu32 " %" PRId32 " %" PRIu64 "\n", at[n], at[m], f.number, f.value, f.place);
        }
    }
    /* roughly: with a look for each block that meets the range, and with as many as there are */
    for (n = 0; n < sizeof at / sizeof at[0]; n += 3) {
        for (m = 0; m < sizeof at / sizeof at[0]; m++) {
            uint64_t met = at[m] / 64 + 1 - at[n] / 64;
            filkotar_reading r = filkotar_rough(take, LENGTH, entries, BLOCKS, at[n], at[m], met);
            filkotar_reading s = filkotar_rough(take, LENGTH, entries, BLOCKS, at[n], at[m], UINT64_MAX);

            printf("%" PRIu64 " to %" PRIu64 " roughly: %" PRIu64 " %" PRIu32 " %" PRIu32 " %" PRId32 " %" PRId32, at[n], at[m], r.looks, r.number, r.known, r.high, r.low);
            printf(", %" PRIu64 " %" PRIu32 " %" PRIu32 " %" PRId32 " %" PRId32 "\n", s.looks, s.number, s.known, s.high, s.low);
        }
    }
    return 0;
}
