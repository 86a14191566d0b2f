/* As much of this header as tests/firmware/lent.c needs, on a board without pages: memory from an array, and no part of it that cannot be read. So what that program compares is compared
   here too, and a read beside the lent words at the ends of its memory is not noticed. */
#ifndef SYS_MMAN_H
#define SYS_MMAN_H

#include <stddef.h>
#include <stdint.h>

enum { PROT_NONE = 0, PROT_READ = 1, PROT_WRITE = 2, MAP_PRIVATE = 2, MAP_ANONYMOUS = 32 };

#define MAP_FAILED ((void *)-1)

static inline void *mmap(void *wanted, size_t length, int protection, int flags, int file, long offset)
{
    static uint64_t array[3 << 17]; /* 3 MiB */
    static size_t used;
    size_t taken = (length + sizeof array[0] - 1) / sizeof array[0], from = used;

    (void)wanted, (void)protection, (void)flags, (void)file, (void)offset;
    if (taken > sizeof array / sizeof array[0] - used) {
        return MAP_FAILED;
    }
    used += taken;
    return &array[from];
}

static inline int mprotect(void *from, size_t length, int protection)
{
    (void)from, (void)length, (void)protection;
    return 0;
}

#endif
