/* How a program of tools/cortex-m starts and fails on QEMU's boards. QEMU has put the program and its data in their places; input and output go through semihosting, by newlib's rdimon.
   newlib's own start is not taken, since it asks QEMU for a stack. A fault ends the program with status 1. No part of the library for firmware. */
#include <stdint.h>
#include <stdlib.h>
#include <string.h>

/* of board.ld */
extern uint32_t stack_top[];
extern char bss_start[], bss_end[];
/* of newlib */
extern void initialise_monitor_handles(void);
extern void __libc_init_array(void);

extern int main(void);

static void started(void)
{
    memset(bss_start, 0, (size_t)(bss_end - bss_start));
    initialise_monitor_handles();
    __libc_init_array();
    exit(main());
}

/* semihosting's call 0x18 with the reason 0x20023, an error at run time */
static void failed(void)
{
    register uint32_t call __asm__("r0") = 0x18;
    register uint32_t reason __asm__("r1") = 0x20023;

    for (;;) {
        __asm__ volatile("bkpt 0xab" : : "r"(call), "r"(reason) : "memory");
    }
}

/* what the processor reads at address 0: where the stack begins, where to start, and where to go on a fault */
__attribute__((section(".vectors"), used)) static const struct {
    uint32_t *stack;
    void (*handlers[15])(void);
} vectors = {stack_top, {started, failed, failed, failed, failed, failed, failed, failed, failed, failed, failed, failed, failed, failed, failed}};
