/* Start of a Cortex-M4: the vectors, memory before main, and the bytes of the site; SITE names their file. */
#include <string.h>

extern char stack_top[], data_load[], data[], data_end[], bss[], bss_end[]; /* link.ld */

int main(void);
void board_tick(void);

__asm__(".section .rodata\n .global personality, personality_end\n personality: .incbin \"" SITE "\"\n personality_end: .previous");

static void reset(void)
{
    memcpy(data, data_load, (size_t)(data_end - data));
    memset(bss, 0, (size_t)(bss_end - bss));
    main();
}

static void stop(void) /* a fault: the monitor's line stands still */
{
    for (;;)
        ;
}

__attribute__((section(".vectors"), used)) static void *const vectors[16] = {
    stack_top, (void *)reset, [2 ... 14] = (void *)stop, (void *)board_tick};
