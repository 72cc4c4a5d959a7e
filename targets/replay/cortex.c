/* A Cortex-M without an operating system: vectors, start, faults. */
#include <stdint.h>

#include "bare.h"
#include "player.h"

/* From the linker script. */
extern uint32_t stack_top[], bss_start[], bss_end[];

#define REGISTER(address) (*(volatile uint32_t *)(address))
#define CCR REGISTER(0xE000ED14)   /* bit 3: unaligned accesses fault */
#define CFSR REGISTER(0xE000ED28)  /* why there was a fault; bit 24: an unaligned access */
#define CPACR REGISTER(0xE000ED88) /* bits 20 to 23: the floating-point unit is on */

enum { UNALIGN_TRP = 1 << 3, UNALIGNED = 1 << 24, FPU = 0xF << 20 };

static volatile int probing, trapped;

/* The frame has the address of the instruction in word 6. A fault that trap_unaligned tries is counted, and its instruction of 2 bytes is
 * passed over; any other ends the player. */
void faulted(uint32_t *frame);
void faulted(uint32_t *frame)
{
    uint32_t cause = CFSR;

    if (probing && (cause & UNALIGNED) != 0) {
        trapped++;
        CFSR = cause;
        frame[6] += 2;
        return;
    }
    print((cause & UNALIGNED) != 0 ? "fault: an unaligned access\n" : "fault\n");
    leave(3);
}

__attribute__((naked)) static void fault(void)
{
    __asm__ volatile("mov r0, sp\n b faulted");
}

/* Words and half words, loaded and stored. */
int trap_unaligned(void)
{
    static uint32_t two_words[2];
    uintptr_t odd = (uintptr_t)two_words + 1;
    uint32_t word = 0;

    CCR |= UNALIGN_TRP;
    __asm__ volatile("dsb\n isb" ::: "memory");
    probing = 1;
    __asm__ volatile("ldr %0, [%1]\n ldrh %0, [%1]\n str %0, [%1]\n strh %0, [%1]" : "+l"(word) : "l"(odd) : "memory");
    probing = 0;
    return trapped == 4;
}

static void start(void)
{
    for (uint32_t *word = bss_start; word < bss_end; word++)
        *word = 0;
    CPACR |= FPU;
    __asm__ volatile("dsb\n isb" ::: "memory");
    run_player();
}

/* The first stack address, the start, and the handlers of the faults: NMI, hard, memory, bus, usage. */
__attribute__((section(".vectors"), used)) static void (*const vectors[])(void) = {
    (void (*)(void))stack_top, start, fault, fault, fault, fault, fault,
};
