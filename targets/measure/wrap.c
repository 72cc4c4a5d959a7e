/* Counts the instructions and the stack of every call of willowera_step that a program makes. The program is linked with
 * -Wl,--wrap=willowera_step, so that its calls come here first, and runs under qemu with -icount shift=10: each instruction takes 1,024 ns of
 * the board's time, and SysTick counts it in ticks of 40 ns (25 MHz). So ticks * 40 / 1,024, rounded, is the exact number of instructions.
 * The passing of the arguments is in it, since a caller pays for it.
 *
 * Before a call the stack below is painted; afterwards the lowest word without paint shows how deep the call went.
 *
 * At the start a loop of a known number of instructions is counted, and the program ends with status 4 if the count is another.
 *
 * At the end of the program it prints, for accepted calls and for refused ones, how many there were, the mean and the greatest number of
 * instructions, and the deepest stack in bytes.
 */
#include <stdio.h>
#include <unistd.h>

#include "willowera.h"

#define SYSTICK_CONTROL (*(volatile uint32_t *)0xE000E010)
#define SYSTICK_RELOAD (*(volatile uint32_t *)0xE000E014)
#define SYSTICK_NOW (*(volatile uint32_t *)0xE000E018)
#define CONFIGURATION (*(volatile uint32_t *)0xE000ED14)

enum { TICK_NS = 40, INSTRUCTION_NS = 1024, TICKS = 0xffffff, PAINTED_WORDS = 4096, UNALIGN_TRP = 8 };
#define PAINT UINT32_C(0xA5C396F0)

/* What was counted: of accepted calls, of refused ones. */
static struct counted {
    uint32_t calls, most, deepest;
    uint64_t all;
} counted[2];

__typeof__(willowera_step) __real_willowera_step, __wrap_willowera_step;

static inline volatile uint32_t *stack_pointer(void)
{
    uint32_t *now;
    __asm__ volatile("mov %0, sp" : "=r"(now));
    return now;
}

static inline uint32_t instructions(uint32_t began, uint32_t ended)
{
    return (uint32_t)((((began - ended) & TICKS) * (uint64_t)TICK_NS + INSTRUCTION_NS / 2) / INSTRUCTION_NS);
}

uint64_t __wrap_willowera_step(const uint8_t *personality, uint64_t personality_length, uint8_t *state, uint64_t state_length,
                               uint64_t inputs, uint8_t *colours, uint64_t colours_length)
{
    volatile uint32_t *top = stack_pointer();
    volatile uint32_t *lowest = top - PAINTED_WORDS;

    for (volatile uint32_t *word = lowest; word < top; word++)
        *word = PAINT;
#ifdef STRICT
    CONFIGURATION |= UNALIGN_TRP;
#endif
    uint32_t began = SYSTICK_NOW;
    uint64_t answer = __real_willowera_step(personality, personality_length, state, state_length, inputs, colours, colours_length);
    uint32_t ended = SYSTICK_NOW;
#ifdef STRICT
    CONFIGURATION &= ~(uint32_t)UNALIGN_TRP;
#endif
    while (lowest < top && *lowest == PAINT)
        lowest++;

    struct counted *kind = &counted[WILLOWERA_NUMBER(answer) != WILLOWERA_ACCEPTED];
    uint32_t made = instructions(began, ended);
    uint32_t depth = (uint32_t)(top - lowest) * 4;
    kind->calls++;
    kind->all += made;
    if (made > kind->most)
        kind->most = made;
    if (depth > kind->deepest)
        kind->deepest = depth;
    return answer;
}

/* The loop makes two instructions a turn; reading the clock and setting the count are a few more. */
static void try_the_clock(void)
{
    uint32_t turns = 1000, left = turns;
    uint32_t began = SYSTICK_NOW;
    __asm__ volatile("1: subs %0, #1\n\tbne 1b" : "+l"(left) : : "cc");
    uint32_t made = instructions(began, SYSTICK_NOW);

    if (made < 2 * turns || made > 2 * turns + 8) {
        fprintf(stderr, "wrap.c: a loop of %lu instructions was counted as %lu\n", (unsigned long)(2 * turns), (unsigned long)made);
        _exit(4);
    }
}

__attribute__((constructor)) static void start_counting(void)
{
    SYSTICK_RELOAD = TICKS;
    SYSTICK_NOW = 0;
    SYSTICK_CONTROL = 5; /* on, the processor's clock, no interrupt */
    try_the_clock();
}

__attribute__((destructor)) static void print(void)
{
    static const char *const names[2] = {"accepted", "refused"};

    for (int i = 0; i < 2; i++)
        if (counted[i].calls > 0)
            printf("%s %lu mean %lu most %lu stack %lu\n", names[i], (unsigned long)counted[i].calls,
                   (unsigned long)(counted[i].all / counted[i].calls), (unsigned long)counted[i].most, (unsigned long)counted[i].deepest);
}
