/* The machine mps2-an386 of qemu. Its ticks and its reset are real. Ports, lamps, the conflict monitor and the non-volatile memory are
 * stand-ins, in memory that a reset leaves alone. What happens is a script on the command line: words of a letter, an argument, @ and the
 * time at which it happens. The time is how often the inputs were read.
 *
 *     i1@12   input bit 1 is set                x@41   the processor is reset                d@41   the state is damaged
 *     l@41    the step takes three ticks more   b@41   the same without power                c@41   the colour of group 0 is unknown
 *     e@81    the run ends                      t@40   the same while a copy is written      s@41   the green lamp of group 0 is wrong */
#include <stdlib.h>
#include <string.h>

#include "board.h"

#define REGISTER(address) (*(volatile uint32_t *)(address))
#define KEPT __attribute__((section(".kept"))) /* a reset leaves it alone; zero when the machine is switched on */

enum { CLOCK = 25000000, FLASH_TICKS = 5, MONITOR_TICKS = 5 };
enum { WRITE0 = 0x04, COMMAND_LINE = 0x15, EXIT = 0x18, EXIT_WELL = 0x20026 }; /* of semihosting */

static volatile uint32_t lamps[3] KEPT, shown KEPT, held KEPT; /* ports of red, yellow and green: bit g is group g; the step; whether held */
uint8_t board_copies[2 * COPY_BYTES] KEPT;
volatile uint32_t board_ticks;
static uint32_t now KEPT, toggles, toggled_at; /* the time of the script; the monitor's line */
static char script[256];
extern uint8_t state[]; /* of main.c, to be damaged */

static void semihost(uint32_t operation, const void *argument)
{
    __asm__ volatile("mov r0, %0\n mov r1, %1\n bkpt 0xab" ::"r"(operation), "r"(argument) : "r0", "r1", "memory");
}

void board_note(const char *what, uint32_t number)
{
    char line[100];

    utoa(number, stpcpy(stpcpy(line, what), " "), 10);
    semihost(WRITE0, strcat(line, "\n"));
}

/* The arguments of the words with this letter at the present time, as bits. A missing argument is 0. */
static uint64_t scripted(char letter)
{
    uint64_t arguments = 0;

    for (char *end, *word = script; *word; word = end + strspn(end, " ")) {
        unsigned long argument = strtoul(word + 1, &end, 10), time = strtoul(end + 1, &end, 10);
        if (*word == letter && time == now)
            arguments |= UINT64_C(1) << argument;
    }
    return arguments;
}

static void reset_processor(int with_power)
{
    held &= (uint32_t)with_power;
    REGISTER(0xE000ED0C) = 0x05FA0004;
    for (;;)
        ;
}

void board_start(void)
{
    semihost(COMMAND_LINE, (const uintptr_t[]){(uintptr_t)script, sizeof script});
    REGISTER(0xE000E014) = CLOCK / 10 - 1; /* SysTick: its period, then on with its interrupt */
    REGISTER(0xE000E010) = 7;
}

void board_tick(void)
{
    board_ticks++;
}

/* Interrupts are off from the test to the sleep, so that no tick is slept through: it ends the sleep and is then taken. */
uint32_t board_wait(uint32_t tick)
{
    __asm__ volatile("cpsid i" ::: "memory");
    while (board_ticks == tick)
        __asm__ volatile("wfi\n cpsie i\n isb\n cpsid i" ::: "memory");
    __asm__ volatile("cpsie i" ::: "memory");
    if (board_ticks - toggled_at >= MONITOR_TICKS) {
        board_note("the monitor flashes yellow; toggles of its line since the reset:", toggles);
        if (scripted('e'))
            semihost(EXIT, (const void *)EXIT_WELL);
        reset_processor(0);
    }
    return board_ticks;
}

uint64_t board_inputs(void)
{
    now++;
    if (scripted('e'))
        semihost(EXIT, (const void *)EXIT_WELL);
    if (scripted('x') || scripted('b'))
        reset_processor(scripted('x') != 0);
    if (scripted('d'))
        state[WILLOWERA_STATE_INTERVAL] = 0xFF;
    for (uint32_t tick = board_ticks; scripted('l') && board_ticks - tick < 3;)
        ;
    return scripted('i');
}

int board_show(uint32_t step, const uint8_t *colours, size_t groups)
{
    uint32_t next[3] = {0};
    char text[WILLOWERA_MOST_GROUPS + 1] = {0};

    for (size_t g = 0; g < groups; g++) {
        uint8_t colour = scripted('c') >> g & 1 ? 0xFF : colours[g];
        if (colour <= WILLOWERA_GREEN)
            next[colour] |= UINT32_C(1) << g;
        else if (colour == WILLOWERA_FLASHING_RED)
            next[WILLOWERA_RED] |= board_ticks / FLASH_TICKS % 2 << g;
        else
            return 0;
    }
    held = 0; /* while they are switched */
    lamps[0] = next[0], lamps[1] = next[1], lamps[2] = next[2];
    shown = step;
    held = 1;
    if ((lamps[WILLOWERA_GREEN] ^ scripted('s')) != next[WILLOWERA_GREEN])
        return 0;
    for (size_t g = 0; g < groups; g++)
        text[g] = "-RY?G???"[(lamps[0] >> g & 1) + 2 * (lamps[1] >> g & 1) + 4 * (lamps[2] >> g & 1)];
    board_note(text, step);
    return 1;
}

void board_lamps_off(void)
{
    held = lamps[0] = lamps[1] = lamps[2] = 0;
}

int board_lamps_held(uint32_t *step)
{
    *step = shown;
    return (int)held;
}

void board_toggle_line(void)
{
    toggles += toggled_at != board_ticks; /* the monitor sees one in a tick */
    toggled_at = board_ticks;
}

void board_write_copy(int place, const uint8_t *copy)
{
    memcpy(board_copies + COPY_BYTES * place, copy, scripted('t') ? COPY_BYTES / 2 : COPY_BYTES);
    if (scripted('t'))
        reset_processor(0);
}
