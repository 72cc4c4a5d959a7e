/* The player on a processor without an operating system, in an emulator: the recording is read and text is written by semihosting, the calls
 * by which a debugger or an emulator lends a program its files. The command line is the name of the recording and, if every unaligned access
 * is to fault, the word trap.
 */
#include "player.h"

#include <string.h>

#include "bare.h"

enum { SYS_OPEN = 0x01, SYS_WRITE0 = 0x04, SYS_READ = 0x06, SYS_SEEK = 0x0A, SYS_GET_CMDLINE = 0x15, SYS_EXIT_EXTENDED = 0x20 };
enum { OPEN_READ_BINARY = 1, APPLICATION_EXIT = 0x20026, MOST_LINE = 1024 };

static uintptr_t recording;

static int ask(uintptr_t operation, const void *block)
{
    register uintptr_t answer __asm__(SEMIHOST_FIRST) = operation;
    register const void *words __asm__(SEMIHOST_SECOND) = block;

    __asm__ volatile(SEMIHOST_TRAP : "+r"(answer) : "r"(words) : "memory");
    return (int)answer;
}

int rewind_recording(void)
{
    return ask(SYS_SEEK, (uintptr_t[]){recording, 0});
}

/* The emulator answers how many bytes it did not read. */
size_t read_recording(uint8_t *bytes, size_t most)
{
    return most - (size_t)ask(SYS_READ, (uintptr_t[]){recording, (uintptr_t)bytes, most});
}

void print(const char *text)
{
    ask(SYS_WRITE0, text);
}

_Noreturn void leave(int status)
{
    for (;;)
        ask(SYS_EXIT_EXTENDED, (uintptr_t[]){APPLICATION_EXIT, (uintptr_t)status});
}

/* Ends the first word of a line, and gives the next word: NULL if there is none. */
static char *next_word(char *line)
{
    char *space = line != NULL ? strchr(line, ' ') : NULL;

    if (space == NULL)
        return NULL;
    *space = '\0';
    return space + 1;
}

/* The command line is the player's own name, the recording and perhaps trap. */
_Noreturn void run_player(void)
{
    static char line[MOST_LINE];
    char *name = NULL, *mode = NULL;

    if (ask(SYS_GET_CMDLINE, (uintptr_t[]){(uintptr_t)line, MOST_LINE}) == 0) {
        name = next_word(line);
        mode = next_word(name);
    }
    if (name == NULL || (mode != NULL && strcmp(mode, "trap") != 0)) {
        print("usage: player RECORDING [trap]\n");
        leave(2);
    }
    recording = (uintptr_t)ask(SYS_OPEN, (uintptr_t[]){(uintptr_t)name, OPEN_READ_BINARY, strlen(name)});
    if ((int)recording == -1) {
        print(name);
        print(": cannot be opened\n");
        leave(2);
    }
    if (mode != NULL && !trap_unaligned()) {
        print("this processor does not trap unaligned accesses\n");
        leave(2);
    }
    leave(replay());
}
