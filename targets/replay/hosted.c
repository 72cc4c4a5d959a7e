/* The player as a program of an operating system: player RECORDING. */
#include "player.h"

#include <stdio.h>

static FILE *recording;

int rewind_recording(void)
{
    return fseek(recording, 0, SEEK_SET);
}

size_t read_recording(uint8_t *bytes, size_t most)
{
    return fread(bytes, 1, most, recording);
}

void print(const char *text)
{
    fputs(text, stdout);
}

int main(int count, char **arguments)
{
    if (count != 2) {
        fputs("usage: player RECORDING\n", stderr);
        return 2;
    }
    recording = fopen(arguments[1], "rb");
    if (recording == NULL) {
        perror(arguments[1]);
        return 2;
    }
    return replay();
}
