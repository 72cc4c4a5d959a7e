/* The player of recordings, and what it needs from the place that it runs in. */
#ifndef PLAYER_H
#define PLAYER_H

#include <stddef.h>
#include <stdint.h>

/* Replays the recording and says what came of it: 0 if every call agrees, 1 if one differs, 2 if the recording is not whole. */
int replay(void);

/* ── Given by hosted.c or bare.c ── */

/* Goes to the first byte of the recording: 0, or -1. */
int rewind_recording(void);

/* Reads up to so many bytes of the recording: how many, 0 at its end. */
size_t read_recording(uint8_t *bytes, size_t most);

void print(const char *text);

#endif
