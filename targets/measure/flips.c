/* Steps a site from its fresh state with one bit of its personality flipped, every bit in turn. All buffers are at odd addresses. wrap.c
 * counts the calls.
 *
 *     flips PERSONALITY
 */
#include <stdio.h>
#include <string.h>

#include "willowera.h"

static uint8_t personality[1 + 65536] __attribute__((aligned(4)));
static uint8_t state[1 + WILLOWERA_STATE_BYTES] __attribute__((aligned(4)));
static uint8_t colours[1 + WILLOWERA_MOST_GROUPS] __attribute__((aligned(4)));

int main(int count, char **words)
{
    uint8_t fresh[WILLOWERA_STATE_BYTES];
    FILE *file = count == 2 ? fopen(words[1], "rb") : NULL;

    if (file == NULL) {
        fprintf(stderr, "usage: flips PERSONALITY\n");
        return 2;
    }
    size_t length = fread(personality + 1, 1, sizeof personality - 1, file);
    fclose(file);
    if (willowera_fresh(personality + 1, length, fresh, sizeof fresh) != WILLOWERA_ACCEPTED)
        return 1;
    for (size_t bit = 0; bit < 8 * length; bit++) {
        memcpy(state + 1, fresh, sizeof fresh);
        personality[1 + bit / 8] ^= (uint8_t)(1 << bit % 8);
        willowera_step(personality + 1, length, state + 1, sizeof fresh, 0, colours + 1, sizeof colours - 1);
        personality[1 + bit / 8] ^= (uint8_t)(1 << bit % 8);
    }
    return 0;
}
