/* Changes a junction from its day times to its night times and back while it runs, and prints each change.
 *
 *     retime DAY NIGHT OTHER
 *
 * DAY and NIGHT are personalities of one site that differ in times only, OTHER is one of another site, which is refused with 26. A vehicle
 * waits in phase B from step 12 on, and in phase A from step 80 on. Night times are handed over before step 20, day times before step 180.
 * The site keeps its first personality, DAY, in every call.
 *
 * A line has the step, the phase, the interval (S start red, L late start, M minimum green, G running, E early cut-off green, Y yellow, R
 * all-red), the colours, the wait bound, and `waiting` while times wait.
 */
#include <stdio.h>
#include <stdlib.h>
#include <string.h>

#include "willowera.h"

enum { STEPS = 320, TO_NIGHT = 20, TO_DAY = 180 };

struct personality {
    uint8_t bytes[WILLOWERA_MOST_PERSONALITY_BYTES + 1];
    size_t length;
};

static void need(int truth, const char *what)
{
    if (!truth) {
        printf("FAILED: %s\n", what);
        exit(1);
    }
}

static void read_personality(struct personality *read, const char *path)
{
    FILE *file = fopen(path, "rb");

    need(file != NULL, path);
    read->length = fread(read->bytes, 1, sizeof read->bytes, file);
    fclose(file);
}

static void retime(const struct personality *first, uint8_t *state, const struct personality *new, const char *name)
{
    uint64_t answer = willowera_retime(first->bytes, first->length, state, WILLOWERA_STATE_BYTES, new->bytes, new->length);

    if (WILLOWERA_NUMBER(answer) == WILLOWERA_ACCEPTED)
        printf("%s times wait\n", name);
    else
        printf("%s times are refused with %u at %zu\n", name, WILLOWERA_NUMBER(answer), WILLOWERA_PLACE(answer));
}

static uint64_t inputs_of(unsigned step)
{
    return step == 12 || step == 250 ? WILLOWERA_DETECTOR(1) : step == 80 ? WILLOWERA_DETECTOR(0) : 0;
}

static void print_line(unsigned step, const uint8_t *state, const uint8_t *colours, size_t groups, uint32_t wait)
{
    printf("%3u %c %c ", step, 'A' + WILLOWERA_PHASE(state), "SLMGEYR"[WILLOWERA_INTERVAL(state)]);
    for (size_t g = 0; g < groups; g++)
        putchar("RYGF"[colours[g]]);
    printf(" %u%s\n", wait, WILLOWERA_TIMES_WAIT(state) ? " waiting" : "");
}

int main(int count, char **paths)
{
    static struct personality day, night, other;
    uint8_t state[WILLOWERA_STATE_BYTES], colours[WILLOWERA_MOST_GROUPS], shown = 255;

    need(count == 4, "usage: retime DAY NIGHT OTHER");
    read_personality(&day, paths[1]);
    read_personality(&night, paths[2]);
    read_personality(&other, paths[3]);
    size_t groups = WILLOWERA_LENGTH(willowera_section(day.bytes, day.length, 3)) / 2;
    need(willowera_fresh(day.bytes, day.length, state, sizeof state) == WILLOWERA_ACCEPTED, "a fresh state");
    retime(&day, state, &other, "another site's");

    for (unsigned step = 1; step <= STEPS; step++) {
        if (step == TO_NIGHT)
            retime(&day, state, &night, "night");
        if (step == TO_DAY)
            retime(&day, state, &day, "day");
        uint64_t answer = willowera_step(day.bytes, day.length, state, sizeof state, inputs_of(step), colours, sizeof colours);
        need(WILLOWERA_NUMBER(answer) == WILLOWERA_ACCEPTED, "a step");
        if (WILLOWERA_INTERVAL(state) != shown)
            print_line(step, state, colours, groups, WILLOWERA_WAIT(answer));
        shown = WILLOWERA_INTERVAL(state);
    }
    return 0;
}
