/* Calls to be counted by valgrind (examples/c/instructions.sh): steps of a site alone, with random inputs at its detectors and buttons; steps
 * of the same site with the same inputs in a cabinet; then placing and taking out, as often, in a row whose other records are free.
 *
 * The number of detectors and of movements is read by willowera_section: a record of section 5 has 2 bytes, one of section 6 has 6. Each
 * input bit is set in one step of eight, so that calls, extensions and rests all occur.
 */
#include <stdio.h>
#include <stdlib.h>

#include "willowera.h"

static uint64_t random_bits(uint64_t *random)
{
    *random ^= *random << 13;
    *random ^= *random >> 7;
    *random ^= *random << 17;
    return *random;
}

static uint64_t random_inputs(uint64_t *random, uint64_t wired)
{
    return random_bits(random) & random_bits(random) & random_bits(random) & wired;
}

static void accepted(uint64_t answer)
{
    if (WILLOWERA_NUMBER(answer) != WILLOWERA_ACCEPTED) {
        fprintf(stderr, "refused with %u\n", WILLOWERA_NUMBER(answer));
        exit(1);
    }
}

static unsigned records(const uint8_t *personality, size_t length, uint16_t kind, unsigned size)
{
    return (unsigned)(WILLOWERA_LENGTH(willowera_section(personality, length, kind)) / size);
}

static void step_alone(const uint8_t *personality, size_t length, uint64_t wired, long steps)
{
    uint8_t state[WILLOWERA_STATE_BYTES];
    uint8_t colours[WILLOWERA_MOST_GROUPS];
    uint64_t random = 88172645463325252u;

    accepted(willowera_fresh(personality, length, state, sizeof state));
    for (long i = 0; i < steps; i++)
        accepted(willowera_step(personality, length, state, sizeof state, random_inputs(&random, wired), colours, sizeof colours));
}

static struct willowera_record row[WILLOWERA_RECORDS];
static uint8_t outputs[WILLOWERA_OUTPUTS];

static void place(const uint8_t *personality, size_t length)
{
    accepted(willowera_cabinet_place(row, WILLOWERA_RECORDS, 0, personality, length, 0, outputs, sizeof outputs));
}

static void take_out(void)
{
    accepted(willowera_cabinet_take_out(row, WILLOWERA_RECORDS, 0, outputs, sizeof outputs));
}

static void step_in_cabinet(const uint8_t *personality, size_t length, uint64_t wired, long steps)
{
    uint64_t random = 88172645463325252u;

    place(personality, length);
    for (long i = 0; i < steps; i++)
        accepted(willowera_cabinet_step(row, WILLOWERA_RECORDS, 0, random_inputs(&random, wired), outputs, sizeof outputs));
    take_out();
}

static void place_and_take_out(const uint8_t *personality, size_t length, long times)
{
    for (long i = 0; i < times; i++) {
        place(personality, length);
        take_out();
    }
}

int main(int count, char **words)
{
    static uint8_t personality[65536];
    FILE *file = count == 3 ? fopen(words[1], "rb") : NULL;

    if (file == NULL) {
        fprintf(stderr, "usage: instructions PERSONALITY STEPS\n");
        return 2;
    }
    size_t length = fread(personality, 1, sizeof personality, file);
    fclose(file);
    uint64_t wired = 0;
    for (unsigned d = records(personality, length, 5, 2); d > 0; d--)
        wired |= WILLOWERA_DETECTOR(d - 1);
    for (unsigned k = records(personality, length, 6, 6); k > 0; k--)
        wired |= WILLOWERA_BUTTON(k - 1);

    long steps = strtol(words[2], NULL, 10);
    step_alone(personality, length, wired, steps);
    step_in_cabinet(personality, length, wired, steps);
    place_and_take_out(personality, length, steps);
    return 0;
}
