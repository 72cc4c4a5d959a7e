/* Runs two junctions and a crossing on the 32 outputs of one cabinet, and prints the outputs at each change.
 *
 *     cabinet JUNCTION JUNCTION CROSSING
 *
 * The arguments are personalities. The sites are placed in the records 0, 1 and 2, one behind the other from output 0 on. While the others
 * run, the second junction is taken out and placed again: first on outputs of the first junction, which is refused, then on free ones, where
 * it begins fresh. Beside the cabinet every site is stepped alone with willowera_step: answers, states and colours must be the same.
 *
 * A line has the step and the colours of the 32 outputs: R, Y, G, F for flashing red, - for dark.
 */
#include <stdio.h>
#include <stdlib.h>
#include <string.h>

#include "willowera.h"

enum { SITES = 3, STEPS = 900, MOVED = 1, TAKEN_OUT = 300, PLACED_AGAIN = 340, NEW_FIRST = 24 };

struct site {
    uint8_t personality[WILLOWERA_MOST_PERSONALITY_BYTES + 1];
    size_t length, groups, detectors, buttons, first;
    int placed;
    uint8_t state[WILLOWERA_STATE_BYTES], colours[WILLOWERA_MOST_GROUPS]; /* of the site alone */
};

static struct willowera_record row[WILLOWERA_RECORDS]; /* zeros: four free records */
static uint8_t outputs[WILLOWERA_OUTPUTS];

static void need(int truth, const char *what)
{
    if (!truth) {
        printf("FAILED: %s\n", what);
        exit(1);
    }
}

static size_t count_of(const struct site *site, uint16_t kind, size_t size)
{
    return WILLOWERA_LENGTH(willowera_section(site->personality, site->length, kind)) / size;
}

static void read_site(struct site *site, const char *path)
{
    FILE *file = fopen(path, "rb");

    need(file != NULL, path);
    site->length = fread(site->personality, 1, sizeof site->personality, file);
    fclose(file);
    need(willowera_read(site->personality, site->length) == WILLOWERA_ACCEPTED, "an accepted personality");
    site->groups = count_of(site, 3, 2);
    site->detectors = count_of(site, 5, 2);
    site->buttons = count_of(site, 6, 6);
}

/* ── Placing and taking out ── */

static void place(struct site *site, size_t record, size_t first)
{
    uint64_t answer = willowera_cabinet_place(row, WILLOWERA_RECORDS, record, site->personality, site->length, first, outputs,
                                              sizeof outputs);

    if (answer != WILLOWERA_ACCEPTED) {
        printf("record %zu at output %zu: refused %u\n", record, first, WILLOWERA_NUMBER(answer));
        return;
    }
    printf("record %zu: outputs %zu to %zu, wait bound %u steps\n", record, first, first + site->groups - 1,
           WILLOWERA_WAIT(willowera_wait_bound(site->personality, site->length)));
    site->first = first;
    site->placed = 1;
    need(willowera_fresh(site->personality, site->length, site->state, sizeof site->state) == 0, "a fresh state");
}

static void take_out(struct site *site, size_t record)
{
    need(willowera_cabinet_take_out(row, WILLOWERA_RECORDS, record, outputs, sizeof outputs) == 0, "taking out");
    printf("record %zu: taken out\n", record);
    site->placed = 0;
}

/* ── Steps ── */

/* Each detector is occupied for a second from time to time, each button pressed once a minute; every site in a rhythm of its own. */
static uint64_t inputs_of(const struct site *site, unsigned step)
{
    uint64_t inputs = 0;

    for (unsigned d = 0; d < site->detectors; d++)
        if ((step + 70 * d) % (200 + 50 * d) < 10)
            inputs |= WILLOWERA_DETECTOR(d);
    for (unsigned k = 0; k < site->buttons; k++)
        if ((step + 110 * k) % 600 == 20)
            inputs |= WILLOWERA_BUTTON(k);
    return inputs;
}

/* A step in the cabinet, and the same step alone. */
static void step_site(struct site *site, size_t record, uint64_t inputs)
{
    uint64_t answer = willowera_cabinet_step(row, WILLOWERA_RECORDS, record, inputs, outputs, sizeof outputs);
    uint64_t alone = willowera_step(site->personality, site->length, site->state, sizeof site->state, inputs, site->colours,
                                    sizeof site->colours);

    need(answer == alone && WILLOWERA_NUMBER(answer) == WILLOWERA_ACCEPTED, "the answer of the site alone");
    need(memcmp(row[record].state, site->state, sizeof site->state) == 0, "the state of the site alone");
    need(memcmp(outputs + site->first, site->colours, site->groups) == 0, "the colours of the site alone");
}

static void print_outputs(unsigned step)
{
    printf("%3u ", step);
    for (size_t i = 0; i < WILLOWERA_OUTPUTS; i++)
        putchar("RYGF-"[outputs[i]]);
    putchar('\n');
}

int main(int count, char **paths)
{
    static struct site sites[SITES];
    uint8_t shown[WILLOWERA_OUTPUTS];
    size_t first = 0;

    if (count != 1 + SITES) {
        fprintf(stderr, "usage: cabinet JUNCTION JUNCTION CROSSING\n");
        return 2;
    }
    memset(outputs, WILLOWERA_DARK, sizeof outputs);
    for (size_t i = 0; i < SITES; i++) {
        read_site(&sites[i], paths[1 + i]);
        place(&sites[i], i, first);
        first += sites[i].groups;
    }
    print_outputs(0);
    for (unsigned step = 1; step <= STEPS; step++) {
        memcpy(shown, outputs, sizeof shown);
        if (step == TAKEN_OUT)
            take_out(&sites[MOVED], MOVED);
        if (step == PLACED_AGAIN) {
            place(&sites[MOVED], MOVED, sites[0].first);
            place(&sites[MOVED], MOVED, NEW_FIRST);
        }
        for (size_t i = 0; i < SITES; i++)
            if (sites[i].placed)
                step_site(&sites[i], i, inputs_of(&sites[i], step));
        if (memcmp(shown, outputs, sizeof shown) != 0)
            print_outputs(step);
    }
    return 0;
}
