/* What a step hands back of the state after it: the colours (R9) and the wait bound (R10). */
#include "step.h"

/* What the vehicle groups of the phase show (R9.3): green if the held phase is in their set, else a colour by their mark. */
struct shown {
    unsigned held; /* a set: the target, in late start came-from, or empty */
    uint8_t by_mark[4];
};

static unsigned set_of(const uint8_t *tagged)
{
    return (unsigned)tagged[0] << tagged[1];
}

/* What groups that stop early show (R9.5), after so many steps of leaving before this interval. */
static uint8_t closing(const uint8_t *state, unsigned before)
{
    unsigned yellow = two_at(ruling_of(state, WILLOWERA_PHASE(state)) + AT_Y);

    return before + WILLOWERA_AGE(state) <= yellow ? WILLOWERA_YELLOW : WILLOWERA_RED;
}

static struct shown shown_in(const uint8_t *state)
{
    unsigned from = set_of(state + WILLOWERA_STATE_CAME_FROM), target = set_of(state + WILLOWERA_STATE_TARGET);
    unsigned early = early_of(state, WILLOWERA_PHASE(state));

    switch (WILLOWERA_INTERVAL(state)) {
    case WILLOWERA_LATE_START:
        return (struct shown){from, {WILLOWERA_GREEN, WILLOWERA_RED, 0, WILLOWERA_GREEN}};
    case WILLOWERA_MINIMUM_GREEN:
    case WILLOWERA_RUNNING:
        return (struct shown){0, {WILLOWERA_GREEN, WILLOWERA_GREEN, 0, WILLOWERA_GREEN}};
    case WILLOWERA_EARLY_CUT_OFF:
        return (struct shown){target, {WILLOWERA_GREEN, WILLOWERA_GREEN, 0, closing(state, 0)}};
    case WILLOWERA_INTERVAL_YELLOW:
        return (struct shown){target, {WILLOWERA_YELLOW, WILLOWERA_YELLOW, 0, closing(state, early)}};
    default:
        return (struct shown){target, {WILLOWERA_RED, WILLOWERA_RED, 0, WILLOWERA_RED}};
    }
}

void c_step_show(const struct site *site, const uint8_t *state, uint8_t *colours)
{
    static const uint8_t OF_STAGE[] = {WILLOWERA_RED, WILLOWERA_GREEN, WILLOWERA_FLASHING_RED, WILLOWERA_FLASHING_RED};
    struct shown shown = shown_in(state);
    const uint8_t *record = site->group_records, *movement = state + WILLOWERA_STATE_MOVEMENTS;
    unsigned phase = 1u << WILLOWERA_PHASE(state);

    for (unsigned group = 0; group < site->groups; group++, record += 2) {
        uint8_t colour = WILLOWERA_RED;
        if (record[1] == PEDESTRIAN) {
            colour = OF_STAGE[*movement];
            movement += WILLOWERA_MOVEMENT_BYTES;
        } else if (record[0] & phase) {
            colour = record[0] & shown.held ? WILLOWERA_GREEN : shown.by_mark[record[1]];
        }
        colours[group] = colour;
    }
}

/* The longest walk with its first clearance, and the longest second clearance, of each phase (R10.2). */
struct longest {
    unsigned walk[WILLOWERA_MOST_PHASES], clearance[WILLOWERA_MOST_PHASES];
};

static unsigned greater(unsigned one, unsigned other)
{
    return one > other ? one : other;
}

static struct longest longest_of(const struct site *site, const uint8_t *times)
{
    struct longest longest = {{0}, {0}};

    for (unsigned movement = 0; movement < site->movements; movement++, times += MOVEMENT_TIMES) {
        unsigned phase = lowest(site->crossed[movement]);
        longest.walk[phase] = greater(longest.walk[phase], two_at(times + AT_W) + two_at(times + AT_C1));
        longest.clearance[phase] = greater(longest.clearance[phase], two_at(times + AT_C2));
    }
    return longest;
}

uint32_t c_step_bound(const struct site *site, const uint8_t *state)
{
    struct longest longest = longest_of(site, state + WILLOWERA_STATE_RULING + WILLOWERA_TIMES_MOVEMENTS);
    uint32_t bound = two_at(state + WILLOWERA_STATE_RULING + WILLOWERA_TIMES_START_RED);

    for (unsigned phase = 0; phase < site->phases; phase++) {
        const uint8_t *times = ruling_of(state, phase);
        unsigned leaving = early_of(state, phase) + two_at(times + AT_Y) + two_at(times + AT_R);
        bound += two_at(times + AT_L) + two_at(times + AT_M) + two_at(times + AT_X);
        bound += 2 * (longest.walk[phase] + leaving + longest.clearance[phase]);
    }
    return bound;
}
