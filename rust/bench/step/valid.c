/* Whether bytes are a valid state (R6.3, R18.5). */
#include "step.h"

#include <string.h>

enum { MOST_AGE = 2000 };

static int good_age(const uint8_t *age)
{
    return two_at(age) - 1 < MOST_AGE;
}

static int all_zero(const uint8_t *bytes, unsigned count)
{
    static const uint8_t ZEROS[WILLOWERA_TIMES_BYTES];

    return memcmp(bytes, ZEROS, count) == 0;
}

/* No phase, as two bytes 0, or a phase of the site. */
static int none(const uint8_t *tagged)
{
    return tagged[0] == 0 && tagged[1] == 0;
}

static int some(const struct site *site, const uint8_t *tagged)
{
    return tagged[0] == 1 && tagged[1] < site->phases;
}

static int good_position(const struct site *site, const uint8_t *state)
{
    const uint8_t *from = state + WILLOWERA_STATE_CAME_FROM, *target = state + WILLOWERA_STATE_TARGET;
    unsigned phase = WILLOWERA_PHASE(state), interval = WILLOWERA_INTERVAL(state);

    if (phase >= site->phases || interval > WILLOWERA_ALL_RED || !good_age(state + WILLOWERA_STATE_AGE))
        return 0;
    if (interval == WILLOWERA_EARLY_CUT_OFF && site->early == NULL)
        return 0;
    if (!none(from) && !some(site, from))
        return 0;
    return interval >= WILLOWERA_EARLY_CUT_OFF ? some(site, target) && target[1] != phase : none(target);
}

/* The counts, by the times of the phase that rule. */
static int good_counts(const uint8_t *state)
{
    const uint8_t *times = ruling_of(state, WILLOWERA_PHASE(state));

    return WILLOWERA_GAP_COUNT(state) <= two_at(times + AT_G) && WILLOWERA_MAXIMUM_COUNT(state) <= two_at(times + AT_X);
}

static int good_demands(const struct site *site, const uint8_t *state)
{
    unsigned locks = WILLOWERA_LOCKED_DEMANDS(state), buttons = WILLOWERA_BUTTON_DEMANDS(state);

    return locks >> site->phases == 0 && buttons >> site->movements == 0 &&
           WILLOWERA_KEPT_SET(state) == (locks | phases_of(site, buttons));
}

/* The stages, as a set, in which the movements of the phase may be. */
static unsigned good_stages(unsigned interval)
{
    if (interval == WILLOWERA_START_RED)
        return 1u << WILLOWERA_IDLE;
    return interval >= WILLOWERA_EARLY_CUT_OFF ? 1u << WILLOWERA_IDLE | 1u << WILLOWERA_CLEARANCE_TWO : 0xf;
}

static int good_movements(const struct site *site, const uint8_t *state)
{
    const uint8_t *record = state + WILLOWERA_STATE_MOVEMENTS;
    unsigned stages = good_stages(WILLOWERA_INTERVAL(state));

    for (unsigned movement = 0; movement < WILLOWERA_MOST_MOVEMENTS; movement++, record += WILLOWERA_MOVEMENT_BYTES) {
        if (record[0] == WILLOWERA_IDLE) {
            if (two_at(record + 1) != 1)
                return 0;
        } else if (site->crossed[movement] != 1u << WILLOWERA_PHASE(state) || record[0] > WILLOWERA_CLEARANCE_TWO ||
                   !(stages >> record[0] & 1) || !good_age(record + 1)) {
            return 0;
        }
    }
    return 1;
}

/* The times of one kind: those that the site has are within their limits, and the others are 0. */
static inline int good_part(const struct limit *limits, const uint8_t *times, unsigned records, unsigned most, unsigned settings)
{
    return first_outside(limits, times, records, settings) == records * settings &&
           all_zero(times + 2 * settings * records, 2 * settings * (most - records));
}

static int good_times(const struct site *site, const uint8_t *times)
{
    const struct limit *limits = site->limits;
    unsigned early = site->early != NULL ? site->phases : 0;

    return first_outside(limits, times, 1, 1) == 1 &&
           good_part(limits + OF_PHASES, times + WILLOWERA_TIMES_PHASES, site->phases, WILLOWERA_MOST_PHASES, PHASE_TIMES / 2) &&
           good_part(limits + OF_MOVEMENTS, times + WILLOWERA_TIMES_MOVEMENTS, site->movements, WILLOWERA_MOST_MOVEMENTS,
                     MOVEMENT_TIMES / 2) &&
           good_part(limits + OF_EARLY, times + WILLOWERA_TIMES_EARLY, early, WILLOWERA_MOST_PHASES, 1);
}

static int good_waiting(const struct site *site, const uint8_t *state)
{
    const uint8_t *times = state + WILLOWERA_STATE_WAITING;

    if (WILLOWERA_TIMES_WAIT(state) == 0)
        return all_zero(times, WILLOWERA_TIMES_BYTES);
    return WILLOWERA_TIMES_WAIT(state) == 1 && good_times(site, times);
}

int c_step_valid(const struct site *site, const uint8_t *state)
{
    return good_position(site, state) && good_counts(state) && good_demands(site, state) && good_movements(site, state) &&
           good_times(site, state + WILLOWERA_STATE_RULING) && good_waiting(site, state);
}
