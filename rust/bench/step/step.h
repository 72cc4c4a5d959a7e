/* A step call in plain C, a second measure for the library beside the model. It is written from docs/RULES.md, docs/DATA-SHEET.md and
 * include/willowera.h, and answers as willowera_step does: the same number, place, wait bound, state and colours for any bytes.
 *
 * It reads the personality and the state where they are. A site is not decoded: only its counts and the places of its parts are noted.
 */
#ifndef C_STEP_H
#define C_STEP_H

#include "willowera.h"

/* The call. Its arguments and its answer are those of willowera_step. */
uint64_t c_step(const uint8_t *personality, uint64_t personality_length, uint8_t *state, uint64_t state_length, uint64_t inputs,
                uint8_t *colours, uint64_t colours_length);

/* ── A personality ── */

/* The marks of R1.5. */
enum mark { PLAIN, WAITS_IN_LATE_START, PEDESTRIAN, STOPS_EARLY };

/* The places of the times in the record of a phase, and in that of a movement (R2.3). */
enum { AT_L = 0, AT_M = 2, AT_X = 4, AT_G = 6, AT_Y = 8, AT_R = 10, PHASE_TIMES = 12 };
enum { AT_W = 0, AT_C1 = 2, AT_C2 = 4, MOVEMENT_TIMES = 6 };

/* The values that a setting may have: `span` values after the lowest. */
struct limit {
    uint32_t lowest, span;
};

/* The numbers of the settings, as in R3.1. */
enum { OF_START_RED = 0, OF_PHASES = 1, OF_MOVEMENTS = 7, OF_EARLY = 10, SETTINGS = 11 };

struct site {
    const uint8_t *bytes;
    uint64_t length, at;                       /* the head of the next section */
    unsigned phases, groups, detectors, movements;
    const struct limit *limits;                /* of the edition, by number of the setting */
    const uint8_t *group_records, *detector_records;
    const uint8_t *early, *order;              /* the bodies of kind 7 and kind 9; null without them */
    uint64_t early_group;                      /* the place of the first group that stops early; 0 without one */
    unsigned called;                           /* the phases that have a caller */
    uint8_t crossed[WILLOWERA_MOST_MOVEMENTS]; /* the set with the phase of each movement; empty past the last */
};

/* Reads a personality (R4): 0, or the refusal. */
uint64_t c_step_read(struct site *site);

/* The group whose conflict record is refused, and the number 9 or 10; number 0 if none is. */
struct wrong {
    unsigned number, group;
};
struct wrong c_step_wrong_conflict(const struct site *site, const uint8_t *records);

/* ── A state ── */

/* Whether 336 bytes are a valid state of the site (R6.3, R18.5). */
int c_step_valid(const struct site *site, const uint8_t *state);

/* The colours of a state (R9), and the wait bound of the times that rule in it (R10). */
void c_step_show(const struct site *site, const uint8_t *state, uint8_t *colours);
uint32_t c_step_bound(const struct site *site, const uint8_t *state);

/* ── Bytes ── */

static inline unsigned two_at(const uint8_t *bytes)
{
    return bytes[0] | (unsigned)bytes[1] << 8;
}

static inline uint32_t four_at(const uint8_t *bytes)
{
    return two_at(bytes) | (uint32_t)two_at(bytes + 2) << 16;
}

static inline void put_two(uint8_t *bytes, unsigned number)
{
    bytes[0] = (uint8_t)number;
    bytes[1] = (uint8_t)(number >> 8);
}

/* The lowest member of a set that is not empty. */
static inline unsigned lowest(uint64_t set)
{
    return (unsigned)__builtin_ctzll(set);
}

/* A detector in a set by mode and phase: bit p of byte m is that of mode m and phase p. A record with a byte above 7 may be any bit. */
static inline uint64_t mode_and_phase(const uint8_t *detector)
{
    unsigned record = two_at(detector);

    return UINT64_C(1) << ((record | record >> 5) & 63);
}

/* The phases that such a set of detectors calls without lock, calls with lock, and extends (R1.7). */
static inline unsigned calling(uint64_t detectors)
{
    return (detectors >> 8 | detectors >> 40) & 0xff;
}

static inline unsigned locking(uint64_t detectors)
{
    return (detectors >> 16 | detectors >> 48) & 0xff;
}

static inline unsigned extending(uint64_t detectors)
{
    return (detectors >> 32 | detectors >> 40 | detectors >> 48) & 0xff;
}

/* The ruling times of a phase, and its early cut-off time. */
static inline const uint8_t *ruling_of(const uint8_t *state, unsigned phase)
{
    return state + WILLOWERA_STATE_RULING + WILLOWERA_TIMES_PHASES + PHASE_TIMES * phase;
}

static inline unsigned early_of(const uint8_t *state, unsigned phase)
{
    return two_at(state + WILLOWERA_STATE_RULING + WILLOWERA_TIMES_EARLY + 2 * phase);
}

/* The phases of the movements in a set. */
static inline unsigned phases_of(const struct site *site, unsigned movements)
{
    unsigned phases = 0;

    for (; movements != 0; movements &= movements - 1)
        phases |= site->crossed[lowest(movements)];
    return phases;
}

/* The number of the first time that is outside its limits, of so many records with so many settings each; their number if none is. */
static inline unsigned first_outside(const struct limit *limits, const uint8_t *times, unsigned records, unsigned settings)
{
    for (unsigned record = 0; record < records; record++, times += 2 * settings)
#pragma GCC unroll 6
        for (unsigned setting = 0; setting < settings; setting++)
            if (two_at(times + 2 * setting) - limits[setting].lowest > limits[setting].span)
                return record * settings + setting;
    return records * settings;
}

#endif
