/* One step (R8, R11, R18.4). */
#include "step.h"

#include <string.h>

enum { MOST_AGE = 2000 };

/* What a step goes by: the state handed in, and what its parts find. The counts and the demands are stored at the end. */
struct step {
    const struct site *site;
    uint8_t *state;
    const uint8_t *times; /* of the phase */
    unsigned phase, interval, age, gap, maximum;
    unsigned locks, buttons, kept;
    unsigned others;      /* the other phases that are demanded */
    int extended, starts;
    int cleared;          /* whether a demand of the phase was cleared */
    unsigned stages;      /* the stages of the movements after part 2, as a set */
};

static unsigned older(unsigned age)
{
    return age < MOST_AGE ? age + 1 : MOST_AGE;
}

static int in_green(unsigned interval)
{
    return interval == WILLOWERA_MINIMUM_GREEN || interval == WILLOWERA_RUNNING;
}

/* ── Part 1: demands ── */

/* The detectors: locks, an extension, and the phases that are called. */
static unsigned sense(struct step *step, uint64_t inputs)
{
    unsigned deaf = in_green(step->interval) ? 1u << step->phase : 0;
    uint64_t detectors = 0;

    for (uint64_t occupied = inputs << 16 >> 16; occupied != 0; occupied &= occupied - 1)
        detectors |= mode_and_phase(step->site->detector_records + 2 * lowest(occupied));
    step->locks |= locking(detectors) & ~deaf;
    step->extended = extending(detectors) >> step->phase & 1;
    return calling(detectors) & ~deaf;
}

static void demands(struct step *step, uint64_t inputs)
{
    unsigned called = sense(step, inputs);

    for (unsigned pressed = (unsigned)(inputs >> 48); pressed != 0; pressed &= pressed - 1) {
        unsigned movement = lowest(pressed);
        if (WILLOWERA_STAGE(step->state, movement) != WILLOWERA_WALK) {
            step->buttons |= 1u << movement;
            step->kept |= step->site->crossed[movement];
        }
    }
    step->kept |= step->locks;
    step->others = (step->kept | called) & ~(1u << step->phase);
}

/* ── Parts 2 and 3: movements and counts ── */

/* Whether the counts let running end. */
static int counted_out(const struct step *step)
{
    return step->gap == 0 || step->maximum == two_at(step->times + AT_X);
}

static void movements(struct step *step)
{
    int walk_may_end = step->interval == WILLOWERA_RUNNING && step->others != 0 && counted_out(step);
    const uint8_t *times = step->state + WILLOWERA_STATE_RULING + WILLOWERA_TIMES_MOVEMENTS;
    uint8_t *record = step->state + WILLOWERA_STATE_MOVEMENTS;

    for (unsigned left = step->site->movements; left > 0; left--, record += WILLOWERA_MOVEMENT_BYTES, times += MOVEMENT_TIMES) {
        unsigned stage = record[0], age = two_at(record + 1);
        if (stage == WILLOWERA_IDLE)
            continue;
        if (age >= two_at(times + 2 * (stage - 1)) && (stage != WILLOWERA_WALK || walk_may_end)) {
            stage = stage == WILLOWERA_CLEARANCE_TWO ? WILLOWERA_IDLE : stage + 1;
            age = 0;
        }
        record[0] = (uint8_t)stage;
        put_two(record + 1, older(age));
        step->stages |= 1u << stage;
    }
}

static void counts(struct step *step)
{
    if (in_green(step->interval))
        step->gap = step->extended ? two_at(step->times + AT_G) : step->gap - (step->gap > 0);
    if (step->interval == WILLOWERA_RUNNING && (step->others != 0 || step->maximum > 0))
        step->maximum += step->maximum < two_at(step->times + AT_X);
}

/* ── Part 4: interval ── */

static int any_in(const struct step *step, unsigned stage)
{
    return step->stages >> stage & 1;
}

static int ends(const struct step *step)
{
    switch (step->interval) {
    case WILLOWERA_START_RED:
        return step->age >= two_at(step->state + WILLOWERA_STATE_RULING + WILLOWERA_TIMES_START_RED);
    case WILLOWERA_LATE_START:
        return step->age >= two_at(step->times + AT_L);
    case WILLOWERA_MINIMUM_GREEN:
        return step->age >= two_at(step->times + AT_M);
    case WILLOWERA_RUNNING:
        return step->others != 0 && counted_out(step) && !any_in(step, WILLOWERA_WALK) && !any_in(step, WILLOWERA_CLEARANCE_ONE);
    case WILLOWERA_EARLY_CUT_OFF:
        return step->age >= early_of(step->state, step->phase);
    case WILLOWERA_INTERVAL_YELLOW:
        return step->age >= two_at(step->times + AT_Y);
    default:
        return step->age >= two_at(step->times + AT_R) && !any_in(step, WILLOWERA_CLEARANCE_TWO);
    }
}

/* The phase of a set that comes first after a phase in the running order. */
static unsigned next_after(const struct site *site, unsigned phase, unsigned set)
{
    const uint8_t *order = site->order;
    unsigned entry = 0;

    if (order == NULL) {
        unsigned later = set & (~1u << phase);
        return lowest(later != 0 ? later : set);
    }
    while (order[entry] != phase)
        entry++;
    do
        entry = entry + 1 < site->phases ? entry + 1 : 0;
    while (!(set >> order[entry] & 1));
    return order[entry];
}

static void enter(struct step *step, unsigned interval)
{
    step->interval = interval;
    step->age = 1;
    if (interval == WILLOWERA_RUNNING)
        step->maximum = 0;
    if (interval == WILLOWERA_MINIMUM_GREEN) {
        step->gap = two_at(step->times + AT_G);
        step->locks &= ~(1u << step->phase);
        step->cleared = 1;
    }
}

/* A phase starts, by the times that waited if there are any. */
static void start(struct step *step, unsigned phase)
{
    uint8_t *state = step->state;

    if (WILLOWERA_TIMES_WAIT(state)) {
        memcpy(state + WILLOWERA_STATE_RULING, state + WILLOWERA_STATE_WAITING, WILLOWERA_TIMES_BYTES);
        memset(state + WILLOWERA_STATE_TIMES_WAIT, 0, 1 + WILLOWERA_TIMES_BYTES);
        step->gap = step->maximum = 0;
    }
    step->starts = 1;
    step->phase = phase;
    step->times = ruling_of(state, phase);
    put_two(state + WILLOWERA_STATE_TARGET, 0);
    enter(step, two_at(step->times + AT_L) > 0 ? WILLOWERA_LATE_START : WILLOWERA_MINIMUM_GREEN);
}

static void follow(struct step *step)
{
    uint8_t *from = step->state + WILLOWERA_STATE_CAME_FROM, *target = step->state + WILLOWERA_STATE_TARGET;

    switch (step->interval) {
    case WILLOWERA_START_RED:
        start(step, step->phase);
        break;
    case WILLOWERA_ALL_RED:
        from[0] = 1;
        from[1] = (uint8_t)step->phase;
        step->gap = step->maximum = 0;
        start(step, target[1]);
        break;
    case WILLOWERA_RUNNING:
        target[0] = 1;
        target[1] = (uint8_t)next_after(step->site, step->phase, step->others);
        enter(step, early_of(step->state, step->phase) > 0 ? WILLOWERA_EARLY_CUT_OFF : WILLOWERA_INTERVAL_YELLOW);
        break;
    default:
        enter(step, step->interval + 1);
    }
}

/* ── Part 5: walks ── */

static void walks(struct step *step)
{
    int rests = step->interval == WILLOWERA_RUNNING && step->others == 0;

    if (!step->starts && !rests)
        return;
    for (unsigned left = step->buttons; left != 0; left &= left - 1) {
        unsigned movement = lowest(left);
        uint8_t *record = step->state + WILLOWERA_STATE_MOVEMENTS + WILLOWERA_MOVEMENT_BYTES * movement;
        if (step->site->crossed[movement] == 1u << step->phase && (step->starts || record[0] == WILLOWERA_IDLE)) {
            record[0] = WILLOWERA_WALK;
            put_two(record + 1, 1);
            step->buttons &= ~(1u << movement);
            step->cleared = 1;
        }
    }
}

static void store(const struct step *step)
{
    uint8_t *state = step->state;

    state[WILLOWERA_STATE_PHASE] = (uint8_t)step->phase;
    state[WILLOWERA_STATE_INTERVAL] = (uint8_t)step->interval;
    put_two(state + WILLOWERA_STATE_AGE, step->age);
    put_two(state + WILLOWERA_STATE_GAP, step->gap);
    put_two(state + WILLOWERA_STATE_MAXIMUM, step->maximum);
    state[WILLOWERA_STATE_LOCKED] = (uint8_t)step->locks;
    state[WILLOWERA_STATE_BUTTONS] = (uint8_t)step->buttons;
    state[WILLOWERA_STATE_KEPT] = (uint8_t)(step->cleared ? step->locks | phases_of(step->site, step->buttons) : step->kept);
}

static void advance(const struct site *site, uint8_t *state, uint64_t inputs)
{
    struct step step = {
        .site = site,
        .state = state,
        .times = ruling_of(state, WILLOWERA_PHASE(state)),
        .phase = WILLOWERA_PHASE(state),
        .interval = WILLOWERA_INTERVAL(state),
        .age = WILLOWERA_AGE(state),
        .gap = WILLOWERA_GAP_COUNT(state),
        .maximum = WILLOWERA_MAXIMUM_COUNT(state),
        .locks = WILLOWERA_LOCKED_DEMANDS(state),
        .buttons = WILLOWERA_BUTTON_DEMANDS(state),
        .kept = WILLOWERA_KEPT_SET(state),
    };

    demands(&step, inputs);
    movements(&step);
    counts(&step);
    if (ends(&step))
        follow(&step);
    else
        step.age = older(step.age);
    walks(&step);
    store(&step);
}

/* ── The call ── */

static int stray(const struct site *site, uint64_t inputs)
{
    return (inputs << 16 >> 16) >> site->detectors != 0 || inputs >> 48 >> site->movements != 0;
}

uint64_t c_step(const uint8_t *personality, uint64_t personality_length, uint8_t *state, uint64_t state_length, uint64_t inputs,
                uint8_t *colours, uint64_t colours_length)
{
    struct site site = {.bytes = personality, .length = personality_length};
    uint64_t refusal = c_step_read(&site);

    if (refusal != 0)
        return refusal;
    if (state_length != WILLOWERA_STATE_BYTES || !c_step_valid(&site, state))
        return WILLOWERA_STATE_NOT_VALID;
    if (stray(&site, inputs))
        return WILLOWERA_STRAY_INPUT;
    if (colours_length < site.groups)
        return WILLOWERA_BUFFER_SHORT;
    advance(&site, state, inputs);
    c_step_show(&site, state, colours);
    return (uint64_t)c_step_bound(&site, state) << 8;
}
