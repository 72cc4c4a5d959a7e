/* The checks of a personality (R2 to R4). */
#include "step.h"

/* The limits of edition one and edition two (R3.1). */
static const struct limit LIMITS[2][SETTINGS] = {
    {{10, 140}, {0, 200}, {10, 390}, {10, 1490}, {0, 100}, {30, 70}, {10, 140}, {10, 390}, {1, 399}, {1, 399}, {0, 200}},
    {{30, 120}, {0, 200}, {10, 390}, {10, 1490}, {0, 100}, {30, 70}, {15, 135}, {10, 390}, {1, 399}, {1, 399}, {0, 200}},
};

enum kind { SITE = 1, PHASES, GROUPS, CONFLICTS, DETECTORS, PEDESTRIANS, EARLY, SITE_OF_EDITION_TWO, ORDER };
enum { HEAD_BYTES = 4 };

static uint64_t refused(unsigned number, uint64_t place)
{
    return number | place << 8;
}

static uint64_t refused_at(const struct site *site, unsigned number, const uint8_t *place)
{
    return refused(number, (uint64_t)(place - site->bytes));
}

/* Whether the next section begins and is of this kind. */
static int follows(const struct site *site, unsigned kind)
{
    return site->length - site->at >= HEAD_BYTES && two_at(site->bytes + site->at + 2) == kind;
}

/* The checks of a head (R4.3). The length of kind 5 is not known from the counts. */
static uint64_t head(const struct site *site, unsigned kind, unsigned wanted)
{
    uint64_t left = site->length - site->at;

    if (left < HEAD_BYTES)
        return refused(WILLOWERA_CUT_SHORT, site->at);
    if (!follows(site, kind))
        return refused(WILLOWERA_WRONG_KIND, site->at);
    unsigned length = two_at(site->bytes + site->at);
    if (kind == DETECTORS ? length % 2 != 0 || length > 2 * WILLOWERA_MOST_DETECTORS : length != wanted)
        return refused(WILLOWERA_WRONG_LENGTH, site->at);
    return left - HEAD_BYTES < length ? refused(WILLOWERA_CUT_SHORT, site->at) : 0;
}

/* The body of the next section, which has passed these checks; the one after it is the next then. */
static const uint8_t *body(struct site *site)
{
    const uint8_t *head = site->bytes + site->at;

    site->at += HEAD_BYTES + two_at(head);
    return head + HEAD_BYTES;
}

/* The check of the times of a section. The first of each record has this setting. */
static inline uint64_t times_within(const struct site *site, unsigned setting, const uint8_t *times, unsigned records, unsigned settings)
{
    unsigned outside = first_outside(site->limits + setting, times, records, settings);

    return outside < records * settings ? refused_at(site, WILLOWERA_TIME_OUTSIDE, times + 2 * outside) : 0;
}

static uint64_t read_sizes(struct site *site)
{
    unsigned two = follows(site, SITE_OF_EDITION_TWO);
    uint64_t refusal = head(site, two ? SITE_OF_EDITION_TWO : SITE, 4);

    if (refusal != 0)
        return refusal;
    const uint8_t *sizes = body(site);
    site->phases = sizes[0];
    site->groups = sizes[1];
    site->limits = LIMITS[two];
    if (site->phases < 2 || site->phases > WILLOWERA_MOST_PHASES)
        return refused_at(site, WILLOWERA_WRONG_COUNT, sizes);
    if (site->groups < 1 || site->groups > WILLOWERA_MOST_GROUPS)
        return refused_at(site, WILLOWERA_WRONG_COUNT, sizes + 1);
    return times_within(site, OF_START_RED, sizes + 2, 1, 1);
}

static uint64_t read_phases(struct site *site)
{
    uint64_t refusal = head(site, PHASES, PHASE_TIMES * site->phases);

    return refusal != 0 ? refusal : times_within(site, OF_PHASES, body(site), site->phases, PHASE_TIMES / 2);
}

/* Whether a group is bad (R4.5). */
static int bad_group(const struct site *site, unsigned set, unsigned mark)
{
    return set >> site->phases != 0 || mark > STOPS_EARLY || (mark == PEDESTRIAN && (set == 0 || (set & (set - 1)) != 0));
}

/* The first group that is bad or the ninth pedestrian group, if there is one. */
static uint64_t first_wrong_group(const struct site *site)
{
    const uint8_t *record = site->group_records;
    unsigned pedestrians = 0;

    for (unsigned group = 0; group < site->groups; group++, record += 2) {
        if (bad_group(site, record[0], record[1]))
            return refused_at(site, WILLOWERA_WRONG_GROUP, record);
        if (record[1] == PEDESTRIAN && pedestrians++ == WILLOWERA_MOST_MOVEMENTS)
            return refused_at(site, WILLOWERA_NINTH_PEDESTRIAN, record);
    }
    return 0;
}

/* Notes a group that has a movement or stops early, unless it is wrong. */
static int noted(struct site *site, const uint8_t *record)
{
    if (bad_group(site, record[0], record[1]))
        return 0;
    if (record[1] == STOPS_EARLY) {
        if (site->early_group == 0)
            site->early_group = (uint64_t)(record - site->bytes);
        return 1;
    }
    if (site->movements == WILLOWERA_MOST_MOVEMENTS)
        return 0;
    site->crossed[site->movements++] = record[0];
    site->called |= record[0];
    return 1;
}

static uint64_t read_groups(struct site *site)
{
    uint64_t at = site->at, refusal = head(site, GROUPS, 2 * site->groups);
    unsigned in_some = 0;
    int good = 1;

    if (refusal != 0)
        return refusal;
    const uint8_t *record = site->group_records = body(site), *end = record + 2 * site->groups;
    for (; record < end; record += 2) {
        in_some |= record[0];
        if (record[1] >= PEDESTRIAN)
            good &= noted(site, record);
    }
    if (!good || in_some >> site->phases != 0)
        return first_wrong_group(site);
    return in_some + 1 != 1u << site->phases ? refused(WILLOWERA_PHASE_WITHOUT_GROUP, at) : 0;
}

static uint64_t read_conflicts(struct site *site)
{
    uint64_t refusal = head(site, CONFLICTS, 4 * site->groups);

    if (refusal != 0)
        return refusal;
    const uint8_t *records = body(site);
    struct wrong wrong = c_step_wrong_conflict(site, records);
    return wrong.number != 0 ? refused_at(site, wrong.number, records + 4 * wrong.group) : 0;
}

/* The first detector with an unknown phase or mode, if there is one. */
static uint64_t first_wrong_detector(const struct site *site)
{
    const uint8_t *record = site->detector_records;

    for (unsigned detector = 0; detector < site->detectors; detector++, record += 2)
        if (record[0] >= site->phases || record[1] > 6 || record[1] == 3)
            return refused_at(site, WILLOWERA_WRONG_DETECTOR, record);
    return 0;
}

/* Whether all detectors have a phase below P and a mode: no byte is above 7, and no mode is 3 or 7. */
static int good_detectors(const struct site *site, unsigned any, uint64_t detectors)
{
    uint64_t all_phases = (UINT64_C(1) << site->phases) - 1;

    return (any & 0xf8f8) == 0 && (detectors & ~(all_phases * UINT64_C(0x0001010100010101))) == 0;
}

static uint64_t read_detectors(struct site *site)
{
    uint64_t detectors = 0, refusal = head(site, DETECTORS, 0);
    unsigned any = 0;

    if (refusal != 0)
        return refusal;
    site->detectors = two_at(site->bytes + site->at) / 2;
    const uint8_t *record = site->detector_records = body(site), *end = record + 2 * site->detectors;
    for (; record < end; record += 2) {
        any |= two_at(record);
        detectors |= mode_and_phase(record);
    }
    if (!good_detectors(site, any, detectors))
        return first_wrong_detector(site);
    site->called |= calling(detectors) | locking(detectors);
    return 0;
}

static uint64_t read_pedestrians(struct site *site)
{
    uint64_t refusal = head(site, PEDESTRIANS, MOVEMENT_TIMES * site->movements);

    return refusal != 0 ? refusal : times_within(site, OF_MOVEMENTS, body(site), site->movements, MOVEMENT_TIMES / 2);
}

static uint64_t read_early(struct site *site)
{
    if (!follows(site, EARLY))
        return 0;
    uint64_t refusal = head(site, EARLY, 2 * site->phases);
    if (refusal != 0)
        return refusal;
    site->early = body(site);
    return times_within(site, OF_EARLY, site->early, site->phases, 1);
}

static uint64_t read_order(struct site *site)
{
    if (!follows(site, ORDER))
        return 0;
    uint64_t at = site->at, refusal = head(site, ORDER, site->phases);
    if (refusal != 0)
        return refusal;
    site->order = body(site);
    unsigned listed = 0;
    for (unsigned entry = 0; entry < site->phases; entry++)
        if (site->order[entry] < site->phases)
            listed |= 1u << site->order[entry];
    return listed + 1 != 1u << site->phases ? refused(WILLOWERA_WRONG_ORDER, at) : 0;
}

/* The checks after all sections. */
static uint64_t after_all(const struct site *site)
{
    if (site->called + 1 != 1u << site->phases)
        return refused_at(site, WILLOWERA_UNCALLED_PHASE, site->detector_records - HEAD_BYTES);
    if (site->early_group != 0 && site->early == NULL)
        return refused(WILLOWERA_NO_EARLY_TIMES, site->early_group);
    return site->at < site->length ? refused(WILLOWERA_LEFT_OVER, site->at) : 0;
}

uint64_t c_step_read(struct site *site)
{
    uint64_t refusal = read_sizes(site);

    refusal = refusal != 0 ? refusal : read_phases(site);
    refusal = refusal != 0 ? refusal : read_groups(site);
    refusal = refusal != 0 ? refusal : read_conflicts(site);
    refusal = refusal != 0 ? refusal : read_detectors(site);
    refusal = refusal != 0 ? refusal : read_pedestrians(site);
    refusal = refusal != 0 ? refusal : read_early(site);
    refusal = refusal != 0 ? refusal : read_order(site);
    return refusal != 0 ? refusal : after_all(site);
}
