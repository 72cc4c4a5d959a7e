/* The conflicts of a personality (R4.4, R4.6). Whether all are good is found by whole sets; only if they are not, the first bad one is
 * looked for.
 */
#include "step.h"

/* A square has the conflicts of eight groups with eight groups: bit j of byte i is that of its groups i and j. */
#define DIAGONAL UINT64_C(0x8040201008040201)

static uint64_t square_of(const uint8_t *rows)
{
    return four_at(rows) | (uint64_t)four_at(rows + 4) << 32;
}

/* A square with its rows as columns. */
static uint64_t turned(uint64_t square)
{
    uint64_t moved = (square ^ square >> 7) & UINT64_C(0x00AA00AA00AA00AA);

    square ^= moved ^ moved << 7;
    moved = (square ^ square >> 14) & UINT64_C(0x0000CCCC0000CCCC);
    square ^= moved ^ moved << 14;
    moved = (square ^ square >> 28) & UINT64_C(0x00000000F0F0F0F0);
    return square ^ moved ^ moved << 28;
}

/* What one pass over the groups gathers. */
struct gathered {
    uint8_t columns[4][WILLOWERA_MOST_GROUPS]; /* byte k of each record */
    uint64_t any;                              /* the groups with which some group conflicts */
    uint64_t of_phase[WILLOWERA_MOST_PHASES];  /* the groups of each phase, and from bit 32 on those with which they conflict */
};

static void gather(struct gathered *all, const struct site *site, const uint8_t *record)
{
    for (unsigned group = 0; group < site->groups; group++, record += 4) {
        uint64_t conflicts = four_at(record), both = conflicts << 32 | UINT64_C(1) << group;
        all->any |= conflicts;
#pragma GCC unroll 4
        for (unsigned k = 0; k < 4; k++)
            all->columns[k][group] = record[k];
        for (unsigned set = site->group_records[2 * group]; set != 0; set &= set - 1)
            all->of_phase[lowest(set)] |= both;
    }
}

/* Whether each conflict is one of two groups of the site and written in both records. */
static int good_pairs(const struct gathered *all, unsigned groups)
{
    if (all->any >> groups != 0)
        return 0;
    for (unsigned row = 0; 8 * row < groups; row++) {
        if ((square_of(all->columns[row] + 8 * row) & DIAGONAL) != 0)
            return 0;
        for (unsigned column = 0; column <= row; column++)
            if (square_of(all->columns[column] + 8 * row) != turned(square_of(all->columns[row] + 8 * column)))
                return 0;
    }
    return 1;
}

/* Whether no two conflicting groups share a phase. */
static int good_phases(const struct gathered *all, unsigned phases)
{
    uint64_t both = 0;

    for (unsigned phase = 0; phase < phases; phase++)
        both |= all->of_phase[phase] & all->of_phase[phase] >> 32;
    return both == 0;
}

static int bad_pair(const struct site *site, const uint8_t *records, unsigned group, unsigned other)
{
    return other == group || other >= site->groups || !(four_at(records + 4 * other) >> group & 1);
}

static int shares_phase(const struct site *site, const uint8_t *records, unsigned group, unsigned other)
{
    (void)records;
    return (site->group_records[2 * group] & site->group_records[2 * other]) != 0;
}

/* The first group with a conflict that is bad in this way. */
static unsigned first_bad(const struct site *site, const uint8_t *records,
                          int (*bad)(const struct site *, const uint8_t *, unsigned, unsigned))
{
    for (unsigned group = 0; group < site->groups; group++)
        for (uint32_t others = four_at(records + 4 * group); others != 0; others &= others - 1)
            if (bad(site, records, group, lowest(others)))
                return group;
    return site->groups;
}

struct wrong c_step_wrong_conflict(const struct site *site, const uint8_t *records)
{
    struct gathered all = {.any = 0};

    gather(&all, site, records);
    if (!good_pairs(&all, site->groups))
        return (struct wrong){WILLOWERA_WRONG_CONFLICT, first_bad(site, records, bad_pair)};
    if (!good_phases(&all, site->phases))
        return (struct wrong){WILLOWERA_CONFLICT_IN_PHASE, first_bad(site, records, shares_phase)};
    return (struct wrong){0, 0};
}
