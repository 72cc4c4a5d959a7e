/* Keeps two sealed copies of a running site in what stands for non-volatile memory, and takes the power away at every byte of every write.
 *
 *     power PERSONALITY OTHER
 *
 * A copy is written after every tenth step (two_copies.h). Of each write 0 to all bytes are done, and then power is lost, in several ways.
 * When it is back, the newest copy that was written to its end must be found, with its step and, byte by byte, the state that was sealed;
 * if there is none, the site starts fresh. The last row of the table shows that this finds a fault: if the number behind the record does
 * not count, wrong copies are taken for good ones.
 *
 * Then single bits are damaged, and the copies are those of another personality, OTHER, and of a later version.
 *
 * The age of a copy is the number of steps since it was sealed. Whether its state may be resumed is another question: examples/cortex-m4.
 */
#include <stdio.h>
#include <stdlib.h>
#include <string.h>

#include "two_copies.h"

enum { WRITES = 8, EVERY = 10, STEPS = WRITES * EVERY, ERASED = 0xFF };

/* What a cut leaves behind it: the bytes before, or erased ones. The last byte written may be wrong, in every way. If one number counts, the
 * copies are read as if the number behind the record always fitted. */
struct cut {
    const char *name;
    unsigned erased, last_byte_wrong, one_number;
};

/* Times that power came back: a copy of this age was found, or none, or not what should have been found. */
struct tally {
    unsigned tried, of_age[EVERY + 1], fresh, wrong;
};

static struct site site, other;
static uint8_t states[STEPS + 1][WILLOWERA_STATE_BYTES]; /* after each step; the first is the fresh state */
static uint8_t copies[WRITES + 1][COPY_BYTES];           /* what each write writes; they count from 1 */
static uint8_t memory[2 * COPY_BYTES];                   /* stands for the non-volatile memory */

static void need(int truth, const char *what)
{
    if (!truth) {
        printf("FAILED: %s\n", what);
        exit(1);
    }
}

static void read_site(struct site *read, const char *path)
{
    uint8_t *bytes = malloc(WILLOWERA_MOST_PERSONALITY_BYTES + 1);
    FILE *file = fopen(path, "rb");

    need(bytes && file, path);
    *read = (struct site){bytes, fread(bytes, 1, WILLOWERA_MOST_PERSONALITY_BYTES + 1, file)};
    fclose(file);
}

/* Makes the states and copies. Detector 1 is occupied now and then, so that the phases change. */
static void run_site(void)
{
    uint8_t colours[WILLOWERA_MOST_GROUPS];

    need(willowera_fresh(site.personality, site.length, states[0], WILLOWERA_STATE_BYTES) == WILLOWERA_ACCEPTED, "a fresh state");
    for (uint32_t step = 1; step <= STEPS; step++) {
        memcpy(states[step], states[step - 1], WILLOWERA_STATE_BYTES);
        uint64_t answer = willowera_step(site.personality, site.length, states[step], WILLOWERA_STATE_BYTES,
                                         step % 12 == 0 ? WILLOWERA_DETECTOR(1) : 0, colours, sizeof colours);
        need(WILLOWERA_NUMBER(answer) == WILLOWERA_ACCEPTED, "a step");
        if (step % EVERY == 0)
            need(copy_make(&site, states[step], step, copies[step / EVERY]) == WILLOWERA_ACCEPTED, "a copy");
    }
}

static uint8_t *place_of(unsigned write)
{
    return memory + write % 2 * COPY_BYTES;
}

/* The memory after the writes 1 to `last`. At first it is erased. */
static void fill_memory(unsigned last)
{
    memset(memory, ERASED, sizeof memory);
    for (unsigned write = last > 1 ? last - 1 : 1; write <= last; write++)
        memcpy(place_of(write), copies[write], COPY_BYTES);
}

/* Power comes back: gives the step of the state that the site goes on from, 0 if it is the fresh one. */
static uint32_t power_up(uint8_t *state)
{
    uint32_t step = 0;

    if (newest_copy(&site, memory, state, &step) == NO_COPY)
        need(willowera_fresh(site.personality, site.length, state, WILLOWERA_STATE_BYTES) == WILLOWERA_ACCEPTED, "a fresh state");
    return step;
}

/* Power was lost after the step `now`, and comes back. The state must be that of the step `expected`. */
static void try_power_up(struct tally *tally, uint32_t now, uint32_t expected)
{
    uint8_t state[WILLOWERA_STATE_BYTES];
    uint32_t step = power_up(state), age = now - step;

    tally->tried++;
    if (step != expected || memcmp(state, states[expected], sizeof state) != 0)
        tally->wrong++;
    else if (step == 0)
        tally->fresh++;
    else if (age <= EVERY)
        tally->of_age[age]++;
}

/* ── A write is cut ── */

/* Power is lost after `done` bytes of a write. The bits `wrong` of the last of them are not what they should be. */
static void cut_write(struct tally *tally, const struct cut *cut, unsigned write, unsigned done, unsigned wrong)
{
    uint8_t *copy = place_of(write);

    fill_memory(write - 1);
    if (cut->erased)
        memset(copy, ERASED, COPY_BYTES);
    memcpy(copy, copies[write], done);
    if (done > 0)
        copy[done - 1] = (uint8_t)(copy[done - 1] ^ wrong);
    int complete = memcmp(copy, copies[write], COPY_BYTES) == 0;
    for (unsigned i = 0; cut->one_number && i < 2; i++)
        put_number(place_of(i) + COPY_TAIL, ~number_at(place_of(i)));
    try_power_up(tally, write * EVERY, (complete ? write : write - 1) * EVERY);
}

static void cut_writes(const struct cut *cut)
{
    struct tally tally = {0};

    for (unsigned write = 1; write <= WRITES; write++)
        for (unsigned done = cut->last_byte_wrong; done <= COPY_BYTES; done++)
            for (unsigned wrong = cut->last_byte_wrong; wrong <= 0xFF * cut->last_byte_wrong; wrong++)
                cut_write(&tally, cut, write, done, wrong);
    printf("%-34s %9u %9u %9u %9u %9u\n", cut->name, tally.tried, tally.of_age[0], tally.of_age[EVERY], tally.fresh, tally.wrong);
    need((tally.wrong > 0) == cut->one_number, "the right copy is found, unless one number alone counts");
    need(tally.tried == tally.of_age[0] + tally.of_age[EVERY] + tally.fresh + tally.wrong, "a copy has age 0, or is the one before");
}

/* ── No write is cut ── */

static void lose_power_after_steps(void)
{
    struct tally tally = {0};

    for (uint32_t step = 1; step <= STEPS; step++) {
        fill_memory(step / EVERY);
        try_power_up(&tally, step, step / EVERY * EVERY);
    }
    printf("after each of %u steps, no write cut: fresh %u; age", tally.tried, tally.fresh);
    for (unsigned age = 0; age < EVERY; age++)
        printf("%s %u: %u", age ? "," : "", age, tally.of_age[age]);
    printf("\n");
    need(tally.wrong == 0, "the last copy is found");
}

/* Each bit of one copy is damaged, and the same bit of both. */
static void damage_bits(void)
{
    struct tally newer = {0}, both = {0}, older = {0};

    for (unsigned bit = 0; bit < 8 * COPY_BYTES; bit++) {
        uint8_t mask = (uint8_t)(1u << bit % 8);
        fill_memory(WRITES);
        place_of(WRITES)[bit / 8] ^= mask;
        try_power_up(&newer, STEPS, STEPS - EVERY);
        place_of(WRITES - 1)[bit / 8] ^= mask;
        try_power_up(&both, STEPS, 0);
        place_of(WRITES)[bit / 8] ^= mask;
        try_power_up(&older, STEPS, STEPS);
    }
    printf("each bit damaged: in the newer copy, age %u: %u; in the older, age 0: %u; in both, fresh: %u; wrong: %u\n", EVERY,
           newer.of_age[EVERY], older.of_age[0], both.fresh, newer.wrong + older.wrong + both.wrong);
    need(newer.wrong + older.wrong + both.wrong == 0, "damage is found");
}

/* Both copies are refused with this number. */
static void start_fresh(const char *what, unsigned number)
{
    struct tally tally = {0};
    uint8_t state[WILLOWERA_STATE_BYTES];
    unsigned first = WILLOWERA_NUMBER(copy_open(&site, memory, state)), second = WILLOWERA_NUMBER(copy_open(&site, memory + COPY_BYTES, state));

    try_power_up(&tally, STEPS, 0);
    printf("%s: %u and %u, fresh\n", what, first, second);
    need(first == number && second == number && tally.fresh == 1, "both copies are refused");
}

static void refuse_copies(void)
{
    uint8_t state[WILLOWERA_STATE_BYTES];

    need(willowera_fresh(other.personality, other.length, state, sizeof state) == WILLOWERA_ACCEPTED, "a fresh state of the other site");
    for (unsigned i = 0; i < 2; i++)
        need(copy_make(&other, state, STEPS + i, place_of(i)) == WILLOWERA_ACCEPTED, "a copy of the other site");
    start_fresh("copies of another personality", WILLOWERA_OTHER_PERSONALITY);
    fill_memory(WRITES);
    for (unsigned i = 0; i < 2; i++)
        place_of(i)[NUMBER_BYTES] = WILLOWERA_VERSION + 1;
    start_fresh("copies of a later version", WILLOWERA_OTHER_VERSION);
    memset(memory, 0, sizeof memory);
    start_fresh("zeroed memory", WILLOWERA_DAMAGED);
}

/* Steps count on from the highest number to 0: the copy behind it is the newer one, in either place. */
static void pass_highest_number(void)
{
    uint8_t state[WILLOWERA_STATE_BYTES];

    for (unsigned i = 0; i < 2; i++) {
        need(copy_make(&site, states[1], UINT32_MAX - 1, place_of(i)) == WILLOWERA_ACCEPTED, "a copy before the highest number");
        need(copy_make(&site, states[2], 8, place_of(i + 1)) == WILLOWERA_ACCEPTED, "a copy behind it");
        uint32_t step = power_up(state);
        printf("copies of the steps %u and %u, the later one in place %u: step %u\n", number_at(place_of(i)), number_at(place_of(i + 1)),
               (i + 1) % 2, step);
        need(step == 8 && memcmp(state, states[2], sizeof state) == 0, "the copy behind the highest number is the newer one");
    }
}

int main(int count, char **paths)
{
    static const struct cut cuts[] = {{"as they were", 0, 0, 0},
                                      {"erased", 1, 0, 0},
                                      {"as they were, last byte wrong", 0, 1, 0},
                                      {"erased, last byte wrong", 1, 1, 0},
                                      {"as they were, one number counts", 0, 0, 1}};

    need(count == 3, "usage: power PERSONALITY OTHER");
    read_site(&site, paths[1]);
    read_site(&other, paths[2]);
    run_site();
    printf("%u writes of %u bytes, one after every %u steps, each cut after 0 to %u bytes\n\n", WRITES, COPY_BYTES, EVERY, COPY_BYTES);
    printf("%-34s %9s %9s %6s %2u %9s %9s\n", "bytes behind the cut", "power-ups", "age 0", "age", EVERY, "fresh", "wrong");
    for (unsigned i = 0; i < sizeof cuts / sizeof *cuts; i++)
        cut_writes(&cuts[i]);
    printf("\n");
    lose_power_after_steps();
    damage_bits();
    refuse_copies();
    pass_highest_number();
    return 0;
}
