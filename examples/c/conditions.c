/* Holds the library to the conditions that include/willowera.h states: where buffers may lie, what a call touches, threads.
 *
 *     examples/c/check.sh conditions
 *
 * builds it with gcc's sanitizers and runs it on the example sites. They watch this file, the caller's side, and not the library, which
 * is compiled without them. What the library touches is seen by pages that cannot be read or written, right beside each buffer: a byte
 * too far is a fault. valgrind watches both sides, and bytes that were never written, in a build without sanitizers:
 *
 *     cc -g -pthread -Iinclude examples/c/conditions.c target/staticlib/libwillowera.a -o target/conditions
 *     valgrind --error-exitcode=1 ./conditions examples/largest/personality.bin
 */
#define _DEFAULT_SOURCE
#include <pthread.h>
#include <signal.h>
#include <stdio.h>
#include <stdlib.h>
#include <string.h>
#include <sys/mman.h>
#include <sys/time.h>

#include "willowera.h"

enum { STREAMS = 2, PAGE = 4096, STEPS = 600, THREADS = 8, RUNS = 40, ALIGNMENTS = 16, HANDLED = 100, MOST_KINDS = 10 };

struct site {
    const uint8_t *personality;
    size_t length;
    size_t groups;
    uint64_t known; /* the input bits that have a detector or a button */
};

static void need(int truth, const char *what)
{
    if (!truth) {
        printf("FAILED: %s\n", what);
        exit(1);
    }
}

/* ── Runs ── */

static uint64_t draw(uint64_t *random)
{
    *random ^= *random << 13;
    *random ^= *random >> 7;
    *random ^= *random << 17;
    return *random;
}

static uint64_t digest(uint64_t sum, const uint8_t *bytes, size_t length)
{
    for (size_t i = 0; i < length; i++)
        sum = (sum ^ bytes[i]) * UINT64_C(1099511628211);
    return sum;
}

/* Steps a site from the fresh state with random inputs in these buffers; the answer tells every answer, state and colour apart. */
static uint64_t run(const struct site *site, uint64_t seed, uint8_t *state, uint8_t *colours)
{
    uint64_t random = seed * UINT64_C(0x9e3779b97f4a7c15) + 1, sum = 0;

    need(willowera_fresh(site->personality, site->length, state, WILLOWERA_STATE_BYTES) == 0, "a fresh state");
    for (int step = 0; step < STEPS; step++) {
        uint64_t inputs = draw(&random) & draw(&random) & draw(&random) & site->known;
        uint64_t answer = willowera_step(site->personality, site->length, state, WILLOWERA_STATE_BYTES, inputs, colours,
                                         site->groups);
        need(WILLOWERA_NUMBER(answer) == WILLOWERA_ACCEPTED, "a step");
        sum = digest(sum ^ answer, state, WILLOWERA_STATE_BYTES);
        sum = digest(sum, colours, site->groups);
    }
    return sum;
}

/* The run in buffers of its own; the colour buffer was never written. */
static uint64_t run_alone(const struct site *site, uint64_t seed)
{
    uint8_t *state = malloc(WILLOWERA_STATE_BYTES), *colours = malloc(site->groups);

    need(state != NULL && colours != NULL, "memory");
    uint64_t sum = run(site, seed, state, colours);
    free(state);
    free(colours);
    return sum;
}

/* ── Fences: a page for a buffer, between two that cannot be touched ── */

static uint8_t *fenced_page(void)
{
    uint8_t *pages = mmap(NULL, 3 * PAGE, PROT_NONE, MAP_PRIVATE | MAP_ANONYMOUS, -1, 0);

    need(pages != MAP_FAILED, "pages");
    need(mprotect(pages + PAGE, PAGE, PROT_READ | PROT_WRITE) == 0, "a page for a buffer");
    return pages + PAGE;
}

static void free_page(uint8_t *page)
{
    munmap(page - PAGE, 3 * PAGE);
}

/* The place of a buffer of a length: right behind the first fence, or right before the second. */
static uint8_t *place(uint8_t *page, size_t length, int at_end)
{
    return at_end ? page + PAGE - length : page;
}

static void only_read(uint8_t *page)
{
    need(mprotect(page, PAGE, PROT_READ) == 0, "a page that is only read");
}

static void writable(uint8_t *page)
{
    need(mprotect(page, PAGE, PROT_READ | PROT_WRITE) == 0, "a page that is written");
}

/* The site with its personality in such a page, which cannot be written. */
static struct site fenced_site(const struct site *site, uint8_t *page, int at_end)
{
    struct site fenced = *site;
    uint8_t *personality = place(page, site->length, at_end);

    memcpy(personality, site->personality, site->length);
    only_read(page);
    fenced.personality = personality;
    return fenced;
}

/* ── What is touched ── */

/* An accepted step reads and writes nothing beside its buffers, and never writes the personality. */
static void steps_between_fences(const struct site *site)
{
    for (int at_end = 0; at_end < 2; at_end++) {
        uint8_t *pages[3] = {fenced_page(), fenced_page(), fenced_page()};
        struct site fenced = fenced_site(site, pages[0], at_end);
        uint8_t *state = place(pages[1], WILLOWERA_STATE_BYTES, at_end);
        uint8_t *colours = place(pages[2], site->groups, at_end);

        need(run(&fenced, 1, state, colours) == run_alone(site, 1), "a run between fences");
        for (int i = 0; i < 3; i++)
            free_page(pages[i]);
    }
}

/* The calls that read, on a personality cut at every length, with a fence at the cut. Only one cut behind kind 6, the last section that
 * every personality has, may be accepted or refused for something else. */
static void cut_personalities(const struct site *site)
{
    uint8_t *page = fenced_page();
    uint64_t last = willowera_section(site->personality, site->length, 6);
    size_t needed = WILLOWERA_OFFSET(last) + WILLOWERA_LENGTH(last);

    for (size_t length = 0; length < site->length; length++) {
        uint8_t *cut = place(page, length, 1);
        writable(page);
        memcpy(cut, site->personality, length);
        only_read(page);
        uint64_t answer = willowera_read(cut, length);
        need(length >= needed || WILLOWERA_NUMBER(answer) == WILLOWERA_CUT_SHORT, "a cut personality");
        if (WILLOWERA_NUMBER(answer) == WILLOWERA_ACCEPTED)
            continue;
        need(willowera_wait_bound(cut, length) == answer, "the wait bound of a cut personality");
        need(willowera_waits(cut, length, NULL, 0) == answer, "the waits of a cut personality");
        need(willowera_groups(cut, length) == answer, "the groups of a cut personality");
        for (unsigned kind = 0; kind <= MOST_KINDS; kind++)
            need(willowera_section(cut, length, (uint16_t)kind) == answer, "a section of a cut personality");
        need(willowera_step(cut, length, NULL, 0, 0, NULL, 0) == answer, "a step on a cut personality");
        need(willowera_fresh(cut, length, NULL, 0) == answer, "a fresh state of a cut personality");
        need(willowera_retime(cut, length, NULL, 0, NULL, 0) == answer, "new times on a cut personality");
    }
    free_page(page);
}

/* An accepted retiming reads and writes nothing beside its buffers, and writes no personality: both are one buffer that cannot be written.
 * With its own times a site does what it does without the call. */
static void retimes_between_fences(const struct site *site)
{
    const size_t length = site->length, groups = site->groups, states = WILLOWERA_STATE_BYTES;
    uint8_t plain[WILLOWERA_STATE_BYTES], colours[WILLOWERA_MOST_GROUPS], expected[WILLOWERA_MOST_GROUPS];

    for (int at_end = 0; at_end < 2; at_end++) {
        uint8_t *pages[2] = {fenced_page(), fenced_page()}, *state = place(pages[1], states, at_end);
        const uint8_t *bytes = fenced_site(site, pages[0], at_end).personality;
        uint64_t random = 1;

        need(willowera_fresh(bytes, length, state, states) == 0, "a fresh state");
        memcpy(plain, state, states);
        for (int step = 0; step < STEPS; step++) {
            uint64_t inputs = draw(&random) & draw(&random) & draw(&random) & site->known;
            if (step % 7 == 0)
                need(willowera_retime(bytes, length, state, states, bytes, length) == 0 && WILLOWERA_TIMES_WAIT(state), "its own times");
            need(willowera_step(bytes, length, state, states, inputs, colours, groups)
                     == willowera_step(bytes, length, plain, states, inputs, expected, groups), "a step with its own times");
            need(memcmp(colours, expected, groups) == 0, "colours with its own times");
        }
        for (int i = 0; i < 2; i++)
            free_page(pages[i]);
    }
}

/* Another site that differs in one byte: its first detector extends if it did not, and the other way round. */
static void put_another(const struct site *site, uint8_t *other)
{
    memcpy(other, site->personality, site->length);
    other[WILLOWERA_OFFSET(willowera_section(other, site->length, 5)) + 1] ^= 4;
}

/* A refused call writes nothing, not even the bytes that were there: its buffers cannot be written. */
static void refusals_write_nothing(const struct site *site)
{
    uint8_t other[WILLOWERA_MOST_PERSONALITY_BYTES];
    uint8_t *pages[3] = {fenced_page(), fenced_page(), fenced_page()};
    struct site fenced = fenced_site(site, pages[0], 1);
    uint8_t *state = place(pages[1], WILLOWERA_STATE_BYTES, 1), *colours = place(pages[2], site->groups, 1);
    const uint8_t *bytes = fenced.personality;
    const size_t length = site->length, groups = site->groups, states = WILLOWERA_STATE_BYTES;
    const uint64_t stray = ~site->known;

    put_another(site, other);
    need(willowera_fresh(bytes, length, state, states) == 0, "a fresh state");
    only_read(pages[1]);
    only_read(pages[2]);
    need(willowera_step(bytes, length - 1, state, states, 0, colours, groups) % 256 == WILLOWERA_CUT_SHORT, "1");
    need(willowera_step(bytes, length, state + 1, states - 1, 0, colours, groups) == WILLOWERA_STATE_NOT_VALID, "13");
    need(willowera_step(bytes, length, state, states, stray, colours, groups) == WILLOWERA_STRAY_INPUT, "15");
    need(willowera_step(bytes, length, state, states, 0, colours + 1, groups - 1) == WILLOWERA_BUFFER_SHORT, "14");
    need(willowera_fresh(bytes, length - 1, state, states) % 256 == WILLOWERA_CUT_SHORT, "1 for a fresh state");
    need(willowera_fresh(bytes, length, state + 1, states - 1) == WILLOWERA_STATE_NOT_VALID, "a fresh state in a shorter buffer");
    need(willowera_retime(bytes, length - 1, state, states, bytes, length) % 256 == WILLOWERA_CUT_SHORT, "1 of the first personality");
    need(willowera_retime(bytes, length, state + 1, states - 1, bytes, length) == WILLOWERA_STATE_NOT_VALID, "13 for new times");
    need(willowera_retime(bytes, length, state, states, bytes, length - 1) % 256 == WILLOWERA_CUT_SHORT, "1 of the new personality");
    need(willowera_retime(bytes, length, state, states, other, length) == WILLOWERA_NOT_ONLY_TIMES, "26");

    writable(pages[1]);
    memset(state, 255, states);
    only_read(pages[1]);
    need(willowera_step(bytes, length, state, states, 0, colours, groups) == WILLOWERA_STATE_NOT_VALID, "13 for bytes that are no state");
    for (int i = 0; i < 3; i++)
        free_page(pages[i]);
}

/* ── Sealed records ── */

/* The waits are written to a buffer that is just long enough, and nothing beside it is read or written. */
static void waits_between_fences(const struct site *site)
{
    for (int at_end = 0; at_end < 2; at_end++) {
        uint8_t *pages[2] = {fenced_page(), fenced_page()}, most[WILLOWERA_MOST_WAIT_BYTES];
        struct site fenced = fenced_site(site, pages[0], at_end);
        uint64_t answer = willowera_waits(site->personality, site->length, most, sizeof most);
        size_t length = WILLOWERA_WAITS_LENGTH(answer);
        uint8_t *waits = place(pages[1], length, at_end);

        need(WILLOWERA_NUMBER(answer) == WILLOWERA_ACCEPTED && length <= sizeof most, "the waits of a site");
        need(willowera_waits(fenced.personality, fenced.length, waits, length) == answer, "the waits in a buffer of their length");
        need(memcmp(waits, most, length) == 0, "the same waits");
        need(willowera_waits(fenced.personality, fenced.length, waits, length - 1) == WILLOWERA_BUFFER_SHORT, "a buffer too short");
        need(memcmp(waits, most, length) == 0, "waits after a refusal");
        for (int i = 0; i < 2; i++)
            free_page(pages[i]);
    }
}

/* Sealing and resuming read and write nothing beside their buffers, and write only the record, or only the state. */
static void seals_between_fences(const struct site *site)
{
    const size_t states = WILLOWERA_STATE_BYTES, seals = WILLOWERA_SEALED_BYTES, length = site->length;

    for (int at_end = 0; at_end < 2; at_end++) {
        uint8_t *pages[4] = {fenced_page(), fenced_page(), fenced_page(), fenced_page()}, colours[WILLOWERA_MOST_GROUPS];
        struct site fenced = fenced_site(site, pages[0], at_end);
        uint8_t *state = place(pages[1], states, at_end), *sealed = place(pages[2], seals, at_end), *again = place(pages[3], states, at_end);

        run(&fenced, 6, state, colours);
        only_read(pages[1]);
        need(WILLOWERA_GROUPS(willowera_groups(fenced.personality, length)) == site->groups, "the number of groups");
        need(willowera_seal(fenced.personality, length, state, states, sealed, seals) == 0, "a sealed state");
        only_read(pages[2]);
        need(willowera_resume(fenced.personality, length, sealed, seals, again, states) == 0, "a resumed state");
        need(memcmp(again, state, states) == 0, "the state that was sealed");
        for (int i = 0; i < 4; i++)
            free_page(pages[i]);
    }
}

/* A refused sealing or resuming writes nothing: record and state cannot be written. */
static void seal_refusals_write_nothing(const struct site *site)
{
    const size_t states = WILLOWERA_STATE_BYTES, seals = WILLOWERA_SEALED_BYTES, length = site->length;
    uint8_t *pages[2] = {fenced_page(), fenced_page()}, *state = place(pages[0], states, 1), *sealed = place(pages[1], seals + 1, 1);
    uint8_t other[WILLOWERA_MOST_PERSONALITY_BYTES], older[WILLOWERA_SEALED_BYTES], damaged[WILLOWERA_SEALED_BYTES];
    const uint8_t *bytes = site->personality;

    put_another(site, other);
    need(willowera_fresh(bytes, length, state, states) == 0, "a fresh state");
    need(willowera_seal(bytes, length, state, states, sealed, seals) == 0, "a sealed state");
    memcpy(older, sealed, seals);
    memcpy(damaged, sealed, seals);
    older[0] = WILLOWERA_VERSION - 1;
    damaged[seals / 2] ^= 1;
    only_read(pages[0]);
    only_read(pages[1]);
    need(willowera_seal(bytes, length - 1, state, states, sealed, seals) % 256 != 0, "a cut personality that is sealed");
    need(willowera_seal(bytes, length, state, states - 1, sealed, seals) == WILLOWERA_STATE_NOT_VALID, "13 for a short state");
    need(willowera_seal(bytes, length, bytes, length, sealed, seals) == WILLOWERA_STATE_NOT_VALID, "13 for no state");
    need(willowera_seal(bytes, length, state, states, sealed, seals - 1) == WILLOWERA_BUFFER_SHORT, "14 for a short record");
    need(willowera_seal(bytes, length, state, states, sealed, seals + 1) == WILLOWERA_BUFFER_SHORT, "14 for a long record");
    need(willowera_seal(bytes, length, state, states, NULL, 0) == WILLOWERA_BUFFER_SHORT, "no record to be written");
    need(willowera_resume(bytes, length - 1, sealed, seals, state, states) % 256 != 0, "a cut personality that is resumed");
    need(willowera_resume(bytes, length, sealed, seals, state, states - 1) == WILLOWERA_STATE_NOT_VALID, "13 for a short buffer");
    need(willowera_resume(bytes, length, sealed, seals, NULL, 0) == WILLOWERA_STATE_NOT_VALID, "no state to be written");
    need(willowera_resume(bytes, length, older, seals, state, states) == WILLOWERA_OTHER_VERSION, "27");
    need(willowera_resume(bytes, length, damaged, seals, state, states) == WILLOWERA_DAMAGED, "28");
    need(willowera_resume(bytes, length, sealed, seals - 1, state, states) == WILLOWERA_DAMAGED, "28 for a short record");
    need(willowera_resume(bytes, length, sealed, seals + 1, state, states) == WILLOWERA_DAMAGED, "28 for a long record");
    need(willowera_resume(bytes, length, NULL, 0, state, states) == WILLOWERA_DAMAGED, "no record");
    need(willowera_resume(other, length, sealed, seals, state, states) == WILLOWERA_OTHER_PERSONALITY, "29");
    for (int i = 0; i < 2; i++)
        free_page(pages[i]);
}

/* Any alignment; personality, state, record and resumed state without a byte between. */
static void seal_alignments(const struct site *site)
{
    static uint8_t room[PAGE];
    const size_t states = WILLOWERA_STATE_BYTES, seals = WILLOWERA_SEALED_BYTES, length = site->length;
    uint8_t colours[WILLOWERA_MOST_GROUPS];

    for (size_t shift = 0; shift < ALIGNMENTS; shift++) {
        uint8_t *personality = room + shift, *state = personality + length, *sealed = state + states, *again = sealed + seals;

        memset(room, 0xc5, sizeof room);
        memcpy(personality, site->personality, length);
        run(site, 7, state, colours);
        need(willowera_seal(personality, length, state, states, sealed, seals) == 0 && *again == 0xc5, "a record at any alignment");
        need(willowera_resume(personality, length, sealed, seals, again, states) == 0, "a state from a record at any alignment");
        need(memcmp(state, again, states) == 0 && again[states] == 0xc5, "the state that was sealed at any alignment");
        need(memcmp(personality, site->personality, length) == 0, "the personality stays");
    }
}

/* ── Roads ── */

/* Streams at the highest rate, a different detector each, of the first vehicle group. */
static void put_streams(const struct site *site, uint8_t *streams)
{
    const uint8_t *groups = site->personality + WILLOWERA_OFFSET(willowera_section(site->personality, site->length, 3));
    uint8_t vehicles = 0;

    while (groups[2 * vehicles + 1] == 2)
        vehicles++;
    for (uint8_t i = 0; i < STREAMS; i++) {
        uint8_t stream[WILLOWERA_STREAM_BYTES] = {i, vehicles, WILLOWERA_MOST_RATE % 256, WILLOWERA_MOST_RATE / 256};
        memcpy(streams + i * sizeof stream, stream, sizeof stream);
    }
}

/* An accepted road reads and writes nothing beside its buffers, and never writes the personality or the streams. A refused one writes nothing. */
static void roads_between_fences(const struct site *site)
{
    const size_t size = STREAMS * WILLOWERA_STREAM_BYTES, states = WILLOWERA_STATE_BYTES;

    for (int at_end = 0; at_end < 2; at_end++) {
        uint8_t *pages[4] = {fenced_page(), fenced_page(), fenced_page(), fenced_page()};
        struct site fenced = fenced_site(site, pages[0], at_end);
        const uint8_t *bytes = fenced.personality;
        uint8_t *streams = place(pages[1], size, at_end), *state = place(pages[2], states, at_end);
        uint8_t *results = place(pages[3], size, at_end), fresh[WILLOWERA_STATE_BYTES];

        put_streams(site, streams);
        only_read(pages[1]);
        need(willowera_road(bytes, site->length, streams, size, STEPS, state, states, results, size) == 0, "a road between fences");
        only_read(pages[2]);
        only_read(pages[3]);
        need(willowera_road(bytes, site->length - 1, streams, size, STEPS, state, states, results, size) % 256 != 0, "a cut personality");
        need(willowera_road(bytes, site->length, streams, size - 1, STEPS, state, states, results, size) == WILLOWERA_WRONG_STREAMS, "22");
        need(willowera_road(bytes, site->length, streams, size, WILLOWERA_MOST_ROAD_STEPS + 1, state, states, results, size)
                 == WILLOWERA_WRONG_STREAMS, "22 for the steps");
        need(willowera_road(bytes, site->length, streams, size, STEPS, state, states - 1, results, size) == WILLOWERA_STATE_NOT_VALID, "13");
        need(willowera_road(bytes, site->length, streams, size, STEPS, state, states, results, size - 1) == WILLOWERA_BUFFER_SHORT, "14");
        writable(pages[2]);
        need(willowera_road(bytes, site->length, NULL, 0, 0, state, states, NULL, 0) == 0, "no streams and no steps");
        need(willowera_fresh(bytes, site->length, fresh, states) == 0 && memcmp(fresh, state, states) == 0, "no steps give the fresh state");
        for (int i = 0; i < 4; i++)
            free_page(pages[i]);
    }
}

/* ── Cabinets ── */

/* Places a site in a record and steps it with the inputs of `run`, in this row and these outputs. */
static uint64_t run_placed(const struct site *site, uint64_t seed, struct willowera_record *row, size_t record, uint8_t *outputs)
{
    const struct willowera_record *own = &row[record];
    const size_t records = WILLOWERA_RECORDS, room = WILLOWERA_OUTPUTS, first = WILLOWERA_OUTPUTS - site->groups;
    uint64_t random = seed * UINT64_C(0x9e3779b97f4a7c15) + 1, sum = 0;

    need(willowera_cabinet_place(row, records, record, site->personality, site->length, first, outputs, room) == 0, "a placed site");
    need(own->held != 0 && own->first == first && WILLOWERA_TWO_BYTES(own->length, 0) == site->length, "what a record says of its site");
    need(memcmp(own->personality, site->personality, site->length) == 0, "the personality that is held");
    for (int step = 0; step < STEPS; step++) {
        uint64_t inputs = draw(&random) & draw(&random) & draw(&random) & site->known;
        uint64_t answer = willowera_cabinet_step(row, records, record, inputs, outputs, room);
        need(WILLOWERA_NUMBER(answer) == WILLOWERA_ACCEPTED, "a step of a placed site");
        sum = digest(sum ^ answer, own->state, WILLOWERA_STATE_BYTES);
        sum = digest(sum, outputs + first, site->groups);
    }
    need(willowera_cabinet_take_out(row, records, record, outputs, room) == 0, "a site that is taken out");
    return sum;
}

static int all_are(const void *memory, size_t length, uint8_t value)
{
    const uint8_t *bytes = memory;

    for (size_t i = 0; i < length; i++)
        if (bytes[i] != value)
            return 0;
    return 1;
}

/* The place of a row, as that of a buffer. */
static struct willowera_record *place_row(uint8_t *page, size_t records, int at_end)
{
    return (struct willowera_record *)place(page, records * WILLOWERA_RECORD_BYTES, at_end);
}

/* In every record a site runs as alone, reads and writes nothing beside its buffers, leaves the other records and outputs, and never writes the
 * personality. Taking it out leaves zeros, and dark outputs. */
static void cabinets_between_fences(const struct site *site)
{
    uint64_t expected = run_alone(site, 4);

    for (size_t record = 0; record < WILLOWERA_RECORDS; record++) {
        int at_end = record % 2 == 0;
        uint8_t *pages[3] = {fenced_page(), fenced_page(), fenced_page()};
        struct site fenced = fenced_site(site, pages[0], at_end);
        struct willowera_record *row = place_row(pages[1], WILLOWERA_RECORDS, at_end), *own = row + record;
        uint8_t *outputs = place(pages[2], WILLOWERA_OUTPUTS, at_end);

        memset(row, 0xc5, WILLOWERA_ROW_BYTES);
        memset(own, 0, sizeof *own);
        memset(outputs, 0xc5, WILLOWERA_OUTPUTS);
        need(run_placed(&fenced, 4, row, record, outputs) == expected, "a run in a cabinet");
        need(all_are(own, sizeof *own, 0), "zeros in a free record");
        need(all_are(row, record * sizeof *row, 0xc5), "the records before it stay");
        need(all_are(own + 1, (WILLOWERA_RECORDS - 1 - record) * sizeof *row, 0xc5), "the records behind it stay");
        need(all_are(outputs, WILLOWERA_OUTPUTS - site->groups, 0xc5), "the other outputs stay");
        need(all_are(outputs + WILLOWERA_OUTPUTS - site->groups, site->groups, WILLOWERA_DARK), "dark outputs");
        for (int i = 0; i < 3; i++)
            free_page(pages[i]);
    }
}

/* Records for refusals: a site on the last outputs; a free one; a site whose outputs go past the 32nd; a site with a cut personality. */
enum { HELD, FREE, PAST, CUT };

static void put_records(const struct site *site, struct willowera_record *row, uint8_t *outputs)
{
    const size_t records = WILLOWERA_RECORDS, last = WILLOWERA_OUTPUTS - site->groups;

    need(willowera_cabinet_place(row, records, HELD, site->personality, site->length, last, outputs, WILLOWERA_OUTPUTS) == 0, "a placed site");
    row[PAST] = row[HELD];
    row[PAST].first = (uint8_t)(last + 1);
    row[CUT] = row[HELD];
    row[CUT].length[0] = 1;
    row[CUT].length[1] = 0;
}

static void refused_placings(const struct site *site, struct willowera_record *row, uint8_t *outputs)
{
    const uint8_t *bytes = site->personality;
    const size_t records = WILLOWERA_RECORDS, length = site->length, room = WILLOWERA_OUTPUTS, last = WILLOWERA_OUTPUTS - site->groups;

    need(willowera_cabinet_place(row, records, FREE, bytes, length - 1, 0, outputs, room) % 256 != 0, "a cut personality");
    need(willowera_cabinet_place(row, records, HELD, bytes, length, 0, outputs, room) == WILLOWERA_WRONG_RECORD, "24 for a record that is not free");
    need(willowera_cabinet_place(row, records, CUT, bytes, length, 0, outputs, room) == WILLOWERA_WRONG_RECORD, "24 for one with a cut personality");
    need(willowera_cabinet_place(row, records, FREE, bytes, length, last + 1, outputs, room) == WILLOWERA_OUTPUTS_TAKEN, "25 past the 32nd");
    need(willowera_cabinet_place(row, records, FREE, bytes, length, UINT64_MAX, outputs, room) == WILLOWERA_OUTPUTS_TAKEN, "25 for any number");
    need(willowera_cabinet_place(row, records, FREE, bytes, length, last, outputs, room) == WILLOWERA_OUTPUTS_TAKEN, "25 for taken outputs");
    need(willowera_cabinet_place(NULL, 0, 0, NULL, 0, 0, NULL, 0) == WILLOWERA_CUT_SHORT, "placing nothing");
}

static void refused_steps(const struct site *site, struct willowera_record *row, uint8_t *outputs)
{
    const size_t records = WILLOWERA_RECORDS, room = WILLOWERA_OUTPUTS;

    need(willowera_cabinet_step(row, records, FREE, 0, outputs, room) == WILLOWERA_WRONG_RECORD, "24 for a free record");
    need(willowera_cabinet_step(row, records, CUT, 0, outputs, room) == WILLOWERA_CUT_SHORT, "a step of a cut personality");
    need(willowera_cabinet_step(row, records, PAST, 0, outputs, room) == WILLOWERA_OUTPUTS_TAKEN, "25 when stepping");
    need(willowera_cabinet_step(row, records, HELD, ~site->known, outputs, room - 1) == WILLOWERA_STRAY_INPUT, "15 before 14");
    need(willowera_cabinet_step(row, records, HELD, 0, outputs, room - 1) == WILLOWERA_BUFFER_SHORT, "14 when stepping");
    need(willowera_cabinet_step(row, records, HELD, 0, NULL, 0) == WILLOWERA_BUFFER_SHORT, "no outputs");
}

static void refused_takings(struct willowera_record *row, uint8_t *outputs)
{
    const size_t records = WILLOWERA_RECORDS, room = WILLOWERA_OUTPUTS;

    need(willowera_cabinet_take_out(row, records, FREE, outputs, room) == WILLOWERA_WRONG_RECORD, "24 for a free record that is taken out");
    need(willowera_cabinet_take_out(row, records, CUT, outputs, room) == WILLOWERA_CUT_SHORT, "a cut personality that is taken out");
    need(willowera_cabinet_take_out(row, records, PAST, outputs, room) == WILLOWERA_OUTPUTS_TAKEN, "25 when taking out");
    need(willowera_cabinet_take_out(row, records, HELD, outputs, room - 1) == WILLOWERA_BUFFER_SHORT, "14 when taking out");
    need(willowera_cabinet_take_out(row, records, HELD, NULL, 0) == WILLOWERA_BUFFER_SHORT, "no outputs when taking out");
}

/* A number of records and a record of which there is none: 24 from each call. */
static void no_such_record(const struct site *site, struct willowera_record *row, uint64_t records, uint64_t record, uint8_t *outputs)
{
    const size_t room = WILLOWERA_OUTPUTS;

    need(willowera_cabinet_place(row, records, record, site->personality, site->length, 0, outputs, room) == WILLOWERA_WRONG_RECORD,
         "24 for placing in no record");
    need(willowera_cabinet_step(row, records, record, 0, outputs, room) == WILLOWERA_WRONG_RECORD, "24 for a step of no record");
    need(willowera_cabinet_take_out(row, records, record, outputs, room) == WILLOWERA_WRONG_RECORD, "24 for taking out of no record");
}

/* A refused call of a cabinet writes nothing: its row and its outputs cannot be written. The row has a record more than a cabinet. */
static void cabinet_refusals_write_nothing(const struct site *site)
{
    uint8_t *pages[2] = {fenced_page(), fenced_page()}, *outputs = place(pages[1], WILLOWERA_OUTPUTS, 1);
    struct willowera_record *row = place_row(pages[0], WILLOWERA_RECORDS + 1, 1);
    const size_t records = WILLOWERA_RECORDS, room = WILLOWERA_OUTPUTS;

    put_records(site, row, outputs);
    only_read(pages[0]);
    only_read(pages[1]);
    refused_placings(site, row, outputs);
    refused_steps(site, row, outputs);
    refused_takings(row, outputs);
    no_such_record(site, row, records, WILLOWERA_RECORDS, outputs);
    no_such_record(site, row, records, UINT64_MAX, outputs);
    for (size_t other = 0; other <= WILLOWERA_RECORDS + 1; other++)
        for (size_t record = 0; record < WILLOWERA_RECORDS && other != WILLOWERA_RECORDS; record++)
            no_such_record(site, other == 0 ? NULL : row, other, record, outputs);

    writable(pages[0]);
    memset(row[HELD].state, 255, WILLOWERA_STATE_BYTES);
    only_read(pages[0]);
    need(willowera_cabinet_step(row, records, HELD, 0, outputs, room) == WILLOWERA_STATE_NOT_VALID, "13 for bytes that are no state");

    writable(pages[0]);
    memset(row, 0, WILLOWERA_ROW_BYTES);
    only_read(pages[0]);
    need(willowera_cabinet_place(row, records, FREE, site->personality, site->length, 0, outputs, room - 1) == WILLOWERA_BUFFER_SHORT,
         "14 when placing");
    for (int i = 0; i < 2; i++)
        free_page(pages[i]);
}

/* Any alignment; row, outputs and personality without a byte between. */
static void cabinet_alignments(const struct site *site)
{
    static uint8_t room[PAGE];
    uint64_t expected = run_alone(site, 5);

    for (size_t shift = 0; shift < ALIGNMENTS; shift++) {
        uint8_t *row = room + shift, *outputs = row + WILLOWERA_ROW_BYTES, *personality = outputs + WILLOWERA_OUTPUTS;
        struct site touching = *site;

        memset(room, 0, sizeof room);
        memcpy(personality, site->personality, site->length);
        touching.personality = personality;
        need(run_placed(&touching, 5, (struct willowera_record *)row, shift % WILLOWERA_RECORDS, outputs) == expected,
             "a cabinet at any alignment");
        need(memcmp(personality, site->personality, site->length) == 0, "the personality stays");
    }
}

/* ── Where buffers may lie ── */

/* Any alignment; state and colours right behind the personality, without a byte between. */
static void alignments(const struct site *site)
{
    static uint8_t room[PAGE];
    uint64_t expected = run_alone(site, 2);

    for (size_t shift = 0; shift < ALIGNMENTS; shift++) {
        uint8_t *personality = room + shift, *state = personality + site->length;
        uint8_t *colours = state + WILLOWERA_STATE_BYTES, *behind = colours + site->groups;
        struct site touching = *site;

        memset(room, 0xc5, sizeof room);
        memcpy(personality, site->personality, site->length);
        touching.personality = personality;
        need(run(&touching, 2, state, colours) == expected, "buffers that touch, at any alignment");
        need(memcmp(personality, site->personality, site->length) == 0, "the personality stays");
        while (behind < room + sizeof room)
            need(*behind++ == 0xc5, "bytes behind the colours stay");
    }
}

/* A length of 0 is an empty buffer, whatever the pointer: null, or one at which nothing can be read. */
static void empty_buffers(const struct site *site)
{
    uint8_t *page = fenced_page(), *nowhere[2] = {NULL, page + PAGE};
    uint8_t state[WILLOWERA_STATE_BYTES], colours[WILLOWERA_MOST_GROUPS];
    const uint8_t *bytes = site->personality;

    need(willowera_fresh(bytes, site->length, state, sizeof state) == 0, "a fresh state");
    for (int i = 0; i < 2; i++) {
        uint8_t *none = nowhere[i];
        need(willowera_read(none, 0) == WILLOWERA_CUT_SHORT, "an empty personality");
        need(willowera_wait_bound(none, 0) == WILLOWERA_CUT_SHORT, "the wait bound of an empty personality");
        need(willowera_section(none, 0, 1) == WILLOWERA_CUT_SHORT, "a section of an empty personality");
        need(willowera_waits(none, 0, none, 0) == WILLOWERA_CUT_SHORT, "the waits of an empty personality");
        need(willowera_waits(bytes, site->length, none, 0) == WILLOWERA_BUFFER_SHORT, "waits in an empty buffer");
        need(willowera_groups(none, 0) == WILLOWERA_CUT_SHORT, "the groups of an empty personality");
        need(willowera_fresh(none, 0, state, sizeof state) == WILLOWERA_CUT_SHORT, "the fresh state of an empty personality");
        need(willowera_fresh(bytes, site->length, none, 0) == WILLOWERA_STATE_NOT_VALID, "a fresh state in an empty buffer");
        need(willowera_retime(bytes, site->length, none, 0, none, 0) == WILLOWERA_STATE_NOT_VALID, "new times for an empty state");
        need(willowera_retime(bytes, site->length, state, sizeof state, none, 0) == WILLOWERA_CUT_SHORT, "an empty new personality");
        need(willowera_step(none, 0, none, 0, 0, none, 0) == WILLOWERA_CUT_SHORT, "a step with nothing");
        need(willowera_step(bytes, site->length, none, 0, 0, colours, sizeof colours) == WILLOWERA_STATE_NOT_VALID, "an empty state");
        need(willowera_step(bytes, site->length, state, sizeof state, 0, none, 0) == WILLOWERA_BUFFER_SHORT, "no colours");
    }
    free_page(page);
}

/* Lengths are taken whole: one of 2^32 and a little is not taken for a little. Only the first page of each buffer is there. A 32-bit target
 * has no such buffers. */
static void long_lengths(const struct site *site)
{
#if SIZE_MAX > UINT32_MAX
    const size_t over = (size_t)1 << 32;
    uint8_t *room = mmap(NULL, over + PAGE, PROT_NONE, MAP_PRIVATE | MAP_ANONYMOUS | MAP_NORESERVE, -1, 0);
    uint8_t state[WILLOWERA_STATE_BYTES];

    need(room != MAP_FAILED, "4 GiB of addresses");
    writable(room);
    memcpy(room, site->personality, site->length);
    need(willowera_read(room, over + site->length) == (site->length << 8 | WILLOWERA_LEFT_OVER), "a long personality");
    need(willowera_fresh(site->personality, site->length, room, over + sizeof state) == WILLOWERA_STATE_NOT_VALID,
         "a fresh state in a long buffer");
    need(willowera_fresh(site->personality, site->length, state, sizeof state) == 0, "a fresh state");
    memcpy(room, state, sizeof state);
    need(willowera_step(site->personality, site->length, room, over + sizeof state, 0, room, 0) == WILLOWERA_STATE_NOT_VALID,
         "a long state");
    uint64_t answer = willowera_step(site->personality, site->length, state, sizeof state, 0, room, over);
    need(WILLOWERA_NUMBER(answer) == WILLOWERA_ACCEPTED, "a long colour buffer");
    need(willowera_seal(site->personality, site->length, state, sizeof state, room, over + WILLOWERA_SEALED_BYTES) == WILLOWERA_BUFFER_SHORT,
         "a record in a long buffer");
    need(willowera_seal(site->personality, site->length, state, sizeof state, room, WILLOWERA_SEALED_BYTES) == 0, "a sealed state");
    need(willowera_resume(site->personality, site->length, room, over + WILLOWERA_SEALED_BYTES, state, sizeof state) == WILLOWERA_DAMAGED,
         "a long record");
    munmap(room, over + PAGE);
#else
    (void)site;
#endif
}

/* ── Threads and signal handlers ── */

struct stepper {
    const struct site *site;
    uint64_t seed;
    uint64_t expected;
    pthread_barrier_t *start;
};

static void *step_often(void *argument)
{
    const struct stepper *stepper = argument;
    uint8_t state[WILLOWERA_STATE_BYTES], colours[WILLOWERA_MOST_GROUPS];

    pthread_barrier_wait(stepper->start);
    for (int i = 0; i < RUNS; i++)
        need(run(stepper->site, stepper->seed, state, colours) == stepper->expected, "a run beside other threads");
    return NULL;
}

/* Threads that step their own states at the same time, on one personality. */
static void threads(const struct site *site)
{
    pthread_t running[THREADS];
    struct stepper steppers[THREADS];
    pthread_barrier_t start;
    uint8_t *page = fenced_page();
    struct site shared = fenced_site(site, page, 1);

    need(pthread_barrier_init(&start, NULL, THREADS) == 0, "a barrier");
    for (int i = 0; i < THREADS; i++) {
        uint64_t seed = (uint64_t)i + 10;
        steppers[i] = (struct stepper){&shared, seed, run_alone(site, seed), &start};
        need(pthread_create(&running[i], NULL, step_often, &steppers[i]) == 0, "a thread");
    }
    for (int i = 0; i < THREADS; i++)
        pthread_join(running[i], NULL);
    pthread_barrier_destroy(&start);
    free_page(page);
}

/* What the handler steps: a state of its own. */
static struct {
    const struct site *site;
    uint8_t state[WILLOWERA_STATE_BYTES];
    uint8_t colours[WILLOWERA_MOST_GROUPS];
    volatile sig_atomic_t steps;
} handled;

static void step_handled(int signal)
{
    (void)signal;
    willowera_step(handled.site->personality, handled.site->length, handled.state, sizeof handled.state, 0, handled.colours,
                   sizeof handled.colours);
    handled.steps++;
}

/* A handler that steps its own state in the middle of other steps. */
static void handlers(const struct site *site)
{
    const struct itimerval often = {{0, 200}, {0, 200}}, never = {{0, 0}, {0, 0}};
    uint64_t expected = run_alone(site, 3);
    uint8_t state[WILLOWERA_STATE_BYTES], colours[WILLOWERA_MOST_GROUPS];

    handled.site = site;
    handled.steps = 0;
    need(willowera_fresh(site->personality, site->length, handled.state, sizeof handled.state) == 0, "a fresh state");
    need(signal(SIGALRM, step_handled) != SIG_ERR && setitimer(ITIMER_REAL, &often, NULL) == 0, "a timer");
    while (handled.steps < HANDLED)
        need(run_alone(site, 3) == expected, "a run with a handler that steps");
    need(setitimer(ITIMER_REAL, &never, NULL) == 0 && signal(SIGALRM, SIG_IGN) != SIG_ERR, "the timer's end");

    need(willowera_fresh(site->personality, site->length, state, sizeof state) == 0, "a fresh state");
    for (int step = 0; step < handled.steps; step++)
        willowera_step(site->personality, site->length, state, sizeof state, 0, colours, sizeof colours);
    need(memcmp(state, handled.state, sizeof state) == 0, "the handler's own state");
}

/* ── Sites ── */

static struct site site_of(const char *path, uint8_t *room, size_t size)
{
    struct site site = {room, 0, 0, 0};
    FILE *file = fopen(path, "rb");

    need(file != NULL, path);
    site.length = fread(room, 1, size, file);
    fclose(file);
    need(willowera_read(room, site.length) == 0, "an accepted personality");
    site.groups = WILLOWERA_LENGTH(willowera_section(room, site.length, 3)) / 2;
    size_t detectors = WILLOWERA_LENGTH(willowera_section(room, site.length, 5)) / 2;
    size_t buttons = WILLOWERA_LENGTH(willowera_section(room, site.length, 6)) / 6;
    for (size_t d = 0; d < detectors; d++)
        site.known |= WILLOWERA_DETECTOR(d);
    for (size_t k = 0; k < buttons; k++)
        site.known |= WILLOWERA_BUTTON(k);
    return site;
}

int main(int count, char **paths)
{
    static uint8_t room[PAGE / 2];

    need(count > 1, "usage: conditions PERSONALITY ..");
    need(willowera_version() == WILLOWERA_VERSION, "the version of the header");
    for (int i = 1; i < count; i++) {
        struct site site = site_of(paths[i], room, sizeof room);
        steps_between_fences(&site);
        cut_personalities(&site);
        retimes_between_fences(&site);
        refusals_write_nothing(&site);
        waits_between_fences(&site);
        seals_between_fences(&site);
        seal_refusals_write_nothing(&site);
        seal_alignments(&site);
        roads_between_fences(&site);
        cabinets_between_fences(&site);
        cabinet_refusals_write_nothing(&site);
        cabinet_alignments(&site);
        alignments(&site);
        empty_buffers(&site);
        long_lengths(&site);
        threads(&site);
        handlers(&site);
        printf("%s: the conditions hold\n", paths[i]);
    }
    return 0;
}
