/* The C interface of the Willowera controller: one isolated junction, or up to four in one cabinet, in steps of 0.1 s.
 *
 * Every function takes buffers of any content and length, and returns. A refused call leaves every buffer unchanged.
 * docs/RULES.md has the rules, docs/DATA-SHEET.md the bytes of a state, the defaults and the refusals in one table.
 *
 * The caller must ensure:
 *
 * - A pointer has as many bytes behind it as the length next to it says, and a row as many records as the number next to it says. All
 *   64 bits of a length or number count: bytes after a whole personality are refused with 12, a state of any length other than
 *   WILLOWERA_STATE_BYTES with 13, and a row of any number of records other than WILLOWERA_RECORDS with 24. A buffer and a row have fewer
 *   than 2^63 bytes; no processor that the library is compiled for has room for more.
 * - During a call nobody else writes a buffer of the call, or reads the state, the colours, the line, the waits, the sealed record, the
 *   results, the row or the outputs.
 * - State, colours, line, waits, sealed record and results do not overlap each other, a personality or the streams. They may be adjacent.
 *   The two personalities of willowera_retime may be the same buffer.
 * - The row and the outputs of a cabinet do not overlap each other or the personality that is placed. They may be adjacent.
 * - willowera_settings is called in the default floating-point environment: round to nearest, subnormal numbers on.
 *
 * Not required (examples/c/conditions.c tries these points):
 *
 * - A valid pointer for length 0, or for 0 records. The pointer may be anything, also null; the buffer is empty and is not accessed.
 * - Alignment, of any buffer. A record has alignment 1.
 * - A writable personality. It may be in read-only memory.
 * - Initial values in the colour buffer, in the buffers for a fresh or resumed state, for a sealed record, for a line and for waits, or in the
 *   outputs of a cabinet.
 *
 * What a call does to memory:
 *
 * - It reads the personalities, the state, the streams, the sealed record and the row. An accepted step writes the state and one colour
 *   byte for each group, an accepted retiming or resuming the state, willowera_why the line, willowera_waits the waits, willowera_seal the sealed
 *   record, an accepted road the state and the results. An accepted call of a cabinet writes its own record and its own outputs. A refused call writes nothing.
 *   Otherwise a call uses only its stack.
 * - The library has no variables, no heap and no locks. Calls with their own state and colours may run at the same time, in several
 *   threads or in a signal handler that interrupts another call, and may share a personality. Calls on one row may not.
 * - A state or a row has no pointers in it: it may be copied, moved and stored. A step is not atomic: a call that never returns (a reset,
 *   a thread that was ended from outside) can leave state, colours, row or outputs half written. If that matters, keep a copy of the last
 *   state or row. A state that must survive a loss of power is kept as a sealed record (willowera_seal), which shows if it is damaged.
 *
 * The archive is for x86-64 Linux, System V calling convention, C or C++. It can be linked into programs and shared objects, and needs
 * only memcpy and memset. It uses the SSE2 registers and the red zone, and does not change the floating-point environment. Archives for
 * other processors are made by targets/build.sh; targets/README.md says which, and what each needs. This header is the same for all of
 * them.
 *
 * A byte is a uint8_t. All numbers are unsigned, except two: the grade of willowera_yellow is signed, and the metres of willowera_settings
 * are a double. A length, a number of records, a record and a first output have 64 bits on every target, because the library is proved and
 * compiled with 64 of them. On a 32-bit processor a size_t has 32, so that caller and library would look for the arguments in different
 * places. A size_t that is handed over is converted without loss.
 *
 * Only willowera_settings uses floating-point numbers: its metres are a double, and it may raise floating-point exception flags.
 */
#ifndef WILLOWERA_H
#define WILLOWERA_H

#include <stddef.h>
#include <stdint.h>

#ifdef __cplusplus
extern "C" {
#endif

/* ── Sizes ── */

#define WILLOWERA_STATE_BYTES 336
#define WILLOWERA_SEALED_BYTES 347
#define WILLOWERA_MOST_PHASES 7
#define WILLOWERA_MOST_GROUPS 32
#define WILLOWERA_MOST_DETECTORS 48
#define WILLOWERA_MOST_MOVEMENTS 8

#define WILLOWERA_MOST_LINE_BYTES 107 /* the longest line of willowera_why */
#define WILLOWERA_MOST_WAIT_BYTES 30  /* willowera_waits: two for each phase and each movement */

#define WILLOWERA_MOST_STREAMS 48
#define WILLOWERA_MOST_RATE 1800
#define WILLOWERA_MOST_ROAD_STEPS 180000
#define WILLOWERA_STREAM_BYTES 4
#define WILLOWERA_RESULT_BYTES 4

/* ── A cabinet: a row of four records, and 32 outputs ── */

#define WILLOWERA_RECORDS 4
#define WILLOWERA_OUTPUTS 32
#define WILLOWERA_MOST_PERSONALITY_BYTES 477

/* One record of a row. Any bytes are a record. All parts are bytes, with none between them, so that the bytes of a record are the same on
 * every target. */
struct willowera_record {
    uint8_t held;                                          /* whether it holds a site; 0: it is free */
    uint8_t first;                                         /* the first output of the site, from 0 */
    uint8_t length[2];                                     /* of the personality, the low byte first; above 477 it counts as 477 */
    uint8_t personality[WILLOWERA_MOST_PERSONALITY_BYTES]; /* room for it; it begins with the first byte */
    uint8_t state[WILLOWERA_STATE_BYTES];
};

/* For a row that is kept as bytes: the parts of a record, by the offset of their first byte; the bytes of a record and of a row. Record k
 * begins at byte k * WILLOWERA_RECORD_BYTES. */
#define WILLOWERA_RECORD_HELD offsetof(struct willowera_record, held)               /* 0 */
#define WILLOWERA_RECORD_FIRST offsetof(struct willowera_record, first)             /* 1 */
#define WILLOWERA_RECORD_LENGTH offsetof(struct willowera_record, length)           /* 2 */
#define WILLOWERA_RECORD_PERSONALITY offsetof(struct willowera_record, personality) /* 4 */
#define WILLOWERA_RECORD_STATE offsetof(struct willowera_record, state)             /* 481 */
#define WILLOWERA_RECORD_BYTES sizeof(struct willowera_record)                      /* 817 */
#define WILLOWERA_ROW_BYTES (WILLOWERA_RECORDS * WILLOWERA_RECORD_BYTES)            /* 3268 */

/* The library takes a record in this layout only. A compiler with another one stops here: an array of -1 bytes is an error in every
 * standard of C and C++. */
#define WILLOWERA_MUST(name, truth) typedef uint8_t willowera_record_must_##name[(truth) ? 1 : -1]
struct willowera_record_behind_a_byte {
    uint8_t byte;
    struct willowera_record record;
};
WILLOWERA_MUST(have_817_bytes, WILLOWERA_RECORD_BYTES == 817);
WILLOWERA_MUST(have_alignment_1, offsetof(struct willowera_record_behind_a_byte, record) == 1);
WILLOWERA_MUST(have_held_at_0, WILLOWERA_RECORD_HELD == 0);
WILLOWERA_MUST(have_first_at_1, WILLOWERA_RECORD_FIRST == 1);
WILLOWERA_MUST(have_length_at_2, WILLOWERA_RECORD_LENGTH == 2);
WILLOWERA_MUST(have_personality_at_4, WILLOWERA_RECORD_PERSONALITY == 4);
WILLOWERA_MUST(have_state_at_481, WILLOWERA_RECORD_STATE == 481);
#undef WILLOWERA_MUST

/* ── Editions of the limits: the kind of the first section of a personality. Another kind there is refused with 2 ── */

#define WILLOWERA_EDITION_ONE 1
#define WILLOWERA_EDITION_TWO 8

/* ── Inputs: bit d is detector d (d from 0 to 47 only), bit 48 + k is push button k (k from 0 to 7 only) ── */

#define WILLOWERA_DETECTOR(d) (UINT64_C(1) << (d))
#define WILLOWERA_BUTTON(k) (UINT64_C(1) << (48 + (k)))

/* ── Colours, one byte for each signal group ── */

#define WILLOWERA_RED 0
#define WILLOWERA_YELLOW 1
#define WILLOWERA_GREEN 2
#define WILLOWERA_FLASHING_RED 3
#define WILLOWERA_DARK 4 /* in a cabinet: the outputs of a site that was taken out */

/* ── Codes in the bytes of a state: intervals, stages of a movement, and no phase ── */

#define WILLOWERA_START_RED 0
#define WILLOWERA_LATE_START 1
#define WILLOWERA_MINIMUM_GREEN 2
#define WILLOWERA_RUNNING 3
#define WILLOWERA_EARLY_CUT_OFF 4
#define WILLOWERA_INTERVAL_YELLOW 5
#define WILLOWERA_ALL_RED 6

#define WILLOWERA_IDLE 0
#define WILLOWERA_WALK 1
#define WILLOWERA_CLEARANCE_ONE 2
#define WILLOWERA_CLEARANCE_TWO 3

#define WILLOWERA_NO_PHASE 255 /* of WILLOWERA_CAME_FROM and WILLOWERA_TARGET; it is not in the bytes */

/* ── The fields of a state, by the offset of their first byte. A number of two bytes has its low byte first ── */

#define WILLOWERA_STATE_PHASE 0
#define WILLOWERA_STATE_INTERVAL 1
#define WILLOWERA_STATE_AGE 2           /* 2 bytes */
#define WILLOWERA_STATE_CAME_FROM 4     /* 2 bytes: 0 and 0 for none, 1 and the phase */
#define WILLOWERA_STATE_TARGET 6        /* 2 bytes, as before */
#define WILLOWERA_STATE_GAP 8           /* 2 bytes */
#define WILLOWERA_STATE_MAXIMUM 10      /* 2 bytes */
#define WILLOWERA_STATE_LOCKED 12       /* a set of phases: bit 0 is phase A */
#define WILLOWERA_STATE_BUTTONS 13      /* a set of movements: bit 0 is movement 0 */
#define WILLOWERA_STATE_MOVEMENTS 14    /* eight records of WILLOWERA_MOVEMENT_BYTES: the stage, then the age (2 bytes) */
#define WILLOWERA_STATE_KEPT 38         /* a set of phases */
#define WILLOWERA_STATE_RULING 39       /* WILLOWERA_TIMES_BYTES: the times that rule */
#define WILLOWERA_STATE_TIMES_WAIT 187
#define WILLOWERA_STATE_WAITING 188     /* WILLOWERA_TIMES_BYTES: the times that wait, zeros if none wait */

#define WILLOWERA_MOVEMENT_BYTES 3

/* The parts of such times, by the offset of their first byte. Each time has 2 bytes. */
#define WILLOWERA_TIMES_START_RED 0
#define WILLOWERA_TIMES_PHASES 2        /* seven phases, 12 bytes each: L, M, X, G, Y, R */
#define WILLOWERA_TIMES_MOVEMENTS 86    /* eight movements, 6 bytes each: walk, C1, C2 */
#define WILLOWERA_TIMES_EARLY 134       /* seven phases, 2 bytes each: early cut-off green */

#define WILLOWERA_TIMES_BYTES 148

/* Read a field. The state is a pointer to its bytes; it may be evaluated more than once. */
#define WILLOWERA_TWO_BYTES(bytes, at) ((uint16_t)((bytes)[at] | (unsigned)(bytes)[(at) + 1] << 8))

#define WILLOWERA_PHASE(state) ((state)[WILLOWERA_STATE_PHASE])       /* 0 is A */
#define WILLOWERA_INTERVAL(state) ((state)[WILLOWERA_STATE_INTERVAL]) /* WILLOWERA_START_RED to WILLOWERA_ALL_RED */
#define WILLOWERA_AGE(state) WILLOWERA_TWO_BYTES(state, WILLOWERA_STATE_AGE)

/* The phase that was left before this one, and the one that comes next, or WILLOWERA_NO_PHASE. */
#define WILLOWERA_CAME_FROM(state) WILLOWERA_PHASE_OR_NONE(state, WILLOWERA_STATE_CAME_FROM)
#define WILLOWERA_TARGET(state) WILLOWERA_PHASE_OR_NONE(state, WILLOWERA_STATE_TARGET)
#define WILLOWERA_PHASE_OR_NONE(state, at) ((uint8_t)((state)[at] ? (state)[(at) + 1] : WILLOWERA_NO_PHASE))

#define WILLOWERA_GAP_COUNT(state) WILLOWERA_TWO_BYTES(state, WILLOWERA_STATE_GAP)
#define WILLOWERA_MAXIMUM_COUNT(state) WILLOWERA_TWO_BYTES(state, WILLOWERA_STATE_MAXIMUM)

/* Sets: the phases with a locked demand; the movements with a button demand; the phases with a locked demand or a demanded movement. */
#define WILLOWERA_LOCKED_DEMANDS(state) ((state)[WILLOWERA_STATE_LOCKED])
#define WILLOWERA_BUTTON_DEMANDS(state) ((state)[WILLOWERA_STATE_BUTTONS])
#define WILLOWERA_KEPT_SET(state) ((state)[WILLOWERA_STATE_KEPT])

/* Of movement k, 0 to 7: WILLOWERA_IDLE to WILLOWERA_CLEARANCE_TWO, and the age of the stage. */
#define WILLOWERA_STAGE(state, k) ((state)[WILLOWERA_STATE_MOVEMENTS + WILLOWERA_MOVEMENT_BYTES * (k)])
#define WILLOWERA_STAGE_AGE(state, k) WILLOWERA_TWO_BYTES(state, WILLOWERA_STATE_MOVEMENTS + WILLOWERA_MOVEMENT_BYTES * (k) + 1)

/* Whether times wait in a state: 1, or 0. They wait until a phase next starts. */
#define WILLOWERA_TIMES_WAIT(state) ((state)[WILLOWERA_STATE_TIMES_WAIT])

/* ── Detectors of a site sheet: at a distance before the stop line, or a zone at the stop line ── */

#define WILLOWERA_ADVANCE 0
#define WILLOWERA_STOP_LINE 1

/* ── Refusals. A place is a byte offset in the personality. willowera_words.h puts them into sentences ── */

#define WILLOWERA_ACCEPTED 0
#define WILLOWERA_CUT_SHORT 1           /* the personality ends before the end of a section; place: its head */
#define WILLOWERA_WRONG_KIND 2          /* a section is of another kind; place: its head. Lookup: no such section; place 0 */
#define WILLOWERA_WRONG_LENGTH 3        /* the length does not fit the counts; place: the head of the section */
#define WILLOWERA_WRONG_COUNT 4         /* phases not 2 to 7, or groups not 1 to 32; place: that byte */
#define WILLOWERA_TIME_OUTSIDE 5        /* a time is outside the limits of the edition; place: that time */
#define WILLOWERA_WRONG_GROUP 6         /* unknown phase or mark, or pedestrian group without exactly one phase; place: the record */
#define WILLOWERA_NINTH_PEDESTRIAN 7    /* more than eight pedestrian groups; place: the ninth record */
#define WILLOWERA_PHASE_WITHOUT_GROUP 8 /* place: the head of section 3 */
#define WILLOWERA_WRONG_CONFLICT 9      /* conflict with itself, with no group, or in one record only; place: the record */
#define WILLOWERA_CONFLICT_IN_PHASE 10  /* conflicting groups share a phase; place: the first such conflict record */
#define WILLOWERA_WRONG_DETECTOR 11     /* unknown phase or mode; place: the record */
#define WILLOWERA_LEFT_OVER 12          /* bytes follow the last section; place: the first of them */
#define WILLOWERA_STATE_NOT_VALID 13    /* state not valid, or not a state; place 0 */
#define WILLOWERA_BUFFER_SHORT 14       /* colour, line, wait, result or output buffer too short, or sealed buffer not 347 bytes; place 0 */
#define WILLOWERA_STRAY_INPUT 15        /* an input bit is set that has no detector and no button; place 0 */
#define WILLOWERA_NO_EARLY_TIMES 17     /* a group stops early, but section 7 is missing; place: the first such record */
#define WILLOWERA_WRONG_ORDER 18        /* section 9 does not list each phase once; place: its head */
#define WILLOWERA_UNCALLED_PHASE 21     /* a phase without calling detector and pedestrian group; place: the head of section 5 */

/* Refusals of a site sheet. */
#define WILLOWERA_SHEET_OUT_OF_RANGE 19 /* speed not 20 to 110, metres not 0 to 300, or unknown detector; place 0 */
#define WILLOWERA_ABOVE_LIMITS 20       /* minimum green above 400, or passage time above 100; place 0 */

/* Refusal of a simulated road. */
#define WILLOWERA_WRONG_STREAMS 22      /* streams or steps out of range, or a detector or vehicle group not in the site; place 0 */

/* Refusal of a yellow time. */
#define WILLOWERA_YELLOW_OUT_OF_RANGE 23 /* speed not 40 to 110, or grade not -10 to 10; place 0 */

/* Refusals of a cabinet. */
#define WILLOWERA_WRONG_RECORD 24       /* no such record; placing: it is not free; stepping and taking out: it is free; place 0 */
#define WILLOWERA_OUTPUTS_TAKEN 25      /* outputs past the 32nd; placing: also outputs of another site; place 0 */

/* Refusal of a retiming. */
#define WILLOWERA_NOT_ONLY_TIMES 26     /* the new personality differs from the first in more than times; place 0 */

/* Refusals of a sealed record. */
#define WILLOWERA_OTHER_VERSION 27      /* it was sealed under another version of the interface; place 0 */
#define WILLOWERA_DAMAGED 28            /* its length or its check value is wrong; place 0 */
#define WILLOWERA_OTHER_PERSONALITY 29  /* it was sealed with another personality; place 0 */

/* ── Answers: the number in bits 0 to 7, above it the place of a refusal, or the result of an accepted call. A place is at most 477, and
 * every length, offset and count fits into a size_t of 16 bits ── */

#define WILLOWERA_NUMBER(answer) ((unsigned)((answer) & 0xff))
#define WILLOWERA_PLACE(answer) ((size_t)((answer) >> 8))
#define WILLOWERA_WAIT(answer) ((uint32_t)((answer) >> 8))
#define WILLOWERA_GROUPS(answer) ((size_t)((answer) >> 8))
#define WILLOWERA_LINE_LENGTH(answer) ((size_t)((answer) >> 8))
#define WILLOWERA_WAITS_LENGTH(answer) ((size_t)((answer) >> 8))
#define WILLOWERA_OFFSET(answer) ((size_t)((answer) >> 8 & 0xffffffff))
#define WILLOWERA_LENGTH(answer) ((size_t)((answer) >> 40))
#define WILLOWERA_MINIMUM_GREEN_SETTING(answer) ((uint16_t)((answer) >> 8))
#define WILLOWERA_PASSAGE_TIME(answer) ((uint16_t)((answer) >> 24))
#define WILLOWERA_YELLOW_TIME(answer) ((uint8_t)((answer) >> 8))

/* ── Calls ── */

/* Checks a personality: 0, or its refusal. */
uint64_t willowera_read(const uint8_t *personality, uint64_t personality_length);

/* The wait bound of a personality in steps (WILLOWERA_WAIT), or its refusal. */
uint64_t willowera_wait_bound(const uint8_t *personality, uint64_t personality_length);

/* Writes the wait of each phase in letter order, then of each movement, in steps (2 bytes each, the low one first), by the times of the
 * personality, and answers the number of bytes (WILLOWERA_WAITS_LENGTH), at most WILLOWERA_MOST_WAIT_BYTES; or a refusal. Bytes behind them
 * stay.
 *
 * The wait of a phase: a demand of the phase that lasts (a locked demand, a call without lock in every step, or a button of a movement of the
 * phase) has its minimum green in the step that registers it, or in fewer than this many further accepted steps. A call without lock that drops
 * away has no such promise. The wait of a movement: its walk begins in the step that registers its button, or in fewer than this many
 * further accepted steps. No wait is above the wait bound.
 *
 * The checks: the personality; then 14 (waits_length is less than 2 for each phase and each movement). */
uint64_t willowera_waits(const uint8_t *personality, uint64_t personality_length, uint8_t *waits, uint64_t waits_length);

/* The number of signal groups of a personality (WILLOWERA_GROUPS), or its refusal. A step writes as many colours. */
uint64_t willowera_groups(const uint8_t *personality, uint64_t personality_length);

/* Writes the fresh state of a personality, in which its own times rule: 0, or a refusal.
 *
 * The checks: the personality; then 13 (state_length is not WILLOWERA_STATE_BYTES). */
uint64_t willowera_fresh(const uint8_t *personality, uint64_t personality_length, uint8_t *state, uint64_t state_length);

/* One step of 0.1 s. Replaces the state by the next state, writes the colours, and answers the wait bound of the times that rule after
 * the step (WILLOWERA_WAIT); or a refusal.
 *
 * The checks: the personality; then 13 (the bytes are not a valid state of it); then 15 (an input that the site does not have); then 14
 * (colours_length is less than the number of groups). */
uint64_t willowera_step(const uint8_t *personality, uint64_t personality_length, uint8_t *state, uint64_t state_length,
                        uint64_t inputs, uint8_t *colours, uint64_t colours_length);

/* Gives a running site the times of a new personality: 0, or a refusal. They wait in the state until a phase next starts, and rule from
 * that start on. Times that waited before are replaced. Every call on the site, this one too, still gets the first personality; of its
 * bytes only the times no longer count.
 *
 * The new personality must be accepted, and may differ from the first in times only: start red, L, M, X, G, Y, R, walk, C1, C2 and the
 * times of kind 7. To take waiting times back, retime to the times that rule.
 *
 * The checks: the first personality; then 13; then the new personality (a place is then an offset in the new one); then 26. */
uint64_t willowera_retime(const uint8_t *personality, uint64_t personality_length, uint8_t *state, uint64_t state_length,
                          const uint8_t *new_personality, uint64_t new_length);

/* Seals a state for the time without power: writes a record of WILLOWERA_SEALED_BYTES, and answers 0; or a refusal. Only
 * willowera_resume reads the record.
 *
 * The record has the version of the interface, the length and the check value of the personality, the state with its times, and a check
 * value of all of these. A check value is the CRC-32 of Ethernet: it shows accidental damage, and is no protection against intent.
 *
 * The checks: the personality; then 13; then 14 (sealed_length is not WILLOWERA_SEALED_BYTES). */
uint64_t willowera_seal(const uint8_t *personality, uint64_t personality_length, const uint8_t *state, uint64_t state_length,
                        uint8_t *sealed, uint64_t sealed_length);

/* Writes the state of a sealed record, and answers 0; or a refusal. The personality is the one that the state was sealed with: if the site
 * was retimed, still the first. The next step goes on from the step at which the state was sealed. After a refusal start from the fresh
 * state.
 *
 * The checks: the personality; then 13 (state_length is not WILLOWERA_STATE_BYTES); then 27 (the record has a first byte, and it is not
 * WILLOWERA_VERSION); then 28 (sealed_length is not WILLOWERA_SEALED_BYTES, or the check value of the record is wrong); then 29 (length or
 * check value of the personality differ); then 13 (the record's state is not a valid state of the personality). */
uint64_t willowera_resume(const uint8_t *personality, uint64_t personality_length, const uint8_t *sealed, uint64_t sealed_length,
                          uint8_t *state, uint64_t state_length);

/* Why the phase of a state in running holds, as one line of text for a panel, read from the state after a step and the inputs of that step:
 * the phase letter and " holds", then those that are true, each after a comma and a space:
 *
 *     no other demand     no other phase is demanded
 *     gap 5               steps that the gap count has left
 *     max 120             steps left to the maximum: X of the times that rule, less the maximum count
 *     walk 2              a movement in walk or first clearance, counted from 1; one for each
 *
 * as in "A holds, gap 5, max 120, walk 2". Of the inputs only the detectors that call without lock count. In another interval the line has no
 * bytes. There is no terminator.
 *
 * Both answer the length of the line (WILLOWERA_LINE_LENGTH), at most WILLOWERA_MOST_LINE_BYTES, or a refusal; willowera_why also writes the
 * line to the start of the buffer, and bytes behind it stay. Neither writes the state.
 *
 * The checks: the personality; then 13; then 15; willowera_why: then 14 (line_length is less than the length of the line). */
uint64_t willowera_why_length(const uint8_t *personality, uint64_t personality_length, const uint8_t *state, uint64_t state_length,
                              uint64_t inputs);
uint64_t willowera_why(const uint8_t *personality, uint64_t personality_length, const uint8_t *state, uint64_t state_length,
                       uint64_t inputs, uint8_t *line, uint64_t line_length);

/* Minimum green and passage time of an approach, in steps (WILLOWERA_MINIMUM_GREEN_SETTING, WILLOWERA_PASSAGE_TIME), or a refusal.
 * The speed is in km/h. The metres are the distance of an advance detector, or the length of a stop-line zone. A NaN, an infinity,
 * and a detector that is neither WILLOWERA_ADVANCE nor WILLOWERA_STOP_LINE are refused with 19. */
uint64_t willowera_settings(uint32_t speed, uint32_t detector, double metres);

/* Tries the personality on a simulated road, from the fresh state: 0, or a refusal.
 *
 * A stream is 4 bytes: detector, vehicle group, vehicles per hour (2 bytes, the low one first). Streams may share a detector or a group.
 * In each step of 0.1 s vehicles arrive by the rate of each stream, a detector is occupied while one of its streams has a queue, the
 * controller makes a step, and a stream releases one vehicle for every 20 steps with green and a queue.
 *
 * The call writes the last state and, for each stream in the order given, 4 bytes: vehicles queued and vehicles gone (2 bytes each, the
 * low one first). Later bytes of the results stay. The old content of the state does not matter.
 *
 * The checks: the personality; then 22 (bytes that are not whole streams, more than 48 streams, more than 180,000 steps, a rate above
 * 1,800, a detector or a vehicle group that the site does not have); then 13 (state_length is not WILLOWERA_STATE_BYTES); then 14
 * (results_length is less than 4 for each stream). A simulated hour takes a few milliseconds. */
uint64_t willowera_road(const uint8_t *personality, uint64_t personality_length, const uint8_t *streams, uint64_t streams_length,
                        uint32_t steps, uint8_t *state, uint64_t state_length, uint8_t *results, uint64_t results_length);

/* The yellow time of an approach in steps (WILLOWERA_YELLOW_TIME), for use as Y, or a refusal. The speed is in km/h, 40 to 110. The
 * grade is in percent, -10 to 10; uphill is positive. */
uint64_t willowera_yellow(uint32_t speed, int32_t grade);

/* Offset and length of the body of a section (WILLOWERA_OFFSET, WILLOWERA_LENGTH), or a refusal. The site section is of kind
 * WILLOWERA_EDITION_ONE or WILLOWERA_EDITION_TWO. */
uint64_t willowera_section(const uint8_t *personality, uint64_t personality_length, uint16_t kind);

/* ── A cabinet: up to four sites on 32 outputs ──
 *
 * The row is an array of WILLOWERA_RECORDS records, and is handed over with this number. With another number there is no such record: the
 * call is refused with 24. Zeroed memory is a row of four free records, and any bytes are a row. The caller keeps the row and hands the
 * same row to each call. A call reads and writes nothing of another record, except that placing reads which outputs the others have.
 *
 * The outputs are one byte each, and the buffer has at least WILLOWERA_OUTPUTS of them. A site has one output for each of its groups, in
 * group order, from its first output on. A call writes only the outputs of its own site. Bytes past the 32nd output stay.
 *
 * A record whose personality would be refused is neither stepped nor taken out, and it is not free. Calls never leave such a record. To
 * clear one that came from elsewhere, write zeros over it. Its outputs are not kept for it: another site may be placed on them.
 *
 * A part of a record may be handed to other calls: a held personality to willowera_section, or a held personality and its state to
 * willowera_retime and willowera_why. The length of a held personality is WILLOWERA_TWO_BYTES(row[k].length, 0), or 477 if that is
 * less. */

/* Places a site in a free record: stores the personality, the fresh state and the first output, turns the site's outputs red, and answers
 * 0; or a refusal.
 *
 * The checks: the personality; then 24 (no such record, or it is not free); then 25 (outputs past the 32nd, or an output of a site in
 * another record); then 14 (outputs_length is less than 32). */
uint64_t willowera_cabinet_place(struct willowera_record *row, uint64_t records, uint64_t record, const uint8_t *personality,
                                 uint64_t personality_length, uint64_t first, uint8_t *outputs, uint64_t outputs_length);

/* One step of 0.1 s of the site in a record, as willowera_step does it alone: replaces its state, writes its outputs, and answers its wait
 * bound (WILLOWERA_WAIT); or a refusal.
 *
 * The checks: 24 (no such record, or it is free); then the held personality; then 25 (outputs past the 32nd); then 13, 15 and, if
 * outputs_length is less than 32, 14. */
uint64_t willowera_cabinet_step(struct willowera_record *row, uint64_t records, uint64_t record, uint64_t inputs, uint8_t *outputs,
                                uint64_t outputs_length);

/* Takes the site out of a record: the record is zeros and free, the site's outputs are dark, and the answer is 0; or a refusal. The state
 * does not matter.
 *
 * The checks: 24 (no such record, or it is free); then the held personality; then 25 (outputs past the 32nd); then 14 (outputs_length is
 * less than 32). */
uint64_t willowera_cabinet_take_out(struct willowera_record *row, uint64_t records, uint64_t record, uint8_t *outputs,
                                    uint64_t outputs_length);

/* The version of the interface of the archive. It equals WILLOWERA_VERSION if this header belongs to the archive. */
#define WILLOWERA_VERSION 6
uint32_t willowera_version(void);

#ifdef __cplusplus
}
#endif

#endif
