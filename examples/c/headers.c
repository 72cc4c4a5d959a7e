/* What include/willowera.h and include/willowera_words.h promise to a compiler. `examples/c/check.sh headers` compiles this file as C and as
 * C++, with 64 and with 32 bits, without warnings, and runs it once. The exit status is 0 if the accessors of a state read the right bytes.
 */
#include "willowera.h"
#include "willowera_words.h"

/* Each call, with its types: every length, number of records, record and first output has 64 bits, also on a 32-bit processor. */
typedef const uint8_t *bytes;
typedef uint8_t *room;
typedef struct willowera_record *row;

extern const struct calls {
    uint64_t (*of_one)(bytes, uint64_t);
    uint64_t (*fresh)(bytes, uint64_t, room, uint64_t);
    uint64_t (*step)(bytes, uint64_t, room, uint64_t, uint64_t, room, uint64_t);
    uint64_t (*retime)(bytes, uint64_t, room, uint64_t, bytes, uint64_t);
    uint64_t (*between)(bytes, uint64_t, bytes, uint64_t, room, uint64_t);
    uint64_t (*why_length)(bytes, uint64_t, bytes, uint64_t, uint64_t);
    uint64_t (*why)(bytes, uint64_t, bytes, uint64_t, uint64_t, room, uint64_t);
    uint64_t (*settings)(uint32_t, uint32_t, double);
    uint64_t (*road)(bytes, uint64_t, bytes, uint64_t, uint32_t, room, uint64_t, room, uint64_t);
    uint64_t (*yellow)(uint32_t, int32_t);
    uint64_t (*section)(bytes, uint64_t, uint16_t);
    uint64_t (*place)(row, uint64_t, uint64_t, bytes, uint64_t, uint64_t, room, uint64_t);
    uint64_t (*cabinet_step)(row, uint64_t, uint64_t, uint64_t, room, uint64_t);
    uint64_t (*take_out)(row, uint64_t, uint64_t, room, uint64_t);
    uint32_t (*version)(void);
    size_t (*explain)(bytes, uint64_t, uint64_t, char *, size_t);
} calls[];

const struct calls calls[] = {
    {willowera_read, willowera_fresh, willowera_step, willowera_retime, willowera_seal, willowera_why_length, willowera_why,
     willowera_settings, willowera_road, willowera_yellow, willowera_section, willowera_cabinet_place, willowera_cabinet_step,
     willowera_cabinet_take_out, willowera_version, willowera_explain},
    {willowera_wait_bound, NULL, NULL, NULL, willowera_resume, NULL, NULL, NULL, NULL, NULL, NULL, NULL, NULL, NULL, NULL, NULL},
    {willowera_groups, willowera_waits, NULL, NULL, NULL, NULL, NULL, NULL, NULL, NULL, NULL, NULL, NULL, NULL, NULL, NULL},
};

/* A condition that is decided when the file is compiled, in C99 too: an array of -1 entries is an error. */
#define MUST(name, truth) typedef char must_##name[(truth) ? 1 : -1]

MUST(have_fields_one_after_the_other, WILLOWERA_STATE_MOVEMENTS + WILLOWERA_MOST_MOVEMENTS * WILLOWERA_MOVEMENT_BYTES == WILLOWERA_STATE_KEPT);
MUST(have_times_behind, WILLOWERA_STATE_RULING == WILLOWERA_STATE_KEPT + 1);
MUST(have_a_flag_behind, WILLOWERA_STATE_TIMES_WAIT == WILLOWERA_STATE_RULING + WILLOWERA_TIMES_BYTES);
MUST(have_waiting_times_last, WILLOWERA_STATE_WAITING + WILLOWERA_TIMES_BYTES == WILLOWERA_STATE_BYTES);
MUST(have_times_of_phases, WILLOWERA_TIMES_PHASES + 12 * WILLOWERA_MOST_PHASES == WILLOWERA_TIMES_MOVEMENTS);
MUST(have_times_of_movements, WILLOWERA_TIMES_MOVEMENTS + 6 * WILLOWERA_MOST_MOVEMENTS == WILLOWERA_TIMES_EARLY);
MUST(have_early_times_last, WILLOWERA_TIMES_EARLY + 2 * WILLOWERA_MOST_PHASES == WILLOWERA_TIMES_BYTES);
MUST(write_two_bytes_for_each_wait, WILLOWERA_MOST_WAIT_BYTES == 2 * (WILLOWERA_MOST_PHASES + WILLOWERA_MOST_MOVEMENTS));
MUST(seal_a_state, WILLOWERA_SEALED_BYTES == 1 + 2 + 4 + WILLOWERA_STATE_BYTES + 4);
MUST(have_records_one_after_the_other, sizeof(struct willowera_record[WILLOWERA_RECORDS]) == WILLOWERA_ROW_BYTES && WILLOWERA_ROW_BYTES == 3268);

/* Every accessor of a state, against the bytes that docs/DATA-SHEET.md gives the field. Byte i of the state is 7 i + 1, modulo 256. */
static unsigned one(unsigned at)
{
    return (7 * at + 1) % 256;
}

static unsigned two(unsigned at)
{
    return one(at) + 256 * one(at + 1);
}

int main(void)
{
    uint8_t state[WILLOWERA_STATE_BYTES], none[WILLOWERA_STATE_BYTES] = {0};
    int right = 1;

    for (unsigned i = 0; i < sizeof state; i++)
        state[i] = (uint8_t)one(i);
    right &= WILLOWERA_PHASE(state) == one(0) && WILLOWERA_INTERVAL(state) == one(1) && WILLOWERA_AGE(state) == two(2);
    right &= WILLOWERA_CAME_FROM(state) == one(5) && WILLOWERA_TARGET(state) == one(7);
    right &= WILLOWERA_CAME_FROM(none) == WILLOWERA_NO_PHASE && WILLOWERA_TARGET(none) == WILLOWERA_NO_PHASE;
    right &= WILLOWERA_GAP_COUNT(state) == two(8) && WILLOWERA_MAXIMUM_COUNT(state) == two(10);
    right &= WILLOWERA_LOCKED_DEMANDS(state) == one(12) && WILLOWERA_BUTTON_DEMANDS(state) == one(13);
    for (unsigned k = 0; k < WILLOWERA_MOST_MOVEMENTS; k++)
        right &= WILLOWERA_STAGE(state, k) == one(14 + 3 * k) && WILLOWERA_STAGE_AGE(state, k) == two(15 + 3 * k);
    right &= WILLOWERA_KEPT_SET(state) == one(38) && WILLOWERA_TIMES_WAIT(state) == one(187);
    right &= WILLOWERA_TWO_BYTES(state, WILLOWERA_STATE_RULING + WILLOWERA_TIMES_START_RED) == two(39);
    right &= WILLOWERA_TWO_BYTES(state, WILLOWERA_STATE_WAITING + WILLOWERA_TIMES_EARLY) == two(188 + 134);
    return right ? 0 : 1;
}
