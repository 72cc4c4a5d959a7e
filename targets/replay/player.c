/* Replays a recording on the library that it is linked with: makes each call again, and compares its answer and the sum of the arena after
 * it. README.md has the format. The recording is read twice: its check value first, so that no call is made from a damaged one.
 */
#include "player.h"

#include <string.h>

#include "willowera.h"

enum { HEADER = 32, MOST_ARENA = 16384, BLOCK = 16384, MOST_EXPORTS = 64, MOST_LETTERS = 16, MOST_NAME = 40 };
enum { FILL = 0, PUT = 1, FIRST_CALL = 2 };

#if __BYTE_ORDER__ != __ORDER_LITTLE_ENDIAN__
#error "the sum of the arena is made for processors that store the low byte first"
#endif

/* The arena, as words: it is summed up by words, and begins at a multiple of 16. */
static _Alignas(16) uint32_t words[MOST_ARENA / 4];
static uint8_t *const arena = (uint8_t *)words;
static uint32_t arena_bytes;

/* ── The calls ── */

/* An argument: a pointer, or a number. */
union word {
    uint8_t *pointer;
    uint64_t number;
};

struct call {
    const char *name;
    /* One for each argument: p pointer, l length (of a row: its number of records), q w h numbers of 64, 32, 16 bits, i signed 32 bits, d double. */
    const char *letters;
    uint64_t (*make)(const union word *word);
};

#define P(i) word[i].pointer
#define ROW(i) ((struct willowera_record *)P(i))
#define N(i) word[i].number
#define W(i) ((uint32_t)N(i))
#define CALL(name, letters, arguments)                     \
    static uint64_t make_##name(const union word *word)    \
    {                                                      \
        (void)word;                                        \
        return willowera_##name arguments;                 \
    }                                                      \
    static const struct call call_##name = {"willowera_" #name, letters, make_##name};

static double real(uint64_t bits)
{
    double number;

    memcpy(&number, &bits, sizeof number);
    return number;
}

CALL(version, "", ())
CALL(read, "pl", (P(0), N(1)))
CALL(wait_bound, "pl", (P(0), N(1)))
CALL(waits, "plpl", (P(0), N(1), P(2), N(3)))
CALL(groups, "pl", (P(0), N(1)))
CALL(section, "plh", (P(0), N(1), (uint16_t)N(2)))
CALL(fresh, "plpl", (P(0), N(1), P(2), N(3)))
CALL(step, "plplqpl", (P(0), N(1), P(2), N(3), N(4), P(5), N(6)))
CALL(retime, "plplpl", (P(0), N(1), P(2), N(3), P(4), N(5)))
CALL(why_length, "plplq", (P(0), N(1), P(2), N(3), N(4)))
CALL(why, "plplqpl", (P(0), N(1), P(2), N(3), N(4), P(5), N(6)))
CALL(seal, "plplpl", (P(0), N(1), P(2), N(3), P(4), N(5)))
CALL(resume, "plplpl", (P(0), N(1), P(2), N(3), P(4), N(5)))
CALL(settings, "wwd", (W(0), W(1), real(N(2))))
CALL(yellow, "wi", (W(0), (int32_t)W(1)))
CALL(road, "plplwplpl", (P(0), N(1), P(2), N(3), W(4), P(5), N(6), P(7), N(8)))
CALL(cabinet_place, "plqplqpl", (ROW(0), N(1), N(2), P(3), N(4), N(5), P(6), N(7)))
CALL(cabinet_step, "plqqpl", (ROW(0), N(1), N(2), N(3), P(4), N(5)))
CALL(cabinet_take_out, "plqpl", (ROW(0), N(1), N(2), P(3), N(4)))

static const struct call *const known[] = {
    &call_version, &call_read,     &call_wait_bound, &call_groups,        &call_section,      &call_fresh,
    &call_step,    &call_retime,   &call_why_length, &call_why,           &call_seal,         &call_resume,
    &call_settings, &call_yellow,  &call_road,       &call_cabinet_place, &call_cabinet_step, &call_cabinet_take_out,
    &call_waits,
};

/* The calls of the recording, by their numbers in it. */
static const struct call *calls[MOST_EXPORTS];
static unsigned call_count;

/* ── What is said ── */

static void print_number(uint64_t number)
{
    char text[21];
    char *digit = text + sizeof text - 1;

    *digit = '\0';
    do {
        *--digit = (char)('0' + number % 10);
        number /= 10;
    } while (number > 0);
    print(digit);
}

static void print_hex(uint64_t number)
{
    char text[17];

    for (int i = 15; i >= 0; i--, number >>= 4)
        text[i] = "0123456789abcdef"[number & 15];
    text[16] = '\0';
    print("0x");
    print(text);
}

/* ── The bytes of the recording ── */

static uint8_t block[BLOCK];
static size_t block_length, block_at;
static uint64_t read_count; /* bytes taken from the recording */
static int ended;           /* a byte was wanted behind the last one */

static int begin_reading(void)
{
    block_length = block_at = 0;
    read_count = 0;
    ended = 0;
    return rewind_recording();
}

static int more(void)
{
    if (block_at == block_length) {
        block_length = read_recording(block, BLOCK);
        block_at = 0;
    }
    return block_at < block_length;
}

static uint8_t byte(void)
{
    if (!more()) {
        ended = 1;
        return 0;
    }
    read_count++;
    return block[block_at++];
}

static uint64_t fixed(int bytes)
{
    uint64_t number = 0;

    for (int i = 0; i < bytes; i++)
        number |= (uint64_t)byte() << (8 * i);
    return number;
}

/* Seven bits a byte, the lowest first; the last byte is below 128. */
static uint64_t number(void)
{
    uint64_t number = 0;

    for (unsigned shift = 0; shift < 64; shift += 7) {
        uint8_t next = byte();

        number |= (uint64_t)(next & 127) << shift;
        if (next < 128)
            break;
    }
    return number;
}

/* The check value is the CRC-32 of all bytes before it: reflected polynomial 0xEDB88320, all ones at first, inverted at the end. */
static uint32_t table[256], check;

static void make_table(void)
{
    for (uint32_t i = 0; i < 256; i++) {
        table[i] = i;
        for (int bit = 0; bit < 8; bit++)
            table[i] = (table[i] & 1) ? table[i] >> 1 ^ 0xEDB88320u : table[i] >> 1;
    }
}

static uint8_t checked_byte(void)
{
    uint8_t next = byte();

    check = check >> 8 ^ table[(check ^ next) & 255];
    return next;
}

static int not_whole(const char *why)
{
    print("the recording is not whole: ");
    print(why);
    print("\n");
    return 2;
}

/* Whether the recording has the length that its header states, in its last 8 bytes, and the check value. */
static int check_whole(void)
{
    uint64_t length = 0;

    make_table();
    check = 0xFFFFFFFFu;
    if (begin_reading() != 0)
        return not_whole("it cannot be read");
    for (int i = 0; i < HEADER; i++)
        length = length >> 8 | (uint64_t)checked_byte() << 56;
    for (; length > 0 && !ended; length--)
        checked_byte();
    if (fixed(4) != (check ^ 0xFFFFFFFFu) || ended)
        return not_whole(ended ? "it ends too early" : "its check value is wrong");
    return more() ? not_whole("bytes follow its end") : 0;
}

/* ── Header and table of calls ── */

static uint64_t calls_stated;

static int word_of(char *text, unsigned most)
{
    unsigned length = byte();

    if (length >= most)
        return -1;
    for (unsigned i = 0; i < length; i++)
        text[i] = (char)byte();
    text[length] = '\0';
    return 0;
}

static int read_table(void)
{
    char name[MOST_NAME], letters[MOST_LETTERS];

    call_count = byte();
    if (call_count > MOST_EXPORTS)
        return not_whole("it has too many calls in its table");
    for (unsigned i = 0; i < call_count; i++) {
        if (word_of(name, MOST_NAME) != 0 || word_of(letters, MOST_LETTERS) != 0)
            return not_whole("a name in its table is too long");
        calls[i] = NULL;
        for (unsigned j = 0; j < sizeof known / sizeof known[0]; j++)
            if (strcmp(known[j]->name, name) == 0 && strcmp(known[j]->letters, letters) == 0)
                calls[i] = known[j];
        if (calls[i] == NULL) {
            print(name);
            print("(");
            print(letters);
            print("): ");
            return not_whole("this player does not know the call");
        }
    }
    return 0;
}

static int read_header(void)
{
    static const char magic[] = "WILLPLAY";

    for (int i = 0; i < 8; i++)
        if (byte() != (uint8_t)magic[i])
            return not_whole("it does not begin with WILLPLAY");
    if (fixed(4) != 1)
        return not_whole("its format is not version 1");
    arena_bytes = (uint32_t)fixed(4);
    if (arena_bytes > MOST_ARENA || arena_bytes % 4 != 0)
        return not_whole("its arena is too large for this player");
    calls_stated = fixed(8);
    fixed(8);
    return read_table();
}

/* ── The replay ── */

static uint64_t replayed, differed;

/* A pointer of the recording: 0 is null, 1 the address of all ones, others are offsets in the arena. */
static uint8_t *pointer(uint64_t recorded)
{
    if (recorded == 0)
        return NULL;
    return recorded == 1 ? (uint8_t *)UINTPTR_MAX : arena + (recorded - 2);
}

static uint32_t sum_arena(void)
{
    uint32_t sum = 0;

    for (uint32_t i = 0; i < arena_bytes / 4; i++) {
        uint32_t mixed = sum ^ words[i];

        sum = (mixed << 13 | mixed >> 19) * 0x9E3779B1u;
    }
    return sum;
}

static void print_difference(const char *name, const char *what, uint64_t expected, uint64_t got)
{
    print("call ");
    print_number(replayed);
    print(" (");
    print(name);
    print("): ");
    print(what);
    print(" expected ");
    print_hex(expected);
    print(", got ");
    print_hex(got);
    print("\n");
}

/* Makes one call and compares. The calls count from 1. */
static int replay_call(const struct call *call)
{
    union word word[MOST_LETTERS];
    uint64_t recorded, expected, got;
    uint32_t expected_sum, got_sum;

    for (unsigned i = 0; call->letters[i] != '\0'; i++) {
        recorded = number();
        if (call->letters[i] != 'p')
            word[i].number = recorded;
        else if (recorded <= (uint64_t)arena_bytes + 2)
            word[i].pointer = pointer(recorded);
        else
            return not_whole("a buffer is outside the arena");
    }
    expected = number();
    expected_sum = (uint32_t)fixed(4);
    if (ended)
        return not_whole("it ends inside a call");
    replayed++;
    got = call->make(word);
    got_sum = sum_arena();
    if (got == expected && got_sum == expected_sum)
        return 0;
    if (differed++ > 0)
        return 0;
    if (got != expected)
        print_difference(call->name, "answer", expected, got);
    else
        print_difference(call->name, "the answer agrees; sum of the arena", expected_sum, got_sum);
    return 0;
}

static int put_bytes(void)
{
    uint64_t at = number(), length = number();

    if (at > arena_bytes || length > arena_bytes - at)
        return not_whole("bytes are put outside the arena");
    while (length-- > 0)
        arena[at++] = byte();
    return 0;
}

static int replay_entry(void)
{
    uint8_t kind = byte();

    if (kind == FILL) {
        memset(arena, byte(), arena_bytes);
        return 0;
    }
    if (kind == PUT)
        return put_bytes();
    if (kind - FIRST_CALL >= (int)call_count)
        return not_whole("an entry is of no known kind");
    return replay_call(calls[kind - FIRST_CALL]);
}

/* Whether only the check value is left. */
static int at_end(void)
{
    fixed(4);
    return !ended && !more();
}

int replay(void)
{
    int status = check_whole();

    if (status == 0 && begin_reading() != 0)
        status = not_whole("it cannot be read again");
    if (status == 0)
        status = read_header();
    while (status == 0 && replayed < calls_stated)
        status = replay_entry();
    if (status == 0 && !at_end())
        status = not_whole("it has other calls than its header states");
    print_number(replayed);
    print(" calls replayed, ");
    print_number(differed);
    print(" differed\n");
    return status != 0 ? status : differed > 0;
}
