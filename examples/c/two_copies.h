/* Two sealed copies of a state in non-volatile memory, written alternately: if a write is cut off, the other copy is whole.
 *
 * A sealed record does not say when it was sealed, so a copy is a frame around it: the number of the step after which it was sealed (4
 * bytes, the low one first), the record, and the number again with every bit inverted. The memory must write a copy in one direction, byte by
 * byte or page by page. Then a copy that was cut off has two numbers that do not fit. If the place had a copy of the same step before, they may
 * fit, and the record's check value shows the mixture. Memory erased to ones, or zeroed, is no copy.
 *
 * Steps are counted on through every start, from the newest copy. After the highest number comes 0. */
#ifndef TWO_COPIES_H
#define TWO_COPIES_H

#include "willowera.h"

enum { NUMBER_BYTES = 4, COPY_TAIL = NUMBER_BYTES + WILLOWERA_SEALED_BYTES, COPY_BYTES = COPY_TAIL + NUMBER_BYTES, NO_COPY = -1 };

struct site {
    const uint8_t *personality;
    uint64_t length;
};

static inline uint32_t number_at(const uint8_t *bytes)
{
    return bytes[0] | (uint32_t)bytes[1] << 8 | (uint32_t)bytes[2] << 16 | (uint32_t)bytes[3] << 24;
}

static inline void put_number(uint8_t *bytes, uint32_t number)
{
    for (unsigned i = 0; i < NUMBER_BYTES; i++)
        bytes[i] = (uint8_t)(number >> 8 * i);
}

/* Makes the copy of a state after a step: 0, or the refusal of willowera_seal. */
static inline uint64_t copy_make(const struct site *site, const uint8_t *state, uint32_t step, uint8_t *copy)
{
    put_number(copy, step);
    put_number(copy + COPY_TAIL, ~step);
    return willowera_seal(site->personality, site->length, state, WILLOWERA_STATE_BYTES, copy + NUMBER_BYTES, WILLOWERA_SEALED_BYTES);
}

/* Writes the state of a copy: 0, or a refusal: 28 if the numbers do not fit, else that of willowera_resume. */
static inline uint64_t copy_open(const struct site *site, const uint8_t *copy, uint8_t *state)
{
    if (number_at(copy) != (uint32_t)~number_at(copy + COPY_TAIL))
        return WILLOWERA_DAMAGED;
    return willowera_resume(site->personality, site->length, copy + NUMBER_BYTES, WILLOWERA_SEALED_BYTES, state, WILLOWERA_STATE_BYTES);
}

/* Writes the state of the newest good copy and the number of its step, and gives its place, 0 or 1; or NO_COPY, and then nothing is written. */
static inline int newest_copy(const struct site *site, const uint8_t copies[2 * COPY_BYTES], uint8_t *state, uint32_t *step)
{
    int newer = number_at(copies + COPY_BYTES) - number_at(copies) < UINT32_C(1) << 31;

    for (int tried = 0, place = newer; tried < 2; tried++, place = !place)
        if (copy_open(site, copies + COPY_BYTES * place, state) == WILLOWERA_ACCEPTED) {
            *step = number_at(copies + COPY_BYTES * place);
            return place;
        }
    return NO_COPY;
}

#endif
