/* What main.c needs of a board. board.c has it for the machine mps2-an386 of qemu; write your own in its place. */
#ifndef BOARD_H
#define BOARD_H

#include "two_copies.h"

extern const uint8_t personality[], personality_end[]; /* the site, in read-only memory */
extern volatile uint32_t board_ticks;                  /* ticks of 0.1 s since board_start; after the highest number comes 0 */
extern uint8_t board_copies[2 * COPY_BYTES];           /* non-volatile memory, to be read */

void board_start(void);             /* ports and ticks; the lamps stay as they are */
uint32_t board_wait(uint32_t tick); /* sleeps until the number of ticks is another one than this, and gives it */
uint64_t board_inputs(void);        /* detectors and buttons: bits as in WILLOWERA_DETECTOR and WILLOWERA_BUTTON */

/* Shows one colour for each group and keeps the number of the step with the lamps: 1; or 0 if a colour is unknown, and then no lamp is
 * switched, or if the lamps do not follow. */
int board_show(uint32_t step, const uint8_t *colours, size_t groups);
void board_lamps_off(void);

/* Whether the lamps have shown the colours of one step, and nothing else, since they were switched to them: they had power and were held
 * through the reset, and the monitor did not flash. Then also writes that step. A board that cannot tell gives 0. */
int board_lamps_held(uint32_t *step);

void board_toggle_line(void); /* the conflict monitor watches it; if it stands still, the monitor flashes yellow in place of the lamps */
void board_write_copy(int place, const uint8_t *copy); /* from the first byte to the last */
void board_note(const char *what, uint32_t number);    /* a line of the technician's record */

#endif
