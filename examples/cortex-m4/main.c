/* The firmware of one site: power-up, one step for each tick of 0.1 s, lamps, the monitor's line and sealed copies. */
#include "board.h"

/* Steps between two copies. A cabinet that holds its lamps takes 1, and memory that bears it; with 20 the runs in qemu meet older copies. */
enum { COPY_EVERY = 20 };

static struct site site;
static size_t groups;
uint8_t state[WILLOWERA_STATE_BYTES];
static uint32_t step;   /* the number of the last step; it goes on through every start (two_copies.h) */
static int next_copy;   /* the place of the next copy: not that of the newest good one */
static uint32_t missed; /* ticks without a step, because a step was late: it was not done when the next tick came */

/* The lamps are off and the line stands still: the monitor flashes yellow by the cabinet's own means. Only a reset ends it, and then the
 * site starts fresh, because the lamps were not held. */
static _Noreturn void stay_safe(const char *why, uint32_t number)
{
    board_lamps_off();
    board_note(why, number);
    for (uint32_t tick = board_ticks;;)
        tick = board_wait(tick);
}

static uint64_t accepted(const char *refused, uint64_t answer)
{
    if (WILLOWERA_NUMBER(answer) != WILLOWERA_ACCEPTED)
        stay_safe(refused, WILLOWERA_NUMBER(answer));
    return answer;
}

/* After every reset. The state is resumed only if its copy is that of the very step that the lamps have shown ever since: an older copy does not
 * know what they have shown after it. Other lit lamps are left to the monitor. Dark or flashing lamps: fresh. */
static void power_up(void)
{
    uint32_t shown;
    int newest = newest_copy(&site, board_copies, state, &step), held = board_lamps_held(&shown);

    next_copy = newest == 0;
    if (newest != NO_COPY && held && shown == step) {
        board_note("resumed after step", step);
        return;
    }
    if (held)
        stay_safe("lamps held, but no copy of their step", shown);
    accepted("fresh refused with", willowera_fresh(site.personality, site.length, state, sizeof state));
    board_note("fresh after step", step);
}

static void make_step(void)
{
    uint8_t colours[WILLOWERA_MOST_GROUPS], copy[COPY_BYTES];

    accepted("step refused with", willowera_step(site.personality, site.length, state, sizeof state, board_inputs(), colours, sizeof colours));
    step++;
    if (!board_show(step, colours, groups))
        stay_safe("lamps not as they should be in step", step);
    board_toggle_line();
    if (step % COPY_EVERY == 0) {
        accepted("seal refused with", copy_make(&site, state, step, copy));
        board_write_copy(next_copy, copy);
        next_copy = !next_copy;
    }
}

int main(void)
{
    board_start();
    if (willowera_version() != WILLOWERA_VERSION)
        stay_safe("library of another version than the header:", willowera_version());
    site = (struct site){personality, (uint64_t)(personality_end - personality)};
    groups = WILLOWERA_GROUPS(accepted("personality refused with", willowera_groups(site.personality, site.length)));
    power_up();

    for (uint32_t done, tick = board_wait(board_ticks);; tick = board_wait(done)) {
        make_step();
        done = tick;
        if (board_ticks != tick) { /* its colours came late: they stand for one more whole tick, so that no time is too short */
            done = board_wait(board_ticks);
            board_note("late step; ticks without a step:", missed += done - tick);
        }
    }
}
