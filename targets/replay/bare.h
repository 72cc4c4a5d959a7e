/* A processor without an operating system: what bare.c and the file of the processor need of each other. */
#ifndef BARE_H
#define BARE_H

/* The registers of a semihosting call and the instruction that makes it. */
#if defined(__arm__)
#define SEMIHOST_FIRST "r0"
#define SEMIHOST_SECOND "r1"
#define SEMIHOST_TRAP "bkpt 0xab"
#elif defined(__riscv)
#define SEMIHOST_FIRST "a0"
#define SEMIHOST_SECOND "a1"
#define SEMIHOST_TRAP ".option push\n.option norvc\nslli x0, x0, 0x1f\nebreak\nsrai x0, x0, 7\n.option pop"
#else
#error "no semihosting call is known for this processor"
#endif

/* Runs the player to its end, and leaves. */
_Noreturn void run_player(void);

/* Ends the emulator with an exit status. */
_Noreturn void leave(int status);

/* ── Given by the file of the processor ── */

/* From now on every unaligned access of a word or half word faults: whether it does, tried with each kind. */
int trap_unaligned(void);

#endif
