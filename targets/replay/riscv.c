/* A RISC-V program that needs nothing of an operating system but semihosting. */
#include "bare.h"

_Noreturn void start(void);

/* The emulator has loaded every section and set the stack. */
_Noreturn void start(void)
{
    run_player();
}

/* There is no such trap. */
int trap_unaligned(void)
{
    return 0;
}
