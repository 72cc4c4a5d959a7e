/* The vector table of a Cortex-M program that runs under qemu with newlib's semihosting (--specs=rdimon.specs): the first stack, the start of
 * newlib, and one handler for every fault, which ends the program with status 3. It stands at address 0 (-Wl,--section-start=.vectors=0).
 */
#include <stdint.h>
#include <unistd.h>

extern void _start(void);

static void fault(void)
{
    static const char said[] = "a fault of the processor\n";

    write(2, said, sizeof said - 1);
    _exit(3);
}

/* The top of the second memory of mps2-an386. newlib takes its own stack from qemu afterwards. */
#define FIRST_STACK ((void (*)(void))0x20400000)

__attribute__((section(".vectors"), used)) static void (*const vectors[16])(void) = {
    FIRST_STACK, _start, fault, fault, fault, fault, fault,
};
