/* The clock of qemu's board mps2-an386 under -icount shift=0: one nanosecond is one instruction. SysTick counts down at 25 MHz. */
#include <stdint.h>

#include "frames.h"

#define SYST ((volatile uint32_t *)0xE000E010)

enum { TICKS = 0xFFFFFF, NANOSECONDS = 40, ON = 5 };

double nanoseconds(void)
{
    static uint32_t last;
    static double total;
    if (!(SYST[0] & 1)) {
        SYST[1] = TICKS;
        SYST[2] = 0;
        SYST[0] = ON;
        last = TICKS;
    }
    uint32_t now = SYST[2];
    total += (double)((last - now) & TICKS) * NANOSECONDS;
    last = now;
    return total;
}
