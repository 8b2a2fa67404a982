/* A kernel that sends a byte and then stores into the real-time side, which is no memory of its own. */
#include "guest.h"
#include "serial.h"

enum { DELAY = 100, REAL_TIME_SIDE = 0x10000 };

int main(void) {
    for (volatile int at = 0; at < DELAY; at++) {
    }
    outb(THR, '!');
    *(volatile unsigned *)(REAL_TIME_SIDE + 0x1000) = 0;
    outb(THR, '?');
    return 0;
}
