/* Overwrites all from a place below its own code on, its own code too. What it writes are FAh, the hard CLI; so when the loop has reached its own
   instruction, the guest performs one. */
#include "guest.h"

enum { BELOW_THE_CODE = 0xe00, SIDE = 0x10000, DELAY = 450, HARD_CLI = 0xfa };

int main(void) {
    for (volatile int at = 0; at < DELAY; at++) {
    }
    unsigned count = SIDE;
    unsigned char *place = (unsigned char *)BELOW_THE_CODE;
    __asm__ volatile("rep stosb" : "+c"(count), "+D"(place) : "a"(HARD_CLI) : "memory");
    return 0;
}
