/* Prints the results of the computation on the host, in eight hexadecimal digits each. */
#include <stdio.h>

#include "compute.h"

int main(void) {
    struct results r;
    compute(&r);
    printf("%08x %08x %08x %08x %08x %08x\n", r.moves, r.checksum, r.median, r.quotient_low, r.quotient_high, r.remainder);
    return 0;
}
