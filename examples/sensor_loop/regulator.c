/* Proportion and integral, in 16ths. A shift of a negative number keeps the sign, on the host as here. */
#include "regulator.h"

enum { PROPORTIONAL = 40, INTEGRAL = 5, LARGEST_SUM = 600, LARGEST_OUTPUT = 255 };

static int between(int least, int value, int greatest) {
    return value < least ? least : value > greatest ? greatest : value;
}

unsigned char regulate(struct regulator *regulator, unsigned char measured) {
    int error = SET_POINT - measured;
    regulator->sum = between(-LARGEST_SUM, regulator->sum + error, LARGEST_SUM);
    return (unsigned char)between(0, (PROPORTIONAL * error + INTEGRAL * regulator->sum) >> 4, LARGEST_OUTPUT);
}
