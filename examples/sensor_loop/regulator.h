/* The regulator's arithmetic: the module and the host read the same file. */
#ifndef REGULATOR_H
#define REGULATOR_H

enum { SET_POINT = 120 };

struct regulator {
    int sum;            /* of the errors so far, in bounds */
};

/* The actuator's next byte for a sensor's byte. */
unsigned char regulate(struct regulator *regulator, unsigned char measured);

#endif
