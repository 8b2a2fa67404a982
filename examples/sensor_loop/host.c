/* Computes the loop on the host: the plant's sensor byte and the actuator's answer, a line for each turn. The plant is here alone; the run has the
   sensor's bytes from the script. */
#include <stdio.h>

#include "regulator.h"

enum { TURNS = 48, OPENED = 24 };

int main(void) {
    struct regulator regulator = {0};
    int heat = 20 * 64;
    for (int turn = 0; turn < TURNS; turn++) {
        unsigned char measured = (unsigned char)(heat / 64);
        unsigned char output = regulate(&regulator, measured);
        printf("%d %d\n", measured, output);
        int loss = turn < OPENED ? 4 : 7;                   /* a window is opened */
        heat += output * 8 - (heat / 64 - 20) * loss;
        heat = heat < 0 ? 0 : heat > 255 * 64 ? 255 * 64 : heat;
    }
    return 0;
}
