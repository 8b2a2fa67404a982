/* Prints on the host what each turn has to be: its number, the set point, what is measured and the output. */
#include <stdio.h>

#include "control.h"

enum { LOGS = 12, LOAD_CHANGES = 2 };

/* The ticks in which the script raises line 9. */
static const int load_changes[LOAD_CHANGES] = {10150, 18150};

int main(void) {
    struct loop loop = {0};
    for (int turn = 0; turn < LOGS * TURNS_A_LOG; turn++) {
        int begins = FIRST_TURN + TURN * turn;
        for (int i = 0; i < LOAD_CHANGES; i++) {
            if (begins - TURN < load_changes[i] && load_changes[i] <= begins) {
                change_load(&loop);
            }
        }
        for (int i = 0; i < CHANGES; i++) {
            if (turn == changes[i].logs * TURNS_A_LOG) {
                loop.set_point = changes[i].set_point;
            }
        }
        struct record record;
        take_turn(&loop, &record);
        printf("%d %d %d %d\n", record.turn, record.set_point, record.measured, record.output);
    }
    return 0;
}
