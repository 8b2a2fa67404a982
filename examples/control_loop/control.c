/* A controller and its plant in whole numbers. Shifts of negative numbers keep the sign, on the host as here. */
#include "control.h"

enum { PROPORTIONAL = 256, INTEGRAL = 100 };                 /* in 256ths */
enum { LARGEST_OUTPUT = 1000, LARGEST_INTEGRAL = 8000 };
enum { LOAD = 150 };

static int between(int least, int value, int greatest) {
    return value < least ? least : value > greatest ? greatest : value;
}

void take_turn(struct loop *loop, struct record *record) {
    int measured = loop->level >> 4;
    int error = loop->set_point - measured;
    loop->integral = between(-LARGEST_INTEGRAL, loop->integral + error, LARGEST_INTEGRAL);
    int output = between(0, (PROPORTIONAL * error + INTEGRAL * loop->integral) >> 8, LARGEST_OUTPUT);
    *record = (struct record){loop->turn, loop->set_point, measured, output};
    loop->level += ((output - loop->load) * 16 - loop->level) >> 2;
    loop->turn++;
}

void change_load(struct loop *loop) {
    loop->load = LOAD - loop->load;
}
