/* The loop's arithmetic and the times of its parts: the same file is read by the module, the kernel and the host. */
#ifndef CONTROL_H
#define CONTROL_H

/* FIFOs: records go to the guest, set points come from it. */
enum { RECORDS = 0, SET_POINTS = 1 };

/* A turn of the controller is each 500 ticks from 400 on. The kernel's timer is set within the first 200 ticks, so a due of it stands between two
   turns, behind four turns more. */
enum { FIRST_TURN = 400, TURN = 500, TURNS_A_LOG = 4, LOG = TURNS_A_LOG * TURN };

/* The kernel sends this set point behind so many logs. */
struct change {
    int logs, set_point;
};

enum { CHANGES = 3 };
static const struct change changes[CHANGES] = {{1, 500}, {4, 700}, {10, 200}};

/* What a turn has seen and done. */
struct record {
    int turn, set_point, measured, output;
};

/* Controller and plant. The level is counted in sixteenths. */
struct loop {
    int turn, set_point, integral, load, level;
};

/* A turn: measures, computes the output by proportional and integral control, and lets the plant follow it until the next turn. */
void take_turn(struct loop *loop, struct record *record);

/* The load of the plant comes or goes. */
void change_load(struct loop *loop);

#endif
