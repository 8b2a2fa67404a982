/* A clock by the executive's timer, which asks line 0 once a second; a second has 200 ticks here. One count goes by the entries and one by
   the time that is asked for, and both are sent over COM1. While the flag is clear several dues come as one entry, so the first count
   falls behind. At the end the timer is an alarm that is further away than a one-shot reaches. */
#include "guest.h"
#include "serial.h"

enum { SECOND = 200, BUSY = 3 * SECOND, ALARM = 40000 };

static volatile unsigned entries_seen;
static unsigned started;

static void on_timer(struct frame *frame) {
    (void)frame;
    entries_seen++;
}

/* The flag is clear while the count is looked at, so no entry comes between that and the halt. */
static void wait_for(unsigned count) {
    cli();
    while (entries_seen < count) {
        sti_and_hlt();
        cli();
    }
    sti();
}

/* Holds the flag clear for so many ticks. */
static void work_undisturbed(unsigned ticks) {
    cli();
    unsigned from = time();
    while (time() - from < ticks) {
    }
    sti();
}

/* The buffer has room for 16 bytes and is empty, since the last text was sent seconds ago. */
static void send(const char *text, unsigned count) {
    for (unsigned i = 0; i < count; i++) {
        outb(THR, (unsigned char)text[i]);
    }
}

/* Minutes and seconds, as 1:02. */
static void write_clock(char *place, unsigned seconds) {
    place[0] = (char)('0' + seconds / 60);
    place[1] = ':';
    place[2] = (char)('0' + seconds % 60 / 10);
    place[3] = (char)('0' + seconds % 10);
}

/* Sends the clock by the entries and the clock by the time, and answers the second. */
static unsigned report(void) {
    char text[] = "m:ss m:ss\n";
    unsigned seconds = (time() - started) / SECOND;
    write_clock(text, entries_seen);
    write_clock(text + 5, seconds);
    send(text, sizeof text - 1);
    return seconds;
}

/* The answer: the seconds by the time in the last report, and the entries in all. */
int main(void) {
    set_handler(VECTOR_OF_LINE(LINE_TIMER), on_timer, INTERRUPT_GATE);
    if (load_handlers() != 0) {
        return -1;
    }
    set_mask(~(1u << LINE_TIMER));
    outb(FCR, FCR_ON);
    started = time();
    set_timer(SECOND);
    wait_for(20);
    report();
    wait_for(25);
    work_undisturbed(BUSY);
    wait_for(40);
    report();
    wait_for(60);
    unsigned seconds = report();
    set_timer(ALARM);
    wait_for(61);
    send("alarm\n", 6);
    set_timer(0);
    return (int)(seconds << 8 | entries_seen);
}
