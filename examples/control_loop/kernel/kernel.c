/* A kernel that takes the records of a control loop from a FIFO, logs the last of them over COM1 at each due of its timer, and sends new set
   points by another FIFO. */
#include "../control.h"
#include "guest.h"
#include "serial.h"

enum { DIGITS = 5, LINE = 4 * DIGITS + 1 };

static volatile unsigned dues_seen;

static void on_timer(struct frame *frame) {
    (void)frame;
    dues_seen++;
}

static void wait_for(unsigned count) {
    cli();
    while (dues_seen < count) {
        sti_and_hlt();
        cli();
    }
    sti();
}

/* A number in so many places, with blanks before it. */
static void write_number(char *place, unsigned number) {
    for (int at = DIGITS - 1; at >= 0; at--) {
        place[at] = at == DIGITS - 1 || number > 0 ? (char)('0' + number % 10) : ' ';
        number /= 10;
    }
}

static void send(const char *text, unsigned count) {
    for (unsigned i = 0; i < count; i++) {
        while (!(inb(LSR) & LSR_BUFFER_EMPTY)) {
        }
        outb(THR, (unsigned char)text[i]);
    }
}

static void write_record(const struct record *record) {
    char line[LINE];
    write_number(line, (unsigned)record->turn);
    write_number(line + DIGITS, (unsigned)record->set_point);
    write_number(line + 2 * DIGITS, (unsigned)record->measured);
    write_number(line + 3 * DIGITS, (unsigned)record->output);
    line[LINE - 1] = '\n';
    send(line, LINE);
}

/* Sends the set point that is to change behind so many logs, if one is. */
static void send_set_point(int logs) {
    for (int i = 0; i < CHANGES; i++) {
        if (changes[i].logs == logs) {
            fifo_put(SET_POINTS, &changes[i].set_point, sizeof changes[i].set_point);
        }
    }
}

int main(void) {
    static struct record records[TURNS_A_LOG * 4];
    set_handler(VECTOR_OF_LINE(LINE_TIMER), on_timer, INTERRUPT_GATE);
    if (load_handlers() != 0) {
        return -1;
    }
    set_mask(~(1u << LINE_TIMER));
    set_timer(LOG);
    for (int logs = 1;; logs++) {
        wait_for((unsigned)logs);
        int count = fifo_get(RECORDS, records, sizeof records) / (int)sizeof *records;
        send_set_point(logs);
        if (count > 0) {
            write_record(&records[count - 1]);
        }
    }
}
