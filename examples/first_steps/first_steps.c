/* Prints a text over COM1, asks the time and halts; what it answers stands in EAX at the end. */
#include "guest.h"
#include "serial.h"

static void print(const char *text) {
    for (; *text; text++) {
        while (!(inb(LSR) & LSR_BUFFER_EMPTY)) {
        }
        outb(THR, (unsigned char)*text);
    }
}

int main(void) {
    print("Hello, i386\n");
    return (int)time();
}
