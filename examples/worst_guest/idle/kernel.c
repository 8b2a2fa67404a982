/* Halts with its flag clear, for good. */
#include "guest.h"

int main(void) {
    hlt();
    return 0;
}
