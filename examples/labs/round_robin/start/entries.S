# The entry of the clock, behind which another task may go on.
#include "switching.h"
    .text
    .code32
    SWITCHING_ENTRY clock_entry on_clock

    .section .note.GNU-stack, "", @progbits
