# The entries of the clock and of the system calls, after each of which another task may go on.
#include "switching.h"
    .text
    .code32
    SWITCHING_ENTRY clock_entry on_clock
    SWITCHING_ENTRY call_entry on_call

    .section .note.GNU-stack, "", @progbits
