/* The gates, as numbers of interrupts: the same file is read by C and by assembly. */
#ifndef GATES_H
#define GATES_H

#define GATE_CLI 0xf0
#define GATE_STI 0xf1
#define GATE_IRET 0xf2
#define GATE_PUSHF 0xf3
#define GATE_POPF 0xf4
#define GATE_HLT 0xf5
#define GATE_CALL 0xf6

/* Of the real-time side: a function by EAX, and the return. */
#define GATE_REAL_TIME 0xf8
#define GATE_RETURN 0xf9

/* Functions of GATE_CALL, in EAX. */
#define CALL_LOAD_IDT 1
#define CALL_SET_MASK 2
#define CALL_SET_TIMER 3
#define CALL_FIFO_PUT 4
#define CALL_FIFO_GET 5
#define CALL_TIME 6

#endif
