/* What a module in C has: each gate of INT F8h as a function with RTLinux 3's or POSIX's name, order of arguments and types, entries of
   inits, threads and handlers, stacks and ports. Each gate costs one tick; a gate that fails changes nothing but its answer. The functions
   whose names begin with `pthread_` answer 0 or one of the errors below, as in POSIX; those with `rtf_` and `rtl_` answer an error with the
   sign turned, as in RTLinux. Times are ticks: where RTLinux has nanoseconds, the name of the type or of the parameter says so. */
#ifndef MODULE_H
#define MODULE_H

#include <stddef.h>

#include "gates.h"
#include "ports.h"

/* Linux's numbers. */
enum { EAGAIN = 11, EBUSY = 16, ENODEV = 19, EINVAL = 22, ENOSPC = 28 };

enum {
    THREADS = 64,               /* live at once; numbers are 0 to 63 */
    FIFOS = 64,                 /* numbers are 0 to 63 */
    FIFO_SIZE = 16384,          /* bytes, the most of one FIFO */
    CALL_BYTES = 256,           /* the most of one put, get or print */
    PRIORITIES = 256,           /* 0 to 255, the greater number first */
    LONGEST = 1000000000        /* ticks, the most of a period or a sleep */
};

/* Functions of INT F8h, in EAX. */
enum {
    FUNCTION_GETHRTIME = 1, FUNCTION_PTHREAD_CREATE = 2, FUNCTION_PTHREAD_DELETE = 3, FUNCTION_PTHREAD_SUSPEND = 4,
    FUNCTION_PTHREAD_WAKEUP = 5, FUNCTION_PTHREAD_MAKE_PERIODIC = 6, FUNCTION_PTHREAD_WAIT = 7, FUNCTION_PTHREAD_SELF = 8,
    FUNCTION_PTHREAD_SETPRIO = 9, FUNCTION_PTHREAD_GETPRIO = 10, FUNCTION_RTF_CREATE = 11, FUNCTION_RTF_DESTROY = 12,
    FUNCTION_RTF_PUT = 13, FUNCTION_RTF_GET = 14, FUNCTION_RTF_FLUSH = 15, FUNCTION_RTF_CREATE_HANDLER = 16,
    FUNCTION_RTF_COUNT = 17, FUNCTION_RTL_REQUEST_IRQ = 18, FUNCTION_RTL_FREE_IRQ = 19, FUNCTION_RTL_GET_SOFT_IRQ = 20,
    FUNCTION_RTL_FREE_SOFT_IRQ = 21, FUNCTION_RTL_GLOBAL_PEND_IRQ = 22, FUNCTION_NANOSLEEP = 23, FUNCTION_RTL_PRINT = 24
};

/* Marks an entry, the function of a thread or a handler: it takes its first argument from EAX and a second from EDX, where the executive puts a
   thread's own argument, a line's number or a FIFO's, and 0. Its return leads to the word that the executive has put on the stack, which
   ends it. */
#define ENTRY __attribute__((regparm(3)))

/* Ticks, in place of RTLinux's nanoseconds. */
typedef unsigned ticks_t;
typedef ticks_t hrtime_t;

typedef int pthread_t;          /* a thread's number */

struct sched_param {
    int sched_priority;         /* 0 to 255, the greater number first */
};

/* What a new thread has. There is no memory to be had at run time, so a stack is the module's own. */
typedef struct {
    void *stack_address;        /* its lowest byte */
    size_t stack_size;          /* bytes */
    struct sched_param schedule;
} pthread_attr_t;

/* Of POSIX, whose nanoseconds are ticks here. */
struct timespec {
    ticks_t tv_ticks;
};

struct pt_regs;                 /* there are none: a handler gets a null pointer */

typedef void *(*thread_entry)(void *argument) ENTRY;
typedef unsigned (*line_entry)(unsigned irq, struct pt_regs *regs) ENTRY;
typedef int (*fifo_entry)(unsigned fifo) ENTRY;

/* The entry of a module, which its source has to define. It runs to its end before any thread, handler or the guest. RTLinux takes a module
   back whose answer isn't 0; here nobody reads it. */
int init_module(void);

/* A stack that belongs to one thread. */
#define STACK(name, bytes) static unsigned char name[bytes] __attribute__((aligned(16)))

/* The attributes of a thread with this stack and priority, for pthread_create. */
#define WITH(stack, priority) (&(const pthread_attr_t){(stack), sizeof(stack), {(priority)}})

/* A gate: its function in EAX, arguments in EBX, ECX, EDX and ESI. Other activities may run before it returns, so memory may change. */

static inline int gate_0(unsigned function) {
    int result;
    __asm__ volatile("int %1" : "=a"(result) : "i"(GATE_REAL_TIME), "0"(function) : "memory");
    return result;
}

static inline int gate_1(unsigned function, unsigned b) {
    int result;
    __asm__ volatile("int %1" : "=a"(result) : "i"(GATE_REAL_TIME), "0"(function), "b"(b) : "memory");
    return result;
}

static inline int gate_2(unsigned function, unsigned b, unsigned c) {
    int result;
    __asm__ volatile("int %1" : "=a"(result) : "i"(GATE_REAL_TIME), "0"(function), "b"(b), "c"(c) : "memory");
    return result;
}

static inline int gate_3(unsigned function, unsigned b, unsigned c, unsigned d) {
    int result;
    __asm__ volatile("int %1" : "=a"(result) : "i"(GATE_REAL_TIME), "0"(function), "b"(b), "c"(c), "d"(d) : "memory");
    return result;
}

static inline int gate_4(unsigned function, unsigned b, unsigned c, unsigned d, unsigned s) {
    int result;
    __asm__ volatile("int %1" : "=a"(result) : "i"(GATE_REAL_TIME), "0"(function), "b"(b), "c"(c), "d"(d), "S"(s) : "memory");
    return result;
}

/* INT F9h: ends the activity that performs it, as a return from its entry does. A thread is deleted. */
static inline void leave(void) {
    __asm__ volatile("int %0" : : "i"(GATE_RETURN) : "memory");
    __builtin_unreachable();
}

/* The interrupt flag of the activity itself. While a thread's is clear, nothing is acknowledged: no thread is released by its due and no
   handler starts, but a ready thread of greater priority still goes first. An init or a handler isn't interrupted anyway. */

static inline void rtl_stop_interrupts(void) {
    __asm__ volatile("cli" : : : "memory");
}

static inline void rtl_allow_interrupts(void) {
    __asm__ volatile("sti" : : : "memory");
}

typedef unsigned rtl_irqstate_t;

static inline rtl_irqstate_t flags_then_stop(void) {
    rtl_irqstate_t eflags;
    __asm__ volatile("pushfl\n\tpopl %0\n\tcli" : "=r"(eflags) : : "memory");
    return eflags;
}

/* Clears the flag and leaves in `state` what rtl_restore_interrupts takes back: a macro, as in RTLinux. */
#define rtl_no_interrupts(state) ((void)((state) = flags_then_stop()))

static inline void rtl_restore_interrupts(rtl_irqstate_t eflags) {
    __asm__ volatile("pushl %0\n\tpopfl" : : "r"(eflags) : "memory", "cc");
}

/* The time, and threads. */

/* 1: the number of this tick. */
static inline hrtime_t gethrtime(void) {
    return (hrtime_t)gate_0(FUNCTION_GETHRTIME);
}

/* Attributes: no stack, and priority 0. */
static inline int pthread_attr_init(pthread_attr_t *attr) {
    *attr = (pthread_attr_t){0, 0, {0}};
    return 0;
}

static inline int pthread_attr_setstack(pthread_attr_t *attr, void *lowest, size_t size) {
    attr->stack_address = lowest;
    attr->stack_size = size;
    return 0;
}

static inline int pthread_attr_setstackaddr(pthread_attr_t *attr, void *lowest) {
    attr->stack_address = lowest;
    return 0;
}

static inline int pthread_attr_setstacksize(pthread_attr_t *attr, size_t size) {
    attr->stack_size = size;
    return 0;
}

static inline int pthread_attr_setschedparam(pthread_attr_t *attr, const struct sched_param *param) {
    attr->schedule = *param;
    return 0;
}

/* 2: EBX the entry, ECX a priority, EDX the stack's top, ESI what the entry gets. The thread is ready, last in arrival among its equals, with no
   period. Its number, the lowest that is free, goes to `thread`; where it fails, no thread's. EINVAL where there are no attributes, the priority isn't 0 to 255 or the
   four bytes below the stack's top aren't on the real-time side; else EAGAIN where 64 threads live. */
static inline int pthread_create(pthread_t *thread, const pthread_attr_t *attr, thread_entry begin, void *argument) {
    if (attr == NULL) {
        return EINVAL;
    }
    unsigned top = (unsigned)attr->stack_address + attr->stack_size;
    int number = gate_4(FUNCTION_PTHREAD_CREATE, (unsigned)begin, (unsigned)attr->schedule.sched_priority, top, (unsigned)argument);
    *thread = number;
    return number < 0 ? -number : 0;
}

/* 3: EBX a thread, which may be the caller: it is gone. 0, or EINVAL where it isn't live. */
static inline int pthread_delete_np(pthread_t thread) {
    return -gate_1(FUNCTION_PTHREAD_DELETE, (unsigned)thread);
}

/* 4: EBX a thread, which may be the caller: it is neither ready nor has it a due, until it is woken. 0, or EINVAL where it isn't live. */
static inline int pthread_suspend_np(pthread_t thread) {
    return -gate_1(FUNCTION_PTHREAD_SUSPEND, (unsigned)thread);
}

/* 5: EBX a thread that is suspended or waits: it is ready, last in arrival among its equals, and keeps its period and its next due. One that
   is ready stays as it is. 0, or EINVAL where it isn't live. */
static inline int pthread_wakeup_np(pthread_t thread) {
    return -gate_1(FUNCTION_PTHREAD_WAKEUP, (unsigned)thread);
}

/* 6: EBX a thread, which may be the caller, ECX the tick of its first release, at most 2,000,000,000, EDX its period, 1 to 1,000,000,000
   ticks. It waits until the first release. A tick that has passed releases it in the next tick that drains. 0, or EINVAL where the
   thread isn't live or a number is outside its range. */
static inline int pthread_make_periodic_np(pthread_t thread, hrtime_t start_tick, hrtime_t period_ticks) {
    return -gate_3(FUNCTION_PTHREAD_MAKE_PERIODIC, (unsigned)thread, start_tick, period_ticks);
}

/* 7: waits for the caller's next release, one period behind its last due, however late the caller was. 0 when it is released, or at once
   EINVAL where the caller is no thread or has no period. */
static inline int pthread_wait_np(void) {
    return -gate_0(FUNCTION_PTHREAD_WAIT);
}

/* 8: the caller's number, or -EINVAL where it is no thread. */
static inline pthread_t pthread_self(void) {
    return gate_0(FUNCTION_PTHREAD_SELF);
}

/* 9: EBX a thread, ECX its new priority; it keeps its place of arrival. 0, or EINVAL where it isn't live or the priority isn't 0 to 255. */
static inline int pthread_setprio(pthread_t thread, int priority) {
    return -gate_2(FUNCTION_PTHREAD_SETPRIO, (unsigned)thread, (unsigned)priority);
}

/* 10: EBX a thread. Its priority, or -EINVAL where it isn't live. */
static inline int pthread_getprio(pthread_t thread) {
    return gate_1(FUNCTION_PTHREAD_GETPRIO, (unsigned)thread);
}

/* POSIX's form of 9 and 10. There is one policy. */
enum { SCHED_FIFO = 1 };

static inline int pthread_setschedparam(pthread_t thread, int policy, const struct sched_param *param) {
    return policy == SCHED_FIFO ? pthread_setprio(thread, param->sched_priority) : EINVAL;
}

static inline int pthread_getschedparam(pthread_t thread, int *policy, struct sched_param *param) {
    int priority = pthread_getprio(thread);
    if (priority < 0) {
        return -priority;
    }
    *policy = SCHED_FIFO;
    param->sched_priority = priority;
    return 0;
}

static inline int sched_get_priority_min(int policy) {
    (void)policy;
    return 0;
}

static inline int sched_get_priority_max(int policy) {
    (void)policy;
    return PRIORITIES - 1;
}

/* INT F9h, as a return from the thread's own function: it is deleted. Nobody waits for its answer. */
static inline void pthread_exit(void *answer) {
    (void)answer;
    leave();
}

/* 23: EBX 1 to 1,000,000,000 ticks, which are counted from the tick of this gate. The caller's period and next due stay. 0 when it is
   released, or at once EINVAL where the caller is no thread or the number is outside its range. Nothing interrupts a sleep, so `left`
   isn't written. */
static inline int nanosleep(const struct timespec *ticks, struct timespec *left) {
    (void)left;
    return -gate_1(FUNCTION_NANOSLEEP, ticks->tv_ticks);
}

/* 24: EBX the place of ECX bytes, at most 256, which stand in the trace in a line `say`. 0, or -EINVAL for more bytes. A byte outside the
   real-time side is a fault. */
static inline int rtl_print(const void *place, int count) {
    return gate_2(FUNCTION_RTL_PRINT, (unsigned)place, (unsigned)count);
}

/* Texts and numbers by one rtl_print, at most 256 bytes of them: %d, %u, %x (eight hex digits), %c, %s and %%. What is behind the 256th byte is
   left out. 0, always. It takes some 350 bytes of the stack, and ticks: some 200 for a text as `8 rises` (printing.c). */
int rtl_printf(const char *format, ...) __attribute__((format(printf, 1, 2)));

/* FIFOs, which join the real-time side and the guest: queues of bytes, each with a number. */

/* 11: EBX a number of 0 to 63, ECX its size, 1 to 16,384 bytes. 0; -EINVAL where a number is outside its range, else -EBUSY where the
   FIFO is there already. */
static inline int rtf_create(unsigned fifo, int size) {
    return gate_2(FUNCTION_RTF_CREATE, fifo, (unsigned)size);
}

/* 12: EBX a FIFO, which is gone with its bytes, its handler and its mark. 0, or -ENODEV where it isn't there. */
static inline int rtf_destroy(unsigned fifo) {
    return gate_1(FUNCTION_RTF_DESTROY, fifo);
}

/* 13: EBX a FIFO, ECX the place of EDX bytes, at most 256, all of which go in, or none. The answer is how many; -EINVAL for more than 256,
   else -ENODEV where the FIFO isn't there, else -ENOSPC where they don't all fit. A byte outside the real-time side is a fault. It
   calls no handler. */
static inline int rtf_put(unsigned fifo, const void *place, int count) {
    return gate_3(FUNCTION_RTF_PUT, fifo, (unsigned)place, (unsigned)count);
}

/* 14: EBX a FIFO, ECX a place for EDX bytes, at most 256, into which the first bytes of the FIFO go, as many as there are. The answer is how
   many; -EINVAL for more than 256, else -ENODEV where the FIFO isn't there. A byte outside the real-time side is a fault. It calls no
   handler. */
static inline int rtf_get(unsigned fifo, void *place, int count) {
    return gate_3(FUNCTION_RTF_GET, fifo, (unsigned)place, (unsigned)count);
}

/* 15: EBX a FIFO, whose bytes are dropped. 0, or -ENODEV where it isn't there. */
static inline int rtf_flush(unsigned fifo) {
    return gate_1(FUNCTION_RTF_FLUSH, fifo);
}

/* 16: EBX a FIFO, ECX the entry of its handler, which starts when the guest has put or got some bytes; a null pointer takes the handler
   away. 0, or -ENODEV where the FIFO isn't there. Nobody reads what a handler answers. */
static inline int rtf_create_handler(unsigned fifo, fifo_entry handler) {
    return gate_2(FUNCTION_RTF_CREATE_HANDLER, fifo, (unsigned)handler);
}

/* 17: EBX a FIFO. How many bytes wait in it, or -ENODEV where it isn't there. */
static inline int rtf_count(unsigned fifo) {
    return gate_1(FUNCTION_RTF_COUNT, fifo);
}

/* Interrupt lines 1, 3 (COM2) and 5 to 15, and the soft lines 16 to 31 of the guest. */

/* 18: EBX a line, ECX the entry of its handler: the line is the module's. 0; -EINVAL where it is no line for a module, else -EBUSY where it is
   held already. The executive acknowledges the controllers, so nothing has to be enabled again, and nobody reads what a handler answers. */
static inline int rtl_request_irq(unsigned irq, line_entry handler) {
    return gate_2(FUNCTION_RTL_REQUEST_IRQ, irq, (unsigned)handler);
}

/* 19: EBX a line that a module holds, which is the guest's again; line 3 is nobody's. 0, or -EINVAL where no module holds it. */
static inline int rtl_free_irq(unsigned irq) {
    return gate_1(FUNCTION_RTL_FREE_IRQ, irq);
}

/* 20: the lowest soft line that is free, 16 to 31, or -EBUSY where there is none. RTLinux's handler of a soft line runs in Linux, and here it is
   the guest's own, at vector 32 + line; so neither argument is read. */
static inline int rtl_get_soft_irq(void (*handler)(int irq, void *device, struct pt_regs *regs), const char *name) {
    (void)handler;
    (void)name;
    return gate_0(FUNCTION_RTL_GET_SOFT_IRQ);
}

/* 21: EBX a soft line, which is free again. 0, or -EINVAL where it isn't taken. */
static inline int rtl_free_soft_irq(unsigned irq) {
    return gate_1(FUNCTION_RTL_FREE_SOFT_IRQ, irq);
}

/* 22: EBX a line of 0 to 15, or a soft line that is taken: it is marked for the guest, which enters it at vector 32 + line when it next has the
   processor and its flag and mask let it. 0, or -EINVAL for another line. */
static inline int rtl_global_pend_irq(int irq) {
    return gate_1(FUNCTION_RTL_GLOBAL_PEND_IRQ, (unsigned)irq);
}

#endif
