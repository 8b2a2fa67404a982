/* Calls each function of module.h with what it takes and with what it refuses, and says for each call `.` where the answer is the one that RTLinux,
   POSIX and the header name, or its source line. From the init, from a thread, and from a thread that those made. */
#include "com2.h"
#include "module.h"

enum { CALLER_PRIORITY = 50, HELPER_PRIORITY = 60, START = 5000, PERIOD = 500 };
enum { FIFO = 5, SIZE = 8, NO_FIFO = 6, LINE = 7, NO_LINE = 2, NO_THREAD = 63, TOO_MANY = CALL_BYTES + 1 };

STACK(caller_stack, 1024);
STACK(helper_stack, 1024);

static pthread_t caller_thread, helper_thread;
static volatile unsigned turns;

static void wants(int line, int got, int wanted) {
    if (got == wanted) {
        rtl_print(".", 1);
    } else {
        rtl_printf("line %d: %d, not %d\n", line, got, wanted);
    }
}

#define WANT(call, answer) wants(__LINE__, (call), (answer))

static ENTRY unsigned on_line(unsigned irq, struct pt_regs *regs) {
    WANT((int)irq, LINE);
    WANT(regs == NULL, 1);
    return 0;
}

static ENTRY int on_fifo(unsigned fifo) {
    (void)fifo;
    return 0;
}

/* More urgent than its maker, so it is on before that knows its number. It suspends itself twice. */
static ENTRY void *helper(void *argument) {
    WANT((int)(unsigned)argument, 1234);
    for (turns = 1; turns < 3; turns++) {
        WANT(pthread_suspend_np(pthread_self()), 0);
    }
    pthread_exit(NULL);
    return NULL;
}

static void call_threads(void) {
    struct sched_param param = {HELPER_PRIORITY};
    int policy = 0;
    WANT(pthread_create(&helper_thread, NULL, helper, NULL), EINVAL);
    WANT(pthread_create(&helper_thread, WITH(helper_stack, PRIORITIES), helper, NULL), EINVAL);
    WANT(pthread_create(&helper_thread, WITH(helper_stack, HELPER_PRIORITY), helper, (void *)1234), 0);
    WANT((int)turns, 1);
    WANT(pthread_getprio(helper_thread), HELPER_PRIORITY);
    WANT(pthread_wakeup_np(helper_thread), 0);
    WANT((int)turns, 2);
    WANT(pthread_setprio(helper_thread, CALLER_PRIORITY - 1), 0);
    WANT(pthread_wakeup_np(helper_thread), 0);
    WANT((int)turns, 2);
    WANT(pthread_setschedparam(helper_thread, SCHED_FIFO, &param), 0);
    WANT((int)turns, 3);
    WANT(pthread_delete_np(helper_thread), EINVAL);
    WANT(pthread_wakeup_np(helper_thread), EINVAL);
    WANT(pthread_suspend_np(NO_THREAD), EINVAL);
    WANT(pthread_setprio(NO_THREAD, 0), EINVAL);
    WANT(pthread_getprio(NO_THREAD), -EINVAL);
    WANT(pthread_setschedparam(caller_thread, SCHED_FIFO + 1, &param), EINVAL);
    WANT(pthread_getschedparam(NO_THREAD, &policy, &param), EINVAL);
    WANT(pthread_getschedparam(caller_thread, &policy, &param), 0);
    WANT(policy, SCHED_FIFO);
    WANT(param.sched_priority, CALLER_PRIORITY);
    WANT(sched_get_priority_max(SCHED_FIFO), PRIORITIES - 1);
    WANT(sched_get_priority_min(SCHED_FIFO), 0);
}

/* POSIX's way to a thread's attributes; it is deleted before it has run. */
static void call_attributes(void) {
    pthread_attr_t attributes;
    struct sched_param param = {CALLER_PRIORITY - 1};
    WANT(pthread_attr_init(&attributes), 0);
    WANT(pthread_create(&helper_thread, &attributes, helper, NULL), EINVAL);
    WANT(pthread_attr_setstackaddr(&attributes, helper_stack), 0);
    WANT(pthread_attr_setstacksize(&attributes, sizeof helper_stack), 0);
    WANT(pthread_attr_setschedparam(&attributes, &param), 0);
    WANT(pthread_create(&helper_thread, &attributes, helper, NULL), 0);
    WANT(pthread_getprio(helper_thread), CALLER_PRIORITY - 1);
    WANT(pthread_delete_np(helper_thread), 0);
    WANT(pthread_attr_setstack(&attributes, helper_stack, 2), 0);
}

static void call_times(void) {
    hrtime_t before = gethrtime();
    WANT(nanosleep(&(struct timespec){.tv_ticks = 100}, NULL), 0);
    hrtime_t slept = gethrtime() - before;
    WANT(100 < slept && slept < 150, 1);
    WANT(nanosleep(&(struct timespec){.tv_ticks = 0}, NULL), EINVAL);
    WANT(nanosleep(&(struct timespec){.tv_ticks = LONGEST + 1}, NULL), EINVAL);
    WANT(pthread_make_periodic_np(NO_THREAD, START, PERIOD), EINVAL);
    WANT(pthread_make_periodic_np(pthread_self(), START, 0), EINVAL);
    WANT(pthread_wait_np(), EINVAL);
    WANT(pthread_make_periodic_np(pthread_self(), START, PERIOD), 0);
    WANT(gethrtime() - START < 50, 1);
    WANT(pthread_wait_np(), 0);
    WANT(gethrtime() - (START + PERIOD) < 50, 1);
}

static void call_fifos(void) {
    char some[SIZE] = "abcdefgh";
    char got[2 * SIZE];
    WANT(rtf_create(FIFOS, SIZE), -EINVAL);
    WANT(rtf_create(FIFO, FIFO_SIZE + 1), -EINVAL);
    WANT(rtf_create(FIFO, SIZE), 0);
    WANT(rtf_create(FIFO, SIZE), -EBUSY);
    WANT(rtf_put(NO_FIFO, some, 1), -ENODEV);
    WANT(rtf_put(FIFO, some, TOO_MANY), -EINVAL);
    WANT(rtf_put(FIFO, some, 6), 6);
    WANT(rtf_put(FIFO, some, 3), -ENOSPC);
    WANT(rtf_count(FIFO), 6);
    WANT(rtf_get(FIFO, got, 4), 4);
    WANT(got[3], 'd');
    WANT(rtf_get(FIFO, got, sizeof got), 2);
    WANT(got[1], 'f');
    WANT(rtf_get(NO_FIFO, got, 1), -ENODEV);
    WANT(rtf_put(FIFO, some, SIZE), SIZE);
    WANT(rtf_flush(FIFO), 0);
    WANT(rtf_count(FIFO), 0);
    WANT(rtf_flush(NO_FIFO), -ENODEV);
    WANT(rtf_count(NO_FIFO), -ENODEV);
    WANT(rtf_create_handler(NO_FIFO, on_fifo), -ENODEV);
    WANT(rtf_create_handler(FIFO, on_fifo), 0);
    WANT(rtf_create_handler(FIFO, NULL), 0);
    WANT(rtf_destroy(FIFO), 0);
    WANT(rtf_destroy(FIFO), -ENODEV);
}

static void call_lines(void) {
    WANT(rtl_request_irq(NO_LINE, on_line), -EINVAL);
    WANT(rtl_request_irq(LINE, on_line), 0);
    WANT(rtl_request_irq(LINE, on_line), -EBUSY);
    /* The script raises it meanwhile. */
    WANT(nanosleep(&(struct timespec){.tv_ticks = 1000}, NULL), 0);
    WANT(rtl_free_irq(LINE), 0);
    WANT(rtl_free_irq(LINE), -EINVAL);
    WANT(rtl_get_soft_irq(NULL, NULL), 16);
    WANT(rtl_get_soft_irq(NULL, NULL), 17);
    WANT(rtl_global_pend_irq(17), 0);
    WANT(rtl_free_soft_irq(17), 0);
    WANT(rtl_free_soft_irq(17), -EINVAL);
    WANT(rtl_global_pend_irq(17), -EINVAL);
}

static void call_others(void) {
    rtl_irqstate_t state;
    rtl_no_interrupts(state);
    hrtime_t before = gethrtime();
    WANT((int)(state >> 9 & 1), 1);
    rtl_restore_interrupts(state);
    WANT(gethrtime() > before, 1);
    WANT(rtl_print("", 0), 0);
    WANT(rtl_print("x", TOO_MANY), -EINVAL);
    WANT(rtl_printf("%d %u %x %c %s %%\n", -2147483647 - 1, 4294967295u, 0x1234abcd, 'c', "text"), 0);
    com2_send('!');
    WANT(com2_can_send() != 0, 1);
    WANT(com2_received(), 0);
}

static ENTRY void *caller(void *argument) {
    (void)argument;
    WANT(pthread_self(), caller_thread);
    call_threads();
    call_attributes();
    call_times();
    call_fifos();
    call_lines();
    call_others();
    rtl_printf("%s\n", "through");
    return NULL;
}

int init_module(void) {
    WANT(pthread_self(), -EINVAL);
    WANT(pthread_wait_np(), EINVAL);
    WANT(nanosleep(&(struct timespec){.tv_ticks = 1}, NULL), EINVAL);
    WANT((int)gethrtime() > 0, 1);
    return -pthread_create(&caller_thread, WITH(caller_stack, CALLER_PRIORITY), caller, NULL);
}
