/* Counts in EAX for as long as it has the processor: two ticks a step. */
int main(void) {
    unsigned counted = 0;
    for (;;) {
        __asm__ volatile("incl %0" : "+a"(counted));
    }
}
