/* What the computation gives, in the order of the registers EAX, ECX, EDX, EBX, ESI and EDI. */
struct results {
    unsigned moves;
    unsigned checksum;
    unsigned median;
    unsigned quotient_low;
    unsigned quotient_high;
    unsigned remainder;
};

void compute(struct results *out);
