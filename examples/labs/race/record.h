/* A record of two words, which the thread puts into a FIFO and the guest gets. */
#ifndef RECORD_H
#define RECORD_H

enum { RECORDS = 0, RECORDS_SIZE = 256 };

struct record {
    unsigned turn, square;          /* of the turn's number */
};

#endif
