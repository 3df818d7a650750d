/* The depot's small town and a request in it, as records. */
#include <stdint.h>

/* 5 nodes and 8 links: from, to, drive, walk; 0xFFFF is closed. */
static const uint8_t town[73] = {
    1, 0, 0, 0, 73, 0, 5, 0, 8,
    0, 0, 0, 1, 0, 3, 0, 9,
    0, 1, 0, 3, 0, 3, 0, 9,
    0, 0, 0, 2, 0, 5, 0xFF, 0xFF,
    0, 2, 0, 3, 0, 4, 0, 9,
    0, 4, 0, 1, 0xFF, 0xFF, 0, 2,
    0, 4, 0, 2, 0, 1, 0, 6,
    0, 1, 0, 4, 0xFF, 0xFF, 0, 2,
    0, 2, 0, 4, 0, 1, 0, 6,
};

/* From node 0 to node 3 at bus weight 1, with one rider at node 4 who weighs 1. */
static const uint8_t rider_at_4[12] = {1, 0, 12, 0, 0, 0, 3, 1, 1, 0, 4, 1};
