/* The sizes and limits of the rules, for every side: C and C++. */
#ifndef SIZES_H
#define SIZES_H

enum {
    HEAPS = 8,
    RANKS = 17,
    HEAP_WORDS = 5 * HEAPS,
    ITEM_WORDS = 8,
    MODEM_ITEMS = 256,
    MAX_ITEMS = 4096,
    MAX_BYTES = 60000,
    MAX_LINES = 2000,
    LINE_ROOM = 32,
    REFUSED_RUN = 100000,
    MAX_PLACES = 4096,
    MAX_SPANS = 16384,
    MAX_LOSS = 1000000,
    MINUTES = 1440
};

#endif
