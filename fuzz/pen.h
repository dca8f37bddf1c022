// Memory to lend: a buffer of an exact length, next to pages that fault when touched.
#ifndef PEN_H
#define PEN_H

#include <stdbool.h>
#include <stddef.h>
#include <stdint.h>

enum { PEN_PAGE = 4096 };

// Where a buffer stands: its end at a guard page, its start at one, or a block of malloc's.
enum place { AT_END, AT_START, ON_HEAP };

struct pen {
    uint8_t *written;
    uint8_t *viewed;
    size_t room;
    enum place place;
    size_t offset;
    size_t length;
    uint8_t *block;
};

// Makes a pen of some pages. A read-only one lends a view that can't be written.
void pen_open(struct pen *pen, size_t pages, bool read_only);

// Fills a buffer with these bytes and gives the address to lend; of an empty one a guard page's, NULL or the heap's.
void *pen_lend(struct pen *pen, enum place place, const void *bytes, size_t length);

// Takes the buffer back: copies it to `bytes`. False if a byte beside it changed.
bool pen_take(struct pen *pen, void *bytes);

#endif
