#define _GNU_SOURCE
#include "pen.h"

#include <stdio.h>
#include <stdlib.h>
#include <string.h>
#include <sys/mman.h>
#include <unistd.h>

enum { MARGIN = 256, CANARY = 0xC9 };

static void stop(const char *what)
{
    perror(what);
    exit(2);
}

// Maps the file with a guard page before and after; gives the address after the first guard.
static uint8_t *map_guarded(int file, size_t room, int protection)
{
    uint8_t *base = mmap(NULL, room + 2 * PEN_PAGE, PROT_NONE, MAP_PRIVATE | MAP_ANONYMOUS, -1, 0);
    if (base == MAP_FAILED)
        stop("mmap");
    if (mmap(base + PEN_PAGE, room, protection, MAP_SHARED | MAP_FIXED, file, 0) == MAP_FAILED)
        stop("mmap");
    return base + PEN_PAGE;
}

void pen_open(struct pen *pen, size_t pages, bool read_only)
{
    const int file = memfd_create("pen", 0);
    pen->room = pages * PEN_PAGE;
    if (sysconf(_SC_PAGESIZE) != PEN_PAGE || file < 0 || ftruncate(file, (off_t)pen->room) != 0)
        stop("memfd_create");
    pen->written = map_guarded(file, pen->room, PROT_READ | PROT_WRITE);
    pen->viewed = read_only ? map_guarded(file, pen->room, PROT_READ) : pen->written;
    pen->block = NULL;
    close(file);
}

static size_t least(size_t x, size_t y)
{
    return x < y ? x : y;
}

// The bytes before the buffer and after it, as far as they are watched.
static size_t margin_before(const struct pen *pen)
{
    return least(MARGIN, pen->offset);
}

static size_t margin_after(const struct pen *pen)
{
    return least(MARGIN, pen->room - pen->offset - pen->length);
}

void *pen_lend(struct pen *pen, enum place place, const void *bytes, size_t length)
{
    if (length > pen->room)
        abort();
    pen->place = place;
    pen->length = length;
    if (place == ON_HEAP) {
        pen->block = malloc(length);
        if (!pen->block)
            stop("malloc");
        return length ? memcpy(pen->block, bytes, length) : pen->block;
    }
    pen->offset = place == AT_END ? pen->room - length : 0;
    uint8_t *at = pen->written + pen->offset;
    memset(at - margin_before(pen), CANARY, margin_before(pen));
    memset(at + length, CANARY, margin_after(pen));
    if (length)
        memcpy(at, bytes, length);
    return length == 0 && place == AT_START ? NULL : pen->viewed + pen->offset;
}

static bool is_canary(const uint8_t *at, size_t length)
{
    bool good = true;
    for (size_t i = 0; i < length; i++)
        good = good && at[i] == CANARY;
    return good;
}

bool pen_take(struct pen *pen, void *bytes)
{
    if (pen->place == ON_HEAP) {
        if (pen->length)
            memcpy(bytes, pen->block, pen->length);
        free(pen->block);
        pen->block = NULL;
        return true;
    }
    const uint8_t *at = pen->written + pen->offset;
    if (pen->length)
        memcpy(bytes, at, pen->length);
    return is_canary(at - margin_before(pen), margin_before(pen)) && is_canary(at + pen->length, margin_after(pen));
}
