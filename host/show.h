// Prints a conversation so that a person can follow it, and the outcome of checks.
#ifndef SHOW_H
#define SHOW_H

#include "terms.h"

struct show {
    bool quiet;
    const struct suite *suite;
    unsigned reads;
    unsigned skipped;
    unsigned checks;
    unsigned wrong;
};

void show_title(const struct show *show, const char *title);
void show_note(const struct show *show, const char *format, ...) __attribute__((format(printf, 2, 3)));

// One request and its answer. Of many portions of a chain the first two and the last are printed.
void show_exchange(struct show *show, struct bytes request, struct bytes answer);

// What an attack or a fault is made of; always printed, before its check.
void show_bytes(const char *what, struct bytes run);
// A message whose byte at `offset` was `before`.
void show_change(struct bytes message, size_t offset, uint8_t before);

// A named check. Its line is always printed.
void show_check(struct show *show, bool good, const char *format, ...) __attribute__((format(printf, 3, 4)));

// The last line. Gives the exit status.
int show_end(const struct show *show);

#endif
