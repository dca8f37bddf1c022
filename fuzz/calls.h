// Calls of the library, every buffer in a pen of its exact length, each held to the rules and to the plain responder.
// A finding is printed and stops the process.
#ifndef CALLS_H
#define CALLS_H

#include "inputs.h"
#include "pen.h"

// Counts of what was met, for the last line of the driver; `older` are the answers on connections of 1.1, and the last
// three those that only longer chains bring about.
struct counts {
    unsigned long inputs, calls, numbers, errors, accepted, finished, older;
    unsigned long large_image, late_read, long_b;
};

struct pens {
    struct pen image, state, transcript, answer, request, nonce, signature, prefix, parts, algorithms;
    struct pen fixed_state, fixed_transcript;
};

struct driver {
    bool ready;
    struct pens pens;
    struct world world, before, plain;
    struct counts counts;
};

// One driver lives as long as the process: libFuzzer calls without an argument of ours.
struct driver *the_driver(void);

// One call with what the world holds; `places` says where each buffer stands.
void call_respond(struct driver *driver, unsigned places);
void call_finish(struct driver *driver, unsigned places);
void call_to_sign(struct driver *driver, unsigned places);
void call_read_image(struct driver *driver, unsigned places);
void call_image_algorithms(struct driver *driver, unsigned places);

#endif
