// The box's host: builds the provisioning image, lends buffers to the library, has the chip sign.
#ifndef BOX_H
#define BOX_H

#include "chip.h"
#include "terms.h"

enum {
    IMAGE_LIMIT = 61440,
    IMAGE_ROOM = IMAGE_LIMIT + 1, // more, so that an image can be too long
    TRANSCRIPT_SIZE = 36864,
    B_LIMIT = 28672,
    STATE_WORDS = 9,
    CT_EXPONENT = 14,
};

// What the chip does when it is asked to sign. The last two are a mistaken host's, who lets it sign with the prefix,
// or over the parts, of the edition that was not chosen.
enum chip_conduct { SIGNS, FAILS, SIGNS_SHORT, TAKES_ITS_TIME, SIGNS_OTHER_PREFIX, SIGNS_OTHER_PARTS };

// An awaited answer stays in `answer` until it is finished; answers in the meantime are written to `meantime`.
struct box {
    const struct chip *chip;
    enum chip_conduct conduct;
    size_t image_length;
    uint8_t image[IMAGE_ROOM];
    uint32_t state[STATE_WORDS];
    uint8_t transcript[TRANSCRIPT_SIZE];
    uint8_t answer[MESSAGE_LIMIT];
    uint8_t meantime[MESSAGE_LIMIT];
    uint32_t number;
};

// A chain and the slot that it is provisioned in.
struct slot {
    uint8_t number;
    const struct chain *chain;
};

// What an image is built from.
struct provision {
    const struct suite *suite;
    const struct slot *slots;
    size_t slot_count;
    const struct component *components;
    size_t component_count;
};

// Makes a fresh box with its image.
bool box_make(struct box *box, const struct chip *chip, const struct provision *provision);

// One request in, one answer out: the library's calls in their order, the chip between them.
// Gives the answer's length; 0 if the library gave a number, which box->number then holds, or the chip takes its time.
size_t box_exchange(void *box, struct bytes request, uint8_t *answer, size_t room);

// The chip is done: the awaited answer, finished.
size_t box_deliver(struct box *box, uint8_t *answer, size_t room);

#endif
