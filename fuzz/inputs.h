// What a call is given: the input's bytes choose images, requests, lengths and states.
#ifndef INPUTS_H
#define INPUTS_H

#include <stdbool.h>
#include <stddef.h>
#include <stdint.h>

enum {
    IMAGE_ROOM = 65536,
    TRANSCRIPT_ROOM = 40960,
    ANSWER_ROOM = 8192,
    REQUEST_ROOM = 8192,
    SMALL_ROOM = 4096,
    WORDS_ROOM = 16,
};

// The words of the state.
enum { PHASE, PEER, SELECTION, A, B, M, AWAITED, ANSWER, EDITION, STATE_WORDS };

// The editions, which are version bytes too.
enum { EDITION_1_1 = 0x11, EDITION_1_2 = 0x12 };

// The input, read from its start. Past its end it gives 0.
struct feed {
    const uint8_t *at;
    size_t left;
};

// Everything that a host holds, and what one call lends.
struct world {
    size_t image_length, words, answer_length, transcript_length, request_length, nonce_length, signature_length;
    uint8_t image[IMAGE_ROOM];
    uint32_t state[WORDS_ROOM];
    uint8_t transcript[TRANSCRIPT_ROOM];
    uint8_t answer[ANSWER_ROOM];
    uint8_t request[REQUEST_ROOM];
    uint8_t nonce[SMALL_ROOM];
    uint8_t signature[SMALL_ROOM];
    uint32_t chip_ok;
    uint8_t prefix[SMALL_ROOM];
    size_t prefix_length;
    uint32_t parts[WORDS_ROOM];
    size_t parts_length;
    uint32_t algorithms[WORDS_ROOM];
    size_t algorithms_length;
};

// The next byte of the input, or the next two.
unsigned next(struct feed *feed);
unsigned next_16(struct feed *feed);

// An image: a good one, a bad one, one of the input's own shape, or bytes of the input.
void choose_image(struct world *world, struct feed *feed);
// A byte changed, the end cut or lengthened, a byte taken out, or one record damaged.
void damage_image(struct world *world, struct feed *feed);

// Kinds of request: the seven served ones in the order of a conversation, then any bytes.
enum { VERSION, CAPABILITIES, ALGORITHMS, DIGESTS, CERTIFICATE, CHALLENGE, MEASUREMENTS, ANY_BYTES };

// A request of the edition that the state has; GET_CAPABILITIES of either.
void write_request(struct world *world, struct feed *feed, unsigned kind);
// GET_CERTIFICATE for slot 0.
void write_read(struct world *world, unsigned offset, unsigned length);
// Now and then the version byte, another byte, the length, pad bytes, or a length near the limit.
void damage_request(struct world *world, struct feed *feed);

// Right lengths for every buffer, or now and then others.
void choose_lengths(struct world *world, struct feed *feed);
void right_lengths(struct world *world);

// Any word of the state changed.
void poke_state(struct world *world, struct feed *feed);
// A state in phase 3, of either edition, with counts near their limits, in bounds for most images.
void full_state(struct world *world, struct feed *feed);
// A state of any phase, edition and size, in bounds or out of them in a word or two.
void mix_state(struct world *world, struct feed *feed);
// Most times a fresh state and an accepted image, so that the list gets somewhere after damage.
void repair(struct world *world, struct feed *feed);

#endif
