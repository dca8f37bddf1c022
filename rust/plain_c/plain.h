// The plain responder, rust/src/plain.rs, from C: what every call of the library must come to.
#ifndef PLAIN_H
#define PLAIN_H

#include <stdint.h>

// S of an accepted image, 0 of any other.
uint64_t plain_signature_size(const uint8_t *image, uint64_t image_len);

// The calls of the library, with the same arguments and results. No pointer is null.
uint32_t plain_read_image(const uint8_t *image, uint64_t image_len);
uint32_t plain_image_algorithms(const uint8_t *image, uint64_t image_len, uint32_t *algorithms,
    uint64_t algorithms_len);
uint32_t plain_respond(const uint8_t *image, uint64_t image_len, uint32_t *state, uint64_t state_len,
    uint8_t *transcript, uint64_t transcript_len, uint8_t *answer, uint64_t answer_len, const uint8_t *request,
    uint64_t request_len, const uint8_t *nonce, uint64_t nonce_len);
uint32_t plain_finish(const uint8_t *image, uint64_t image_len, uint32_t *state, uint64_t state_len,
    uint8_t *transcript, uint64_t transcript_len, uint8_t *answer, uint64_t answer_len, uint32_t chip_ok,
    const uint8_t *signature, uint64_t signature_len);
uint32_t plain_to_sign(const uint32_t *state, uint64_t state_len, uint8_t *prefix, uint64_t prefix_len,
    uint32_t *parts, uint64_t parts_len);

#endif
