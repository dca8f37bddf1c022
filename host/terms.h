// Terms that both ends use: runs of bytes, suites of algorithms, measured components.
#ifndef TERMS_H
#define TERMS_H

#include <stdbool.h>
#include <stddef.h>
#include <stdint.h>

enum {
    MESSAGE_LIMIT = 4608,
    CHAIN_LIMIT = 16384,
    CHAIN_ROOM = CHAIN_LIMIT + 16, // more, so that a chain can be too long
    DIGEST_LIMIT = 64,
    SIGNATURE_LIMIT = 512,
    NONCE_SIZE = 32,
    PREFIX_SIZE = 100,
};

// SPDM's editions, by their messages' version byte. GET_VERSION and VERSION, which come before the choice, have 0x10.
enum { EDITION_1_1 = 0x11, EDITION_1_2 = 0x12 };

// SPDM's codes: requests, then answers.
enum {
    GET_DIGESTS = 0x81,
    GET_CERTIFICATE = 0x82,
    CHALLENGE = 0x83,
    GET_VERSION = 0x84,
    GET_MEASUREMENTS = 0xE0,
    GET_CAPABILITIES = 0xE1,
    NEGOTIATE_ALGORITHMS = 0xE3,
    DIGESTS = 0x01,
    CERTIFICATE = 0x02,
    CHALLENGE_AUTH = 0x03,
    VERSION = 0x04,
    MEASUREMENTS = 0x60,
    CAPABILITIES = 0x61,
    ALGORITHMS = 0x63,
    ERROR = 0x7F,
};

struct bytes {
    const uint8_t *at;
    size_t length;
};

// A hash and a signature algorithm. The numbers are bits of BaseHashAlgo and BaseAsymAlgo.
struct suite {
    const char *name;
    const char *hash;
    const char *curve;
    uint8_t hash_number;
    uint8_t signature_number;
    size_t digest_size;
    size_t signature_size;
};

// A measured part of the box: what the panel knows of it, and what the image states.
struct component {
    uint8_t index;
    uint8_t type;
    bool in_tcb;
    const char *content;
};

// A certificate chain in SPDM's format: length, reserved, root hash, certificates.
struct chain {
    size_t length;
    uint8_t bytes[CHAIN_ROOM];
};

// An edition as people write it.
const char *edition_text(uint8_t edition);
// Of the two editions the other one.
uint8_t other_edition(uint8_t edition);

// The suite with these numbers, or NULL.
const struct suite *suite_by_numbers(unsigned hash_number, unsigned signature_number);

// The digest of some parts, one after the other.
bool digest_of(const struct suite *suite, const struct bytes *parts, size_t count, uint8_t *digest);

struct bytes text_bytes(const char *text);
struct bytes chain_bytes(const struct chain *chain);
bool same_bytes(struct bytes x, struct bytes y);

unsigned read_16(const uint8_t *at);
uint32_t read_32(const uint8_t *at);
void write_16(uint8_t *at, unsigned value);
void write_32(uint8_t *at, uint32_t value);

#endif
