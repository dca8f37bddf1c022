// A key chip in software, and the maker who certifies chips.
#ifndef CHIP_H
#define CHIP_H

#include "terms.h"

#include <openssl/evp.h>
#include <openssl/x509.h>

// One chip holds one private key, which never leaves it.
struct chip {
    const struct suite *suite;
    EVP_PKEY *key;
};

enum { AUTHORITY_LIMIT = 4 };

// A maker has a self-signed root certificate, and may have authorities under it, each certified by the one before. The
// key is the last one's.
struct maker {
    const struct suite *suite;
    EVP_PKEY *key;
    X509 *authorities[AUTHORITY_LIMIT];
    size_t authority_count;
    uint8_t root_digest[DIGEST_LIMIT];
};

bool chip_start(struct chip *chip, const struct suite *suite);
void chip_end(struct chip *chip);

// Signs the prefix followed by the digest of the transcript's two parts; without a prefix, as under 1.1, that digest
// alone, which is not hashed again. The signature is r, then s.
bool chip_sign(const struct chip *chip, struct bytes prefix, struct bytes first, struct bytes second,
    uint8_t *signature);

bool maker_start(struct maker *maker, const struct suite *suite, const char *name);
void maker_end(struct maker *maker);

// A new authority, which signs from now on. Its certificate carries a statement of some bytes.
bool maker_delegate(struct maker *maker, const char *name, size_t statement);

// Writes the chain of the maker's root, his authorities and a new leaf certificate for the chip's key.
bool maker_certify(const struct maker *maker, const struct chip *chip, const char *name, struct chain *chain);
// The same with a statement in the leaf that makes the chain so long.
bool maker_certify_to(const struct maker *maker, const struct chip *chip, const char *name, size_t length,
    struct chain *chain);

#endif
