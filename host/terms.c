#include "terms.h"

#include <openssl/evp.h>
#include <string.h>

const char *edition_text(uint8_t edition)
{
    static const char *const texts[] = {"1.0", "1.1", "1.2", "1.3"};
    return edition >= 0x10 && edition <= 0x13 ? texts[edition - 0x10] : "(none of SPDM's)";
}

uint8_t other_edition(uint8_t edition)
{
    return edition == EDITION_1_1 ? EDITION_1_2 : EDITION_1_1;
}

const struct suite *suite_by_numbers(unsigned hash_number, unsigned signature_number)
{
    static const struct suite suites[] = {
        {"P-256 with SHA-256", "SHA256", "P-256", 0, 4, 32, 64},
        {"P-384 with SHA-384", "SHA384", "P-384", 1, 7, 48, 96},
        {"P-384 with SHA-512", "SHA512", "P-384", 2, 7, 64, 96},
    };
    for (size_t i = 0; i < sizeof suites / sizeof suites[0]; i++)
        if (suites[i].hash_number == hash_number && suites[i].signature_number == signature_number)
            return &suites[i];
    return NULL;
}

bool digest_of(const struct suite *suite, const struct bytes *parts, size_t count, uint8_t *digest)
{
    EVP_MD_CTX *context = EVP_MD_CTX_new();
    bool good = context && EVP_DigestInit_ex(context, EVP_get_digestbyname(suite->hash), NULL) == 1;
    for (size_t i = 0; good && i < count; i++)
        good = EVP_DigestUpdate(context, parts[i].at, parts[i].length) == 1;
    good = good && EVP_DigestFinal_ex(context, digest, NULL) == 1;
    EVP_MD_CTX_free(context);
    return good;
}

struct bytes text_bytes(const char *text)
{
    return (struct bytes){(const uint8_t *)text, strlen(text)};
}

struct bytes chain_bytes(const struct chain *chain)
{
    return (struct bytes){chain->bytes, chain->length};
}

bool same_bytes(struct bytes x, struct bytes y)
{
    return x.length == y.length && memcmp(x.at, y.at, x.length) == 0;
}

unsigned read_16(const uint8_t *at)
{
    return at[0] | (unsigned)at[1] << 8;
}

uint32_t read_32(const uint8_t *at)
{
    return read_16(at) | (uint32_t)read_16(at + 2) << 16;
}

void write_16(uint8_t *at, unsigned value)
{
    at[0] = (uint8_t)value;
    at[1] = (uint8_t)(value >> 8);
}

void write_32(uint8_t *at, uint32_t value)
{
    write_16(at, value & 0xFFFF);
    write_16(at + 2, value >> 16);
}
