// A host that signs, written from docs/HOST.md: signing_host IMAGE KEY.pem
// Each line of standard input is a request in hex, each line of standard output its answer.
// For images with an ECDSA signature; KEY.pem is the leaves' key, in a box the chip's. Of it only the size is tested.
#define _POSIX_C_SOURCE 200809L // getline
#include "spdm_responder.h"

#include <openssl/bn.h>
#include <openssl/ecdsa.h>
#include <openssl/evp.h>
#include <openssl/pem.h>
#include <openssl/rand.h>
#include <stdbool.h>
#include <stdio.h>
#include <string.h>

static uint8_t image[SPDM_IMAGE_MAX + 1]; // one byte more, so that too long an image is seen to be
static size_t image_len;
static uint32_t algorithms[SPDM_ALGORITHMS_WORDS];
static const EVP_MD *hash;
static EVP_PKEY *key;
static uint32_t number; // the library's, where one was given

// One connection. An answer is finished before the next request is read, so one buffer is enough.
static uint32_t state[SPDM_STATE_WORDS];
static uint8_t transcript[SPDM_TRANSCRIPT_MIN], answer[SPDM_ANSWER_MIN];

// OpenSSL's signature is DER of r and s; SPDM's is both at full width.
static bool plain_signature(const uint8_t *der, size_t der_len, uint8_t *signature)
{
    const int half = (int)algorithms[SPDM_ALGORITHMS_SIGNATURE_SIZE] / 2;
    ECDSA_SIG *pair = d2i_ECDSA_SIG(NULL, &der, (long)der_len);
    const bool good = pair && BN_bn2binpad(ECDSA_SIG_get0_r(pair), signature, half) == half
        && BN_bn2binpad(ECDSA_SIG_get0_s(pair), signature + half, half) == half;
    ECDSA_SIG_free(pair);
    return good;
}

// The hash of some bytes followed by others.
static bool hash_both(const uint8_t *first, size_t first_len, const uint8_t *second, size_t second_len, uint8_t *digest)
{
    EVP_MD_CTX *hasher = EVP_MD_CTX_new();
    const bool good = hasher && EVP_DigestInit_ex(hasher, hash, NULL) == 1
        && EVP_DigestUpdate(hasher, first, first_len) == 1 && EVP_DigestUpdate(hasher, second, second_len) == 1
        && EVP_DigestFinal_ex(hasher, digest, NULL) == 1;
    EVP_MD_CTX_free(hasher);
    return good;
}

// The chip's part, steps 4 and 5: sign the prefix, if there is one, followed by the hash of both parts.
static bool sign(uint8_t *signature)
{
    uint8_t prefix[SPDM_PREFIX_LEN], digest[SPDM_HASH_MAX], der[256];
    uint32_t parts[SPDM_PARTS_WORDS];
    const size_t digest_len = algorithms[SPDM_ALGORITHMS_HASH_SIZE];
    size_t der_len = sizeof der;
    const uint32_t r = spdm_to_sign(state, SPDM_STATE_WORDS, prefix, sizeof prefix, parts, SPDM_PARTS_WORDS);
    if (SPDM_NUMBER(r) != 0)
        return false;
    const uint8_t *first = transcript + parts[SPDM_PARTS_FIRST_OFFSET];
    const uint8_t *second = transcript + parts[SPDM_PARTS_SECOND_OFFSET];
    bool good = hash_both(first, parts[SPDM_PARTS_FIRST_LENGTH], second, parts[SPDM_PARTS_SECOND_LENGTH], digest);
    if (SPDM_LENGTH(r) != 0) // 100; under 1.1 it is 0, and the hash is signed as it is
        good = good && hash_both(prefix, SPDM_LENGTH(r), digest, digest_len, digest);
    EVP_PKEY_CTX *signer = EVP_PKEY_CTX_new(key, NULL);
    good = good && signer && EVP_PKEY_sign_init(signer) == 1
        && EVP_PKEY_sign(signer, der, &der_len, digest, digest_len) == 1 && plain_signature(der, der_len, signature);
    EVP_PKEY_CTX_free(signer);
    return good;
}

static uint32_t finish(bool chip_ok, const uint8_t *signature, size_t signature_len)
{
    return spdm_finish(image, image_len, state, SPDM_STATE_WORDS, transcript, sizeof transcript,
                       answer, sizeof answer, chip_ok, signature, signature_len);
}

// Steps 3 to 6: gives the result of the last call.
static uint32_t respond(const uint8_t *request, size_t request_len)
{
    uint8_t nonce[SPDM_NONCE_LEN], signature[SPDM_SIGNATURE_MAX] = {0};
    const size_t drawn = RAND_bytes(nonce, sizeof nonce) == 1 ? sizeof nonce : 0; // with no nonce the call gives 13
    uint32_t r = spdm_respond(image, image_len, state, SPDM_STATE_WORDS, transcript, sizeof transcript,
                              answer, sizeof answer, request, request_len, nonce, drawn);
    if (SPDM_NUMBER(r) != 0 || state[SPDM_STATE_AWAITED] == 0 || answer[1] == SPDM_ERROR)
        return r;
    r = finish(sign(signature), signature, algorithms[SPDM_ALGORITHMS_SIGNATURE_SIZE]);
    return SPDM_NUMBER(r) == SPDM_WRONG_SIGNATURE ? finish(false, NULL, 0) : r;
}

// Step 1, which also tells the hash. Says what is wrong.
static const char *start(const char *image_path, const char *key_path)
{
    static const char *const hashes[] = {"SHA256", "SHA384", "SHA512", "SHA3-256", "SHA3-384", "SHA3-512"};
    FILE *file = fopen(image_path, "rb");
    if (!file)
        return "the image cannot be read";
    image_len = fread(image, 1, sizeof image, file);
    fclose(file);
    BIO *pem = BIO_new_file(key_path, "r");
    key = pem ? PEM_read_bio_PrivateKey(pem, NULL, NULL, NULL) : NULL;
    BIO_free(pem);
    if ((number = SPDM_NUMBER(spdm_image_algorithms(image, image_len, algorithms, SPDM_ALGORITHMS_WORDS))) != 0)
        return "the image is refused";
    hash = EVP_get_digestbyname(hashes[algorithms[SPDM_ALGORITHMS_HASH]]);
    const int half = (int)algorithms[SPDM_ALGORITHMS_SIGNATURE_SIZE] / 2;
    const bool fits = key && EVP_PKEY_id(key) == EVP_PKEY_EC && (EVP_PKEY_bits(key) + 7) / 8 == half;
    return !hash ? "no such hash" : !fits ? "no key, or none of the image's signature" : NULL;
}

int main(int count, char **words)
{
    static char *line;
    static size_t room;
    const char *wrong = count == 3 ? start(words[1], words[2]) : "usage: signing_host IMAGE KEY.pem <REQUESTS";
    while (!wrong && getline(&line, &room, stdin) > 0) {
        long length = 0;
        line[strcspn(line, "\r\n")] = '\0';
        uint8_t *request = line[0] ? OPENSSL_hexstr2buf(line, &length) : OPENSSL_zalloc(1); // no byte: a request too
        const uint32_t r = request ? respond(request, (size_t)length) : 0;
        if (!request || (number = SPDM_NUMBER(r)) != 0)
            wrong = request ? "a call was refused (13: no random bytes)" : "a line that is no bytes in hex";
        for (uint32_t i = 0; i < SPDM_LENGTH(r); i++)
            printf("%02x%s", answer[i], i + 1 < SPDM_LENGTH(r) ? "" : "\n");
        fflush(stdout);
        OPENSSL_free(request);
    }
    return wrong ? fprintf(stderr, "signing_host: %s, number %u\n", wrong, (unsigned)number), 1 : ferror(stdin) != 0;
}
