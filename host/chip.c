#include "chip.h"

#include <openssl/bn.h>
#include <openssl/ec.h>
#include <openssl/ecdsa.h>
#include <openssl/rand.h>
#include <openssl/x509v3.h>
#include <string.h>

static const EVP_MD *hash_of(const struct suite *suite)
{
    return EVP_get_digestbyname(suite->hash);
}

bool chip_start(struct chip *chip, const struct suite *suite)
{
    chip->suite = suite;
    chip->key = EVP_EC_gen(suite->curve);
    return chip->key != NULL;
}

void chip_end(struct chip *chip)
{
    EVP_PKEY_free(chip->key);
    chip->key = NULL;
}

// OpenSSL gives a DER structure of two numbers; SPDM wants both at full width, big-endian.
static bool plain_signature(struct bytes der, uint8_t *signature, size_t size)
{
    const uint8_t *at = der.at;
    ECDSA_SIG *pair = d2i_ECDSA_SIG(NULL, &at, (long)der.length);
    int half = (int)size / 2;
    bool good = pair
        && BN_bn2binpad(ECDSA_SIG_get0_r(pair), signature, half) == half
        && BN_bn2binpad(ECDSA_SIG_get0_s(pair), signature + half, half) == half;
    ECDSA_SIG_free(pair);
    return good;
}

// The signature algorithm's own step: on a digest of the suite's size.
static bool sign_digest(const struct chip *chip, const uint8_t *digest, uint8_t *signature)
{
    uint8_t der[256];
    size_t length = sizeof der;
    EVP_PKEY_CTX *context = EVP_PKEY_CTX_new(chip->key, NULL);
    bool good = context && EVP_PKEY_sign_init(context) == 1
        && EVP_PKEY_sign(context, der, &length, digest, chip->suite->digest_size) == 1
        && plain_signature((struct bytes){der, length}, signature, chip->suite->signature_size);
    EVP_PKEY_CTX_free(context);
    return good;
}

bool chip_sign(const struct chip *chip, struct bytes prefix, struct bytes first, struct bytes second,
    uint8_t *signature)
{
    uint8_t digest[DIGEST_LIMIT];
    const struct bytes message[] = {prefix, {digest, chip->suite->digest_size}};
    bool good = digest_of(chip->suite, (struct bytes[]){first, second}, 2, digest);
    if (prefix.length > 0)
        good = good && digest_of(chip->suite, message, 2, digest);
    return good && sign_digest(chip, digest, signature);
}

static bool set_serial(X509 *certificate)
{
    uint8_t random[8];
    if (RAND_bytes(random, sizeof random) != 1)
        return false;
    random[0] = (random[0] & 0x7F) | 0x40;
    BIGNUM *number = BN_bin2bn(random, sizeof random, NULL);
    bool good = number && BN_to_ASN1_INTEGER(number, X509_get_serialNumber(certificate));
    BN_free(number);
    return good;
}

static bool set_dates(X509 *certificate)
{
    const long ten_years = 10L * 365 * 24 * 3600;
    return X509_gmtime_adj(X509_getm_notBefore(certificate), -3600)
        && X509_gmtime_adj(X509_getm_notAfter(certificate), ten_years);
}

static bool set_name(X509 *certificate, const char *name)
{
    X509_NAME *subject = X509_get_subject_name(certificate);
    return X509_NAME_add_entry_by_txt(subject, "CN", MBSTRING_ASC, (const uint8_t *)name, -1, -1, 0) == 1;
}

static bool add_extension(X509 *certificate, int kind, const char *value)
{
    X509_EXTENSION *extension = X509V3_EXT_conf_nid(NULL, NULL, kind, value);
    bool good = extension && X509_add_ext(certificate, extension, -1) == 1;
    X509_EXTENSION_free(extension);
    return good;
}

static bool set_use(X509 *certificate, bool signs)
{
    return add_extension(certificate, NID_basic_constraints, signs ? "critical,CA:TRUE" : "critical,CA:FALSE")
        && add_extension(certificate, NID_key_usage, signs ? "critical,keyCertSign" : "critical,digitalSignature");
}

// A comment of so many characters, as suppliers put their terms into certificates; without any, none.
static bool set_statement(X509 *certificate, size_t length)
{
    static const char words[] = "Certified under the supplier's practice statement. ";
    char text[CHAIN_ROOM + 1] = "";
    if (length == 0)
        return true;
    if (length >= sizeof text)
        return false;
    for (size_t i = 0; i < length; i++)
        text[i] = words[i % (sizeof words - 1)];
    return add_extension(certificate, NID_netscape_comment, text);
}

// Whose certificate it is, whether he signs others, and how long a statement it has.
struct content {
    const char *name;
    bool signs;
    size_t statement;
};

// A certificate for a key, signed by the maker's last authority; while he has none it is his root, signed by itself.
static X509 *certificate_for(const struct maker *maker, EVP_PKEY *key, struct content content)
{
    X509 *made = X509_new();
    const X509 *issuer = maker->authority_count > 0 ? maker->authorities[maker->authority_count - 1] : made;
    bool good = made && X509_set_version(made, X509_VERSION_3) == 1
        && set_serial(made) && set_dates(made) && set_name(made, content.name)
        && X509_set_issuer_name(made, X509_get_subject_name(issuer)) == 1
        && X509_set_pubkey(made, key) == 1
        && set_use(made, content.signs)
        && set_statement(made, content.statement)
        && X509_sign(made, maker->key, hash_of(maker->suite)) > 0;
    if (good)
        return made;
    X509_free(made);
    return NULL;
}

static bool set_root_digest(struct maker *maker)
{
    unsigned length = 0;
    return X509_digest(maker->authorities[0], hash_of(maker->suite), maker->root_digest, &length) == 1
        && length == maker->suite->digest_size;
}

bool maker_start(struct maker *maker, const struct suite *suite, const char *name)
{
    *maker = (struct maker){.suite = suite, .key = EVP_EC_gen(suite->curve)};
    if (maker->key)
        maker->authorities[0] = certificate_for(maker, maker->key, (struct content){name, true, 0});
    maker->authority_count = maker->authorities[0] != NULL;
    return maker->authority_count == 1 && set_root_digest(maker);
}

void maker_end(struct maker *maker)
{
    for (size_t i = 0; i < maker->authority_count; i++)
        X509_free(maker->authorities[i]);
    EVP_PKEY_free(maker->key);
    maker->authority_count = 0;
    maker->key = NULL;
}

bool maker_delegate(struct maker *maker, const char *name, size_t statement)
{
    EVP_PKEY *key = EVP_EC_gen(maker->suite->curve);
    X509 *certificate = NULL;
    if (key && maker->authority_count < AUTHORITY_LIMIT)
        certificate = certificate_for(maker, key, (struct content){name, true, statement});
    if (!certificate) {
        EVP_PKEY_free(key);
        return false;
    }
    maker->authorities[maker->authority_count++] = certificate;
    EVP_PKEY_free(maker->key);
    maker->key = key;
    return true;
}

// Appends a certificate to the chain in DER.
static bool append_certificate(struct chain *chain, X509 *certificate)
{
    int length = i2d_X509(certificate, NULL);
    if (length <= 0 || chain->length + (size_t)length > sizeof chain->bytes)
        return false;
    uint8_t *at = chain->bytes + chain->length;
    chain->length += (size_t)length;
    return i2d_X509(certificate, &at) == length;
}

static bool certify(const struct maker *maker, const struct chip *chip, struct content content, struct chain *chain)
{
    X509 *leaf = certificate_for(maker, chip->key, content);
    memset(chain->bytes, 0, 4);
    memcpy(chain->bytes + 4, maker->root_digest, maker->suite->digest_size);
    chain->length = 4 + maker->suite->digest_size;
    bool good = leaf != NULL;
    for (size_t i = 0; good && i < maker->authority_count; i++)
        good = append_certificate(chain, maker->authorities[i]);
    good = good && append_certificate(chain, leaf);
    write_16(chain->bytes, (unsigned)chain->length);
    X509_free(leaf);
    return good;
}

bool maker_certify(const struct maker *maker, const struct chip *chip, const char *name, struct chain *chain)
{
    return certify(maker, chip, (struct content){name, false, 0}, chain);
}

// A signature in DER is some bytes shorter or longer than the one before, so that it takes a few leaves until one fits.
bool maker_certify_to(const struct maker *maker, const struct chip *chip, const char *name, size_t length,
    struct chain *chain)
{
    const unsigned tries = 100;
    struct content content = {name, false, 1024};
    for (unsigned i = 0; i < tries; i++) {
        if (!certify(maker, chip, content, chain))
            return false;
        if (chain->length == length)
            return true;
        content.statement += length - chain->length;
    }
    return false;
}
