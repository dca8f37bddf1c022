#include "panel.h"

#include <openssl/bn.h>
#include <openssl/ecdsa.h>
#include <openssl/rand.h>
#include <openssl/x509.h>
#include <string.h>

const char *verdict_text(enum verdict verdict)
{
    static const char *const texts[] = {
        [GOOD] = "good",
        [UNCONNECTED] = "nothing negotiated yet",
        [SILENT] = "no answer",
        [REFUSED] = "refused by an ERROR",
        [MALFORMED] = "answer not laid out as it should be",
        [NOTHING_COMMON] = "no edition in common",
        [WRONG_DIGEST] = "digest does not match the chain",
        [UNKNOWN_ROOT] = "root certificate not trusted",
        [WRONG_CERTIFICATE] = "certificate not signed by the one before it",
        [WRONG_SIGNATURE] = "signature does not verify",
        [WRONG_MEASUREMENT] = "measurement differs from what is expected",
    };
    return texts[verdict];
}

void panel_start(struct panel *panel, struct line line, struct show *show)
{
    memset(panel, 0, sizeof *panel);
    panel->line = line;
    panel->show = show;
}

void panel_end(struct panel *panel)
{
    EVP_PKEY_free(panel->leaf_key);
    panel->leaf_key = NULL;
}

struct bytes panel_send(struct panel *panel, struct bytes request)
{
    panel->answer_length = panel->line.exchange(panel->line.other, request, panel->answer, sizeof panel->answer);
    const struct bytes answer = {panel->answer, panel->answer_length};
    show_exchange(panel->show, request, answer);
    return answer;
}

void panel_forget_b(struct panel *panel)
{
    panel->b.length = 0;
}

// Sends a request, pad bytes after it, and looks at the answer's head.
static enum verdict ask(struct panel *panel, struct bytes request, uint8_t code)
{
    uint8_t sent[MESSAGE_LIMIT];
    memset(sent, 0xA5, sizeof sent);
    memcpy(sent, request.at, request.length);
    const struct bytes answer = panel_send(panel, (struct bytes){sent, request.length + panel->pad});
    if (answer.length < 4)
        return SILENT;
    if (answer.at[1] == ERROR)
        return REFUSED;
    return answer.at[0] == request.at[0] && answer.at[1] == code ? GOOD : MALFORMED;
}

static bool log_bytes(struct log *log, struct bytes run)
{
    if (run.length > sizeof log->bytes - log->length)
        return false;
    memcpy(log->bytes + log->length, run.at, run.length);
    log->length += run.length;
    return true;
}

// Logs a request and the first bytes of its answer: all but a signature.
static enum verdict keep(struct panel *panel, struct log *log, struct bytes request, size_t length)
{
    const struct bytes answer = {panel->answer, length};
    return log_bytes(log, request) && log_bytes(log, answer) ? GOOD : MALFORMED;
}

// Of the listed editions the one that the panel takes; 0 if it speaks none. An entry's high byte is the edition.
static uint8_t take_edition(const struct speech *speech, struct bytes entries)
{
    uint8_t taken = 0;
    for (size_t i = 0; i + 2 <= entries.length; i += 2) {
        const uint8_t listed = entries.at[i + 1];
        const bool spoken = listed >= speech->from && listed <= speech->to;
        if (spoken && (taken == 0 || (listed > taken && !speech->takes_first)))
            taken = listed;
    }
    return taken;
}

enum verdict panel_version(struct panel *panel)
{
    const uint8_t text[4] = {0x10, GET_VERSION, panel->reserved, panel->reserved};
    const struct bytes request = {text, sizeof text};
    const enum verdict verdict = ask(panel, request, VERSION);
    if (verdict != GOOD)
        return verdict;
    if (panel->answer_length < 6 || panel->answer_length != 6 + 2 * (size_t)panel->answer[5])
        return MALFORMED;
    panel->a.length = panel->b.length = panel->m.length = 0;
    panel->suite = panel->show->suite = NULL;
    panel->slots = 0;
    panel->has_summary = false;
    panel->edition = take_edition(&panel->speech, (struct bytes){panel->answer + 6, panel->answer_length - 6});
    if (panel->edition == 0)
        return NOTHING_COMMON;
    show_note(panel->show, "the panel takes %s", edition_text(panel->edition));
    return keep(panel, &panel->a, request, panel->answer_length);
}

enum verdict panel_capabilities(struct panel *panel, uint32_t size)
{
    const size_t length = panel->edition == EDITION_1_1 ? 12 : 20;
    uint8_t text[20] = {panel->edition, GET_CAPABILITIES};
    memset(text + 2, panel->reserved, 10);
    write_32(text + 12, size);
    write_32(text + 16, size);
    const struct bytes request = {text, length};
    const enum verdict verdict = ask(panel, request, CAPABILITIES);
    if (verdict != GOOD)
        return verdict;
    if (panel->answer_length != length)
        return MALFORMED;
    return keep(panel, &panel->a, request, length);
}

// The number of the only bit that is set; 32 if it isn't only one.
static unsigned only_bit(uint32_t word)
{
    for (unsigned i = 0; i < 32; i++)
        if (word == (uint32_t)1 << i)
            return i;
    return 32;
}

// Offers P-256 and P-384, SHA-256, SHA-384 and SHA-512, and four structures for sessions, as panels do.
static void write_offer(uint8_t text[48], uint8_t edition, uint8_t reserved)
{
    static const uint8_t structures[16] = {
        2, 0x20, 0x18, 0, 3, 0x20, 0x06, 0, 4, 0x20, 0x90, 0, 5, 0x20, 0x01, 0,
    };
    memset(text, 0, 48);
    text[0] = edition;
    text[1] = NEGOTIATE_ALGORITHMS;
    text[2] = 4;
    text[3] = reserved;
    write_16(text + 4, 48);
    text[6] = 1;
    write_32(text + 8, 1 << 4 | 1 << 7);
    write_32(text + 12, 1 << 0 | 1 << 1 | 1 << 2);
    memset(text + 16, reserved, 12);
    memcpy(text + 32, structures, sizeof structures);
}

enum verdict panel_algorithms(struct panel *panel)
{
    uint8_t text[48];
    write_offer(text, panel->edition, panel->reserved);
    const struct bytes request = {text, sizeof text};
    const enum verdict verdict = ask(panel, request, ALGORITHMS);
    if (verdict != GOOD)
        return verdict;
    const uint8_t *answer = panel->answer;
    if (panel->answer_length != 36 || read_16(answer + 4) != 36)
        return MALFORMED;
    panel->suite = suite_by_numbers(only_bit(read_32(answer + 16)), only_bit(read_32(answer + 12)));
    panel->show->suite = panel->suite;
    if (!panel->suite)
        return MALFORMED;
    return keep(panel, &panel->a, request, 36);
}

enum verdict panel_connect(struct panel *panel, uint32_t size)
{
    enum verdict verdict = panel_version(panel);
    if (verdict == GOOD)
        verdict = panel_capabilities(panel, size);
    if (verdict == GOOD)
        verdict = panel_algorithms(panel);
    return verdict;
}

// Takes the digests out of DIGESTS; gives where the last one ends.
static size_t take_digests(struct panel *panel)
{
    size_t at = 4;
    panel->slots = panel->answer[3];
    for (unsigned slot = 0; slot < 8; slot++) {
        if (!(panel->slots >> slot & 1))
            continue;
        if (at + panel->suite->digest_size <= panel->answer_length)
            memcpy(panel->digests[slot], panel->answer + at, panel->suite->digest_size);
        at += panel->suite->digest_size;
    }
    return at;
}

enum verdict panel_digests(struct panel *panel)
{
    if (!panel->suite)
        return UNCONNECTED;
    const uint8_t text[4] = {panel->edition, GET_DIGESTS, panel->reserved, panel->reserved};
    const struct bytes request = {text, sizeof text};
    const enum verdict verdict = ask(panel, request, DIGESTS);
    if (verdict != GOOD)
        return verdict;
    if (take_digests(panel) != panel->answer_length)
        return MALFORMED;
    panel->m.length = 0;
    return keep(panel, &panel->b, request, panel->answer_length);
}

// One portion: asks at the sum of the portions held. `remainder` is what is left after it.
static enum verdict read_portion(struct panel *panel, uint8_t slot, unsigned length, unsigned *remainder)
{
    uint8_t text[8] = {panel->edition, GET_CERTIFICATE, (uint8_t)(panel->reserved << 4 | slot), panel->reserved};
    write_16(text + 4, (unsigned)panel->chain.length);
    write_16(text + 6, length);
    const struct bytes request = {text, sizeof text};
    const enum verdict verdict = ask(panel, request, CERTIFICATE);
    if (verdict != GOOD)
        return verdict;
    const size_t portion = panel->answer_length < 8 ? 0 : read_16(panel->answer + 4);
    if (portion == 0 || panel->answer_length != 8 + portion || panel->answer[2] != slot)
        return MALFORMED;
    if (portion > length || portion > sizeof panel->chain.bytes - panel->chain.length)
        return MALFORMED;
    memcpy(panel->chain.bytes + panel->chain.length, panel->answer + 8, portion);
    panel->chain.length += portion;
    panel->full_reads += portion == length;
    *remainder = read_16(panel->answer + 6);
    panel->m.length = 0;
    return keep(panel, &panel->b, request, panel->answer_length);
}

// The certificates of the chain, from the root to the leaf, as many as there are; `whole`: nothing else is behind them.
static STACK_OF(X509) *take_certificates(const struct panel *panel, bool *whole)
{
    const uint8_t *at = panel->chain.bytes + 4 + panel->suite->digest_size;
    const uint8_t *end = panel->chain.bytes + panel->chain.length;
    STACK_OF(X509) *taken = sk_X509_new_null();
    X509 *next = NULL;
    *whole = true;
    while (*whole && at < end) {
        next = d2i_X509(NULL, &at, end - at);
        *whole = next && sk_X509_push(taken, next) > 0;
        if (!*whole)
            X509_free(next);
    }
    return taken;
}

// Each certificate is signed by the one before it, the root by itself, and those before the leaf may sign.
static bool certificates_hold(STACK_OF(X509) *certificates)
{
    const int count = sk_X509_num(certificates);
    X509_STORE *store = X509_STORE_new();
    X509_STORE_CTX *context = X509_STORE_CTX_new();
    bool good = store && context && X509_STORE_add_cert(store, sk_X509_value(certificates, 0)) == 1
        && X509_STORE_CTX_init(context, store, sk_X509_value(certificates, count - 1), certificates) == 1
        && X509_verify_cert(context) == 1;
    for (int i = 0; good && i < count; i++) {
        X509 *signer = sk_X509_value(certificates, i == 0 ? 0 : i - 1);
        good = X509_verify(sk_X509_value(certificates, i), X509_get0_pubkey(signer)) == 1;
    }
    X509_STORE_CTX_free(context);
    X509_STORE_free(store);
    return good;
}

// The root's digest is the one stated in the chain, and the one that the panel trusts.
static bool root_is_trusted(const struct panel *panel, const X509 *root)
{
    uint8_t digest[DIGEST_LIMIT];
    const struct bytes found = {digest, panel->suite->digest_size};
    const struct bytes stated = {panel->chain.bytes + 4, panel->suite->digest_size};
    return X509_digest(root, EVP_get_digestbyname(panel->suite->hash), digest, NULL) == 1
        && same_bytes(found, stated) && same_bytes(found, panel->trusted_root);
}

// A root and a leaf at least, nothing behind them; the leaf's public key is kept.
static enum verdict check_certificates(struct panel *panel)
{
    bool whole;
    STACK_OF(X509) *certificates = take_certificates(panel, &whole);
    const int count = sk_X509_num(certificates);
    enum verdict verdict = WRONG_CERTIFICATE;
    if (count > 0 && !root_is_trusted(panel, sk_X509_value(certificates, 0)))
        verdict = UNKNOWN_ROOT;
    else if (count > 1 && whole && certificates_hold(certificates))
        verdict = GOOD;
    EVP_PKEY_free(panel->leaf_key);
    panel->leaf_key = verdict == GOOD ? X509_get_pubkey(sk_X509_value(certificates, count - 1)) : NULL;
    sk_X509_pop_free(certificates, X509_free);
    return verdict;
}

// The chain's own length, its digest where DIGESTS gave one, the certificates.
static enum verdict check_chain(struct panel *panel, uint8_t slot)
{
    uint8_t digest[DIGEST_LIMIT];
    const struct bytes chain = chain_bytes(&panel->chain);
    const size_t size = panel->suite->digest_size;
    if (chain.length < 5 + size || read_16(chain.at) != chain.length)
        return MALFORMED;
    if (!digest_of(panel->suite, &chain, 1, digest))
        return MALFORMED;
    if (panel->slots >> slot & 1 && memcmp(digest, panel->digests[slot], size) != 0)
        return WRONG_DIGEST;
    memcpy(panel->digests[slot], digest, size);
    return check_certificates(panel);
}

enum verdict panel_chain(struct panel *panel, uint8_t slot, unsigned length)
{
    enum verdict verdict = panel->suite ? GOOD : UNCONNECTED;
    unsigned remainder = 1;
    panel->chain.length = 0;
    panel->full_reads = 0;
    for (panel->reads = 0; verdict == GOOD && remainder > 0; panel->reads++)
        verdict = read_portion(panel, slot, length, &remainder);
    return verdict == GOOD ? check_chain(panel, slot) : verdict;
}

// The text that a prefix ends with, at byte 64 and with zeros before it.
static void write_prefix(uint8_t prefix[PREFIX_SIZE], const char *context)
{
    const struct bytes text = text_bytes(context);
    memset(prefix, 0, PREFIX_SIZE);
    for (size_t i = 0; i < 4; i++)
        memcpy(prefix + 16 * i, "dmtf-spdm-v1.2.*", 16);
    memcpy(prefix + PREFIX_SIZE - text.length, text.at, text.length);
}

// SPDM's two numbers of full width, as the DER structure that OpenSSL verifies. The caller frees it.
static int der_signature(struct bytes plain, uint8_t **der)
{
    const int half = (int)plain.length / 2;
    BIGNUM *r = BN_bin2bn(plain.at, half, NULL), *s = BN_bin2bn(plain.at + half, half, NULL);
    ECDSA_SIG *pair = ECDSA_SIG_new();
    int length = -1;
    if (pair && r && s && ECDSA_SIG_set0(pair, r, s) == 1)
        length = i2d_ECDSA_SIG(pair, der);
    ECDSA_SIG_free(pair);
    return length;
}

// A signature over a message in two parts, with the suite's hash.
static bool signature_holds(const struct panel *panel, struct bytes first, struct bytes second, struct bytes plain)
{
    uint8_t *der = NULL;
    const int length = der_signature(plain, &der);
    EVP_MD_CTX *context = EVP_MD_CTX_new();
    const EVP_MD *hash = EVP_get_digestbyname(panel->suite->hash);
    bool good = context && panel->leaf_key && length > 0
        && EVP_DigestVerifyInit(context, NULL, hash, NULL, panel->leaf_key) == 1
        && EVP_DigestVerifyUpdate(context, first.at, first.length) == 1
        && EVP_DigestVerifyUpdate(context, second.at, second.length) == 1
        && EVP_DigestVerifyFinal(context, der, (size_t)length) == 1;
    EVP_MD_CTX_free(context);
    OPENSSL_free(der);
    return good;
}

// Under 1.2: a prefix, then the digest of A, then B or M.
static bool holds_with_prefix(const struct panel *panel, struct bytes rest, const char *context, struct bytes plain)
{
    uint8_t prefix[PREFIX_SIZE], digest[DIGEST_LIMIT];
    const struct bytes parts[] = {{panel->a.bytes, panel->a.length}, rest};
    write_prefix(prefix, context);
    return digest_of(panel->suite, parts, 2, digest)
        && signature_holds(panel, (struct bytes){prefix, sizeof prefix},
            (struct bytes){digest, panel->suite->digest_size}, plain);
}

// The signature at the answer's end, by the panel's own log. Under 1.1 it is one over A, then B; or over M alone.
static enum verdict check_signature(const struct panel *panel, const struct log *log, const char *context)
{
    const size_t size = panel->suite->signature_size;
    const struct bytes plain = {panel->answer + panel->answer_length - size, size}, rest = {log->bytes, log->length};
    const struct bytes before = {panel->a.bytes, log == &panel->m ? 0 : panel->a.length};
    const bool good = panel->edition == EDITION_1_1 ? signature_holds(panel, before, rest, plain)
        : holds_with_prefix(panel, rest, context, plain);
    return good ? GOOD : WRONG_SIGNATURE;
}

// The layout and the fields of CHALLENGE_AUTH.
static enum verdict check_auth(struct panel *panel, uint8_t slot, uint8_t summary)
{
    const size_t digest = panel->suite->digest_size;
    const size_t opaque = 4 + digest + NONCE_SIZE + (summary ? digest : 0);
    const uint8_t *answer = panel->answer;
    if (panel->answer_length != opaque + 2 + panel->suite->signature_size)
        return MALFORMED;
    if (answer[2] != slot || !(answer[3] >> slot & 1) || read_16(answer + opaque) != 0)
        return MALFORMED;
    if (memcmp(answer + 4, panel->digests[slot], digest) != 0)
        return WRONG_DIGEST;
    panel->has_summary = summary == 0xFF;
    if (panel->has_summary)
        memcpy(panel->summary, answer + 4 + digest + NONCE_SIZE, digest);
    return GOOD;
}

enum verdict panel_challenge(struct panel *panel, uint8_t slot, uint8_t summary)
{
    uint8_t text[4 + NONCE_SIZE] = {panel->edition, CHALLENGE, slot, summary};
    const struct bytes request = {text, sizeof text};
    if (!panel->suite)
        return UNCONNECTED;
    if (RAND_bytes(text + 4, NONCE_SIZE) != 1)
        return SILENT;
    enum verdict verdict = ask(panel, request, CHALLENGE_AUTH);
    if (verdict == GOOD)
        verdict = check_auth(panel, slot, summary);
    if (verdict != GOOD)
        return verdict;
    panel->m.length = 0;
    verdict = keep(panel, &panel->b, request, panel->answer_length - panel->suite->signature_size);
    if (verdict == GOOD)
        verdict = check_signature(panel, &panel->b, "responder-challenge_auth signing");
    panel->b.length = 0;
    return verdict;
}

// The record must hold the block of every expected component, rising, and nothing else.
static bool record_is_expected(const struct panel *panel, struct bytes record)
{
    const size_t digest = panel->suite->digest_size, size = 7 + digest;
    if (record.length != panel->component_count * size)
        return false;
    for (size_t i = 0; i < panel->component_count; i++) {
        const struct component *component = &panel->components[i];
        const struct bytes content = text_bytes(component->content);
        uint8_t block[7 + DIGEST_LIMIT] = {component->index, 1, [4] = component->type};
        write_16(block + 2, 3 + (unsigned)digest);
        write_16(block + 5, (unsigned)digest);
        if (!digest_of(panel->suite, &content, 1, block + 7) || memcmp(block, record.at + i * size, size) != 0)
            return false;
    }
    return true;
}

// The summary hash that came with CHALLENGE_AUTH, if all were asked, is the digest of this record.
static bool summary_holds(const struct panel *panel, struct bytes record)
{
    uint8_t digest[DIGEST_LIMIT];
    if (!panel->has_summary)
        return true;
    return digest_of(panel->suite, &record, 1, digest)
        && memcmp(digest, panel->summary, panel->suite->digest_size) == 0;
}

// The layout of MEASUREMENTS for operation 0xFF.
static enum verdict check_record(const struct panel *panel, uint8_t slot, size_t signature)
{
    const uint8_t *answer = panel->answer;
    const size_t length = panel->answer_length < 8 ? 0 : read_16(answer + 5) | (size_t)answer[7] << 16;
    if (panel->answer_length != 8 + length + NONCE_SIZE + 2 + signature)
        return MALFORMED;
    if (answer[2] != 0 || answer[3] != slot || answer[4] != panel->component_count)
        return MALFORMED;
    const struct bytes record = {answer + 8, length};
    return record_is_expected(panel, record) && summary_holds(panel, record) ? GOOD : WRONG_MEASUREMENT;
}

enum verdict panel_measurements(struct panel *panel, uint8_t slot, bool is_signed)
{
    uint8_t text[5 + NONCE_SIZE] = {panel->edition, GET_MEASUREMENTS, is_signed, 0xFF};
    const struct bytes request = {text, is_signed ? sizeof text : 4};
    if (!panel->suite)
        return UNCONNECTED;
    const size_t signature = is_signed ? panel->suite->signature_size : 0;
    text[4 + NONCE_SIZE] = slot;
    if (RAND_bytes(text + 4, NONCE_SIZE) != 1)
        return SILENT;
    enum verdict verdict = ask(panel, request, MEASUREMENTS);
    // As panels do: at an ERROR to GET_MEASUREMENTS what was measured before is forgotten.
    if (verdict == REFUSED)
        panel->m.length = 0;
    if (verdict == GOOD)
        verdict = check_record(panel, is_signed ? slot : 0, signature);
    if (verdict != GOOD)
        return verdict;
    panel->b.length = 0;
    verdict = keep(panel, &panel->m, request, panel->answer_length - signature);
    if (verdict != GOOD || !is_signed)
        return verdict;
    verdict = check_signature(panel, &panel->m, "responder-measurements signing");
    panel->m.length = 0;
    return verdict;
}

enum verdict panel_attest(struct panel *panel, uint32_t size, uint8_t slot, unsigned length)
{
    enum verdict verdict = panel_connect(panel, size);
    if (verdict == GOOD)
        verdict = panel_digests(panel);
    if (verdict == GOOD)
        verdict = panel_chain(panel, slot, length);
    if (verdict == GOOD)
        verdict = panel_challenge(panel, slot, 0xFF);
    if (verdict == GOOD)
        verdict = panel_measurements(panel, slot, true);
    return verdict;
}
