#include "conversation.h"

#include "spdm_responder.h"

// The smallest image of images.txt with a measurement: SHA3-256, ECDSA P-256, slot 0, measurement 40.
static const uint8_t image[] = {
    0x01, 0x00, 0x03, 0x01, 0x0B, 0x03, 0x04, 0x00, 0x46, 0x02, 0x00, 0x9B, 0xC8, 0x65, 0x10, 0xFF,
    0xE1, 0x90, 0xD4, 0x42, 0x33, 0xDC, 0x9D, 0x2C, 0x06, 0xF1, 0xB0, 0x40, 0x86, 0x9C, 0x95, 0xB6,
    0x44, 0xA6, 0x4B, 0x33, 0x60, 0x5C, 0x63, 0x8C, 0x03, 0xAD, 0xA2, 0x25, 0x00, 0x6A, 0xE8, 0x98,
    0x01, 0x11, 0xDC, 0x69, 0xCB, 0xC7, 0x2C, 0xE3, 0x97, 0x4A, 0x58, 0xDD, 0xC0, 0x55, 0xC9, 0x81,
    0xC3, 0x61, 0xB2, 0x53, 0x55, 0x70, 0x73, 0xF6, 0x7B, 0xE8, 0x85, 0x40, 0xB2, 0xE8, 0xE2, 0xE2,
    0x00, 0x22, 0x03, 0x28, 0x00, 0x56, 0x14, 0x23, 0xD4, 0x28, 0x6E, 0x67, 0x74, 0x30, 0x66, 0xB4,
    0xD3, 0x1D, 0x89, 0x40, 0x60, 0xF8, 0xB6, 0xF7, 0x09, 0x93, 0xEB, 0xEC, 0x0A, 0xC8, 0xEB, 0x8E,
    0xCE, 0x78, 0x1A, 0x86, 0x9E, 0x00, 0x40, 0x04, 0xF4, 0x60, 0xBD, 0xC5, 0xF2, 0xFE, 0x6E, 0x92,
    0xC9, 0x50, 0xB9, 0xB9, 0xD1, 0x7D, 0xD7, 0x1C, 0x0F, 0x41, 0x6F, 0x3F, 0x94, 0x65, 0xEA, 0x07,
    0x67, 0x3C, 0x19, 0x38, 0xCB, 0x93, 0x18, 0x12, 0x73, 0x4B, 0x8F, 0x70, 0x04, 0xCE, 0xD7, 0x63,
    0xD4, 0x19, 0xC8, 0x50, 0x7F, 0xFE, 0x7F, 0xC4, 0xBA, 0x54, 0x8A, 0xD2, 0x04, 0xF0, 0x07, 0x95,
    0x8F, 0xD4, 0x31, 0xF7, 0x79, 0xF6, 0x8A, 0x8E,
};

static uint32_t state[SPDM_STATE_WORDS];
static uint8_t transcript[SPDM_TRANSCRIPT_MIN];
static uint8_t answer[SPDM_ANSWER_MIN];

// ---- Printing

static void put_hex(const uint8_t *bytes, uint32_t length)
{
    static const char digits[] = "0123456789abcdef";
    char text[3] = "";
    for (uint32_t i = 0; i < length; i++) {
        text[0] = digits[bytes[i] >> 4];
        text[1] = digits[bytes[i] & 15];
        put(text);
    }
}

static void put_number(uint32_t number)
{
    char text[11];
    char *at = text + 10;
    *at = 0;
    do {
        *--at = (char)('0' + number % 10);
        number /= 10;
    } while (number != 0);
    put(at);
}

static void put_words(const char *name, const uint32_t *words, uint32_t count)
{
    put(name);
    for (uint32_t i = 0; i < count; i++) {
        put(" ");
        put_number(words[i]);
    }
    put("\n");
}

static void put_bytes(const char *name, const uint8_t *bytes, uint32_t length)
{
    put(name);
    put(length == 0 ? " -" : " ");
    put_hex(bytes, length);
    put("\n");
}

static void put_result(const char *name, uint32_t result)
{
    const uint32_t both[] = {SPDM_NUMBER(result), SPDM_LENGTH(result)};
    put_words(name, both, 2);
}

// ---- How deep a call goes: the stack below the caller's frame is painted before it, and looked at after it

enum { PAINTED = 6144, PAINT = 0xA5 };
enum { RESPOND, FINISH, TO_SIGN, READ_IMAGE, IMAGE_ALGORITHMS, CALLS };

static uint32_t deepest[CALLS];

#define APART __attribute__((noinline))

// `frame` is the caller's: what this function needs itself, a few words, stays unpainted.
APART static void paint(uintptr_t frame)
{
    const uintptr_t own = (uintptr_t)__builtin_frame_address(0) - 64;
    for (uintptr_t at = frame - PAINTED; at < own; at++)
        *(volatile uint8_t *)at = PAINT;
}

APART static void look(uintptr_t frame, unsigned call)
{
    uintptr_t at = frame - PAINTED;
    while (*(volatile uint8_t *)at == PAINT)
        at++;
    if (frame - at > deepest[call])
        deepest[call] = (uint32_t)(frame - at);
}

APART static uint32_t respond(const uint8_t *request, uint32_t length, const uint8_t *nonce)
{
    const uintptr_t frame = (uintptr_t)__builtin_frame_address(0);
    paint(frame);
    const uint32_t result = spdm_respond(image, sizeof image, state, SPDM_STATE_WORDS, transcript, sizeof transcript,
        answer, sizeof answer, request, length, nonce, SPDM_NONCE_LEN);
    look(frame, RESPOND);
    return result;
}

APART static uint32_t finish(uint32_t chip_ok, const uint8_t *signature, uint32_t length)
{
    const uintptr_t frame = (uintptr_t)__builtin_frame_address(0);
    paint(frame);
    const uint32_t result = spdm_finish(image, sizeof image, state, SPDM_STATE_WORDS, transcript, sizeof transcript,
        answer, sizeof answer, chip_ok, signature, length);
    look(frame, FINISH);
    return result;
}

APART static uint32_t to_sign(uint8_t *prefix, uint32_t *parts)
{
    const uintptr_t frame = (uintptr_t)__builtin_frame_address(0);
    paint(frame);
    const uint32_t result = spdm_to_sign(state, SPDM_STATE_WORDS, prefix, SPDM_PREFIX_LEN, parts, SPDM_PARTS_WORDS);
    look(frame, TO_SIGN);
    return result;
}

APART static uint32_t read_image(void)
{
    const uintptr_t frame = (uintptr_t)__builtin_frame_address(0);
    paint(frame);
    const uint32_t result = spdm_read_image(image, sizeof image);
    look(frame, READ_IMAGE);
    return result;
}

APART static uint32_t image_algorithms(uint32_t *algorithms)
{
    const uintptr_t frame = (uintptr_t)__builtin_frame_address(0);
    paint(frame);
    const uint32_t result = spdm_image_algorithms(image, sizeof image, algorithms, SPDM_ALGORITHMS_WORDS);
    look(frame, IMAGE_ALGORITHMS);
    return result;
}

// ---- The conversation

#define NONCE                                                                                                          \
    1, 2, 3, 4, 5, 6, 7, 8, 9, 10, 11, 12, 13, 14, 15, 16,                                                             \
    17, 18, 19, 20, 21, 22, 23, 24, 25, 26, 27, 28, 29, 30, 31, 32

// The version byte of all but GET_VERSION is put in when a request is asked.
static const uint8_t get_version[] = {0x10, SPDM_GET_VERSION, 0, 0};
static const uint8_t get_capabilities[20] = {0, SPDM_GET_CAPABILITIES, [13] = 0x12, [17] = 0x12};
static const uint8_t get_capabilities_1_1[12] = {0, SPDM_GET_CAPABILITIES};
static const uint8_t negotiate_algorithms[32] = {0, SPDM_NEGOTIATE_ALGORITHMS, 0, 0, 32, 0, 1, 0,
    0xFF, 1, 0, 0, 0x3F, 0, 0, 0};
static const uint8_t get_digests[] = {0, SPDM_GET_DIGESTS, 0, 0};
static const uint8_t get_certificate[] = {0, SPDM_GET_CERTIFICATE, 0, 0, 0, 0, 34, 0};
static const uint8_t get_certificate_rest[] = {0, SPDM_GET_CERTIFICATE, 0, 0, 34, 0, 34, 0};
static const uint8_t get_certificate_past[] = {0, SPDM_GET_CERTIFICATE, 0, 0, 37, 0, 34, 0};
static const uint8_t challenge[] = {0, SPDM_CHALLENGE, 0, 0xFF, NONCE};
static const uint8_t get_measurements[] = {0, SPDM_GET_MEASUREMENTS, 1, 0xFF, NONCE, 0};

static void ask(const char *name, uint8_t edition, const uint8_t *request, uint32_t length)
{
    static const uint8_t nonce[SPDM_NONCE_LEN] = {NONCE};
    static uint8_t asked[64];
    for (uint32_t i = 0; i < length; i++)
        asked[i] = request[i];
    if (asked[0] == 0)
        asked[0] = edition;
    const uint32_t result = respond(asked, length, nonce);
    put_result(name, result);
    put_bytes("  answer", answer, SPDM_LENGTH(result));
    put_words("  state", state, SPDM_STATE_WORDS);
}

// There is no chip: the bytes of the signature are made up.
static void sign(uint32_t chip_ok)
{
    uint8_t prefix[SPDM_PREFIX_LEN], signature[64];
    uint32_t parts[SPDM_PARTS_WORDS];
    const uint32_t shown = to_sign(prefix, parts);
    put_result("spdm_to_sign", shown);
    put_bytes("  prefix", prefix, SPDM_LENGTH(shown));
    put_words("  parts", parts, SPDM_PARTS_WORDS);
    put_bytes("  first", transcript + parts[SPDM_PARTS_FIRST_OFFSET], parts[SPDM_PARTS_FIRST_LENGTH]);
    put_bytes("  second", transcript + parts[SPDM_PARTS_SECOND_OFFSET], parts[SPDM_PARTS_SECOND_LENGTH]);
    for (uint32_t i = 0; i < sizeof signature; i++)
        signature[i] = (uint8_t)(0x80 + i);
    const uint32_t result = finish(chip_ok, signature, sizeof signature);
    put_result("spdm_finish", result);
    put_bytes("  answer", answer, SPDM_LENGTH(result));
    put_words("  state", state, SPDM_STATE_WORDS);
}

#define ASK(edition, request) ask(#request, edition, request, sizeof request)

static void converse_1_2(void)
{
    const uint8_t edition = SPDM_EDITION_1_2;
    ASK(edition, get_version);
    ASK(edition, get_capabilities);
    ASK(edition, negotiate_algorithms);
    ASK(edition, get_digests);
    ASK(edition, get_certificate);
    ASK(edition, get_certificate_rest);
    ASK(edition, get_certificate_past);
    ASK(edition, challenge);
    sign(1);
    ASK(edition, get_measurements);
    sign(1);
    ASK(edition, challenge);
    sign(0);
}

// A request of 1.2 in between is refused.
static void converse_1_1(void)
{
    const uint8_t edition = SPDM_EDITION_1_1;
    ASK(edition, get_version);
    ASK(edition, get_capabilities_1_1);
    ASK(edition, negotiate_algorithms);
    ASK(SPDM_EDITION_1_2, get_digests);
    ASK(edition, get_digests);
    ASK(edition, challenge);
    sign(1);
    ASK(edition, get_measurements);
    sign(1);
    ASK(edition, get_measurements);
    sign(0);
}

void converse(void)
{
    static const char *const calls[CALLS] = {"stack spdm_respond", "stack spdm_finish", "stack spdm_to_sign",
        "stack spdm_read_image", "stack spdm_image_algorithms"};
    uint32_t algorithms[SPDM_ALGORITHMS_WORDS];
    put_result("spdm_read_image", read_image());
    put_result("spdm_image_algorithms", image_algorithms(algorithms));
    put_words("  algorithms", algorithms, SPDM_ALGORITHMS_WORDS);
    converse_1_2();
    converse_1_1();
    for (unsigned call = 0; call < CALLS; call++)
        put_words(calls[call], &deepest[call], 1);
}
