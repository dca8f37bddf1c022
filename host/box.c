#include "box.h"

#include "spdm_responder.h"

#include <openssl/rand.h>
#include <string.h>

_Static_assert(STATE_WORDS == SPDM_STATE_WORDS && PREFIX_SIZE == SPDM_PREFIX_LEN, "as the library has it");
_Static_assert(IMAGE_LIMIT == SPDM_IMAGE_MAX && CHAIN_LIMIT == SPDM_CHAIN_MAX, "as the library has it");
_Static_assert(TRANSCRIPT_SIZE == SPDM_TRANSCRIPT_MIN && MESSAGE_LIMIT == SPDM_ANSWER_MIN, "as the library has it");
_Static_assert(EDITION_1_1 == SPDM_EDITION_1_1 && EDITION_1_2 == SPDM_EDITION_1_2, "as the library has it");

enum { KIND_IDENTITY = 1, KIND_CHAIN = 2, KIND_MEASUREMENT = 3, KIND_SUMMARIES = 4 };

static bool append(struct box *box, struct bytes part)
{
    if (part.length > sizeof box->image - box->image_length)
        return false;
    memcpy(box->image + box->image_length, part.at, part.length);
    box->image_length += part.length;
    return true;
}

// A record: body length (2 bytes, big-endian), kind, body. The body is given in parts.
static bool append_record(struct box *box, uint8_t kind, const struct bytes *parts, size_t count)
{
    size_t length = 0;
    for (size_t i = 0; i < count; i++)
        length += parts[i].length;
    const uint8_t head[3] = {(uint8_t)(length >> 8), (uint8_t)length, kind};
    bool good = append(box, (struct bytes){head, sizeof head});
    for (size_t i = 0; good && i < count; i++)
        good = append(box, parts[i]);
    return good;
}

static bool append_identity(struct box *box, const struct suite *suite)
{
    const uint8_t body[3] = {CT_EXPONENT, suite->hash_number, suite->signature_number};
    return append_record(box, KIND_IDENTITY, &(struct bytes){body, sizeof body}, 1);
}

static bool append_chain(struct box *box, const struct suite *suite, const struct slot *slot)
{
    uint8_t digest[DIGEST_LIMIT];
    const struct bytes chain = chain_bytes(slot->chain);
    if (!digest_of(suite, &chain, 1, digest))
        return false;
    const struct bytes parts[] = {{&slot->number, 1}, {digest, suite->digest_size}, chain};
    return append_record(box, KIND_CHAIN, parts, 3);
}

static bool append_measurement(struct box *box, const struct suite *suite, const struct component *component)
{
    uint8_t digest[DIGEST_LIMIT];
    const uint8_t head[2] = {component->index, component->type};
    const struct bytes content = text_bytes(component->content);
    if (!digest_of(suite, &content, 1, digest))
        return false;
    const struct bytes parts[] = {{head, sizeof head}, {digest, suite->digest_size}};
    return append_record(box, KIND_MEASUREMENT, parts, 2);
}

// A measurement block as MEASUREMENTS carries it; gives its length.
static size_t write_block(uint8_t *at, const struct suite *suite, const struct component *component)
{
    const struct bytes content = text_bytes(component->content);
    at[0] = component->index;
    at[1] = 1;
    write_16(at + 2, 3 + (unsigned)suite->digest_size);
    at[4] = component->type;
    write_16(at + 5, (unsigned)suite->digest_size);
    return digest_of(suite, &content, 1, at + 7) ? 7 + suite->digest_size : 0;
}

// A summary hash: the digest of the blocks, of the TCB's or of all.
static bool summary_of(const struct provision *provision, bool tcb_only, uint8_t *digest)
{
    uint8_t blocks[32 * (7 + DIGEST_LIMIT)];
    size_t length = 0;
    for (size_t i = 0; i < provision->component_count; i++)
        if (provision->components[i].in_tcb || !tcb_only)
            length += write_block(blocks + length, provision->suite, &provision->components[i]);
    return digest_of(provision->suite, &(struct bytes){blocks, length}, 1, digest);
}

static bool append_summaries(struct box *box, const struct provision *provision)
{
    uint8_t tcb[DIGEST_LIMIT], all[DIGEST_LIMIT];
    if (!summary_of(provision, true, tcb) || !summary_of(provision, false, all))
        return false;
    const size_t size = provision->suite->digest_size;
    const struct bytes parts[] = {{tcb, size}, {all, size}};
    return append_record(box, KIND_SUMMARIES, parts, 2);
}

static bool build_image(struct box *box, const struct provision *provision)
{
    const uint8_t version = 1;
    bool good = provision->component_count <= 32
        && append(box, (struct bytes){&version, 1})
        && append_identity(box, provision->suite);
    for (size_t i = 0; good && i < provision->slot_count; i++)
        good = append_chain(box, provision->suite, &provision->slots[i]);
    for (size_t i = 0; good && i < provision->component_count; i++)
        good = append_measurement(box, provision->suite, &provision->components[i]);
    if (good && provision->component_count > 0)
        good = append_summaries(box, provision);
    return good;
}

bool box_make(struct box *box, const struct chip *chip, const struct provision *provision)
{
    memset(box, 0, sizeof *box);
    box->chip = chip;
    return build_image(box, provision) && spdm_read_image(box->image, box->image_length) == 0;
}

// Keeps the number of a result and gives its length, which is 0 with a number.
static size_t take_result(struct box *box, uint32_t result)
{
    box->number = SPDM_NUMBER(result);
    return SPDM_LENGTH(result);
}

// What the library says is to be signed.
struct named {
    uint8_t prefix[PREFIX_SIZE];
    size_t prefix_length;
    uint32_t parts[SPDM_PARTS_WORDS];
};

static bool name_signed(const uint32_t state[STATE_WORDS], struct named *named)
{
    const uint32_t result = spdm_to_sign(state, STATE_WORDS, named->prefix, sizeof named->prefix, named->parts,
        SPDM_PARTS_WORDS);
    named->prefix_length = SPDM_LENGTH(result);
    return SPDM_NUMBER(result) == 0;
}

// A mistake: the prefix, or the parts, that the library would name under the other edition.
static bool mistake(const struct box *box, struct named *named)
{
    struct named other = {0};
    uint32_t state[STATE_WORDS];
    memcpy(state, box->state, sizeof state);
    state[SPDM_STATE_EDITION] = other_edition((uint8_t)state[SPDM_STATE_EDITION]);
    if (!name_signed(state, &other))
        return false;
    if (box->conduct == SIGNS_OTHER_PARTS) {
        memcpy(named->parts, other.parts, sizeof named->parts);
        return true;
    }
    memcpy(named->prefix, other.prefix, sizeof named->prefix);
    named->prefix_length = other.prefix_length;
    return true;
}

// Has the chip sign what the library names: as many bytes of the prefix as there are, and the hash of both parts. So it
// need not know the edition.
static bool signed_by_chip(const struct box *box, uint8_t *signature)
{
    struct named named = {0};
    if (box->conduct == FAILS || !name_signed(box->state, &named))
        return false;
    if ((box->conduct == SIGNS_OTHER_PREFIX || box->conduct == SIGNS_OTHER_PARTS) && !mistake(box, &named))
        return false;
    const uint32_t *parts = named.parts;
    const struct bytes first = {box->transcript + parts[SPDM_PARTS_FIRST_OFFSET], parts[SPDM_PARTS_FIRST_LENGTH]};
    const struct bytes second = {box->transcript + parts[SPDM_PARTS_SECOND_OFFSET], parts[SPDM_PARTS_SECOND_LENGTH]};
    return chip_sign(box->chip, (struct bytes){named.prefix, named.prefix_length}, first, second, signature);
}

static size_t finish_with(struct box *box, bool chip_ok, struct bytes signature)
{
    return take_result(box, spdm_finish(box->image, box->image_length, box->state, STATE_WORDS,
        box->transcript, sizeof box->transcript, box->answer, sizeof box->answer,
        chip_ok, signature.at, signature.length));
}

// With number 16 the answer is awaited still, so it is finished again, as for a chip that failed.
static size_t finish(struct box *box)
{
    uint8_t signature[SIGNATURE_LIMIT] = {0};
    const bool good = signed_by_chip(box, signature);
    const size_t size = box->chip->suite->signature_size - (box->conduct == SIGNS_SHORT);
    const size_t length = finish_with(box, good, (struct bytes){signature, size});
    return box->number == SPDM_WRONG_SIGNATURE ? finish_with(box, false, (struct bytes){signature, 0}) : length;
}

static size_t respond(struct box *box, struct bytes request, uint8_t answer[MESSAGE_LIMIT])
{
    uint8_t nonce[NONCE_SIZE];
    // With no nonce the library gives number 13.
    const size_t drawn = RAND_bytes(nonce, sizeof nonce) == 1 ? sizeof nonce : 0;
    return take_result(box, spdm_respond(box->image, box->image_length, box->state, STATE_WORDS,
        box->transcript, sizeof box->transcript, answer, MESSAGE_LIMIT,
        request.at, request.length, nonce, drawn));
}

static size_t give(struct bytes message, uint8_t *answer, size_t room)
{
    if (message.length > room)
        return 0;
    memcpy(answer, message.at, message.length);
    return message.length;
}

size_t box_deliver(struct box *box, uint8_t *answer, size_t room)
{
    return give((struct bytes){box->answer, finish(box)}, answer, room);
}

// Only an answer just written is finished: an ERROR in the meantime is sent as it is, and the wait goes on.
size_t box_exchange(void *other, struct bytes request, uint8_t *answer, size_t room)
{
    struct box *box = other;
    uint8_t *written = box->state[SPDM_STATE_AWAITED] != 0 ? box->meantime : box->answer;
    const size_t length = respond(box, request, written);
    const bool awaited = length > 0 && box->state[SPDM_STATE_AWAITED] != 0 && written[1] != SPDM_ERROR;
    if (!awaited)
        return give((struct bytes){written, length}, answer, room);
    return box->conduct == TAKES_ITS_TIME ? 0 : box_deliver(box, answer, room);
}
