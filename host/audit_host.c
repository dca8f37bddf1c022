#include "audit.h"

#include "spdm_responder.h"
#include "stage.h"

#include <stdio.h>
#include <stdlib.h>
#include <string.h>

// A damaged image: this byte is changed, or the image cut to this length.
static void damage_image(struct stage *stage, size_t length, size_t offset, uint8_t value, uint32_t number)
{
    struct box *box = &stage->second_box;
    uint8_t answer[MESSAGE_LIMIT];
    memcpy(box, &stage->box, sizeof *box);
    box->image_length = length;
    if (offset < length)
        box->image[offset] = value;
    struct box *before = malloc(sizeof *before);
    if (!before)
        abort();
    memcpy(before, box, sizeof *before);
    if (offset < length)
        printf("      byte %zu of the image is made %02X, it was %02X\n", offset, value, stage->box.image[offset]);
    else
        printf("      the image's %zu bytes are cut to %zu\n", stage->box.image_length, length);
    const size_t given = box_exchange(box, BYTES(0x10, GET_VERSION, 0, 0), answer, sizeof answer);
    before->number = number;
    show_check(stage->show, given == 0 && memcmp(before, box, sizeof *before) == 0
        && SPDM_NUMBER(spdm_read_image(box->image, length)) == number,
        "a damaged image gets number %u, nothing else is touched", (unsigned)number);
    free(before);
}

static void damage_images(struct stage *stage)
{
    const size_t whole = stage->box.image_length, chain = 11 + stage->suite->digest_size;
    damage_image(stage, 0, 0, 0, 1);
    damage_image(stage, whole, 0, 2, 2);
    damage_image(stage, whole - 1, whole, 0, 3);
    damage_image(stage, whole, 3, 9, 4);
    damage_image(stage, whole, 2, 4, 6);
    damage_image(stage, whole, 5, 6, 7);
    damage_image(stage, whole, chain, stage->chain.bytes[0] ^ 1, 8);
}

// Nine chains are one too many.
static void ninth_chain(struct stage *stage)
{
    struct slot slots[9];
    for (uint8_t i = 0; i < 9; i++)
        slots[i] = (struct slot){i, &stage->chain};
    const struct provision provision = stage_provision(stage, slots, 9);
    const bool made = box_make(&stage->second_box, &stage->chip, &provision);
    const uint32_t result = spdm_read_image(stage->second_box.image, stage->second_box.image_length);
    show_check(stage->show, !made && SPDM_NUMBER(result) == SPDM_IMAGE_MANY,
        "an image with nine chains gets number 5");
}

// What a host had for the transcript before longer chains.
enum { OLD_TRANSCRIPT_SIZE = 16384 };

// A call of the library as a careless host would make it.
struct lent {
    size_t state, answer, transcript, nonce, signature;
};

static uint32_t careless_request(struct box *box, struct lent lent, struct bytes request)
{
    const uint8_t nonce[NONCE_SIZE] = {0};
    return spdm_respond(box->image, box->image_length, box->state, lent.state, box->transcript, lent.transcript,
        box->answer, lent.answer, request.at, request.length, nonce, lent.nonce);
}

static uint32_t careless_finish(struct box *box, struct lent lent)
{
    const uint8_t signature[SIGNATURE_LIMIT] = {0};
    return spdm_finish(box->image, box->image_length, box->state, lent.state, box->transcript, lent.transcript,
        box->answer, lent.answer, 1, signature, lent.signature);
}

// A refused call: its number and nothing else, for which the box is compared with itself before.
static void check_number(struct stage *stage, uint32_t result, uint32_t number, const char *what)
{
    const bool same = memcmp(&stage->box, &stage->second_box, sizeof stage->box) == 0;
    show_check(stage->show, same && result == number << 16, "%s gets number %u, nothing is touched", what,
        (unsigned)number);
}

static void refuse_request(struct stage *stage, struct lent lent, struct bytes request, uint32_t number,
    const char *what)
{
    memcpy(&stage->second_box, &stage->box, sizeof stage->box);
    check_number(stage, careless_request(&stage->box, lent, request), number, what);
}

static void refuse_finish(struct stage *stage, struct lent lent, uint32_t number, const char *what)
{
    memcpy(&stage->second_box, &stage->box, sizeof stage->box);
    check_number(stage, careless_finish(&stage->box, lent), number, what);
}

// One fault at a time.
static void refuse_short_buffers(struct stage *stage, struct lent right, struct bytes request)
{
    struct lent short_answer = right, short_transcript = right, short_nonce = right, short_state = right, old = right;
    short_answer.answer--;
    short_transcript.transcript--;
    old.transcript = OLD_TRANSCRIPT_SIZE;
    short_nonce.nonce--;
    short_state.state--;
    refuse_request(stage, short_answer, request, 11, "an answer buffer of 4,607 bytes");
    refuse_request(stage, short_transcript, request, 12, "a transcript buffer of 36,863 bytes");
    refuse_request(stage, old, request, 12, "one of 16,384 bytes, as before longer chains,");
    refuse_request(stage, short_nonce, request, 13, "a nonce of 31 bytes");
    refuse_request(stage, short_state, request, 14, "a state of 8 words, as before 1.1 was served,");
}

// Another request while a signature is awaited; a careful host lends it another answer buffer.
static void refuse_while_awaited(struct stage *stage)
{
    struct box *box = &stage->box;
    const struct bytes request = BYTES(EDITION_1_2, GET_DIGESTS, 0, 0);
    const struct bytes error = BYTES(EDITION_1_2, ERROR, 0x03, 0);
    const uint8_t nonce[NONCE_SIZE] = {0};
    uint8_t other[MESSAGE_LIMIT];
    const uint32_t result = spdm_respond(box->image, box->image_length, box->state, STATE_WORDS, box->transcript,
        sizeof box->transcript, other, sizeof other, request.at, request.length, nonce, sizeof nonce);
    show_check(stage->show, result == 4 && same_bytes((struct bytes){other, 4}, error),
        "another request while a signature is awaited gets ERROR 0x03");
}

// A word of the state that no call of the library leaves.
static void refuse_state(struct stage *stage, struct lent right, struct bytes request, unsigned word, uint32_t value,
    const char *what)
{
    struct box *box = &stage->box;
    const uint32_t kept = box->state[word];
    box->state[word] = value;
    refuse_request(stage, right, request, 14, what);
    box->state[word] = kept;
}

static void refuse_careless_host(struct stage *stage)
{
    struct box *box = &stage->box;
    const uint8_t challenge[36] = {EDITION_1_2, CHALLENGE};
    const struct bytes request = {challenge, sizeof challenge};
    const struct lent right = {STATE_WORDS, MESSAGE_LIMIT, TRANSCRIPT_SIZE, NONCE_SIZE, stage->suite->signature_size};
    struct lent short_signature = right;
    short_signature.signature--;
    check_verdict(stage, panel_connect(&stage->panel, LARGE - 1), GOOD, "a panel of 4,607 bytes connects");
    refuse_short_buffers(stage, right, request);
    refuse_finish(stage, right, 15, "finishing when nothing awaits a signature");
    show_check(stage->show, SPDM_NUMBER(careless_request(box, right, request)) == 0, "CHALLENGE is accepted after all");
    refuse_while_awaited(stage);
    refuse_finish(stage, short_signature, 16, "a signature one byte short");
    show_check(stage->show, SPDM_NUMBER(careless_finish(box, right)) == 0, "the whole signature is taken");
    refuse_state(stage, right, request, SPDM_STATE_PHASE, 4, "a state with phase 4");
    refuse_state(stage, right, request, SPDM_STATE_B, B_LIMIT + 1, "a state with 28,673 bytes of B");
    refuse_state(stage, right, request, SPDM_STATE_EDITION, 0, "a connected state with no edition");
    refuse_state(stage, right, request, SPDM_STATE_EDITION, EDITION_1_1, "1.1 with a peer's size of 4,607");
    memset(box->state, 0, sizeof box->state);
    refuse_state(stage, right, request, SPDM_STATE_EDITION, EDITION_1_2, "a fresh state with an edition");
}

void audit_host(struct show *show, const struct suite *suite)
{
    printf("\n==== Damaged images and careless hosts, with %s (conversations not printed)\n", suite->name);
    show->quiet = true;
    struct stage *stage = stage_start(show, suite, EDITION_1_2);
    if (!stage)
        return;
    damage_images(stage);
    ninth_chain(stage);
    refuse_careless_host(stage);
    stage_end(stage);
}
