#include "attacker.h"

#include "show.h"

#include <string.h>

enum { NONCE_AT = 4 };

size_t replayer_exchange(void *other, struct bytes request, uint8_t *answer, size_t room)
{
    struct replayer *replayer = other;
    const bool challenge = request.length >= NONCE_AT + NONCE_SIZE && request.at[1] == CHALLENGE;
    if (challenge && replayer->length > 0 && replayer->length <= room) {
        show_bytes("the first CHALLENGE's nonce", (struct bytes){replayer->nonce, NONCE_SIZE});
        show_bytes("the nonce asked now", (struct bytes){request.at + NONCE_AT, NONCE_SIZE});
        show_bytes("CHALLENGE_AUTH, the same again", (struct bytes){replayer->answer, replayer->length});
        memcpy(answer, replayer->answer, replayer->length);
        return replayer->length;
    }
    const size_t length = box_exchange(replayer->box, request, answer, room);
    if (challenge && length <= sizeof replayer->answer) {
        memcpy(replayer->nonce, request.at + NONCE_AT, NONCE_SIZE);
        memcpy(replayer->answer, answer, length);
        replayer->length = length;
    }
    return length;
}

// Flips the lowest bit of a byte of a message, and shows it.
static void meddle(const struct meddler *meddler, uint8_t *message, size_t length)
{
    if (meddler->offset >= length)
        return;
    const uint8_t before = message[meddler->offset];
    message[meddler->offset] ^= 1;
    show_change((struct bytes){message, length}, meddler->offset, before);
}

size_t meddler_exchange(void *other, struct bytes request, uint8_t *answer, size_t room)
{
    const struct meddler *meddler = other;
    uint8_t changed[MESSAGE_LIMIT];
    const bool meant = request.length > 1 && request.length <= sizeof changed && request.at[1] == meddler->code;
    if (!meant)
        return box_exchange(meddler->box, request, answer, room);
    memcpy(changed, request.at, request.length);
    if (!meddler->in_answer)
        meddle(meddler, changed, request.length);
    const size_t length = box_exchange(meddler->box, (struct bytes){changed, request.length}, answer, room);
    if (meddler->in_answer)
        meddle(meddler, answer, length);
    return length;
}

size_t intruder_exchange(void *other, struct bytes request, uint8_t *answer, size_t room)
{
    struct intruder *intruder = other;
    struct box *box = intruder->box;
    const size_t length = box_exchange(box, request, answer, room);
    if (length > 0 || box->number != 0)
        return length;
    const uint8_t get_digests[4] = {request.at[0], GET_DIGESTS};
    intruder->length = box_exchange(box, (struct bytes){get_digests, sizeof get_digests}, intruder->answer,
        sizeof intruder->answer);
    return box_deliver(box, answer, room);
}
