// Attackers who sit on the line between a panel and a box.
#ifndef ATTACKER_H
#define ATTACKER_H

#include "box.h"
#include "terms.h"

// Keeps the first CHALLENGE_AUTH and gives it again for the next CHALLENGE.
struct replayer {
    struct box *box;
    size_t length;
    uint8_t nonce[NONCE_SIZE];
    uint8_t answer[MESSAGE_LIMIT];
};

// Changes one byte of the requests with a code, or of the answers to them.
struct meddler {
    struct box *box;
    uint8_t code;
    bool in_answer;
    size_t offset;
};

// Asks for the digests while the box's chip takes its time over a signature.
struct intruder {
    struct box *box;
    size_t length;
    uint8_t answer[MESSAGE_LIMIT];
};

size_t replayer_exchange(void *replayer, struct bytes request, uint8_t *answer, size_t room);
size_t meddler_exchange(void *meddler, struct bytes request, uint8_t *answer, size_t room);
size_t intruder_exchange(void *intruder, struct bytes request, uint8_t *answer, size_t room);

#endif
