// The panel: the requester. It knows the box only by its answers and keeps its own log of them.
#ifndef PANEL_H
#define PANEL_H

#include "show.h"
#include "terms.h"

#include <openssl/evp.h>

// A log holds what a box may keep of A, B or M; B's is the longest.
enum { LOG_LIMIT = 28672 };

// How a request reaches a box, or whoever sits between: gives the answer's length, 0 for silence.
struct line {
    size_t (*exchange)(void *other, struct bytes request, uint8_t *answer, size_t room);
    void *other;
};

// What the panel concludes.
enum verdict {
    GOOD,
    UNCONNECTED,
    SILENT,
    REFUSED,
    MALFORMED,
    NOTHING_COMMON,
    WRONG_DIGEST,
    UNKNOWN_ROOT,
    WRONG_CERTIFICATE,
    WRONG_SIGNATURE,
    WRONG_MEASUREMENT,
};

// The editions that a panel speaks, and which of those that VERSION lists it takes: the largest, or the first.
struct speech {
    uint8_t from, to;
    bool takes_first;
};

struct log {
    size_t length;
    uint8_t bytes[LOG_LIMIT];
};

struct panel {
    struct line line;
    struct show *show;
    struct speech speech;
    struct bytes trusted_root;
    const struct component *components;
    size_t component_count;
    uint8_t reserved;
    size_t pad;

    uint8_t edition;
    const struct suite *suite;
    struct log a, b, m;
    uint8_t slots;
    uint8_t digests[8][DIGEST_LIMIT];
    struct chain chain;
    unsigned reads, full_reads; // portions of the chain, and those of them that have the length asked
    EVP_PKEY *leaf_key;
    bool has_summary;
    uint8_t summary[DIGEST_LIMIT];
    size_t answer_length;
    uint8_t answer[MESSAGE_LIMIT];
};

const char *verdict_text(enum verdict verdict);

// What a panel is given: the line, the editions that it speaks, the root's digest that it trusts, the components that
// it expects.
// `reserved` is put into every reserved byte of its requests; `pad` bytes follow every request.
void panel_start(struct panel *panel, struct line line, struct show *show);
void panel_end(struct panel *panel);

// Takes an edition, which all its later requests carry.
enum verdict panel_version(struct panel *panel);
// Tells the size under 1.2; under 1.1 there is no place for it.
enum verdict panel_capabilities(struct panel *panel, uint32_t size);
enum verdict panel_algorithms(struct panel *panel);
enum verdict panel_digests(struct panel *panel);
// Reads the chain of a slot, asking `length` bytes each time, and checks it.
enum verdict panel_chain(struct panel *panel, uint8_t slot, unsigned length);
// Checks the answer's signature, and its digest against the chain that was read.
enum verdict panel_challenge(struct panel *panel, uint8_t slot, uint8_t summary);
enum verdict panel_measurements(struct panel *panel, uint8_t slot, bool is_signed);

// GET_VERSION, GET_CAPABILITIES, NEGOTIATE_ALGORITHMS.
enum verdict panel_connect(struct panel *panel, uint32_t size);
// Connects, then digests, the chain, CHALLENGE for all measurements, signed measurements.
enum verdict panel_attest(struct panel *panel, uint32_t size, uint8_t slot, unsigned length);

// Sends any bytes, logs nothing; the answer is in panel->answer.
struct bytes panel_send(struct panel *panel, struct bytes request);
// Forgets what it logged for the next CHALLENGE, as after one that the chip failed to sign.
void panel_forget_b(struct panel *panel);

#endif
