#include "audit.h"

#include "attacker.h"
#include "stage.h"

#include <stdio.h>
#include <string.h>

static void tell_boxes_apart(struct stage *stage)
{
    uint8_t digest[DIGEST_LIMIT];
    place_panel_at(stage, &stage->box);
    check_verdict(stage, panel_attest(&stage->panel, LARGE, 0, 1024), GOOD, "box 1 attested");
    memcpy(digest, stage->panel.digests[0], sizeof digest);
    EVP_PKEY *key = stage->panel.leaf_key;
    stage->panel.leaf_key = NULL;
    place_panel_at(stage, &stage->second_box);
    check_verdict(stage, panel_attest(&stage->panel, LARGE, 0, 1024), GOOD, "box 2 attested");
    show_check(stage->show, memcmp(digest, stage->panel.digests[0], stage->suite->digest_size) != 0,
        "box 2 told apart by its chain's digest");
    show_check(stage->show, key && stage->panel.leaf_key && EVP_PKEY_eq(key, stage->panel.leaf_key) == 0,
        "box 2 told apart by its key");
    EVP_PKEY_free(key);
}

// A box that was given box 1's chain but not its key.
static void catch_copied_chain(struct stage *stage)
{
    bool made = provision_box(stage, &stage->second_box, &stage->second_chip, &stage->chain);
    place_panel_at(stage, &stage->second_box);
    made = made && panel_connect(&stage->panel, LARGE) == GOOD && panel_digests(&stage->panel) == GOOD
        && panel_chain(&stage->panel, 0, 1024) == GOOD;
    show_bytes("box 1's chain in box 2's image", chain_bytes(&stage->panel.chain));
    show_check(stage->show, made, "a box with a copied chain shows that chain");
    check_verdict(stage, panel_challenge(&stage->panel, 0, 0), WRONG_SIGNATURE, "it is caught at CHALLENGE_AUTH");
    check_verdict(stage, panel_measurements(&stage->panel, 0, true), WRONG_SIGNATURE, "and at signed MEASUREMENTS");
}

// A box whose chain comes from another maker of the same name.
static void catch_other_root(struct stage *stage)
{
    struct maker forger;
    struct chain chain = {0};
    const bool made = maker_start(&forger, stage->suite, "Demonstration root")
        && maker_certify(&forger, &stage->second_chip, "Box 1", &chain)
        && provision_box(stage, &stage->second_box, &stage->second_chip, &chain);
    place_panel_at(stage, &stage->second_box);
    const enum verdict verdict = made ? panel_attest(&stage->panel, LARGE, 0, 1024) : SILENT;
    show_bytes("the trusted root's hash", stage->panel.trusted_root);
    show_bytes("the root hash in the chain", (struct bytes){stage->panel.chain.bytes + 4, stage->suite->digest_size});
    check_verdict(stage, verdict, UNKNOWN_ROOT, "a chain under another root is caught");
    maker_end(&forger);
}

// A box with a second chain in slot 2, from its owner, for the same key.
static void attest_second_slot(struct stage *stage)
{
    struct maker owner;
    struct chain chain = {0};
    const struct slot slots[] = {{0, &stage->chain}, {2, &chain}};
    const struct provision provision = stage_provision(stage, slots, 2);
    const bool made = maker_start(&owner, stage->suite, "Owner's root")
        && maker_certify(&owner, &stage->chip, "Box 1 at the farm", &chain)
        && box_make(&stage->second_box, &stage->chip, &provision);
    place_panel_at(stage, &stage->second_box);
    stage->panel.trusted_root = (struct bytes){owner.root_digest, stage->suite->digest_size};
    const enum verdict verdict = made ? panel_attest(&stage->panel, LARGE, 2, 300) : SILENT;
    check_verdict(stage, verdict, GOOD, "the owner's chain in slot 2 attested");
    show_check(stage->show, stage->panel.slots == 0x05, "the slot mask is 0x05: slots 0 and 2");
    stage->panel.trusted_root = (struct bytes){stage->maker.root_digest, stage->suite->digest_size};
    maker_end(&owner);
}

static enum verdict challenge_anew(struct panel *panel)
{
    enum verdict verdict = panel_connect(panel, LARGE);
    if (verdict == GOOD)
        verdict = panel_digests(panel);
    if (verdict == GOOD)
        verdict = panel_chain(panel, 0, 1024);
    return verdict == GOOD ? panel_challenge(panel, 0, 0) : verdict;
}

static void catch_replay(struct stage *stage)
{
    struct replayer replayer = {.box = &stage->box};
    place_panel(stage, (struct line){replayer_exchange, &replayer});
    check_verdict(stage, challenge_anew(&stage->panel), GOOD, "CHALLENGE_AUTH for the first nonce");
    check_verdict(stage, challenge_anew(&stage->panel), WRONG_SIGNATURE,
        "the same CHALLENGE_AUTH replayed for a new nonce is caught");
}

static void catch_meddler(struct stage *stage, struct meddler meddler, enum verdict wanted, const char *what)
{
    meddler.box = &stage->box;
    place_panel(stage, (struct line){meddler_exchange, &meddler});
    check_verdict(stage, panel_attest(&stage->panel, LARGE, 0, 1024), wanted, what);
}

static void catch_meddlers(struct stage *stage)
{
    const size_t nonce = 4 + stage->suite->digest_size;
    catch_meddler(stage, (struct meddler){.code = GET_CERTIFICATE, .in_answer = true, .offset = 300}, WRONG_DIGEST,
        "a chain changed on the way is caught");
    catch_meddler(stage, (struct meddler){.code = NEGOTIATE_ALGORITHMS, .offset = 34}, WRONG_SIGNATURE,
        "an offer changed on the way is caught");
    catch_meddler(stage, (struct meddler){.code = CHALLENGE, .in_answer = true, .offset = nonce}, WRONG_SIGNATURE,
        "a box's nonce changed on the way is caught");
    catch_meddler(stage, (struct meddler){.code = GET_MEASUREMENTS, .in_answer = true, .offset = 20}, WRONG_MEASUREMENT,
        "a measurement changed on the way is caught");
}

// A request that is right but for its length.
static void refuse_long_request(struct stage *stage, uint8_t code, const char *what)
{
    const uint8_t text[MESSAGE_LIMIT + 1] = {stage->edition, code};
    const uint8_t error = stage->edition == EDITION_1_1 ? 0x01 : 0x0E;
    check_error(stage, (struct bytes){text, sizeof text}, BYTES(stage->edition, ERROR, error, 0), what);
}

// GET_CAPABILITIES: a layout, and under 1.2 a size, that is one short.
static void refuse_capabilities(struct stage *stage)
{
    const uint8_t edition = stage->edition, text[20] = {edition, GET_CAPABILITIES};
    const size_t length = edition == EDITION_1_1 ? 11 : 19;
    check_error(stage, (struct bytes){text, length}, BYTES(0x10, ERROR, 0x01, 0), "GET_CAPABILITIES, a byte short,");
    if (edition != EDITION_1_1)
        check_verdict(stage, panel_capabilities(&stage->panel, SMALL - 1), REFUSED, "DataTransferSize 41");
}

// Requests that are refused, from a fresh box to the end of the negotiation; it goes on undisturbed.
static void refuse_while_connecting(struct stage *stage)
{
    const uint8_t edition = stage->edition, challenge[36] = {edition, CHALLENGE};
    check_error(stage, BYTES(0x10, GET_VERSION, 0), BYTES(0x10, ERROR, 0x01, 0), "a request of 3 bytes");
    check_error(stage, BYTES(edition, GET_DIGESTS, 0, 0), BYTES(0x10, ERROR, 0x04, 0),
        "GET_DIGESTS before GET_VERSION");
    panel_version(&stage->panel);
    refuse_capabilities(stage);
    panel_capabilities(&stage->panel, LARGE);
    check_error(stage, (struct bytes){challenge, sizeof challenge}, BYTES(edition, ERROR, 0x04, 0),
        "CHALLENGE in the wrong phase");
    panel_algorithms(&stage->panel);
}

// Requests that are refused afterwards.
static void refuse_when_connected(struct stage *stage)
{
    const uint8_t edition = stage->edition, slot_8[36] = {edition, CHALLENGE, 8};
    const uint8_t other_version[36] = {other_edition(edition), CHALLENGE};
    uint8_t past_end[8] = {edition, GET_CERTIFICATE, 0, 0, 0, 0, 34, 0};
    write_16(past_end + 4, (unsigned)stage->chain.length);
    check_error(stage, (struct bytes){other_version, 36}, BYTES(edition, ERROR, 0x41, 0),
        "the other edition's version byte");
    check_error(stage, BYTES(edition, 0xFF, 0x83, 0), BYTES(edition, ERROR, 0x07, 0xFF), "an unsupported code");
    check_error(stage, (struct bytes){slot_8, 36}, BYTES(edition, ERROR, 0x01, 0), "CHALLENGE for slot 8");
    check_error(stage, (struct bytes){past_end, 8}, BYTES(edition, ERROR, 0x01, 0),
        "GET_CERTIFICATE at the chain's end");
    refuse_long_request(stage, GET_DIGESTS, "a request of 4,609 bytes");
}

static void refuse_damaged_requests(struct stage *stage)
{
    memset(stage->box.state, 0, sizeof stage->box.state);
    place_panel_at(stage, &stage->box);
    refuse_while_connecting(stage);
    refuse_when_connected(stage);
    panel_digests(&stage->panel);
    panel_chain(&stage->panel, 0, 200);
    check_verdict(stage, panel_challenge(&stage->panel, 0, 1), GOOD,
        "refused requests left no trace in what is signed");
}

// Pad bytes enter no transcript; reserved bytes enter it as they came.
static void pad_and_reserve(struct stage *stage)
{
    place_panel_at(stage, &stage->box);
    stage->panel.pad = 7;
    check_verdict(stage, panel_attest(&stage->panel, LARGE, 0, 100), GOOD,
        "pad bytes after every request are not signed");
    place_panel_at(stage, &stage->box);
    stage->panel.reserved = 0x5A;
    check_verdict(stage, panel_attest(&stage->panel, LARGE, 0, 100), GOOD, "reserved bytes are signed as they came");
}

// B is emptied by GET_MEASUREMENTS, M by any other request and by a GET_MEASUREMENTS that is refused at step 7, 8 or 9.
// The panel does the same with its log, and forgets M at any ERROR to GET_MEASUREMENTS; it meets none of steps 1 to 6.
// One that is too long, step 2, it only sends: M stays in its log, as in the box.
static void empty_transcripts(struct stage *stage)
{
    struct panel *panel = &stage->panel;
    place_panel_at(stage, &stage->box);
    bool good = panel_connect(panel, LARGE) == GOOD && panel_digests(panel) == GOOD
        && panel_chain(panel, 0, 1024) == GOOD && panel_measurements(panel, 0, false) == GOOD;
    show_check(stage->show, good && panel_challenge(panel, 0, 0) == GOOD, "GET_MEASUREMENTS empties B");
    good = panel_measurements(panel, 0, false) == GOOD && panel_digests(panel) == GOOD;
    show_check(stage->show, good && panel_measurements(panel, 0, true) == GOOD, "GET_DIGESTS empties M");
    good = panel_measurements(panel, 0, false) == GOOD && panel_measurements(panel, 1, true) == REFUSED;
    show_check(stage->show, good && panel_measurements(panel, 0, true) == GOOD, "a refused GET_MEASUREMENTS empties M");
    good = panel_measurements(panel, 0, false) == GOOD;
    refuse_long_request(stage, GET_MEASUREMENTS, "a GET_MEASUREMENTS of 4,609 bytes");
    show_check(stage->show, good && panel_measurements(panel, 0, true) == GOOD, "it leaves M as it is");
    good = panel_digests(panel) == GOOD && panel_connect(panel, LARGE) == GOOD;
    show_check(stage->show, good && panel_challenge(panel, 0, 0) == GOOD, "GET_VERSION empties all");
}

// A request that comes while the chip signs is Busy, and what is signed then is the CHALLENGE_AUTH that was awaited.
static void ask_while_signing(struct stage *stage)
{
    struct intruder intruder = {.box = &stage->box};
    place_panel(stage, (struct line){intruder_exchange, &intruder});
    stage->box.conduct = TAKES_ITS_TIME;
    const enum verdict verdict = challenge_anew(&stage->panel);
    const struct bytes answer = {intruder.answer, intruder.length};
    stage->box.conduct = SIGNS;
    show_bytes("GET_DIGESTS while the chip signs is answered", answer);
    show_check(stage->show, same_bytes(answer, BYTES(stage->edition, ERROR, 0x03, 0)),
        "it gets ERROR 0x03");
    check_verdict(stage, verdict, GOOD, "the CHALLENGE_AUTH that was awaited");
}

static void fail_chip(struct stage *stage)
{
    struct panel *panel = &stage->panel;
    const uint8_t edition = stage->edition;
    const struct bytes error = BYTES(edition, ERROR, 0x05, 0);
    place_panel_at(stage, &stage->box);
    bool good = panel_attest(panel, LARGE, 0, 1024) == GOOD;
    stage->box.conduct = FAILS;
    good = good && panel_challenge(panel, 0, 0) == REFUSED && answered(stage, error);
    panel_forget_b(panel);
    show_check(stage->show, good, "a failed chip at CHALLENGE gives %02X 7F 05 00", edition);
    good = panel_measurements(panel, 0, true) == REFUSED && answered(stage, error);
    show_check(stage->show, good, "a failed chip at GET_MEASUREMENTS gives %02X 7F 05 00", edition);
    stage->box.conduct = SIGNS_SHORT;
    good = panel_challenge(panel, 0, 0) == REFUSED && answered(stage, error);
    panel_forget_b(panel);
    show_check(stage->show, good, "a signature one byte short is number 16, and finished again %02X 7F 05 00",
        edition);
    stage->box.conduct = SIGNS;
    check_verdict(stage, panel_challenge(panel, 0, 0), GOOD, "the chip works again, the next CHALLENGE_AUTH");
    check_verdict(stage, panel_measurements(panel, 0, true), GOOD, "and the next MEASUREMENTS");
}

void audit(struct show *show, const struct suite *suite, uint8_t edition)
{
    printf("\n==== What the auditor asked, with %s and panels that speak %s (conversations not printed)\n", suite->name,
        edition_text(edition));
    show->quiet = true;
    struct stage *stage = stage_start(show, suite, edition);
    if (!stage)
        return;
    tell_boxes_apart(stage);
    catch_copied_chain(stage);
    catch_other_root(stage);
    attest_second_slot(stage);
    catch_replay(stage);
    catch_meddlers(stage);
    refuse_damaged_requests(stage);
    pad_and_reserve(stage);
    empty_transcripts(stage);
    ask_while_signing(stage);
    fail_chip(stage);
    stage_end(stage);
}
