#include "audit.h"

#include "attacker.h"
#include "stage.h"

#include <stdio.h>

// A panel that attests box 1, and which edition it takes for that.
static void take_edition(struct stage *stage, struct speech speech, uint8_t wanted, const char *who)
{
    struct panel *panel = &stage->panel;
    place_panel_at(stage, &stage->box);
    panel->speech = speech;
    const enum verdict verdict = panel_attest(panel, LARGE, 0, 1024);
    show_check(stage->show, verdict == GOOD && panel->edition == wanted, "%s takes %s and attests the box: %s", who,
        edition_text(panel->edition), verdict_text(verdict));
}

// One box serves them all, one after the other: a GET_VERSION makes the choice free again.
static void take_editions(struct stage *stage)
{
    const struct speech only_11 = {EDITION_1_1, EDITION_1_1, false}, only_12 = {EDITION_1_2, EDITION_1_2, false};
    const struct speech largest = {EDITION_1_1, EDITION_1_2, false}, first = {EDITION_1_1, EDITION_1_2, true};
    const struct speech from_10 = {0x10, 0x13, false};
    panel_version(&stage->panel);
    show_bytes("VERSION", (struct bytes){stage->panel.answer, stage->panel.answer_length});
    show_check(stage->show, answered(stage, BYTES(0x10, VERSION, 0, 0, 0, 2, 0, EDITION_1_1, 0, EDITION_1_2)),
        "VERSION lists 1.1 and 1.2, rising");
    take_edition(stage, only_11, EDITION_1_1, "a panel that only speaks 1.1");
    take_edition(stage, only_12, EDITION_1_2, "a panel that only speaks 1.2");
    take_edition(stage, largest, EDITION_1_2, "a panel that speaks both and takes the larger");
    take_edition(stage, first, EDITION_1_1, "a panel that speaks both and takes the first");
    take_edition(stage, from_10, EDITION_1_2, "a panel that speaks 1.0 to 1.3 and takes the largest");
}

// What the box does not list: the panel sees it, and the box refuses who asks all the same.
static void refuse_unlisted(struct stage *stage)
{
    const uint8_t capabilities[20] = {0x13, GET_CAPABILITIES};
    place_panel_at(stage, &stage->box);
    stage->panel.speech = (struct speech){0x13, 0x13, false};
    check_verdict(stage, panel_version(&stage->panel), NOTHING_COMMON, "a panel that only speaks 1.3");
    check_error(stage, (struct bytes){capabilities, sizeof capabilities}, BYTES(0x10, ERROR, 0x41, 0),
        "GET_CAPABILITIES of 1.3");
}

// Who sits on the line makes the list say 1.1 and 1.3, so that a panel for 1.1 and 1.2 takes 1.1.
static void catch_downgrade(struct stage *stage)
{
    struct meddler meddler = {.box = &stage->box, .code = GET_VERSION, .in_answer = true, .offset = 9};
    place_panel(stage, (struct line){meddler_exchange, &meddler});
    stage->panel.speech = (struct speech){EDITION_1_1, EDITION_1_2, false};
    const enum verdict verdict = panel_attest(&stage->panel, LARGE, 0, 1024);
    show_check(stage->show, stage->panel.edition == EDITION_1_1, "a panel that would take 1.2 is made to take 1.1");
    check_verdict(stage, verdict, WRONG_SIGNATURE, "it is caught at CHALLENGE_AUTH, which signs the list too");
}

// Before the choice the version byte of either passes: here as far as the phase. The length is looked at before it.
static void ask_before_choice(struct stage *stage)
{
    const uint8_t long_request[MESSAGE_LIMIT + 1] = {EDITION_1_1, GET_CAPABILITIES};
    place_panel_at(stage, &stage->box);
    panel_version(&stage->panel);
    check_error(stage, BYTES(EDITION_1_1, GET_DIGESTS, 0, 0), BYTES(0x10, ERROR, 0x04, 0),
        "before the choice GET_DIGESTS of 1.1");
    check_error(stage, BYTES(EDITION_1_2, GET_DIGESTS, 0, 0), BYTES(0x10, ERROR, 0x04, 0),
        "before the choice GET_DIGESTS of 1.2");
    check_error(stage, (struct bytes){long_request, sizeof long_request}, BYTES(0x10, ERROR, 0x0E, 0),
        "before the choice a request of 4,609 bytes");
}

// A request with the other edition's byte, which is refused with the chosen one's.
static void refuse_other(struct stage *stage, uint8_t code, const char *name)
{
    const uint8_t chosen = stage->edition, other = other_edition(chosen), text[48] = {other, code};
    char what[64];
    snprintf(what, sizeof what, "under %s a %s of %s", edition_text(chosen), name, edition_text(other));
    check_error(stage, (struct bytes){text, sizeof text}, BYTES(chosen, ERROR, 0x41, 0), what);
}

// Once chosen, the edition stays, and what was asked in the other one leaves no trace in what is signed.
static void hold_to_choice(struct stage *stage)
{
    struct panel *panel = &stage->panel;
    place_panel_at(stage, &stage->box);
    enum verdict verdict = panel_version(panel);
    if (verdict == GOOD)
        verdict = panel_capabilities(panel, LARGE);
    refuse_other(stage, GET_CAPABILITIES, "GET_CAPABILITIES");
    refuse_other(stage, NEGOTIATE_ALGORITHMS, "NEGOTIATE_ALGORITHMS");
    if (verdict == GOOD)
        verdict = panel_algorithms(panel);
    refuse_other(stage, GET_DIGESTS, "GET_DIGESTS");
    refuse_other(stage, GET_MEASUREMENTS, "GET_MEASUREMENTS");
    if (verdict == GOOD)
        verdict = panel_chain(panel, 0, 1024);
    if (verdict == GOOD)
        verdict = panel_challenge(panel, 0, 0);
    check_verdict(stage, verdict, GOOD, "the conversation goes on as it was begun");
}

// A host that has the chip sign as under the other edition is caught by the panel.
static void catch_other_signing(struct stage *stage)
{
    struct panel *panel = &stage->panel;
    const bool old = stage->edition == EDITION_1_1;
    place_panel_at(stage, &stage->box);
    bool good = panel_attest(panel, LARGE, 0, 1024) == GOOD;
    stage->box.conduct = SIGNS_OTHER_PREFIX;
    check_verdict(stage, panel_challenge(panel, 0, 0), WRONG_SIGNATURE, old
        ? "under 1.1 a CHALLENGE_AUTH signed with 1.2's prefix is caught"
        : "under 1.2 a CHALLENGE_AUTH signed without the prefix is caught");
    check_verdict(stage, panel_measurements(panel, 0, true), WRONG_SIGNATURE, old
        ? "under 1.1 MEASUREMENTS signed with 1.2's prefix are caught"
        : "under 1.2 MEASUREMENTS signed without the prefix are caught");
    stage->box.conduct = SIGNS_OTHER_PARTS;
    check_verdict(stage, panel_measurements(panel, 0, true), WRONG_SIGNATURE, old
        ? "under 1.1 MEASUREMENTS signed over A then M are caught"
        : "under 1.2 MEASUREMENTS signed over M alone are caught");
    stage->box.conduct = SIGNS;
    good = good && panel_challenge(panel, 0, 0) == GOOD && panel_measurements(panel, 0, true) == GOOD;
    show_check(stage->show, good, "signed as they should be both are good");
}

void audit_editions(struct show *show, const struct suite *suite)
{
    printf("\n==== Panels that speak 1.1, 1.2 or both, with %s (conversations not printed)\n", suite->name);
    show->quiet = true;
    struct stage *stage = stage_start(show, suite, EDITION_1_2);
    if (!stage)
        return;
    take_editions(stage);
    refuse_unlisted(stage);
    catch_downgrade(stage);
    ask_before_choice(stage);
    for (stage->edition = EDITION_1_1; stage->edition <= EDITION_1_2; stage->edition++) {
        hold_to_choice(stage);
        catch_other_signing(stage);
    }
    stage_end(stage);
}
