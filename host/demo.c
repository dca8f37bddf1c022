// The demonstration: panels talk to boxes, then what the auditor asked is shown check by check.
#include "audit.h"
#include "lines.h"
#include "stage.h"

#include <stdio.h>
#include <string.h>

static void read_small_digests(struct stage *stage)
{
    const enum verdict verdict = panel_digests(&stage->panel);
    const size_t size = 4 + stage->suite->digest_size;
    if (size <= SMALL)
        check_verdict(stage, verdict, GOOD, "digests read by the small panel");
    else
        check_too_large(stage, size, "DIGESTS");
}

static void read_small_chain(struct stage *stage)
{
    const enum verdict verdict = panel_chain(&stage->panel, 0, 34);
    const size_t length = stage->chain.length;
    check_verdict(stage, verdict, GOOD, "chain read in portions of 34 bytes, root hash and certificates checked");
    show_check(stage->show, stage->panel.reads == (length + 33) / 34 && same_bytes(chain_bytes(&stage->panel.chain),
        chain_bytes(&stage->chain)), "%u reads joined are the chain of %zu bytes", stage->panel.reads, length);
}

// A panel whose messages have at most 42 bytes reads the chain but can't take a signature.
static void meet_small_panel(struct stage *stage)
{
    show_title(stage->show, "A small panel, DataTransferSize 42");
    check_verdict(stage, panel_connect(&stage->panel, SMALL), GOOD, "small panel connects");
    read_small_digests(stage);
    read_small_chain(stage);
    panel_challenge(&stage->panel, 0, 0);
    check_too_large(stage, challenge_auth_size(stage->suite), "CHALLENGE_AUTH");
}

// A conversation to its end, and what is said of it.
struct meeting {
    uint8_t edition;
    const char *title, *connects, *challenge, *measurements;
};

static const struct meeting large_panel = {
    EDITION_1_2,
    "A large panel, DataTransferSize 4608",
    "large panel connects",
    "CHALLENGE_AUTH's signature over A then B, by the leaf's key",
    "MEASUREMENTS' signature over A then M, the unsigned ones in it",
};

static const struct meeting old_panel = {
    EDITION_1_1,
    "A panel that only speaks 1.1: nobody tells sizes, and what is signed has no prefix",
    "panel of 1.1 connects",
    "CHALLENGE_AUTH's signature over A then B, with no prefix, by the leaf's key",
    "MEASUREMENTS' signature over M alone, with no prefix, the unsigned ones in it",
};

static void meet_panel(struct stage *stage, const struct meeting *meeting)
{
    struct panel *panel = &stage->panel;
    stage->edition = meeting->edition;
    place_panel_at(stage, &stage->box);
    show_title(stage->show, meeting->title);
    check_verdict(stage, panel_connect(panel, LARGE), GOOD, meeting->connects);
    check_verdict(stage, panel_digests(panel), GOOD, "digests read");
    check_verdict(stage, panel_chain(panel, 0, 1024), GOOD,
        "chain read, its digest, root hash and certificates checked");
    check_verdict(stage, panel_challenge(panel, 0, 0xFF), GOOD, meeting->challenge);
    check_verdict(stage, panel_measurements(panel, 0, false), GOOD, "unsigned measurements, and their summary hash");
    check_verdict(stage, panel_measurements(panel, 0, true), GOOD, meeting->measurements);
}

// The whole conversations of three panels with one box.
static void meet(struct show *show, const struct suite *suite, bool quiet)
{
    show->quiet = quiet;
    printf("\n==== A box with %s%s\n", suite->name, quiet ? " (conversation not printed)" : "");
    struct stage *stage = stage_start(show, suite, EDITION_1_2);
    if (!stage)
        return;
    meet_small_panel(stage);
    meet_panel(stage, &large_panel);
    meet_panel(stage, &old_panel);
    stage_end(stage);
}

// The first box's image, and the lines that the bench would make it of.
static void export_box(struct show *show, const struct suite *suite, const char *lines_path, const char *image_path)
{
    struct stage *stage = stage_start(show, suite, EDITION_1_2);
    if (!stage)
        return;
    show_check(show, write_lines(&stage->box, lines_path, image_path), "%s and %s written", lines_path, image_path);
    stage_end(stage);
}

static int usage(FILE *file, int status)
{
    fputs("usage: demo                       panels talk to boxes, then the checks; status 1 if one is wrong\n"
        "       demo --export LINES IMAGE  writes a box's image, and the lines that make_image makes it of\n"
        "       demo --help                prints this\n", file);
    return status;
}

int main(int count, char **words)
{
    struct show show = {0};
    const struct suite *p256 = suite_by_numbers(0, 4), *p384 = suite_by_numbers(1, 7);
    if (count == 2 && strcmp(words[1], "--help") == 0)
        return usage(stdout, 0);
    if (count == 4 && strcmp(words[1], "--export") == 0) {
        export_box(&show, p256, words[2], words[3]);
        return show_end(&show);
    }
    if (count > 1)
        return usage(stderr, 2);
    meet(&show, p256, false);
    meet(&show, p384, false);
    meet(&show, suite_by_numbers(2, 7), true);
    audit(&show, p256, EDITION_1_2);
    audit(&show, p384, EDITION_1_2);
    audit(&show, p256, EDITION_1_1);
    audit_editions(&show, p384);
    audit_chains(&show, p256);
    audit_host(&show, p256);
    audit_host(&show, p384);
    return show_end(&show);
}
