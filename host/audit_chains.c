#include "audit.h"

#include "spdm_responder.h"
#include "stage.h"

#include <stdio.h>

// A small panel's portion and a large one's; the longest chain in small portions, by the papers; what B held before.
enum { PORTION = 34, LARGE_PORTION = 1024, LONGEST_READS = 482, OLD_B_LIMIT = 8192 };

// The supplier's authorities, and the length of the statement in each one's certificate: their chains have 14 KB.
static bool start_supplier(struct maker *supplier, const struct suite *suite)
{
    const size_t statement = 4160;
    return maker_start(supplier, suite, "Supplier's root")
        && maker_delegate(supplier, "Supplier's boxes", statement)
        && maker_delegate(supplier, "Supplier's boxes, works 2", statement)
        && maker_delegate(supplier, "Supplier's boxes, works 2, line 7", statement);
}

// The second box gets the supplier's chain, for the first chip.
static bool provision_supplied(struct stage *stage)
{
    return provision_box(stage, &stage->second_box, &stage->chip, &stage->second_chain);
}

// A panel at that box that trusts the supplier's root.
static void place_trusting(struct stage *stage, const struct maker *supplier, uint8_t edition)
{
    stage->edition = edition;
    place_panel_at(stage, &stage->second_box);
    stage->panel.trusted_root = (struct bytes){supplier->root_digest, stage->suite->digest_size};
}

// Connects, takes the digests and reads the chain: no read is refused, and all but the rest have the length asked.
static void read_chain(struct stage *stage, uint32_t size, unsigned portion)
{
    struct panel *panel = &stage->panel;
    const struct bytes chain = chain_bytes(&stage->second_chain);
    enum verdict verdict = panel_connect(panel, size);
    if (verdict == GOOD)
        verdict = panel_digests(panel);
    if (verdict == GOOD)
        verdict = panel_chain(panel, 0, portion);
    show_check(stage->show, verdict == GOOD, "a panel of %s, size %u, reads the chain after GET_DIGESTS: %s",
        edition_text(stage->edition), (unsigned)size, verdict_text(verdict));
    show_check(stage->show, panel->reads == (chain.length + portion - 1) / portion
        && panel->full_reads == chain.length / portion && same_bytes(chain_bytes(&panel->chain), chain),
        "%u reads of %u bytes and %u of the rest, joined, are the chain of %zu bytes", panel->full_reads, portion,
        panel->reads - panel->full_reads, chain.length);
}

// What is signed has all the reads in it.
static void check_challenge(struct stage *stage)
{
    const size_t read = stage->panel.b.length;
    const enum verdict verdict = panel_challenge(&stage->panel, 0, 0);
    show_check(stage->show, verdict == GOOD,
        "CHALLENGE_AUTH's signature over A then B, %zu bytes of B before the CHALLENGE: %s", read,
        verdict_text(verdict));
}

// Panels that ask for 34 bytes at a time: the smallest, and the smallest that a CHALLENGE_AUTH can be sent to.
static void read_by_34(struct stage *stage, const struct maker *supplier)
{
    const size_t size = challenge_auth_size(stage->suite);
    place_trusting(stage, supplier, EDITION_1_2);
    read_chain(stage, SMALL, PORTION);
    panel_challenge(&stage->panel, 0, 0);
    check_too_large(stage, size, "CHALLENGE_AUTH");
    place_trusting(stage, supplier, EDITION_1_2);
    read_chain(stage, (uint32_t)size, PORTION);
    show_check(stage->show, stage->panel.b.length > OLD_B_LIMIT, "more than B held before longer chains");
    check_challenge(stage);
}

// The supplier's chain as it comes, to small panels and to large ones of both editions.
static void read_supplied(struct stage *stage, const struct maker *supplier)
{
    const bool made = maker_certify(supplier, &stage->chip, "Box 1", &stage->second_chain)
        && provision_supplied(stage);
    show_bytes("the supplier's chain", chain_bytes(&stage->second_chain));
    show_check(stage->show, made, "a box with the new supplier's chain of five certificates, %zu bytes",
        stage->second_chain.length);
    read_by_34(stage, supplier);
    for (uint8_t edition = EDITION_1_1; edition <= EDITION_1_2; edition++) {
        place_trusting(stage, supplier, edition);
        read_chain(stage, LARGE, LARGE_PORTION);
        check_challenge(stage);
        check_verdict(stage, panel_measurements(&stage->panel, 0, true), GOOD, "and signed MEASUREMENTS");
    }
}

// The panel goes from certificate to certificate: one that is left out is missed.
static void catch_gap(struct stage *stage, const struct maker *supplier)
{
    struct maker gap = *supplier;
    gap.authority_count--;
    for (size_t i = 1; i < gap.authority_count; i++)
        gap.authorities[i] = gap.authorities[i + 1];
    const bool made = maker_certify(&gap, &stage->chip, "Box 1", &stage->second_chain) && provision_supplied(stage);
    place_trusting(stage, supplier, EDITION_1_2);
    const enum verdict verdict = made ? panel_attest(&stage->panel, LARGE, 0, LARGE_PORTION) : SILENT;
    check_verdict(stage, verdict, WRONG_CERTIFICATE, "a chain without the first authority's certificate is caught");
}

// Without a CHALLENGE between them two readings by 34 bytes are more than B holds. GET_MEASUREMENTS empties it.
static void fill_b(struct stage *stage, const struct maker *supplier)
{
    struct panel *panel = &stage->panel;
    const size_t exchange = 8 + 8 + PORTION;
    place_trusting(stage, supplier, EDITION_1_2);
    bool good = panel_connect(panel, LARGE) == GOOD && panel_digests(panel) == GOOD
        && panel_chain(panel, 0, PORTION) == GOOD && panel_chain(panel, 0, PORTION) == REFUSED
        && answered(stage, BYTES(EDITION_1_2, ERROR, 0x05, 0));
    show_check(stage->show, good && panel->b.length <= B_LIMIT && panel->b.length + exchange > B_LIMIT,
        "read twice by 34 bytes: read %u of the second time gets ERROR 0x05, B has %zu of its 28,672 bytes",
        panel->reads, panel->b.length);
    good = panel_challenge(panel, 0, 0) == REFUSED && answered(stage, BYTES(EDITION_1_2, ERROR, 0x05, 0));
    show_check(stage->show, good, "and so does a CHALLENGE");
    good = panel_measurements(panel, 0, false) == GOOD && panel_chain(panel, 0, PORTION) == GOOD;
    show_check(stage->show, good, "after GET_MEASUREMENTS, which empties B, the chain is read again");
    check_challenge(stage);
}

// The longest chain, at which demand 3's promise of reading must hold.
static void read_longest(struct stage *stage, const struct maker *supplier)
{
    const bool made = maker_certify_to(supplier, &stage->chip, "Box 1", CHAIN_LIMIT, &stage->second_chain)
        && provision_supplied(stage);
    show_check(stage->show, made, "a box with a chain of %zu bytes", stage->second_chain.length);
    read_by_34(stage, supplier);
    show_check(stage->show, stage->panel.reads == LONGEST_READS, "these were %u reads, none refused",
        stage->panel.reads);
    fill_b(stage, supplier);
}

static void check_refused_image(struct stage *stage, bool made, uint32_t number, const char *what)
{
    const uint32_t result = spdm_read_image(stage->second_box.image, stage->second_box.image_length);
    show_check(stage->show, !made && SPDM_NUMBER(result) == number, "%s gets number %u", what, (unsigned)number);
}

static void refuse_longer(struct stage *stage, const struct maker *supplier)
{
    struct chain *chain = &stage->second_chain;
    const bool certified = maker_certify_to(supplier, &stage->chip, "Box 1", CHAIN_LIMIT + 1, chain);
    const bool made = provision_supplied(stage);
    show_check(stage->show, certified, "a chain of %zu bytes is made", chain->length);
    check_refused_image(stage, made, SPDM_IMAGE_LENGTH, "an image with it");
}

// Three of the longest chains, and a fourth that fills the image up to `length` bytes.
static bool fill_image(struct stage *stage, const struct maker *supplier, size_t length)
{
    struct chain *longest = &stage->second_chain, rest = {0};
    const struct slot slots[] = {{0, longest}, {1, longest}, {2, longest}, {3, &rest}};
    const struct provision three = stage_provision(stage, slots, 3), four = stage_provision(stage, slots, 4);
    struct box *box = &stage->second_box;
    if (!maker_certify_to(supplier, &stage->chip, "Box 1", CHAIN_LIMIT, longest)
        || !box_make(box, &stage->chip, &three))
        return false;
    const size_t left = length - box->image_length, head = 4 + stage->suite->digest_size;
    return maker_certify_to(&stage->maker, &stage->chip, "Box 1", left - head, &rest)
        && box_make(box, &stage->chip, &four);
}

static void fill_images(struct stage *stage, const struct maker *supplier)
{
    const bool made = fill_image(stage, supplier, IMAGE_LIMIT);
    show_check(stage->show, made, "an image of %zu bytes with four chains", stage->second_box.image_length);
    place_trusting(stage, supplier, EDITION_1_2);
    check_verdict(stage, panel_attest(&stage->panel, LARGE, 2, LARGE_PORTION), GOOD, "its box attested, by slot 2");
    stage->panel.trusted_root = (struct bytes){stage->maker.root_digest, stage->suite->digest_size};
    check_verdict(stage, panel_attest(&stage->panel, LARGE, 3, LARGE_PORTION), GOOD, "and by slot 3");
    check_refused_image(stage, fill_image(stage, supplier, IMAGE_LIMIT + 1), SPDM_IMAGE_SIZE, "one byte more");
}

void audit_chains(struct show *show, const struct suite *suite)
{
    struct maker supplier;
    printf("\n==== A supplier of long chains, with %s (conversations not printed)\n", suite->name);
    show->quiet = true;
    struct stage *stage = stage_start(show, suite, EDITION_1_2);
    if (!stage)
        return;
    show_check(show, start_supplier(&supplier, suite), "a supplier with a root and three authorities under it");
    read_supplied(stage, &supplier);
    catch_gap(stage, &supplier);
    read_longest(stage, &supplier);
    refuse_longer(stage, &supplier);
    fill_images(stage, &supplier);
    maker_end(&supplier);
    stage_end(stage);
}
