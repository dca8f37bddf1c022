#include "stage.h"

#include <stdlib.h>

_Static_assert((int)LOG_LIMIT == (int)B_LIMIT, "a panel logs as much as a box keeps");

static const struct component components[] = {
    {1, 0, true, "boot ROM of the box, mask 3"},
    {2, 1, true, "firmware of the box, release 7.2"},
    {5, 3, false, "settings: site 12, farm 3"},
};

enum { COMPONENT_COUNT = sizeof components / sizeof components[0] };

size_t challenge_auth_size(const struct suite *suite)
{
    return 4 + suite->digest_size + NONCE_SIZE + 2 + suite->signature_size;
}

struct provision stage_provision(const struct stage *stage, const struct slot *slots, size_t count)
{
    return (struct provision){stage->suite, slots, count, components, COMPONENT_COUNT};
}

bool provision_box(const struct stage *stage, struct box *box, const struct chip *chip, const struct chain *chain)
{
    const struct provision provision = stage_provision(stage, &(struct slot){0, chain}, 1);
    return box_make(box, chip, &provision);
}

void place_panel(struct stage *stage, struct line line)
{
    panel_end(&stage->panel);
    panel_start(&stage->panel, line, stage->show);
    stage->panel.speech = (struct speech){stage->edition, stage->edition, false};
    stage->panel.trusted_root = (struct bytes){stage->maker.root_digest, stage->suite->digest_size};
    stage->panel.components = components;
    stage->panel.component_count = COMPONENT_COUNT;
}

void place_panel_at(struct stage *stage, struct box *box)
{
    place_panel(stage, (struct line){box_exchange, box});
}

static bool make_boxes(struct stage *stage)
{
    return maker_start(&stage->maker, stage->suite, "Demonstration root")
        && chip_start(&stage->chip, stage->suite)
        && chip_start(&stage->second_chip, stage->suite)
        && maker_certify(&stage->maker, &stage->chip, "Box 1", &stage->chain)
        && maker_certify(&stage->maker, &stage->second_chip, "Box 2", &stage->second_chain)
        && provision_box(stage, &stage->box, &stage->chip, &stage->chain)
        && provision_box(stage, &stage->second_box, &stage->second_chip, &stage->second_chain);
}

void stage_end(struct stage *stage)
{
    panel_end(&stage->panel);
    chip_end(&stage->chip);
    chip_end(&stage->second_chip);
    maker_end(&stage->maker);
    free(stage);
}

struct stage *stage_start(struct show *show, const struct suite *suite, uint8_t edition)
{
    struct stage *stage = calloc(1, sizeof *stage);
    if (!stage)
        abort();
    stage->show = show;
    stage->suite = suite;
    stage->edition = edition;
    const bool made = make_boxes(stage);
    show_check(show, made, "%s: two boxes provisioned, their images accepted", suite->name);
    if (made) {
        place_panel_at(stage, &stage->box);
        return stage;
    }
    stage_end(stage);
    return NULL;
}

void check_verdict(struct stage *stage, enum verdict found, enum verdict wanted, const char *what)
{
    show_check(stage->show, found == wanted, "%s: %s", what, verdict_text(found));
}

bool answered(const struct stage *stage, struct bytes wanted)
{
    return same_bytes((struct bytes){stage->panel.answer, stage->panel.answer_length}, wanted);
}

void check_too_large(struct stage *stage, size_t size, const char *what)
{
    uint8_t error[8] = {EDITION_1_2, ERROR, 0x0D, 0};
    write_32(error + 4, (uint32_t)size);
    show_check(stage->show, answered(stage, (struct bytes){error, sizeof error}),
        "%s is too large for size %u: %zu bytes", what, SMALL, size);
}

void check_error(struct stage *stage, struct bytes request, struct bytes error, const char *what)
{
    panel_send(&stage->panel, request);
    show_bytes("request", request);
    show_bytes("answer", (struct bytes){stage->panel.answer, stage->panel.answer_length});
    show_check(stage->show, answered(stage, error), "%s gets ERROR 0x%02X", what, error.at[2]);
}
