// The stage that checks are played on: a maker, two boxes, a panel, and what a check compares.
#ifndef STAGE_H
#define STAGE_H

#include "box.h"
#include "chip.h"
#include "panel.h"
#include "show.h"
#include "terms.h"

// The panels' sizes: the least that the box serves, and the most that it sends.
enum { SMALL = 42, LARGE = MESSAGE_LIMIT };

// A run of bytes, written out.
#define BYTES(...) ((struct bytes){(const uint8_t[]){__VA_ARGS__}, sizeof(const uint8_t[]){__VA_ARGS__}})

// A maker and two boxes of his, each with its own chip. Panels that are placed speak this edition only.
struct stage {
    struct show *show;
    const struct suite *suite;
    uint8_t edition;
    struct maker maker;
    struct chip chip, second_chip;
    struct chain chain, second_chain;
    struct box box, second_box;
    struct panel panel;
};

// Makes maker, chips and boxes, which is a check; NULL if it fails.
struct stage *stage_start(struct show *show, const struct suite *suite, uint8_t edition);
void stage_end(struct stage *stage);

// How long a CHALLENGE_AUTH is that carries no summary hash.
size_t challenge_auth_size(const struct suite *suite);

// What goes into every image beside chains.
struct provision stage_provision(const struct stage *stage, const struct slot *slots, size_t count);
// A box with one chain, in slot 0.
bool provision_box(const struct stage *stage, struct box *box, const struct chip *chip, const struct chain *chain);

// A panel on a line, or right at a box; it trusts the maker's root and expects the components.
void place_panel(struct stage *stage, struct line line);
void place_panel_at(struct stage *stage, struct box *box);

void check_verdict(struct stage *stage, enum verdict found, enum verdict wanted, const char *what);
// The answer that the panel holds is exactly this one.
bool answered(const struct stage *stage, struct bytes wanted);
// The answer is ResponseTooLarge, which tells the size that the panel of size 42 can't take.
void check_too_large(struct stage *stage, size_t size, const char *what);
// Sends a request that must get this ERROR, and shows both.
void check_error(struct stage *stage, struct bytes request, struct bytes error, const char *what);

#endif
