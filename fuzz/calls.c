#include "calls.h"

#include "plain.h"
#include "spdm_responder.h"

#include <stdio.h>
#include <stdlib.h>
#include <string.h>

static void open_pens(struct pens *pens)
{
    pen_open(&pens->image, IMAGE_ROOM / PEN_PAGE, true);
    pen_open(&pens->state, 1, false);
    pen_open(&pens->transcript, TRANSCRIPT_ROOM / PEN_PAGE, false);
    pen_open(&pens->answer, ANSWER_ROOM / PEN_PAGE, false);
    pen_open(&pens->request, REQUEST_ROOM / PEN_PAGE, true);
    pen_open(&pens->nonce, 1, true);
    pen_open(&pens->signature, 1, true);
    pen_open(&pens->fixed_state, 1, true);
    pen_open(&pens->fixed_transcript, TRANSCRIPT_ROOM / PEN_PAGE, true);
    pen_open(&pens->prefix, 1, false);
    pen_open(&pens->parts, 1, false);
    pen_open(&pens->algorithms, 1, false);
}

struct driver *the_driver(void)
{
    static struct driver driver;
    if (!driver.ready)
        open_pens(&driver.pens);
    driver.ready = true;
    return &driver;
}

static void put_state(const char *name, const struct world *world)
{
    fprintf(stderr, "  %s: state", name);
    for (size_t i = 0; i < STATE_WORDS; i++)
        fprintf(stderr, " %u", world->state[i]);
    fprintf(stderr, "\n    answer");
    for (size_t i = 0; i < 16; i++)
        fprintf(stderr, " %02X", world->answer[i]);
    fprintf(stderr, "\n");
}

// A finding: says what was wrong and stops the process.
static void demand(const struct driver *driver, bool good, const char *what)
{
    if (good)
        return;
    const struct world *world = &driver->before;
    fprintf(stderr, "FINDING: %s\n", what);
    fprintf(stderr, "  lengths: image %zu, state %zu, transcript %zu, answer %zu", world->image_length, world->words,
        world->transcript_length, world->answer_length);
    fprintf(stderr, ", request %zu, nonce %zu, signature %zu\n", world->request_length, world->nonce_length,
        world->signature_length);
    put_state("before", world);
    put_state("library", &driver->world);
    put_state("plain", &driver->plain);
    fprintf(stderr, "  request");
    for (size_t i = 0; i < world->request_length && i < 64; i++)
        fprintf(stderr, " %02X", world->request[i]);
    fprintf(stderr, "\n");
    abort();
}

// ---- Calls of the library, with every buffer in its pen

static enum place place_of(unsigned places, unsigned which)
{
    const unsigned choice = places >> (which % 7) & 3;
    return choice == 2 ? ON_HEAP : choice == 1 ? AT_START : AT_END;
}

static uint32_t library_respond(struct driver *driver, unsigned places)
{
    struct world *world = &driver->world;
    struct pens *pens = &driver->pens;
    const uint8_t *image = pen_lend(&pens->image, place_of(places, 0), world->image, world->image_length);
    uint32_t *state = pen_lend(&pens->state, place_of(places, 1), world->state, 4 * world->words);
    uint8_t *transcript = pen_lend(&pens->transcript, place_of(places, 2), world->transcript, world->transcript_length);
    uint8_t *answer = pen_lend(&pens->answer, place_of(places, 3), world->answer, world->answer_length);
    const uint8_t *request = pen_lend(&pens->request, place_of(places, 4), world->request, world->request_length);
    const uint8_t *nonce = pen_lend(&pens->nonce, place_of(places, 5), world->nonce, world->nonce_length);
    const uint32_t result = spdm_respond(image, world->image_length, state, world->words, transcript,
        world->transcript_length, answer, world->answer_length, request, world->request_length, nonce,
        world->nonce_length);
    bool good = pen_take(&pens->image, world->image);
    good &= pen_take(&pens->state, world->state);
    good &= pen_take(&pens->transcript, world->transcript);
    good &= pen_take(&pens->answer, world->answer);
    good &= pen_take(&pens->request, world->request);
    good &= pen_take(&pens->nonce, world->nonce);
    demand(driver, good, "a byte beside a buffer changed (spdm_respond)");
    return result;
}

static uint32_t library_finish(struct driver *driver, unsigned places)
{
    struct world *world = &driver->world;
    struct pens *pens = &driver->pens;
    const uint8_t *image = pen_lend(&pens->image, place_of(places, 0), world->image, world->image_length);
    uint32_t *state = pen_lend(&pens->state, place_of(places, 1), world->state, 4 * world->words);
    uint8_t *transcript = pen_lend(&pens->fixed_transcript, place_of(places, 2), world->transcript,
        world->transcript_length);
    uint8_t *answer = pen_lend(&pens->answer, place_of(places, 3), world->answer, world->answer_length);
    const uint8_t *signature = pen_lend(&pens->signature, place_of(places, 4), world->signature,
        world->signature_length);
    const uint32_t result = spdm_finish(image, world->image_length, state, world->words, transcript,
        world->transcript_length, answer, world->answer_length, world->chip_ok, signature, world->signature_length);
    bool good = pen_take(&pens->image, world->image);
    good &= pen_take(&pens->state, world->state);
    good &= pen_take(&pens->fixed_transcript, world->transcript);
    good &= pen_take(&pens->answer, world->answer);
    good &= pen_take(&pens->signature, world->signature);
    demand(driver, good, "a byte beside a buffer changed (spdm_finish)");
    return result;
}

static uint32_t library_to_sign(struct driver *driver, unsigned places)
{
    struct world *world = &driver->world;
    struct pens *pens = &driver->pens;
    const uint32_t *state = pen_lend(&pens->fixed_state, place_of(places, 0), world->state, 4 * world->words);
    uint8_t *prefix = pen_lend(&pens->prefix, place_of(places, 1), world->prefix, world->prefix_length);
    uint32_t *parts = pen_lend(&pens->parts, place_of(places, 2), world->parts, 4 * world->parts_length);
    const uint32_t result = spdm_to_sign(state, world->words, prefix, world->prefix_length, parts, world->parts_length);
    bool good = pen_take(&pens->fixed_state, world->state);
    good &= pen_take(&pens->prefix, world->prefix);
    good &= pen_take(&pens->parts, world->parts);
    demand(driver, good, "a byte beside a buffer changed (spdm_to_sign)");
    return result;
}

static uint32_t library_read_image(struct driver *driver, unsigned places)
{
    struct world *world = &driver->world;
    const uint8_t *image = pen_lend(&driver->pens.image, place_of(places, 0), world->image, world->image_length);
    const uint32_t result = spdm_read_image(image, world->image_length);
    demand(driver, pen_take(&driver->pens.image, world->image), "a byte beside a buffer changed (spdm_read_image)");
    return result;
}

static uint32_t library_image_algorithms(struct driver *driver, unsigned places)
{
    struct world *world = &driver->world;
    struct pens *pens = &driver->pens;
    const uint8_t *image = pen_lend(&pens->image, place_of(places, 0), world->image, world->image_length);
    uint32_t *algorithms = pen_lend(&pens->algorithms, place_of(places, 1), world->algorithms,
        4 * world->algorithms_length);
    const uint32_t result = spdm_image_algorithms(image, world->image_length, algorithms, world->algorithms_length);
    bool good = pen_take(&pens->image, world->image);
    good &= pen_take(&pens->algorithms, world->algorithms);
    demand(driver, good, "a byte beside a buffer changed (spdm_image_algorithms)");
    return result;
}

// ---- What must hold after a call

// The table's numbers, and the calls that give them.
static bool is_number(unsigned number, bool finishing)
{
    if (number >= 1 && number <= 8)
        return true;
    return number == 11 || number == 12 || number == 14 || (finishing ? number == 15 || number == 16 : number == 13);
}

static bool same_rest(const uint8_t *x, const uint8_t *y, size_t start, size_t room)
{
    return memcmp(x + start, y + start, room - start) == 0;
}

// What was only lent to be read is as before.
static void demand_inputs(const struct driver *driver)
{
    const struct world *now = &driver->world, *before = &driver->before;
    demand(driver, memcmp(now->image, before->image, IMAGE_ROOM) == 0, "the image changed");
    demand(driver, memcmp(now->request, before->request, REQUEST_ROOM) == 0, "the request changed");
    demand(driver, memcmp(now->nonce, before->nonce, SMALL_ROOM) == 0, "the nonce changed");
    demand(driver, memcmp(now->signature, before->signature, SMALL_ROOM) == 0, "the signature changed");
}

static void demand_left(const struct driver *driver, const uint32_t *state, const char *what)
{
    const struct world *now = &driver->world, *before = &driver->before;
    demand(driver, memcmp(now->state, state, sizeof now->state) == 0, what);
    demand(driver, memcmp(now->transcript, before->transcript, TRANSCRIPT_ROOM) == 0, what);
}

static void demand_unchanged(const struct driver *driver, const char *what)
{
    demand_left(driver, driver->before.state, what);
}

// A GET_MEASUREMENTS refused at step 7, 8 or 9, which the ERROR's code tells: it has a header and is not over-long.
static bool empties_m(const struct world *before, uint8_t code)
{
    const size_t length = before->request_length;
    return length >= 4 && length <= 4608 && before->request[1] == 0xE0
        && (code == 0x01 || code == 0x0D || code == 0x05);
}

static void demand_refusal(const struct driver *driver)
{
    uint32_t left[WORDS_ROOM];
    memcpy(left, driver->before.state, sizeof left);
    if (empties_m(&driver->before, driver->world.answer[2]))
        left[SPDM_STATE_M] = 0;
    demand_left(driver, left, "after a refusal the state or the transcript is not what it leaves");
}

// The version byte of what is answered: a refusal leaves it, an accepted request has that of the state that it makes.
static uint8_t version_byte(const uint32_t *state)
{
    return state[SPDM_STATE_PHASE] < 2 ? 0x10 : (uint8_t)state[SPDM_STATE_EDITION];
}

// The limits before longer chains.
enum { OLD_IMAGE_MAX = 36864, OLD_CHAIN_MAX = 4096, OLD_B_LIMIT = 8192 };

// An answer for an image, with a portion or with a B that would not have been before.
static void count_long(struct driver *driver, bool appended)
{
    const struct world *now = &driver->world, *before = &driver->before;
    const unsigned offset = before->request[4] | (unsigned)before->request[5] << 8;
    const unsigned portion = now->answer[4] | (unsigned)now->answer[5] << 8;
    struct counts *counts = &driver->counts;
    counts->large_image += before->image_length > OLD_IMAGE_MAX;
    counts->late_read += appended && now->answer[1] == 0x02 && offset + portion > OLD_CHAIN_MAX;
    counts->long_b += appended && now->state[SPDM_STATE_B] > OLD_B_LIMIT;
}

// Demand 1, without any model: a number changes nothing, an ERROR only its own bytes and M's count, an answer only its
// own. Finishing's ERROR has 4 bytes, and no other answer of it so few.
static void demand_rules(struct driver *driver, uint32_t result, bool finishing)
{
    const struct world *now = &driver->world, *before = &driver->before;
    const unsigned number = result >> 16, length = result & 0xFFFF;
    demand_inputs(driver);
    if (number != 0) {
        demand(driver, is_number(number, finishing) && length == 0, "not a number of the table, or a length with it");
        demand_unchanged(driver, "a number changed the state or the transcript");
        demand(driver, same_rest(now->answer, before->answer, 0, ANSWER_ROOM), "a number changed the answer buffer");
        driver->counts.numbers++;
        return;
    }
    demand(driver, length >= 4 && length <= 4608 && length <= before->answer_length, "answer length out of range");
    demand(driver, finishing || same_rest(now->answer, before->answer, length, ANSWER_ROOM),
        "a byte past the answer changed");
    demand(driver, (finishing && length > 4) || now->answer[0] == version_byte(now->state), "a wrong version byte");
    if (now->state[SPDM_STATE_EDITION] == SPDM_EDITION_1_1)
        driver->counts.older++;
    count_long(driver, !finishing && now->answer[1] != 0x7F);
    if (!finishing && now->answer[1] == 0x7F) {
        demand_refusal(driver);
        driver->counts.errors++;
    } else if (!finishing) {
        driver->counts.accepted++;
    } else {
        driver->counts.finished++;
    }
}

// Demand 2: result, state, answer buffer and transcript are what paper 01, as amended, says.
static void demand_plain(const struct driver *driver, uint32_t result, uint32_t wanted)
{
    const struct world *now = &driver->world, *plain = &driver->plain;
    if (result != wanted)
        fprintf(stderr, "result %08X, plain %08X\n", result, wanted);
    demand(driver, result == wanted, "the result is not the plain responder's");
    demand(driver, memcmp(now->state, plain->state, sizeof now->state) == 0, "the state is not the plain responder's");
    demand(driver, memcmp(now->answer, plain->answer, ANSWER_ROOM) == 0, "the answer is not the plain responder's");
    demand(driver, memcmp(now->transcript, plain->transcript, TRANSCRIPT_ROOM) == 0,
        "the transcript is not the plain responder's");
    demand(driver, memcmp(now->prefix, plain->prefix, SMALL_ROOM) == 0, "the prefix is not the plain responder's");
    demand(driver, memcmp(now->parts, plain->parts, sizeof now->parts) == 0, "the parts are not the plain responder's");
    demand(driver, memcmp(now->algorithms, plain->algorithms, sizeof now->algorithms) == 0,
        "the algorithms are not the plain responder's");
}

// Of the prefix 100 bytes are written, or none under 1.1.
static void demand_prefix(const struct driver *driver, uint32_t result)
{
    const struct world *now = &driver->world, *before = &driver->before;
    const bool shown = SPDM_NUMBER(result) == 0 && before->state[SPDM_STATE_EDITION] != SPDM_EDITION_1_1;
    demand(driver, SPDM_LENGTH(result) == (shown ? SPDM_PREFIX_LEN : 0), "the length is not the prefix's");
    demand(driver, same_rest(now->prefix, before->prefix, SPDM_LENGTH(result), SMALL_ROOM),
        "a byte past the prefix changed");
}

static void start_call(struct driver *driver)
{
    driver->before = driver->world;
    driver->plain = driver->world;
    driver->counts.calls++;
}

void call_respond(struct driver *driver, unsigned places)
{
    struct world *plain = &driver->plain;
    start_call(driver);
    const uint32_t result = library_respond(driver, places);
    demand_rules(driver, result, false);
    demand_plain(driver, result, plain_respond(plain->image, plain->image_length, plain->state, plain->words,
        plain->transcript, plain->transcript_length, plain->answer, plain->answer_length, plain->request,
        plain->request_length, plain->nonce, plain->nonce_length));
}

void call_finish(struct driver *driver, unsigned places)
{
    struct world *plain = &driver->plain;
    start_call(driver);
    const uint32_t result = library_finish(driver, places);
    demand_rules(driver, result, true);
    demand(driver, memcmp(driver->world.transcript, driver->before.transcript, TRANSCRIPT_ROOM) == 0,
        "finishing changed the transcript");
    demand_plain(driver, result, plain_finish(plain->image, plain->image_length, plain->state, plain->words,
        plain->transcript, plain->transcript_length, plain->answer, plain->answer_length, plain->chip_ok,
        plain->signature, plain->signature_length));
}

void call_to_sign(struct driver *driver, unsigned places)
{
    struct world *plain = &driver->plain;
    start_call(driver);
    const uint32_t result = library_to_sign(driver, places);
    demand_unchanged(driver, "spdm_to_sign changed the state");
    demand_prefix(driver, result);
    demand_plain(driver, result, plain_to_sign(plain->state, plain->words, plain->prefix, plain->prefix_length,
        plain->parts, plain->parts_length));
}

void call_read_image(struct driver *driver, unsigned places)
{
    struct world *plain = &driver->plain;
    start_call(driver);
    const uint32_t result = library_read_image(driver, places);
    demand_inputs(driver);
    demand_plain(driver, result, plain_read_image(plain->image, plain->image_length));
}

void call_image_algorithms(struct driver *driver, unsigned places)
{
    struct world *plain = &driver->plain;
    start_call(driver);
    const uint32_t result = library_image_algorithms(driver, places);
    demand_inputs(driver);
    demand_plain(driver, result, plain_image_algorithms(plain->image, plain->image_length, plain->algorithms,
        plain->algorithms_length));
}
