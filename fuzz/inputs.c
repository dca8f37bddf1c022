#include "inputs.h"

#include "plain.h"
#include "spdm_responder.h"

#include <string.h>

// The most that B holds, and M.
enum { B_LIMIT = 28672, M_LIMIT = 7680 };

unsigned next(struct feed *feed)
{
    if (feed->left == 0)
        return 0;
    feed->left--;
    return *feed->at++;
}

unsigned next_16(struct feed *feed)
{
    const unsigned low = next(feed);
    return low | next(feed) << 8;
}

static uint32_t next_32(struct feed *feed)
{
    const uint32_t low = next_16(feed);
    return low | (uint32_t)next_16(feed) << 16;
}

// One of the entries of a table.
#define ONE_OF(feed, table) ((table)[next(feed) % (sizeof(table) / sizeof((table)[0]))])

static void next_bytes(struct feed *feed, uint8_t *at, size_t length)
{
    for (size_t i = 0; i < length; i++)
        at[i] = (uint8_t)next(feed);
}

// ---- Images

struct shape {
    uint8_t ct_exponent, hash, signature, chains, slot_step, measurements, index_step;
    uint16_t chain_extra;
};

// From the smallest image to the largest, 61,440 bytes; the last but one has three of the longest chains, 16,384 bytes.
static const struct shape good_shapes[] = {
    {14, 0, 4, 1, 1, 0, 1, 0}, {14, 0, 4, 1, 1, 1, 1, 63}, {14, 0, 4, 1, 1, 3, 2, 900}, {31, 1, 7, 3, 2, 5, 40, 700},
    {0, 2, 8, 8, 1, 32, 7, 64}, {9, 2, 6, 8, 1, 32, 7, 4027}, {3, 3, 0, 2, 7, 32, 1, 4059}, {7, 5, 5, 4, 2, 0, 1, 2000},
    {14, 0, 4, 1, 1, 1, 1, 14000}, {5, 0, 4, 1, 1, 2, 1, 16347}, {2, 2, 7, 3, 2, 32, 7, 16315},
    {14, 2, 8, 7, 1, 32, 7, 8305},
};

enum { GOOD_SHAPES = sizeof good_shapes / sizeof good_shapes[0] };

static void add(struct world *world, const uint8_t *run, size_t length)
{
    if (length > IMAGE_ROOM - world->image_length)
        return;
    memcpy(world->image + world->image_length, run, length);
    world->image_length += length;
}

static void add_fill(struct world *world, size_t length, uint8_t seed)
{
    for (size_t i = 0; i < length; i++)
        add(world, &(uint8_t){(uint8_t)(seed + 7 * i)}, 1);
}

static void add_head(struct world *world, size_t length, uint8_t kind)
{
    add(world, (const uint8_t[]){(uint8_t)(length >> 8), (uint8_t)length, kind}, 3);
}

static void add_chain(struct world *world, size_t digest, uint8_t slot, size_t length)
{
    add_head(world, 1 + digest + length, 2);
    add(world, &slot, 1);
    add_fill(world, digest, (uint8_t)(slot + 1));
    add(world, (const uint8_t[]){(uint8_t)length, (uint8_t)(length >> 8)}, 2);
    add_fill(world, length - 2, (uint8_t)(slot * 31));
}

static void add_measurement(struct world *world, size_t digest, uint8_t index, uint8_t type)
{
    add_head(world, 2 + digest, 3);
    add(world, (const uint8_t[]){index, type}, 2);
    add_fill(world, digest, (uint8_t)(index + 100));
}

static void build_image(struct world *world, const struct shape *shape)
{
    static const size_t digest_sizes[] = {32, 48, 64, 32, 48, 64};
    const size_t digest = digest_sizes[shape->hash % 6];
    world->image_length = 0;
    add(world, (const uint8_t[]){1}, 1);
    add_head(world, 3, 1);
    add(world, (const uint8_t[]){shape->ct_exponent, shape->hash, shape->signature}, 3);
    for (unsigned i = 0; i < shape->chains; i++)
        add_chain(world, digest, (uint8_t)(i * shape->slot_step), 5 + digest + shape->chain_extra);
    for (unsigned i = 0; i < shape->measurements; i++)
        add_measurement(world, digest, (uint8_t)(1 + i * shape->index_step), i & 3);
    if (shape->measurements > 0) {
        add_head(world, 2 * digest, 4);
        add_fill(world, 2 * digest, 55);
    }
}

// A shape of the input's own choice, mostly a valid one: chains up to a few bytes over 16 KB, or 56 KB of them.
static struct shape next_shape(struct feed *feed)
{
    const unsigned longest = SPDM_CHAIN_MAX - 32, all = 57344;
    struct shape shape = {0};
    shape.ct_exponent = (uint8_t)(next(feed) % 33);
    shape.hash = (uint8_t)(next(feed) % 6);
    shape.signature = (uint8_t)(next(feed) % 9);
    shape.chains = (uint8_t)(next(feed) % 10);
    shape.slot_step = shape.chains > 4 ? 1 : (uint8_t)(1 + next(feed) % 2);
    shape.measurements = (uint8_t)(next(feed) % 34);
    shape.index_step = (uint8_t)(1 + next(feed) % 7);
    shape.chain_extra = (uint16_t)(next_16(feed) % (shape.chains > 3 ? all / shape.chains : longest));
    return shape;
}

void choose_image(struct world *world, struct feed *feed)
{
    // Nine chains, 33 measurements, a wrong field, no chain; a chain of 16,385 bytes, an image of 61,441.
    static const struct shape bad_shapes[] = {
        {14, 1, 7, 9, 1, 2, 1, 10}, {14, 4, 3, 8, 1, 33, 1, 20}, {32, 0, 4, 1, 1, 1, 1, 1}, {1, 0, 4, 0, 1, 1, 1, 1},
        {14, 0, 4, 1, 1, 1, 1, 16348}, {14, 2, 8, 5, 1, 32, 7, 11682},
    };
    const unsigned choice = next(feed);
    if (choice < 160) {
        build_image(world, &good_shapes[choice % GOOD_SHAPES]);
    } else if (choice < 170) {
        build_image(world, &bad_shapes[choice % (sizeof bad_shapes / sizeof bad_shapes[0])]);
    } else if (choice < 230) {
        const struct shape shape = next_shape(feed);
        build_image(world, &shape);
    } else {
        world->image_length = next(feed) % 120;
        next_bytes(feed, world->image, world->image_length);
    }
}

// Bytes taken out of the image, or room made in it.
static void cut_out(struct world *world, size_t offset, size_t length)
{
    memmove(world->image + offset, world->image + offset + length, world->image_length - offset - length);
    world->image_length -= length;
}

static void make_room(struct world *world, size_t offset, size_t length)
{
    memmove(world->image + offset + length, world->image + offset, world->image_length - offset);
    world->image_length += length;
}

// The record with this number, or the last whole one. Gives its length, head included; 0 if there is none.
static size_t find_record(const struct world *world, unsigned number, size_t *start)
{
    size_t found = 0;
    for (size_t at = 1; at + 3 <= world->image_length; at += found, number--) {
        const size_t length = 3 + ((size_t)world->image[at] << 8 | world->image[at + 1]);
        if (length > world->image_length - at)
            return found;
        *start = at;
        found = length;
        if (number == 0)
            return found;
    }
    return found;
}

// A body one byte longer or shorter, its head telling so.
static void stretch_record(struct world *world, size_t start, size_t length, bool longer)
{
    const size_t body = longer ? length - 2 : length - 4;
    if (longer)
        make_room(world, start + 3, 1);
    else
        cut_out(world, start + 3, 1);
    world->image[start] = (uint8_t)(body >> 8);
    world->image[start + 1] = (uint8_t)body;
}

// One record: its kind, its first body byte or its length, or the record given twice.
static void damage_record(struct world *world, struct feed *feed)
{
    const unsigned choice = next(feed) % 5;
    size_t start = 0;
    const size_t length = find_record(world, next(feed) % 44, &start);
    if (length < 5 || length > IMAGE_ROOM - world->image_length)
        return;
    if (choice < 2) {
        world->image[start + 2 + choice] = (uint8_t)(next(feed) % 10);
    } else if (choice < 4) {
        stretch_record(world, start, length, choice == 2);
    } else {
        make_room(world, start, length);
        memcpy(world->image + start, world->image + start + length, length);
    }
}

void damage_image(struct world *world, struct feed *feed)
{
    const unsigned choice = next(feed) % 8;
    const size_t offset = world->image_length ? next_16(feed) % world->image_length : 0;
    if (choice == 0)
        world->image[offset % 16] = (uint8_t)next(feed);
    else if (choice == 1)
        world->image[offset] ^= (uint8_t)next(feed);
    else if (choice == 2)
        world->image_length = offset;
    else if (choice == 3)
        add_fill(world, next(feed), 0x42);
    else if (choice == 4 && world->image_length > 0)
        cut_out(world, offset, 1);
    else
        damage_record(world, feed);
}

// ---- Requests

static void put_16(uint8_t *at, unsigned value)
{
    at[0] = (uint8_t)value;
    at[1] = (uint8_t)(value >> 8);
}

static void put_32(uint8_t *at, uint32_t value)
{
    put_16(at, value & 0xFFFF);
    put_16(at + 2, value >> 16);
}

static void set_request(struct world *world, const uint8_t *run, size_t length)
{
    memcpy(world->request, run, length);
    world->request_length = length;
}

// The version byte that the state calls for; before a choice 1.2's.
static uint8_t spoken(const struct world *world)
{
    return world->state[EDITION] == EDITION_1_1 ? EDITION_1_1 : EDITION_1_2;
}

// Of 1.2, or of 1.1, whose layout has no sizes: they then follow it now and then, as pad bytes.
static void write_capabilities(struct world *world, struct feed *feed)
{
    static const uint32_t sizes[] = {
        42, 4608, 41, 134, 133, 166, 4607, 0, 43, 1032, 0xFFFFFFFF, 200, 678, 2826, 64, 1024,
    };
    const unsigned chance = next(feed);
    const bool old = chance & 1;
    uint8_t text[20] = {old ? EDITION_1_1 : EDITION_1_2, 0xE1};
    const uint32_t size = ONE_OF(feed, sizes);
    put_32(text + 12, size);
    put_32(text + 16, next(feed) % 8 == 7 ? next_32(feed) : size);
    set_request(world, text, old && chance < 200 ? 12 : 20);
}

// An offer with extended entries and structures, mostly as they should be.
static void write_algorithms(struct world *world, struct feed *feed)
{
    uint8_t text[256] = {spoken(world), 0xE3};
    const unsigned shape = next(feed), structures = shape & 7, extended = shape >> 3 & 3;
    size_t at = 32 + 4 * extended;
    text[28] = (uint8_t)(extended / 2);
    text[29] = (uint8_t)(extended - extended / 2);
    text[2] = (uint8_t)structures;
    for (unsigned i = 0; i < structures; i++) {
        const unsigned chance = next(feed), entries = chance & 1;
        // Types rise, or one repeats, falls or is none.
        text[at] = (uint8_t)(chance < 224 ? 2 + i : chance % 8);
        text[at + 1] = (uint8_t)(0x20 | entries);
        at += 4 + 4 * entries;
    }
    text[6] = (uint8_t)(next(feed) % 4 ? 1 : next(feed));
    put_16(text + 4, (unsigned)at);
    put_32(text + 8, shape >= 240 ? next_32(feed) : 0xFFFF);
    put_32(text + 12, shape >= 240 ? next_32(feed) : 0xFFFF);
    set_request(world, text, at);
}

static void write_certificate(struct world *world, struct feed *feed)
{
    static const uint16_t lengths[] = {34, 1024, 0xFFFF, 1, 0, 1025, 100, 4096};
    static const uint16_t offsets[] = {0, 4095, 4096, 15360, 16350, 16383, 16384, 16385};
    uint8_t text[8] = {spoken(world), 0x82, (uint8_t)next(feed)};
    if (next(feed) % 4)
        text[2] = 0;
    const unsigned choice = next(feed) % 4;
    put_16(text + 4, choice > 1 ? 0 : choice == 1 ? ONE_OF(feed, offsets) : next_16(feed) % (SPDM_CHAIN_MAX + 100));
    put_16(text + 6, ONE_OF(feed, lengths));
    set_request(world, text, sizeof text);
}

void write_read(struct world *world, unsigned offset, unsigned length)
{
    uint8_t text[8] = {spoken(world), 0x82};
    put_16(text + 4, offset);
    put_16(text + 6, length);
    set_request(world, text, sizeof text);
}

static void write_challenge(struct world *world, struct feed *feed)
{
    static const uint8_t summaries[] = {0, 1, 0xFF, 2};
    uint8_t text[36] = {spoken(world), 0x83};
    const unsigned slot = next(feed);
    text[2] = slot < 160 ? 0 : (uint8_t)(slot % 10);
    text[3] = ONE_OF(feed, summaries);
    memset(text + 4, (int)next(feed), 32);
    set_request(world, text, sizeof text);
}

static void write_measurements(struct world *world, struct feed *feed)
{
    static const uint8_t operations[] = {0, 0xFF, 1, 0xFF, 3, 8, 239, 0xFE};
    uint8_t text[37] = {spoken(world), 0xE0};
    const unsigned slot = next(feed);
    text[2] = (uint8_t)next(feed);
    text[3] = ONE_OF(feed, operations);
    memset(text + 4, 0x77, 32);
    text[36] = slot < 160 ? 0 : (uint8_t)slot;
    set_request(world, text, text[2] & 1 ? 37 : 4);
}

void write_request(struct world *world, struct feed *feed, unsigned kind)
{
    switch (kind) {
    case VERSION: set_request(world, (const uint8_t[]){0x10, 0x84, 0, 0}, 4); break;
    case CAPABILITIES: write_capabilities(world, feed); break;
    case ALGORITHMS: write_algorithms(world, feed); break;
    case DIGESTS: set_request(world, (const uint8_t[]){spoken(world), 0x81, 0, 0}, 4); break;
    case CERTIFICATE: write_certificate(world, feed); break;
    case CHALLENGE: write_challenge(world, feed); break;
    case MEASUREMENTS: write_measurements(world, feed); break;
    default:
        world->request_length = next(feed) % 64;
        next_bytes(feed, world->request, world->request_length);
    }
}

static void damage_byte(struct world *world, struct feed *feed)
{
    const size_t offset = next(feed) % world->request_length;
    world->request[offset] = (uint8_t)next(feed);
}

void damage_request(struct world *world, struct feed *feed)
{
    static const uint16_t lengths[] = {4608, 4609, 4607, 8192, 3, 4, 0, 5000};
    static const uint8_t versions[] = {EDITION_1_1, EDITION_1_2, 0x10, 0x13};
    const unsigned choice = next(feed);
    if (choice < 145)
        return;
    if (choice < 160)
        world->request[0] = ONE_OF(feed, versions);
    else if (choice < 180 && world->request_length > 0)
        damage_byte(world, feed);
    else if (choice < 200)
        world->request_length -= world->request_length > 0;
    else if (choice < 230)
        world->request_length += next(feed) % 40;
    else
        world->request_length = ONE_OF(feed, lengths);
}

// ---- Lengths and state

// The right length, or now and then another.
static size_t length_near(struct feed *feed, size_t right, size_t room)
{
    const unsigned choice = next(feed);
    if (choice < 225)
        return right;
    if (choice < 235)
        return right - 1;
    if (choice < 245)
        return right + 1;
    return choice < 250 ? 0 : next_16(feed) % (room + 1);
}

// The signature's size of the image that stands now, if it is accepted.
static size_t signature_size(const struct world *world)
{
    const size_t size = plain_signature_size(world->image, world->image_length);
    return size != 0 ? size : 64;
}

// One byte says whether any length is odd in this call.
void choose_lengths(struct world *world, struct feed *feed)
{
    const bool odd = next(feed) >= 200;
    struct feed none = {NULL, 0};
    struct feed *from = odd ? feed : &none;
    world->words = length_near(from, STATE_WORDS, WORDS_ROOM);
    world->answer_length = length_near(from, 4608, ANSWER_ROOM);
    world->transcript_length = length_near(from, SPDM_TRANSCRIPT_MIN, TRANSCRIPT_ROOM);
    world->nonce_length = length_near(from, 32, SMALL_ROOM);
    world->signature_length = length_near(from, signature_size(world), SMALL_ROOM);
    world->prefix_length = length_near(from, 100, SMALL_ROOM);
    world->parts_length = length_near(from, 4, WORDS_ROOM);
    world->algorithms_length = length_near(from, 7, WORDS_ROOM);
}

void right_lengths(struct world *world)
{
    struct feed none = {NULL, 0};
    choose_lengths(world, &none);
}

void poke_state(struct world *world, struct feed *feed)
{
    static const uint32_t values[] = {
        0, 1, 2, 3, 4, 14, 16, 17, 18, 19, 38, 41, 42, 54, 68, 69, 100, 512, 513, 516, 4607, 4608, 4609, 7600, 7680,
        7681, 8192, 8193, 28600, B_LIMIT, B_LIMIT + 1, 0x80000000, 0xFFFFFFFF,
    };
    const unsigned word = next(feed) % STATE_WORDS;
    world->state[word] = next(feed) % 8 ? ONE_OF(feed, values) : next_32(feed);
}

void full_state(struct world *world, struct feed *feed)
{
    static const uint32_t sizes[] = {42, 134, 1024, 4608, 0xFFFFFFFF};
    memset(world->state, 0, sizeof world->state);
    world->state[PHASE] = 3;
    world->state[EDITION] = next(feed) & 1 ? EDITION_1_1 : EDITION_1_2;
    world->state[PEER] = world->state[EDITION] == EDITION_1_1 ? 4608 : ONE_OF(feed, sizes);
    world->state[SELECTION] = next(feed) & 1;
    world->state[A] = next_16(feed) % 513;
    world->state[B] = B_LIMIT - next(feed) * 8;
    world->state[M] = M_LIMIT - next(feed) * 8;
    if (next(feed) % 4 == 0) {
        world->state[AWAITED] = 1 + next(feed) % 2;
        world->state[ANSWER] = 4 + next_16(feed) % 4700;
    }
}

// What A holds in a phase before the last one.
static uint32_t a_of(const uint32_t *state)
{
    if (state[PHASE] != 2)
        return state[PHASE] == 1 ? 14 : 0;
    return state[EDITION] == EDITION_1_1 ? 38 : 54;
}

void mix_state(struct world *world, struct feed *feed)
{
    static const uint32_t editions[] = {0, EDITION_1_1, EDITION_1_2, EDITION_1_1, EDITION_1_2, 0x10, 0x13, 1};
    static const uint32_t sizes[] = {4608, 42, 4608, 41, 4607, 4609, 0, 0xFFFFFFFF};
    static const uint32_t counts[] = {0, 12, 14, 38, 52, 54, 120, 512};
    uint32_t *state = world->state;
    memset(state, 0, sizeof world->state);
    state[PHASE] = next(feed) % 4;
    state[EDITION] = ONE_OF(feed, editions);
    state[PEER] = ONE_OF(feed, sizes);
    state[A] = next(feed) % 4 ? a_of(state) : ONE_OF(feed, counts);
    state[B] = next(feed) % 8 == 7;
    state[M] = next(feed) % 8 == 7;
    state[SELECTION] = next(feed) % 8 == 7;
    if (next(feed) % 4 == 3) {
        state[AWAITED] = 1 + next(feed) % 2;
        state[ANSWER] = 600;
    }
}

void repair(struct world *world, struct feed *feed)
{
    if (next(feed) % 8 == 0)
        return;
    memset(world->state, 0, sizeof world->state);
    if (plain_read_image(world->image, world->image_length) != 0)
        build_image(world, &good_shapes[next(feed) % GOOD_SHAPES]);
}
