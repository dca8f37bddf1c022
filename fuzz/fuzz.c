// Fuzzing the C interface: the input drives a list of calls.
#include "calls.h"
#include "inputs.h"

#include <stdio.h>
#include <stdlib.h>
#include <string.h>
#include <unistd.h>

// READ_LIMIT: the longest chain in portions of 34 bytes.
enum { STEP_LIMIT = 64, READ_LIMIT = 482 };

static void step_request(struct driver *driver, struct feed *feed, unsigned kind, unsigned places)
{
    write_request(&driver->world, feed, kind);
    damage_request(&driver->world, feed);
    choose_lengths(&driver->world, feed);
    memset(driver->world.nonce, (int)next(feed), 64);
    call_respond(driver, places);
}

// GET_VERSION, GET_CAPABILITIES and NEGOTIATE_ALGORITHMS, undamaged but for the peer's size; of either edition.
static void step_connect(struct driver *driver, struct feed *feed, unsigned places)
{
    struct feed none = {NULL, 0};
    repair(&driver->world, feed);
    right_lengths(&driver->world);
    for (unsigned kind = VERSION; kind <= ALGORITHMS; kind++) {
        write_request(&driver->world, kind == CAPABILITIES ? feed : &none, kind);
        if (kind == ALGORITHMS)
            driver->world.request[6] = 1;
        call_respond(driver, places);
    }
}

// GET_VERSION and GET_CAPABILITIES, then offers of every shape until one is accepted.
static void step_negotiate(struct driver *driver, struct feed *feed, unsigned places)
{
    struct feed none = {NULL, 0};
    repair(&driver->world, feed);
    right_lengths(&driver->world);
    write_request(&driver->world, &none, VERSION);
    call_respond(driver, places);
    write_request(&driver->world, &none, CAPABILITIES);
    if (next(feed) & 1)
        driver->world.request[0] = EDITION_1_1;
    call_respond(driver, places);
    for (unsigned i = 0; i < 4; i++) {
        write_request(&driver->world, feed, ALGORITHMS);
        damage_request(&driver->world, feed);
        call_respond(driver, places);
    }
}

// Reads a chain from its start, as the second half of demand 3 has it.
static void step_read_chain(struct driver *driver, struct feed *feed, unsigned places)
{
    const unsigned length = 34 + (next(feed) % 16 ? next(feed) * 4 : 0);
    unsigned offset = 0;
    right_lengths(&driver->world);
    for (unsigned i = 0; i < READ_LIMIT; i++) {
        write_read(&driver->world, offset, length);
        call_respond(driver, places);
        const uint8_t *answer = driver->world.answer;
        if (answer[1] != 0x02 || (answer[6] | answer[7]) == 0)
            return;
        offset += answer[4] | (unsigned)answer[5] << 8;
    }
}

static void step_finish(struct driver *driver, struct feed *feed, unsigned places)
{
    struct world *world = &driver->world;
    choose_lengths(world, feed);
    if (next(feed) % 8 == 0)
        world->signature_length = next_16(feed) % 600;
    world->chip_ok = next(feed) % 4 ? 1 + next(feed) : 0;
    memset(world->signature, (int)next(feed), 600);
    call_finish(driver, places);
}

// CHALLENGE or signed GET_MEASUREMENTS, what to sign, finishing: the order of a careful host.
static void step_signed(struct driver *driver, struct feed *feed, unsigned places)
{
    struct world *world = &driver->world;
    const bool challenge = next(feed) & 1;
    if (world->state[PHASE] != 3)
        step_connect(driver, feed, places);
    write_request(world, feed, challenge ? CHALLENGE : MEASUREMENTS);
    if (!challenge) {
        world->request[2] |= 1;
        world->request_length = 37;
    }
    right_lengths(world);
    call_respond(driver, places);
    call_to_sign(driver, places);
    step_finish(driver, feed, places);
}

// A request longer than any message, half of them GET_MEASUREMENTS: it must not empty M.
static void step_long(struct driver *driver, struct feed *feed, unsigned places)
{
    const unsigned chance = next(feed);
    write_request(&driver->world, feed, chance < 128 ? MEASUREMENTS : chance % (ANY_BYTES + 1));
    right_lengths(&driver->world);
    driver->world.request_length = 4609 + next_16(feed) % (REQUEST_ROOM - 4608);
    call_respond(driver, places);
}

// Any state, in its bounds or not, looked at by the three calls that test it; then the one before is back.
static void step_mixed(struct driver *driver, struct feed *feed, unsigned places)
{
    struct world *world = &driver->world;
    uint32_t kept[WORDS_ROOM];
    memcpy(kept, world->state, sizeof kept);
    mix_state(world, feed);
    right_lengths(world);
    call_to_sign(driver, places);
    write_request(world, feed, next(feed) % ANY_BYTES);
    call_respond(driver, places);
    call_finish(driver, places);
    memcpy(world->state, kept, sizeof kept);
}

static void step_to_sign(struct driver *driver, struct feed *feed, unsigned places)
{
    choose_lengths(&driver->world, feed);
    memset(driver->world.prefix, 0x3C, sizeof driver->world.prefix);
    memset(driver->world.parts, 0x3C, sizeof driver->world.parts);
    call_to_sign(driver, places);
}

static void step_image_algorithms(struct driver *driver, struct feed *feed, unsigned places)
{
    choose_lengths(&driver->world, feed);
    memset(driver->world.algorithms, 0x3C, sizeof driver->world.algorithms);
    call_image_algorithms(driver, places);
}

static void step(struct driver *driver, struct feed *feed)
{
    struct world *world = &driver->world;
    const unsigned choice = next(feed) % 32, places = next(feed);
    switch (choice) {
    case 8: case 9: step_connect(driver, feed, places); break;
    case 10: case 11: case 12: step_finish(driver, feed, places); break;
    case 13: step_to_sign(driver, feed, places); break;
    case 14: call_read_image(driver, places); break;
    case 15: choose_image(world, feed); break;
    case 16: damage_image(world, feed); break;
    case 17: poke_state(world, feed); break;
    case 18: full_state(world, feed); break;
    case 19: memset(world->state, 0, sizeof world->state); break;
    case 20: step_read_chain(driver, feed, places); break;
    case 21: step_request(driver, feed, CHALLENGE, places); break;
    case 22: step_request(driver, feed, MEASUREMENTS, places); break;
    case 23: case 24: step_signed(driver, feed, places); break;
    case 25: step_negotiate(driver, feed, places); break;
    case 26: damage_image(world, feed); break;
    case 27: memset(world->answer, (int)next(feed), ANSWER_ROOM); break;
    case 28: step_image_algorithms(driver, feed, places); break;
    case 29: step_long(driver, feed, places); break;
    case 30: case 31: step_mixed(driver, feed, places); break;
    default: step_request(driver, feed, choice, places);
    }
}

static void start_world(struct world *world, struct feed *feed)
{
    memset(world, 0, sizeof *world);
    memset(world->transcript, (int)next(feed), TRANSCRIPT_ROOM);
    memset(world->answer, (int)next(feed), ANSWER_ROOM);
    world->words = STATE_WORDS;
    choose_image(world, feed);
}

int LLVMFuzzerTestOneInput(const uint8_t *data, size_t size);

int LLVMFuzzerTestOneInput(const uint8_t *data, size_t size)
{
    struct driver *driver = the_driver();
    struct feed feed = {data, size};
    start_world(&driver->world, &feed);
    for (unsigned i = 0; i < STEP_LIMIT && feed.left > 0; i++)
        step(driver, &feed);
    driver->counts.inputs++;
    return 0;
}

#ifndef WITH_LIBFUZZER

// xorshift64*: the same inputs for the same seed, everywhere.
static uint64_t draw(uint64_t *seed)
{
    *seed ^= *seed >> 12;
    *seed ^= *seed << 25;
    *seed ^= *seed >> 27;
    return *seed * 0x2545F4914F6CDD1DULL;
}

static void run_input(uint64_t *seed)
{
    uint8_t input[512];
    const size_t length = 16 + draw(seed) % (sizeof input - 16);
    for (size_t i = 0; i < length; i++)
        input[i] = (uint8_t)(draw(seed) >> 56);
    alarm(20);
    LLVMFuzzerTestOneInput(input, length);
    alarm(0);
}

// Arguments: how many inputs, and a seed. An input that takes 20 seconds is stopped by SIGALRM.
int main(int count, char **words)
{
    const unsigned long inputs = count > 1 ? strtoul(words[1], NULL, 10) : 1000;
    const uint64_t start = count > 2 ? strtoull(words[2], NULL, 10) : 1;
    uint64_t seed = start * 0x9E3779B97F4A7C15ULL | 1;
    for (unsigned long i = 0; i < inputs; i++)
        run_input(&seed);
    const struct counts *counts = &the_driver()->counts;
    printf("fuzz: seed %llu, %lu inputs, %lu calls (%lu numbers, %lu ERRORs, %lu accepted, %lu finished; "
        "%lu answers under 1.1; %lu with an image over 36,864 bytes, %lu from a chain's bytes past 4,096, "
        "%lu that make B longer than 8,192), no finding\n", (unsigned long long)start, counts->inputs, counts->calls,
        counts->numbers, counts->errors, counts->accepted, counts->finished, counts->older, counts->large_image,
        counts->late_read, counts->long_b);
    return 0;
}

#endif
