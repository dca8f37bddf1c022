// vectors IMAGES RUNS: the test vectors through the C interface, each buffer of its exact length, first with its end at
// a page that faults when touched, then with its start there; what is only read is lent from pages that can't be
// written. The last line counts the calls and what differs, and has a checksum of all that the calls gave.
#include "pen.h"
#include "spdm_responder.h"

#include <inttypes.h>
#include <signal.h>
#include <stdio.h>
#include <stdlib.h>
#include <string.h>
#include <sys/wait.h>
#include <unistd.h>

enum { IMAGE_ROOM = 65536, TRANSCRIPT_ROOM = 40960, ANSWER_ROOM = 8192, REQUEST_ROOM = 12288, SMALL_ROOM = 4096 };
enum { IMAGES = 64, FIELDS = 16, STATE_SIZE = 4 * SPDM_STATE_WORDS };
// Where B and M begin in the transcript.
enum { B_START = 512, M_START = 29184 };

struct bytes {
    uint8_t *at;
    size_t length;
};

// ---- What is counted

static unsigned long calls, differences;
static uint32_t seen = 0xFFFFFFFF;
static const char *file;
static unsigned long line_number;

// CRC-32 (IEEE 802.3), reflected.
static uint32_t crc_on(uint32_t crc, const void *bytes, size_t length)
{
    for (size_t i = 0; i < length; i++) {
        crc ^= ((const uint8_t *)bytes)[i];
        for (int bit = 0; bit < 8; bit++)
            crc = crc >> 1 ^ (crc & 1 ? 0xEDB88320 : 0);
    }
    return crc;
}

static void demand(bool good, const char *what)
{
    if (good)
        return;
    differences++;
    printf("%s:%lu: %s\n", file, line_number, what);
}

static uint32_t given(uint32_t result)
{
    calls++;
    seen = crc_on(seen, &result, sizeof result);
    return result;
}

// ---- The calls, every buffer in its pen

// One pen a parameter: those that are only read are opened read-only.
static struct pen image_pen, state_pen, transcript_pen, answer_pen, request_pen, nonce_pen, signature_pen;
static struct pen fixed_state_pen, fixed_transcript_pen, prefix_pen, parts_pen, algorithms_pen;
static enum place place;

// Added to the length of each parameter: a length has more than 32 bits then.
static uint64_t more[6];

static void open_pens(void)
{
    pen_open(&image_pen, IMAGE_ROOM / PEN_PAGE, true);
    pen_open(&state_pen, 1, false);
    pen_open(&transcript_pen, TRANSCRIPT_ROOM / PEN_PAGE, false);
    pen_open(&answer_pen, ANSWER_ROOM / PEN_PAGE, false);
    pen_open(&request_pen, REQUEST_ROOM / PEN_PAGE, true);
    pen_open(&nonce_pen, 1, true);
    pen_open(&signature_pen, 1, true);
    pen_open(&fixed_state_pen, 1, true);
    pen_open(&fixed_transcript_pen, TRANSCRIPT_ROOM / PEN_PAGE, true);
    pen_open(&prefix_pen, 1, false);
    pen_open(&parts_pen, 1, false);
    pen_open(&algorithms_pen, 1, false);
}

static void *lend(struct pen *pen, const void *bytes, size_t length)
{
    return pen_lend(pen, place, bytes, length);
}

// Takes a buffer back, and counts what stands in it as seen.
static void take(struct pen *pen, void *bytes, size_t length)
{
    demand(pen_take(pen, bytes), "a byte beside a buffer changed");
    seen = crc_on(seen, bytes, length);
}

static uint32_t respond(struct bytes image, uint32_t state[SPDM_STATE_WORDS], struct bytes transcript,
    struct bytes answer, struct bytes request, struct bytes nonce)
{
    const uint8_t *lent_image = lend(&image_pen, image.at, image.length);
    uint32_t *lent_state = lend(&state_pen, state, STATE_SIZE);
    uint8_t *lent_transcript = lend(&transcript_pen, transcript.at, transcript.length);
    uint8_t *lent_answer = lend(&answer_pen, answer.at, answer.length);
    const uint8_t *lent_request = lend(&request_pen, request.at, request.length);
    const uint8_t *lent_nonce = lend(&nonce_pen, nonce.at, nonce.length);
    const uint32_t result = given(spdm_respond(lent_image, image.length + more[0], lent_state,
        SPDM_STATE_WORDS + more[1], lent_transcript, transcript.length + more[2], lent_answer, answer.length + more[3],
        lent_request, request.length + more[4], lent_nonce, nonce.length + more[5]));
    take(&image_pen, image.at, 0);
    take(&state_pen, state, STATE_SIZE);
    take(&transcript_pen, transcript.at, transcript.length);
    take(&answer_pen, answer.at, answer.length);
    take(&request_pen, request.at, 0);
    take(&nonce_pen, nonce.at, 0);
    return result;
}

static uint32_t finish(struct bytes image, uint32_t state[SPDM_STATE_WORDS], struct bytes transcript,
    struct bytes answer, uint32_t chip_ok, struct bytes signature)
{
    const uint8_t *lent_image = lend(&image_pen, image.at, image.length);
    uint32_t *lent_state = lend(&state_pen, state, STATE_SIZE);
    const uint8_t *lent_transcript = lend(&fixed_transcript_pen, transcript.at, transcript.length);
    uint8_t *lent_answer = lend(&answer_pen, answer.at, answer.length);
    const uint8_t *lent_signature = lend(&signature_pen, signature.at, signature.length);
    const uint32_t result = given(spdm_finish(lent_image, image.length + more[0], lent_state,
        SPDM_STATE_WORDS + more[1], lent_transcript, transcript.length + more[2], lent_answer, answer.length + more[3],
        chip_ok, lent_signature, signature.length + more[4]));
    take(&image_pen, image.at, 0);
    take(&state_pen, state, STATE_SIZE);
    take(&fixed_transcript_pen, transcript.at, 0);
    take(&answer_pen, answer.at, answer.length);
    take(&signature_pen, signature.at, 0);
    return result;
}

static uint32_t to_sign(const uint32_t state[SPDM_STATE_WORDS], uint8_t prefix[SPDM_PREFIX_LEN],
    uint32_t parts[SPDM_PARTS_WORDS])
{
    uint32_t words[SPDM_STATE_WORDS];
    const uint32_t *lent_state = lend(&fixed_state_pen, state, STATE_SIZE);
    uint8_t *lent_prefix = lend(&prefix_pen, prefix, SPDM_PREFIX_LEN);
    uint32_t *lent_parts = lend(&parts_pen, parts, 4 * SPDM_PARTS_WORDS);
    const uint32_t result = given(spdm_to_sign(lent_state, SPDM_STATE_WORDS + more[0], lent_prefix,
        SPDM_PREFIX_LEN + more[1], lent_parts, SPDM_PARTS_WORDS + more[2]));
    take(&fixed_state_pen, words, 0);
    take(&prefix_pen, prefix, SPDM_PREFIX_LEN);
    take(&parts_pen, parts, 4 * SPDM_PARTS_WORDS);
    return result;
}

static uint32_t read_image(struct bytes image)
{
    const uint8_t *lent_image = lend(&image_pen, image.at, image.length);
    const uint32_t result = given(spdm_read_image(lent_image, image.length + more[0]));
    take(&image_pen, image.at, 0);
    return result;
}

static uint32_t image_algorithms(struct bytes image, uint32_t algorithms[SPDM_ALGORITHMS_WORDS])
{
    const uint8_t *lent_image = lend(&image_pen, image.at, image.length);
    uint32_t *lent_algorithms = lend(&algorithms_pen, algorithms, 4 * SPDM_ALGORITHMS_WORDS);
    const uint32_t result = given(spdm_image_algorithms(lent_image, image.length + more[0], lent_algorithms,
        SPDM_ALGORITHMS_WORDS + more[1]));
    take(&image_pen, image.at, 0);
    take(&algorithms_pen, algorithms, 4 * SPDM_ALGORITHMS_WORDS);
    return result;
}

// ---- Reading the files: fields parted by one space

static void stop(const char *what)
{
    printf("%s:%lu: %s\n", file, line_number, what);
    exit(2);
}

static unsigned split(char *line, char *fields[FIELDS])
{
    unsigned count = 0;
    line[strcspn(line, "\n")] = 0;
    for (char *at = strtok(line, " "); at; at = strtok(NULL, " ")) {
        if (count == FIELDS)
            stop("too many fields");
        fields[count++] = at;
    }
    return count;
}

static uint32_t number(const char *field)
{
    return (uint32_t)strtoul(field, NULL, 10);
}

// The bytes of a field in hex, in `room` bytes at `to`.
static struct bytes unhex(const char *field, uint8_t *to, size_t room)
{
    size_t length = strcmp(field, "-") == 0 ? 0 : strlen(field) / 2;
    if (length > room)
        stop("too many bytes");
    for (size_t i = 0; i < length; i++) {
        const char digits[3] = {field[2 * i], field[2 * i + 1], 0};
        to[i] = (uint8_t)strtoul(digits, NULL, 16);
    }
    return (struct bytes){to, length};
}

static void each_line(const char *path, void (*take_line)(char *fields[FIELDS], unsigned count))
{
    char *line = NULL, *fields[FIELDS];
    size_t room = 0;
    FILE *lines = fopen(path, "r");
    file = path;
    line_number = 0;
    if (!lines)
        stop("can't be read");
    while (getline(&line, &room, lines) > 0) {
        line_number++;
        const unsigned count = split(line, fields);
        take_line(fields, count);
    }
    free(line);
    fclose(lines);
}

// ---- images.txt: an image, its number; of an accepted one what it holds

// How many entries a list has, and the bits of the numbers that its entries begin with.
static uint32_t list(const char *field, uint32_t *mask)
{
    uint32_t count = 0;
    *mask = 0;
    for (const char *at = field; *at && strcmp(field, "-") != 0; at += strcspn(at, ","), at += *at == ',') {
        *mask |= UINT32_C(1) << (strtoul(at, NULL, 10) & 31);
        count++;
    }
    return count;
}

static void image_line(char *fields[FIELDS], unsigned count)
{
    static uint8_t room[IMAGE_ROOM];
    static const uint32_t digests[] = {32, 48, 64, 32, 48, 64};
    static const uint32_t signatures[] = {256, 256, 384, 384, 64, 512, 512, 96, 132};
    uint32_t found[SPDM_ALGORITHMS_WORDS] = {0}, wanted[SPDM_ALGORITHMS_WORDS] = {0}, unused;
    const struct bytes image = unhex(fields[0], room, sizeof room);
    const uint32_t result = number(fields[1]) << 16;
    if (count == 7) {
        const uint32_t hash = number(fields[3]), signature = number(fields[4]);
        const uint32_t held[] = {number(fields[2]), hash, digests[hash], signature, signatures[signature], 0,
            list(fields[6], &unused)};
        memcpy(wanted, held, sizeof wanted);
        list(fields[5], &wanted[SPDM_ALGORITHMS_SLOTS]);
    }
    demand(read_image(image) == result, "spdm_read_image");
    demand(image_algorithms(image, found) == result, "spdm_image_algorithms");
    demand(memcmp(found, wanted, sizeof found) == 0, "spdm_image_algorithms: the words");
}

// ---- runs.txt: calls on one connection, and what each gives

static struct {
    char name[IMAGES][8];
    uint8_t image_room[IMAGES][IMAGE_ROOM];
    struct bytes images[IMAGES];
    unsigned image_count;
    uint8_t transcript[TRANSCRIPT_ROOM];
    size_t transcript_length;
    uint32_t state[SPDM_STATE_WORDS];
    uint8_t kept[ANSWER_ROOM]; // the answer that awaits a signature, as the host keeps it
    size_t kept_length;
    uint32_t result;
    uint8_t answer[ANSWER_ROOM], before[ANSWER_ROOM];
    size_t answer_length;
    uint32_t shown; // spdm_to_sign's result for the state that the last call left, and what it wrote
    uint8_t prefix[SPDM_PREFIX_LEN];
    uint32_t parts[SPDM_PARTS_WORDS];
    bool hash_due; // an H line comes next
} run;

static void keep(const uint8_t *bytes, size_t length)
{
    run.kept_length = length < ANSWER_ROOM ? length : ANSWER_ROOM;
    for (size_t i = 0; i < run.kept_length; i++)
        run.kept[i] = bytes ? bytes[i] : (uint8_t)(5 * i);
}

static void new_image(const char *name, const char *hex)
{
    if (strcmp(name, "g0") == 0)
        run.image_count = 0;
    if (run.image_count == IMAGES || strlen(name) >= sizeof run.name[0])
        stop("an image too many");
    strcpy(run.name[run.image_count], name);
    run.images[run.image_count] = unhex(hex, run.image_room[run.image_count], IMAGE_ROOM);
    run.image_count++;
}

static struct bytes image_named(const char *name)
{
    for (unsigned i = 0; i < run.image_count; i++)
        if (strcmp(run.name[i], name) == 0)
            return run.images[i];
    stop("no such image");
    return run.images[0];
}

static struct bytes lent_transcript(const char *length)
{
    if (number(length) > run.transcript_length)
        stop("more transcript lent than there is");
    return (struct bytes){run.transcript, number(length)};
}

// The answer buffer of a call, filled; that of a finishing begins with the awaited answer.
static struct bytes lent_answer(const char *length, bool finishing)
{
    run.answer_length = number(length);
    if (run.answer_length > ANSWER_ROOM)
        stop("an answer buffer too long");
    for (size_t i = 0; i < run.answer_length; i++)
        run.before[i] = finishing && i < run.kept_length ? run.kept[i] : (uint8_t)(7 * i + line_number);
    memcpy(run.answer, run.before, run.answer_length);
    return (struct bytes){run.answer, run.answer_length};
}

// What spdm_to_sign shows for the state that a call left. Past the prefix, all of it under 1.1, it writes nothing.
static void check_to_sign(void)
{
    uint8_t filled[SPDM_PREFIX_LEN];
    const uint32_t *state = run.state, whose = state[SPDM_STATE_AWAITED];
    const bool challenge = whose == SPDM_AWAITS_CHALLENGE, old = state[SPDM_STATE_EDITION] == SPDM_EDITION_1_1;
    const uint32_t wanted[] = {0, old && !challenge ? 0 : state[SPDM_STATE_A], challenge ? B_START : M_START,
        challenge ? state[SPDM_STATE_B] : state[SPDM_STATE_M]};
    memset(filled, (int)line_number, sizeof filled);
    memcpy(run.prefix, filled, sizeof filled);
    memset(run.parts, 0, sizeof run.parts);
    run.shown = to_sign(state, run.prefix, run.parts);
    run.hash_due = SPDM_NUMBER(run.result) == 0 && whose != 0;
    const size_t length = SPDM_LENGTH(run.shown);
    demand(length <= SPDM_PREFIX_LEN, "spdm_to_sign: the prefix's length");
    demand(length > SPDM_PREFIX_LEN || memcmp(run.prefix + length, filled + length, SPDM_PREFIX_LEN - length) == 0,
        "spdm_to_sign: a byte past the prefix");
    if (run.hash_due)
        demand(memcmp(run.parts, wanted, sizeof run.parts) == 0, "spdm_to_sign: the parts");
    // After a number the state may be out of its bounds: the checksum alone tells what is shown then.
    else if (SPDM_NUMBER(run.result) == 0)
        demand(SPDM_NUMBER(run.shown) == SPDM_NOTHING_AWAITED, "spdm_to_sign: nothing is awaited");
}

// The prefix's length, how many bytes are hashed, and the CRC of all of them.
static void check_hash(char *fields[FIELDS])
{
    const size_t length = SPDM_LENGTH(run.shown);
    uint32_t crc = crc_on(0xFFFFFFFF, run.prefix, length <= SPDM_PREFIX_LEN ? length : 0);
    uint64_t hashed = 0;
    for (unsigned part = 0; part < SPDM_PARTS_WORDS; part += 2) {
        const uint64_t start = run.parts[part], count = run.parts[part + 1];
        hashed += count;
        if (start + count <= run.transcript_length)
            crc = crc_on(crc, run.transcript + start, count);
    }
    demand(run.shown == number(fields[1]), "spdm_to_sign");
    demand(hashed == number(fields[2]), "spdm_to_sign: how much is hashed");
    demand(~crc == strtoul(fields[3], NULL, 16), "spdm_to_sign: what is signed");
}

static void check_result(char *fields[FIELDS])
{
    uint8_t room[ANSWER_ROOM];
    const struct bytes wanted = unhex(fields[2], room, sizeof room);
    const size_t length = SPDM_LENGTH(run.result);
    demand(run.result == (number(fields[1]) << 16 | wanted.length), "the result");
    demand(length <= run.answer_length, "the answer's length");
    demand(length == wanted.length && memcmp(run.answer, wanted.at, length) == 0, "the answer");
    demand(length > run.answer_length || memcmp(run.answer + length, run.before + length,
        run.answer_length - length) == 0, "a byte past the answer");
    for (unsigned i = 0; i < SPDM_STATE_WORDS; i++)
        demand(run.state[i] == number(fields[3 + i]), "the state");
    demand(~crc_on(0xFFFFFFFF, run.transcript, run.transcript_length)
        == strtoul(fields[3 + SPDM_STATE_WORDS], NULL, 16), "the transcript");
    check_to_sign();
    if (run.state[SPDM_STATE_AWAITED] == 0)
        run.kept_length = 0;
    else if (SPDM_NUMBER(run.result) == 0 && run.kept_length == 0)
        keep(run.answer, length);
}

static void run_line(char *fields[FIELDS], unsigned count)
{
    static uint8_t request[REQUEST_ROOM], small[SMALL_ROOM];
    const char kind = fields[0][0];
    demand(run.hash_due == (kind == 'H'), "an H line exactly where a signature is awaited");
    run.hash_due = false;
    if (kind == 'I' && count == 3) {
        new_image(fields[1], fields[2]);
    } else if (kind == 'T' && count == 3) {
        run.transcript_length = number(fields[1]);
        if (run.transcript_length > TRANSCRIPT_ROOM)
            stop("a transcript too long");
        for (size_t i = 0; i < run.transcript_length; i++)
            run.transcript[i] = (uint8_t)(number(fields[2]) + 13 * i);
    } else if (kind == 'S' && count == 1 + SPDM_STATE_WORDS) {
        for (unsigned i = 0; i < SPDM_STATE_WORDS; i++)
            run.state[i] = number(fields[1 + i]);
        keep(NULL, run.state[SPDM_STATE_AWAITED] != 0 ? run.state[SPDM_STATE_ANSWER] : 0);
    } else if (kind == 'R' && count == 6) {
        run.result = respond(image_named(fields[1]), run.state, lent_transcript(fields[3]),
            lent_answer(fields[2], false), unhex(fields[5], request, sizeof request),
            unhex(fields[4], small, sizeof small));
    } else if (kind == 'F' && count == 6) {
        run.result = finish(image_named(fields[1]), run.state, lent_transcript(fields[3]), lent_answer(fields[2], true),
            number(fields[4]), unhex(fields[5], small, sizeof small));
    } else if (kind == '=' && count == 4 + SPDM_STATE_WORDS) {
        check_result(fields);
    } else if (kind == 'H' && count == 4) {
        check_hash(fields);
    } else {
        stop("not understood");
    }
}

// ---- Every length arrives whole: 2^32 more than right is too long, or long enough, and never the right one

static uint8_t long_transcript[SPDM_TRANSCRIPT_MIN], long_answer[SPDM_ANSWER_MIN], long_signature[512];
static const struct bytes transcript_lent = {long_transcript, sizeof long_transcript};
static const struct bytes answer_lent = {long_answer, sizeof long_answer};

// One length is 2^32 more during a call.
static uint32_t long_result;
#define LONG(which, call) (more[which] = UINT64_C(1) << 32, long_result = (call), more[which] = 0, long_result)

static void check_asked(struct bytes image)
{
    static const unsigned numbers[] = {SPDM_IMAGE_SIZE, SPDM_WRONG_STATE, 0, 0, 0, SPDM_WRONG_NONCE};
    static uint8_t version[] = {0x10, SPDM_GET_VERSION, 0, 0}, nonce[SPDM_NONCE_LEN];
    const struct bytes request = {version, sizeof version}, nonce_lent = {nonce, sizeof nonce};
    for (unsigned i = 0; i < 6; i++) {
        uint32_t state[SPDM_STATE_WORDS] = {0};
        const uint32_t result = LONG(i, respond(image, state, transcript_lent, answer_lent, request, nonce_lent));
        demand(SPDM_NUMBER(result) == numbers[i], "spdm_respond with a long length");
        demand(i != 4 || long_answer[2] == SPDM_ERROR_REQUEST_TOO_LARGE, "spdm_respond with a long request");
    }
}

static void check_signed(struct bytes image, uint32_t size, uint32_t edition)
{
    static const unsigned numbers[] = {SPDM_IMAGE_SIZE, SPDM_WRONG_STATE, 0, 0, SPDM_WRONG_SIGNATURE};
    const uint32_t awaiting[SPDM_STATE_WORDS] = {3, 4608, 0, 120, 100, 0, SPDM_AWAITS_CHALLENGE, 4 + size, edition};
    const struct bytes signature = {long_signature, size};
    uint32_t state[SPDM_STATE_WORDS];
    for (unsigned i = 0; i < 5; i++) {
        memcpy(state, awaiting, sizeof state);
        const uint32_t result = LONG(i, finish(image, state, transcript_lent, answer_lent, 1, signature));
        demand(result == (numbers[i] ? numbers[i] << 16 : 4 + size), "spdm_finish with a long length");
    }
    memcpy(state, awaiting, sizeof state);
    demand(finish(image, state, transcript_lent, answer_lent, 0x80000000, signature) == 4 + size,
        "spdm_finish with the chip's highest bit");
    for (unsigned i = 0; i < 3; i++) {
        uint8_t prefix[SPDM_PREFIX_LEN] = {0};
        uint32_t parts[SPDM_PARTS_WORDS] = {0};
        const uint32_t result = LONG(i, to_sign(awaiting, prefix, parts));
        demand(SPDM_NUMBER(result) == (i == 0 ? SPDM_WRONG_STATE : 0), "spdm_to_sign with a long length");
    }
}

static void check_lengths(void)
{
    const struct bytes image = run.images[0];
    uint32_t algorithms[SPDM_ALGORITHMS_WORDS] = {0};
    demand(LONG(0, read_image(image)) == SPDM_IMAGE_SIZE << 16, "spdm_read_image with a long length");
    demand(LONG(0, image_algorithms(image, algorithms)) == SPDM_IMAGE_SIZE << 16,
        "spdm_image_algorithms with a long image");
    demand(LONG(1, image_algorithms(image, algorithms)) == 0, "spdm_image_algorithms with a long length");
    check_asked(image);
    check_signed(image, algorithms[SPDM_ALGORITHMS_SIGNATURE_SIZE], SPDM_EDITION_1_1);
    check_signed(image, algorithms[SPDM_ALGORITHMS_SIGNATURE_SIZE], SPDM_EDITION_1_2);
}

// ---- The pens hold: what a call must not do faults here too

enum { FAULTED = 42 };

static void on_fault(int signal_number)
{
    (void)signal_number;
    _exit(FAULTED);
}

static void must_fault(volatile uint8_t *at, bool write)
{
    int status = 0;
    const pid_t child = fork();
    if (child == 0) {
        signal(SIGSEGV, on_fault);
        const uint8_t byte = write ? 0 : *at;
        if (write)
            *at = byte;
        _exit(0);
    }
    demand(child > 0 && waitpid(child, &status, 0) == child && WIFEXITED(status) && WEXITSTATUS(status) == FAULTED,
        "a guard page does not fault");
}

static void check_pens(void)
{
    static const uint8_t some[16];
    uint8_t *at = pen_lend(&image_pen, AT_END, some, sizeof some);
    must_fault(at + sizeof some, false);
    must_fault(at, true);
    at = pen_lend(&state_pen, AT_START, some, sizeof some);
    must_fault(at - 1, false);
    must_fault(at - 1, true);
}

int main(int count, char **arguments)
{
    if (count != 3) {
        fprintf(stderr, "usage: vectors IMAGES RUNS\n");
        return 2;
    }
    open_pens();
    file = "pens";
    check_pens();
    for (place = AT_END; place <= AT_START; place++) {
        each_line(arguments[1], image_line);
        each_line(arguments[2], run_line);
        demand(!run.hash_due, "an H line is missing at the end");
        check_lengths();
    }
    printf("%lu calls, %lu differences, checksum %08" PRIx32 "\n", calls, differences, ~seen);
    return differences != 0;
}
