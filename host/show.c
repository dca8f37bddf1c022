#include "show.h"

#include <stdarg.h>
#include <stdio.h>
#include <string.h>

static const char *name_of(uint8_t code)
{
    switch (code) {
    case GET_DIGESTS: return "GET_DIGESTS";
    case GET_CERTIFICATE: return "GET_CERTIFICATE";
    case CHALLENGE: return "CHALLENGE";
    case GET_VERSION: return "GET_VERSION";
    case GET_MEASUREMENTS: return "GET_MEASUREMENTS";
    case GET_CAPABILITIES: return "GET_CAPABILITIES";
    case NEGOTIATE_ALGORITHMS: return "NEGOTIATE_ALGORITHMS";
    case DIGESTS: return "DIGESTS";
    case CERTIFICATE: return "CERTIFICATE";
    case CHALLENGE_AUTH: return "CHALLENGE_AUTH";
    case VERSION: return "VERSION";
    case MEASUREMENTS: return "MEASUREMENTS";
    case CAPABILITIES: return "CAPABILITIES";
    case ALGORITHMS: return "ALGORITHMS";
    case ERROR: return "ERROR";
    default: return "(unknown code)";
    }
}

static const char *error_text(uint8_t code)
{
    switch (code) {
    case 0x01: return "InvalidRequest";
    case 0x03: return "Busy";
    case 0x04: return "UnexpectedRequest";
    case 0x05: return "Unspecified";
    case 0x07: return "UnsupportedRequest";
    case 0x0D: return "ResponseTooLarge";
    case 0x0E: return "RequestTooLarge";
    case 0x41: return "VersionMismatch";
    default: return "?";
    }
}

// At most `limit` bytes in hex; of more, the first and the last four.
static void put_hex(struct bytes run, size_t limit)
{
    const size_t tail = 4;
    const bool all = run.length <= limit;
    for (size_t i = 0; i < run.length; i++) {
        if (!all && i == limit - tail)
            printf(" ..");
        if (all || i < limit - tail || i + tail >= run.length)
            printf(" %02X", run.at[i]);
    }
}

static void put_field(const char *name, struct bytes run)
{
    printf("            %s, %zu bytes:", name, run.length);
    put_hex(run, 12);
    printf("\n");
}

// Prints a field of a message if the message reaches that far; gives where it ends.
static size_t put_part(struct bytes message, size_t start, size_t length, const char *name)
{
    if (start + length <= message.length)
        put_field(name, (struct bytes){message.at + start, length});
    return start + length;
}

static void put_versions(struct bytes message)
{
    printf("            editions");
    for (size_t i = 6; i + 2 <= message.length; i += 2)
        printf("%s %s", i == 6 ? "" : ",", edition_text(message.at[i + 1]));
    printf("\n");
}

// Under 1.1 there are no sizes.
static void put_capabilities(struct bytes message)
{
    if (message.length < 12)
        return;
    printf("            CTExponent %u, Flags 0x%02X", message.at[5], (unsigned)read_32(message.at + 8));
    if (message.at[0] != EDITION_1_1 && message.length >= 20)
        printf(", DataTransferSize %u, MaxSPDMmsgSize %u", (unsigned)read_32(message.at + 12),
            (unsigned)read_32(message.at + 16));
    printf("\n");
}

static void put_negotiation(struct bytes message)
{
    if (message.length < 32)
        return;
    printf("            Length %u, %u structures, MeasurementSpecification %u, BaseAsymAlgo 0x%X, BaseHashAlgo 0x%X\n",
        read_16(message.at + 4), message.at[2], message.at[6], (unsigned)read_32(message.at + 8),
        (unsigned)read_32(message.at + 12));
}

static void put_algorithms(struct bytes message)
{
    if (message.length < 36)
        return;
    printf("            MeasurementSpecificationSel %u, MeasurementHashAlgo 0x%X, BaseAsymSel 0x%X, BaseHashSel 0x%X\n",
        message.at[6], (unsigned)read_32(message.at + 8), (unsigned)read_32(message.at + 12),
        (unsigned)read_32(message.at + 16));
}

static void put_digests(const struct show *show, struct bytes message)
{
    size_t at = 4;
    for (unsigned slot = 0; show->suite && slot < 8; slot++) {
        char name[32];
        snprintf(name, sizeof name, "digest of slot %u", slot);
        if (message.at[3] >> slot & 1)
            at = put_part(message, at, show->suite->digest_size, name);
    }
}

static void put_read(struct bytes message)
{
    if (message.length >= 8)
        printf("            slot %u, offset %u, length %u\n", message.at[2] & 15, read_16(message.at + 4),
            read_16(message.at + 6));
}

static void put_certificate(struct bytes message)
{
    if (message.length < 8)
        return;
    printf("            slot %u, portion %u, remainder %u\n", message.at[2], read_16(message.at + 4),
        read_16(message.at + 6));
    put_part(message, 8, message.length - 8, "chain");
}

static void put_challenge(struct bytes message)
{
    printf("            slot %u, summary hash asked 0x%02X\n", message.at[2], message.at[3]);
    put_part(message, 4, NONCE_SIZE, "panel's nonce");
}

static void put_challenge_auth(const struct show *show, struct bytes message)
{
    if (!show->suite)
        return;
    const size_t digest = show->suite->digest_size, signature = show->suite->signature_size;
    printf("            slot %u, slot mask 0x%02X\n", message.at[2], message.at[3]);
    size_t at = put_part(message, 4, digest, "chain's digest");
    at = put_part(message, at, NONCE_SIZE, "box's nonce");
    if (message.length == at + digest + 2 + signature)
        at = put_part(message, at, digest, "summary hash");
    put_part(message, at + 2, signature, "signature");
}

static void put_measurement_request(struct bytes message)
{
    const bool is_signed = message.at[2] & 1;
    printf("            %s, operation 0x%02X\n", is_signed ? "signature asked" : "no signature asked", message.at[3]);
    if (is_signed)
        put_part(message, 4, NONCE_SIZE, "panel's nonce");
}

static void put_blocks(struct bytes record)
{
    for (size_t at = 0; at + 7 <= record.length; at += 4 + read_16(record.at + at + 2)) {
        char name[48];
        snprintf(name, sizeof name, "block: index %u, type %u", record.at[at], record.at[at + 4]);
        put_part(record, at + 7, read_16(record.at + at + 5), name);
    }
}

static void put_measurements(const struct show *show, struct bytes message)
{
    if (message.length < 8)
        return;
    const size_t record = read_16(message.at + 5) | (size_t)message.at[7] << 16;
    printf("            Param1 %u, slot %u, %u blocks, record of %zu bytes\n", message.at[2], message.at[3],
        message.at[4], record);
    if (record > message.length - 8)
        return;
    put_blocks((struct bytes){message.at + 8, record});
    const size_t at = put_part(message, 8 + record, NONCE_SIZE, "box's nonce") + 2;
    if (show->suite && message.length > at)
        put_part(message, at, show->suite->signature_size, "signature");
}

static void put_error(struct bytes message)
{
    printf("            code 0x%02X %s, data 0x%02X", message.at[2], error_text(message.at[2]), message.at[3]);
    if (message.length == 8)
        printf(", the answer would have %u bytes", (unsigned)read_32(message.at + 4));
    printf("\n");
}

static void put_fields(const struct show *show, struct bytes message)
{
    switch (message.at[1]) {
    case VERSION: put_versions(message); break;
    case GET_CAPABILITIES:
    case CAPABILITIES: put_capabilities(message); break;
    case NEGOTIATE_ALGORITHMS: put_negotiation(message); break;
    case ALGORITHMS: put_algorithms(message); break;
    case DIGESTS: put_digests(show, message); break;
    case GET_CERTIFICATE: put_read(message); break;
    case CERTIFICATE: put_certificate(message); break;
    case CHALLENGE: put_challenge(message); break;
    case CHALLENGE_AUTH: put_challenge_auth(show, message); break;
    case GET_MEASUREMENTS: put_measurement_request(message); break;
    case MEASUREMENTS: put_measurements(show, message); break;
    case ERROR: put_error(message); break;
    default: break;
    }
}

static void put_message(const struct show *show, const char *from, struct bytes message)
{
    const char *name = message.length > 1 ? name_of(message.at[1]) : "(nothing)";
    printf("  %s %-20s %4zu bytes:", from, name, message.length);
    put_hex(message, 16);
    printf("\n");
    if (message.length >= 4)
        put_fields(show, message);
}

// A portion in the middle of a chain, after two were printed.
static bool is_repetition(struct show *show, struct bytes request, struct bytes answer)
{
    const bool read = request.length >= 8 && answer.length >= 8 && answer.at[1] == CERTIFICATE;
    show->reads = read ? show->reads + 1 : 0;
    return read && show->reads > 2 && read_16(answer.at + 6) != 0;
}

void show_exchange(struct show *show, struct bytes request, struct bytes answer)
{
    if (show->quiet)
        return;
    if (is_repetition(show, request, answer)) {
        show->skipped++;
        return;
    }
    if (show->skipped > 0)
        printf("  .. %u more portions like these ..\n", show->skipped);
    show->skipped = 0;
    put_message(show, "panel ->  ", request);
    put_message(show, "  <- box  ", answer);
}

void show_bytes(const char *what, struct bytes run)
{
    printf("      %s, %zu bytes:", what, run.length);
    put_hex(run, 20);
    printf("\n");
}

// The bytes about the changed one, which is in brackets.
static void put_around(const char *when, struct bytes message, size_t offset, uint8_t value)
{
    const size_t reach = 6, from = offset < reach ? 0 : offset - reach;
    printf("      %s%s", when, from > 0 ? " .." : "");
    for (size_t i = from; i < message.length && i <= offset + reach; i++)
        printf(i == offset ? " [%02X]" : " %02X", i == offset ? value : message.at[i]);
    printf("%s\n", offset + reach + 1 < message.length ? " .." : "");
}

void show_change(struct bytes message, size_t offset, uint8_t before)
{
    const char *name = message.length > 1 ? name_of(message.at[1]) : "(nothing)";
    printf("      byte %zu of %s, %zu bytes, is changed on the way\n", offset, name, message.length);
    put_around("sent:   ", message, offset, before);
    put_around("arrives:", message, offset, message.at[offset]);
}

void show_title(const struct show *show, const char *title)
{
    if (!show->quiet)
        printf("\n== %s\n", title);
}

void show_note(const struct show *show, const char *format, ...)
{
    va_list arguments;
    if (show->quiet)
        return;
    printf("  -- ");
    va_start(arguments, format);
    vprintf(format, arguments);
    va_end(arguments);
    printf("\n");
}

void show_check(struct show *show, bool good, const char *format, ...)
{
    va_list arguments;
    show->checks++;
    show->wrong += !good;
    printf("%s ", good ? "[ as it should be ]" : "[ WRONG           ]");
    va_start(arguments, format);
    vprintf(format, arguments);
    va_end(arguments);
    printf("\n");
}

int show_end(const struct show *show)
{
    if (show->wrong == 0)
        printf("\ndemonstration: %u checks, all as they should be\n", show->checks);
    else
        printf("\ndemonstration: %u checks, %u WRONG\n", show->checks, show->wrong);
    return show->wrong != 0;
}
