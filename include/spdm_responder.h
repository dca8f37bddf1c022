/*
 * An SPDM 1.1 and 1.2 responder for one connection. The panel chooses between the two: GET_CAPABILITIES, by its version
 * byte.
 *
 * Every function tests all that it is given and always returns. It keeps nothing between two calls, allocates nothing
 * and calls nothing but memcpy and memset, by their names on the processor. The host holds state, transcript and
 * answer, and lends them (docs/HOST.md).
 *
 * A pointer and the length behind it lend that many elements for the time of the call: bytes, at any address, or 32-bit
 * words for `state`, `parts` and `algorithms`, aligned as a uint32_t is. Buffers that are written must not overlap any
 * other buffer of the same call. A pointer with length 0 is never followed. Lengths have 64 bits on every processor.
 */
#ifndef SPDM_RESPONDER_H
#define SPDM_RESPONDER_H

#include <stdint.h>

#ifdef __cplusplus
extern "C" {
#endif

/*
 * The version of this header: one more with every change of a declaration, of a value or of what a call gives.
 * New in 3: longer chains and images, and for them a transcript of 36,864 bytes, not 16,384. A host that lends less
 * gets number 12 from spdm_respond and spdm_finish (docs/HOST.md, "A host for version 2 of the header").
 */
#define SPDM_RESPONDER_VERSION 3

/* Sizes. */
#define SPDM_STATE_WORDS 9         /* exactly this many words of state */
#define SPDM_ANSWER_MIN 4608       /* at least this many bytes for an answer; no answer is longer */
#define SPDM_TRANSCRIPT_MIN 36864  /* at least this many bytes of transcript; none past it is used */
#define SPDM_NONCE_LEN 32          /* exactly this many bytes of nonce */
#define SPDM_PREFIX_LEN 100        /* room for the prefix, which under 1.2 is signed before the hash */
#define SPDM_PARTS_WORDS 4         /* offset and length of two parts */
#define SPDM_IMAGE_MAX 61440       /* the longest image that is accepted, */
#define SPDM_CHAIN_MAX 16384       /*   and the longest chain in one */
#define SPDM_ALGORITHMS_WORDS 7    /* what spdm_image_algorithms shows */
#define SPDM_HASH_MAX 64           /* the longest digest, */
#define SPDM_SIGNATURE_MAX 512     /*   and the longest signature of an image */

/*
 * The state of a connection: 9 words, all zero when it is fresh. The host may read them, and must write none but to
 * make them all zero: a fresh connection.
 */
#define SPDM_STATE_PHASE 0         /* 0 nothing said, 1 after VERSION, 2 after CAPABILITIES, 3 after ALGORITHMS */
#define SPDM_STATE_PEER 1          /* the peer's DataTransferSize; under 1.1, which has none, 4,608 */
#define SPDM_STATE_SELECTION 2     /* 1 if the measurement specification was selected */
#define SPDM_STATE_A 3             /* bytes used of A, */
#define SPDM_STATE_B 4             /*   of B */
#define SPDM_STATE_M 5             /*   and of M */
#define SPDM_STATE_AWAITED 6       /* whose signature is awaited: 0 none, else as below */
#define SPDM_STATE_ANSWER 7        /* the awaited answer's length, 0 if none is awaited */
#define SPDM_STATE_EDITION 8       /* the chosen edition: 0 none yet, in phases 0 and 1, else as below */

/* Values of SPDM_STATE_AWAITED. */
#define SPDM_AWAITS_CHALLENGE 1
#define SPDM_AWAITS_MEASUREMENTS 2

/* Values of SPDM_STATE_EDITION: the version byte of all messages after the choice but GET_VERSION and VERSION. */
#define SPDM_EDITION_1_1 0x11
#define SPDM_EDITION_1_2 0x12

/* `parts` after spdm_to_sign: offset and length in the transcript. */
#define SPDM_PARTS_FIRST_OFFSET 0  /* A; empty, at 0, before M under 1.1 */
#define SPDM_PARTS_FIRST_LENGTH 1
#define SPDM_PARTS_SECOND_OFFSET 2 /* B, or M */
#define SPDM_PARTS_SECOND_LENGTH 3

/* `algorithms` after spdm_image_algorithms. */
#define SPDM_ALGORITHMS_EXPONENT 0       /* CTExponent */
#define SPDM_ALGORITHMS_HASH 1           /* hash number */
#define SPDM_ALGORITHMS_HASH_SIZE 2      /* H: bytes of a digest */
#define SPDM_ALGORITHMS_SIGNATURE 3      /* signature number */
#define SPDM_ALGORITHMS_SIGNATURE_SIZE 4 /* S: bytes of a signature */
#define SPDM_ALGORITHMS_SLOTS 5          /* bit n: slot n is filled */
#define SPDM_ALGORITHMS_MEASUREMENTS 6   /* count of measurements */

/* Hash numbers, which are bits of BaseHashAlgo. */
#define SPDM_HASH_SHA_256 0        /* H = 32 */
#define SPDM_HASH_SHA_384 1        /* H = 48 */
#define SPDM_HASH_SHA_512 2        /* H = 64 */
#define SPDM_HASH_SHA3_256 3       /* H = 32 */
#define SPDM_HASH_SHA3_384 4       /* H = 48 */
#define SPDM_HASH_SHA3_512 5       /* H = 64 */

/* Signature numbers, which are bits of BaseAsymAlgo. ECDSA's signature is r, then s: S / 2 bytes each, big-endian. */
#define SPDM_SIGNATURE_RSASSA_2048 0 /* S = 256 */
#define SPDM_SIGNATURE_RSAPSS_2048 1 /* S = 256 */
#define SPDM_SIGNATURE_RSASSA_3072 2 /* S = 384 */
#define SPDM_SIGNATURE_RSAPSS_3072 3 /* S = 384 */
#define SPDM_SIGNATURE_ECDSA_P256 4  /* S = 64 */
#define SPDM_SIGNATURE_RSASSA_4096 5 /* S = 512 */
#define SPDM_SIGNATURE_RSAPSS_4096 6 /* S = 512 */
#define SPDM_SIGNATURE_ECDSA_P384 7  /* S = 96 */
#define SPDM_SIGNATURE_ECDSA_P521 8  /* S = 132 */

/* Codes of the requests that are served: byte 1. */
#define SPDM_GET_DIGESTS 0x81
#define SPDM_GET_CERTIFICATE 0x82
#define SPDM_CHALLENGE 0x83
#define SPDM_GET_VERSION 0x84
#define SPDM_GET_MEASUREMENTS 0xE0
#define SPDM_GET_CAPABILITIES 0xE1
#define SPDM_NEGOTIATE_ALGORITHMS 0xE3

/* An ERROR: byte 1 of the answer is SPDM_ERROR, byte 2 one of these codes. */
#define SPDM_ERROR 0x7F
#define SPDM_ERROR_INVALID_REQUEST 0x01     /* under 4 bytes, too short for its layout, or a field wrong; */
                                            /*   under 1.1 over 4,608 bytes too */
#define SPDM_ERROR_BUSY 0x03                /* a signature is awaited */
#define SPDM_ERROR_UNEXPECTED_REQUEST 0x04  /* wrong phase, or measurements that were not selected */
#define SPDM_ERROR_UNSPECIFIED 0x05         /* no room in the transcript, or the chip failed */
#define SPDM_ERROR_UNSUPPORTED_REQUEST 0x07 /* not served, measurements of an image without any; byte 3 is the code */
#define SPDM_ERROR_RESPONSE_TOO_LARGE 0x0D  /* the answer is over the peer's size; bytes 4 to 7 are its length */
#define SPDM_ERROR_REQUEST_TOO_LARGE 0x0E   /* over 4,608 bytes, where 1.1 was not chosen */
#define SPDM_ERROR_VERSION_MISMATCH 0x41    /* wrong version byte, also the edition's that was not chosen */

/*
 * A result is number * 65536 + length. With a number (not 0) the length is 0, nothing was written, and state and
 * buffers are as they were. Without one the length is that of the answer; from spdm_to_sign it is the prefix's, which
 * under 1.1 is 0 too.
 */
#define SPDM_NUMBER(result) ((uint32_t)(result) >> 16)
#define SPDM_LENGTH(result) ((uint32_t)(result) & 0xFFFFu)

/* Numbers of an image: its first fault, record by record. */
#define SPDM_IMAGE_SIZE 1          /* empty, or over 61,440 bytes */
#define SPDM_IMAGE_VERSION 2       /* byte 0 is not 1 */
#define SPDM_IMAGE_BROKEN 3        /* 1 or 2 bytes left for a record head, or a body that runs past the end */
#define SPDM_IMAGE_KIND 4          /* a kind unknown or out of sequence, or, at the end, a needed record missing */
#define SPDM_IMAGE_MANY 5          /* a 9th chain or a 33rd measurement */
#define SPDM_IMAGE_LENGTH 6        /* a body's length is wrong, or a chain is under 5 + H or over 16,384 bytes */
#define SPDM_IMAGE_FIELD 7         /* a field out of range, slot or index not rising, first slot not 0 */
#define SPDM_IMAGE_CHAIN 8         /* a chain's own length field differs */

/* Numbers of a call. */
#define SPDM_SHORT_BUFFER 11       /* answer under 4,608 bytes, prefix under 100; parts under 4 words, algorithms 7 */
#define SPDM_SHORT_TRANSCRIPT 12   /* transcript under 36,864 bytes */
#define SPDM_WRONG_NONCE 13        /* nonce not 32 bytes */
#define SPDM_WRONG_STATE 14        /* state not 9 words or out of its bounds; spdm_to_sign: bounds that need no image */
#define SPDM_NOTHING_AWAITED 15    /* no signature is awaited */
#define SPDM_WRONG_SIGNATURE 16    /* the chip succeeded, and its signature is not S bytes */

/*
 * Answers one request.
 *
 * nonce: 32 fresh random bytes, at every call; they go into an answer that carries a nonce.
 *
 * Numbers, the first that holds, in this order:
 *   1-8  the image has this fault
 *   11   answer_len is under 4,608
 *   12   transcript_len is under 36,864
 *   13   nonce_len is not 32
 *   14   the state is out of its bounds for this image, or state_len is not 9
 * (15 and 16 are not given.) Afterwards state, transcript and answer are as they were.
 *
 * Without a number the length is that of the answer, which stands at the start of `answer`; the bytes past it are as
 * they were.
 *   After a refused request, whose answer is an ERROR (its second byte is 0x7F): only the 4 or 8 bytes of the ERROR
 *   were written. State and transcript are as they were, but for this: a GET_MEASUREMENTS (request[1] is 0xE0) that is
 *   refused because it is shorter than its layout or a field is wrong, for its answer's size or for want of room
 *   empties M: state[SPDM_STATE_M] is 0, and no byte of the transcript is changed. The ERROR tells: this is so exactly
 *   where its code answer[2] is 0x01, 0x0D or 0x05 and request_len is 4 to 4,608. (Under 1.1 a longer one gets 0x01 for
 *   its length, and M stays.)
 *   After an accepted request: `answer` holds the answer, the request (as far as its layout goes) and the answer were
 *   appended to the transcript, where no other byte was changed, and `state` is the next state. Where
 *   state[SPDM_STATE_AWAITED] is not 0 afterwards, the answer must not be sent yet: its signature is zeros, to be
 *   filled in by spdm_finish.
 */
uint32_t spdm_respond(const uint8_t *image, uint64_t image_len,
                      uint32_t *state, uint64_t state_len,
                      uint8_t *transcript, uint64_t transcript_len,
                      uint8_t *answer, uint64_t answer_len,
                      const uint8_t *request, uint64_t request_len,
                      const uint8_t *nonce, uint64_t nonce_len);

/*
 * Finishes the awaited answer with the chip's signature, or with an ERROR where the chip failed. `answer` is the buffer
 * that spdm_respond wrote the awaited answer to, unchanged since.
 *
 * chip_ok: 0 if the chip failed, anything else if it succeeded, a negative error code too: lend `status == OK`, not the
 * status. The signature is not looked at if it failed.
 *
 * Numbers, the first that holds, in this order:
 *   1-8  the image has this fault
 *   11   answer_len is under 4,608
 *   12   transcript_len is under 36,864
 *   14   the state is out of its bounds for this image, or state_len is not 9
 *   15   no signature is awaited
 *   16   the chip succeeded, and signature_len is not the image's S
 * (13 is not given.) Afterwards state and buffers are as they were: a signature is still awaited if it was.
 *
 * Without a number:
 *   If the chip succeeded, the signature stands at the end of the awaited answer, and the length is that answer's.
 *   If it failed, 12 7F 05 00 (under 1.1: 11 7F 05 00) stands at the start of `answer`, and the length is 4.
 * No other byte of `answer` was changed. The transcript is never written. In `state` nothing is awaited any more, and B
 * (after a CHALLENGE) or M (after a GET_MEASUREMENTS) is empty: words 4 or 5, 6 and 7 are 0, the others as they were.
 */
uint32_t spdm_finish(const uint8_t *image, uint64_t image_len,
                     uint32_t *state, uint64_t state_len,
                     const uint8_t *transcript, uint64_t transcript_len,
                     uint8_t *answer, uint64_t answer_len,
                     uint32_t chip_ok,
                     const uint8_t *signature, uint64_t signature_len);

/*
 * Shows what to hash and sign for the awaited signature. The hash runs over two parts of the transcript, one after the
 * other, and the signature covers the prefix followed by that hash:
 *   under 1.2  A, then B (or M); a prefix of 100 bytes
 *   under 1.1  A, then B; or for a GET_MEASUREMENTS M alone, after an empty part; no prefix
 * The length tells which: with 100 the prefix and the hash are the message to be signed; with 0 the hash itself is the
 * digest to be signed, and is not hashed again (docs/HOST.md, "What is signed"). A host need not look at the edition.
 *
 * Numbers, the first that holds, in this order:
 *   11   prefix_len is under 100, or parts_len under 4, under either edition
 *   14   state_len is not 9, or the state is out of its bounds, of which those are tested that need no image: phase 0
 *        to 3; A, B, M at most 512, 28,672, 7,680 bytes; edition 0 in phases 0 and 1, and 0x11 or 0x12 in phases 2 and
 *        3, 0x11 with a peer's size of exactly 4,608, 0x12 of at least 42; exactly 0, 14 bytes of A in phases 0, 1, and
 *        in phase 2 38 (0x11) or 54 (0x12), and in all three none of B and M; selection 0 or 1, and 1 only in phase 3;
 *        awaited 0, 1 or 2, and 1 or 2 only in phase 3, with an answer's length of at most 4,608
 *   15   no signature is awaited
 * (No others are given.) Afterwards prefix and parts are as they were.
 *
 * Without a number the length is that of the prefix, 100 or 0: so many bytes at the start of `prefix` are the prefix
 * (with 0 all of it is as it was), and the first 4 words of `parts` are offset and length in the transcript of the
 * first part, then of the second. What lies past them is as it was. The state is never written. For the same state
 * spdm_respond and spdm_finish give 14 only for what goes by the image lent to them: a selection where it has no
 * measurements, or an awaited answer shorter than 4 + S.
 */
uint32_t spdm_to_sign(const uint32_t *state, uint64_t state_len,
                      uint8_t *prefix, uint64_t prefix_len,
                      uint32_t *parts, uint64_t parts_len);

/*
 * Whether an image is accepted: the result is 0, or has the number 1-8 of its first fault. Nothing is written.
 * spdm_respond and spdm_finish read the image themselves at each call; this is to test one before it is put to use.
 */
uint32_t spdm_read_image(const uint8_t *image, uint64_t image_len);

/*
 * Shows what an image says of the box, so that a host need not take it apart itself: which hash and which signature it
 * has, how long they are, and which slots are filled.
 *
 * Numbers, the first that holds, in this order:
 *   1-8  the image has this fault
 *   11   algorithms_len is under 7
 * (No others are given.) Afterwards `algorithms` is as it was.
 *
 * Without a number the result is 0: the first 7 words of `algorithms` are CTExponent, hash number, H, signature number,
 * S, slot mask and count of measurements. What lies past them is as it was.
 */
uint32_t spdm_image_algorithms(const uint8_t *image, uint64_t image_len,
                               uint32_t *algorithms, uint64_t algorithms_len);

#ifdef __cplusplus
}
#endif

#endif
