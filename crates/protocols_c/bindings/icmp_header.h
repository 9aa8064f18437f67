/* Made by `./format --c` from ../protocols/formats/icmp_header.fields: edit that file and make this one anew.
 *
 * The first bytes of an ICMP message (RFC 792).
 *
 *  0                   1                   2                   3
 *  0 1 2 3 4 5 6 7 8 9 0 1 2 3 4 5 6 7 8 9 0 1 2 3 4 5 6 7 8 9 0 1
 * +-+-+-+-+-+-+-+-+-+-+-+-+-+-+-+-+-+-+-+-+-+-+-+-+-+-+-+-+-+-+-+-+
 * |    body_tag   |      code     |            checksum           |
 * +-+-+-+-+-+-+-+-+-+-+-+-+-+-+-+-+-+-+-+-+-+-+-+-+-+-+-+-+-+-+-+-+
 * /           body (EchoReply, Redirect, Echo or Other)           /
 * +-+-+-+-+-+-+-+-+-+-+-+-+-+-+-+-+-+-+-+-+-+-+-+-+-+-+-+-+-+-+-+-+
 */
#ifndef ICMP_HEADER_H
#define ICMP_HEADER_H

#include "icmp_ids.h"
#include "icmp_gateway.h"
#include <stdbool.h>
#include <stddef.h>
#include <stdint.h>

#ifdef __cplusplus
extern "C" {
#endif

/* The cases of `body`. */
enum icmp_header_body_case {
    /* The case of the number 0. */
    ICMP_HEADER_BODY_ECHO_REPLY,
    /* The case of the number 5. */
    ICMP_HEADER_BODY_REDIRECT,
    /* The case of the number 8. */
    ICMP_HEADER_BODY_ECHO,
    /* The case of all other numbers. */
    ICMP_HEADER_BODY_OTHER
};

/* The choice `body`. */
struct icmp_header_body {
    /* The case. */
    enum icmp_header_body_case which;
    /* The content of this case; the other members are not read. */
    union {
        /* The content of the case `EchoReply`. */
        struct icmp_ids echo_reply;
        /* The content of the case `Redirect`. */
        struct icmp_gateway redirect;
        /* The content of the case `Echo`. */
        struct icmp_ids echo;
        /* The number of the case `Other`, and of no other case. */
        uint8_t other;
    } as;
};

struct icmp_header {
    /* The code, which refines the type. */
    uint8_t code;
    /* The checksum of the message. */
    uint16_t checksum;
    /* The type of the message, and what follows the checksum. After another type nothing is read. */
    struct icmp_header_body body;
};

/* The result of a call. */
enum icmp_header_status {
    /* The call did its work. */
    ICMP_HEADER_OK = 0,
    /* The bytes end before the fields do. */
    ICMP_HEADER_END_OF_INPUT = 1,
    /* The buffer is too short. */
    ICMP_HEADER_NO_ROOM = 2,
    /* A field has a value that the format does not allow. */
    ICMP_HEADER_DOES_NOT_FIT = 3,
    /* A pointer is null. */
    ICMP_HEADER_NULL = 4
};

/* Returns the text of a status, in lower case and without a full stop. */
const char *icmp_header_status_text(enum icmp_header_status status);

/* Parses the fields at the start of `length` bytes into `*out`, sets `*taken` to the number of
 * bytes that they take unless `taken` is null, and returns ICMP_HEADER_OK. After an error `*out` is
 * as before, and `*taken` is 0. The errors are: ICMP_HEADER_NULL if `out` is null, or `bytes` is
 * null and `length` is not 0; else ICMP_HEADER_END_OF_INPUT if the bytes end before the fields do. */
enum icmp_header_status icmp_header_parse(const uint8_t *bytes, size_t length, struct icmp_header *out, size_t *taken);

/* Writes the fields to the first of `length` bytes, and zeros up to a whole byte, sets `*written`
 * to the number of these bytes unless `written` is null, and returns ICMP_HEADER_OK. The bytes
 * after them are as before. After an error all bytes are as before, and `*written` is 0. `*in` and
 * the buffer may not overlap. The errors are: ICMP_HEADER_NULL if `in` is null, or `buffer` is null
 * and `length` is not 0; else ICMP_HEADER_DOES_NOT_FIT if a field has a value that the format does
 * not allow; else ICMP_HEADER_NO_ROOM if they are more than `length`. */
enum icmp_header_status icmp_header_pack(
    const struct icmp_header *in, uint8_t *buffer, size_t length, size_t *written);

/* Returns the name of the first field whose value the format does not allow, for which a pack returns
 * ICMP_HEADER_DOES_NOT_FIT, or null if there is none or a pointer is null. It is not proved. */
const char *icmp_header_misfit(const struct icmp_header *in);

#ifdef __cplusplus
}
#endif
#endif
