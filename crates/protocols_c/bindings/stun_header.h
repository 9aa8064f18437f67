/* Made by `./format --c` from ../protocols/formats/stun_header.fields: edit that file and make this one anew.
 *
 * The header of a message of STUN (RFC 8489, section 5).
 *
 *  0                   1                   2                   3
 *  0 1 2 3 4 5 6 7 8 9 0 1 2 3 4 5 6 7 8 9 0 1 2 3 4 5 6 7 8 9 0 1
 * +-+-+-+-+-+-+-+-+-+-+-+-+-+-+-+-+-+-+-+-+-+-+-+-+-+-+-+-+-+-+-+-+
 * | =0|            kind           |             length            |
 * +-+-+-+-+-+-+-+-+-+-+-+-+-+-+-+-+-+-+-+-+-+-+-+-+-+-+-+-+-+-+-+-+
 * |                           =554869826                          |
 * +-+-+-+-+-+-+-+-+-+-+-+-+-+-+-+-+-+-+-+-+-+-+-+-+-+-+-+-+-+-+-+-+
 * |                          id (3 rows)                          |
 * +-+-+-+-+-+-+-+-+-+-+-+-+-+-+-+-+-+-+-+-+-+-+-+-+-+-+-+-+-+-+-+-+
 */
#ifndef STUN_HEADER_H
#define STUN_HEADER_H

#include <stdbool.h>
#include <stddef.h>
#include <stdint.h>

#ifdef __cplusplus
extern "C" {
#endif

/* The bytes that the fields take. */
#define STUN_HEADER_SIZE 20

struct stun_header {
    /* The method and the class of the message. Below 2^14. */
    uint16_t kind;
    /* The number of bytes after the header. */
    uint16_t length;
    /* The transaction. */
    uint8_t id[12];
};

/* The result of a call. */
enum stun_header_status {
    /* The call did its work. */
    STUN_HEADER_OK = 0,
    /* The bytes end before the fields do. */
    STUN_HEADER_END_OF_INPUT = 1,
    /* The buffer is too short. */
    STUN_HEADER_NO_ROOM = 2,
    /* A field has a value that the format does not allow. */
    STUN_HEADER_DOES_NOT_FIT = 3,
    /* A pointer is null. */
    STUN_HEADER_NULL = 4,
    /* The first two bits are not 0. */
    STUN_HEADER_NO_STUN = 5,
    /* The magic cookie is not 0x2112A442. */
    STUN_HEADER_NO_COOKIE = 6
};

/* Returns the text of a status, in lower case and without a full stop. */
const char *stun_header_status_text(enum stun_header_status status);

/* Parses the fields at the start of `length` bytes into `*out`, and returns STUN_HEADER_OK. After
 * an error `*out` is as before. The errors are: STUN_HEADER_NULL if `out` is null, or `bytes` is
 * null and `length` is not 0; else the first in the order of the bits: STUN_HEADER_NO_STUN if the
 * first two bits are not 0; STUN_HEADER_NO_COOKIE if the magic cookie is not 0x2112A442;
 * STUN_HEADER_END_OF_INPUT for fewer than 20 bytes, if nothing in them is refused. */
enum stun_header_status stun_header_parse(const uint8_t *bytes, size_t length, struct stun_header *out);

/* Writes the fields to the first 20 of `length` bytes, sets `*written` to 20 unless `written` is
 * null, and returns STUN_HEADER_OK. The bytes after them are as before. After an error all bytes
 * are as before, and `*written` is 0. `*in` and the buffer may not overlap. The errors are:
 * STUN_HEADER_NULL if `in` is null, or `buffer` is null and `length` is not 0; else
 * STUN_HEADER_DOES_NOT_FIT if a field has a value that the format does not allow; else
 * STUN_HEADER_NO_ROOM for fewer than 20 bytes. */
enum stun_header_status stun_header_pack(
    const struct stun_header *in, uint8_t *buffer, size_t length, size_t *written);

/* Returns the name of the first field whose value the format does not allow, for which a pack returns
 * STUN_HEADER_DOES_NOT_FIT, or null if there is none or a pointer is null. It is not proved. */
const char *stun_header_misfit(const struct stun_header *in);

#ifdef __cplusplus
}
#endif
#endif
