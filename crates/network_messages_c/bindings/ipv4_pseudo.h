/* Made by `./format --c` from ../network_messages/formats/ipv4_pseudo.fields: edit that file and make this one anew.
 *
 * The fields of a header of IPv4 that the checksums of UDP and TCP cover (RFC 768; RFC 9293,
 * section 3.1).
 *
 *  0                   1                   2                   3
 *  0 1 2 3 4 5 6 7 8 9 0 1 2 3 4 5 6 7 8 9 0 1 2 3 4 5 6 7 8 9 0 1
 * +-+-+-+-+-+-+-+-+-+-+-+-+-+-+-+-+-+-+-+-+-+-+-+-+-+-+-+-+-+-+-+-+
 * |                             source                            |
 * +-+-+-+-+-+-+-+-+-+-+-+-+-+-+-+-+-+-+-+-+-+-+-+-+-+-+-+-+-+-+-+-+
 * |                             target                            |
 * +-+-+-+-+-+-+-+-+-+-+-+-+-+-+-+-+-+-+-+-+-+-+-+-+-+-+-+-+-+-+-+-+
 * |       0       |    protocol   |             length            |
 * +-+-+-+-+-+-+-+-+-+-+-+-+-+-+-+-+-+-+-+-+-+-+-+-+-+-+-+-+-+-+-+-+
 */
#ifndef IPV4_PSEUDO_H
#define IPV4_PSEUDO_H

#include <stdbool.h>
#include <stddef.h>
#include <stdint.h>

#ifdef __cplusplus
extern "C" {
#endif

/* The bytes that the fields take. */
#define IPV4_PSEUDO_SIZE 12

struct ipv4_pseudo {
    /* The sender. */
    uint8_t source[4];
    /* The receiver. */
    uint8_t target[4];
    /* The protocol. */
    uint8_t protocol;
    /* The bytes of the datagram or the segment. */
    uint16_t length;
};

/* The result of a call. */
enum ipv4_pseudo_status {
    /* The call did its work. */
    IPV4_PSEUDO_OK = 0,
    /* The bytes end before the fields do. */
    IPV4_PSEUDO_END_OF_INPUT = 1,
    /* The buffer is too short. */
    IPV4_PSEUDO_NO_ROOM = 2,
    /* A field has a value that the format does not allow. */
    IPV4_PSEUDO_DOES_NOT_FIT = 3,
    /* A pointer is null. */
    IPV4_PSEUDO_NULL = 4
};

/* Returns the text of a status, in lower case and without a full stop. */
const char *ipv4_pseudo_status_text(enum ipv4_pseudo_status status);

/* Parses the fields at the start of `length` bytes into `*out`, and returns IPV4_PSEUDO_OK. After
 * an error `*out` is as before. The errors are: IPV4_PSEUDO_NULL if `out` is null, or `bytes` is
 * null and `length` is not 0; else IPV4_PSEUDO_END_OF_INPUT for fewer than 12 bytes. */
enum ipv4_pseudo_status ipv4_pseudo_parse(const uint8_t *bytes, size_t length, struct ipv4_pseudo *out);

/* Writes the fields to the first 12 of `length` bytes, sets `*written` to 12 unless `written` is
 * null, and returns IPV4_PSEUDO_OK. The bytes after them are as before. After an error all bytes
 * are as before, and `*written` is 0. `*in` and the buffer may not overlap. The errors are:
 * IPV4_PSEUDO_NULL if `in` is null, or `buffer` is null and `length` is not 0; else
 * IPV4_PSEUDO_DOES_NOT_FIT if a field has a value that the format does not allow; else
 * IPV4_PSEUDO_NO_ROOM for fewer than 12 bytes. */
enum ipv4_pseudo_status ipv4_pseudo_pack(
    const struct ipv4_pseudo *in, uint8_t *buffer, size_t length, size_t *written);

/* Returns the name of the first field whose value the format does not allow, for which a pack returns
 * IPV4_PSEUDO_DOES_NOT_FIT, or null if there is none or a pointer is null. It is not proved. */
const char *ipv4_pseudo_misfit(const struct ipv4_pseudo *in);

#ifdef __cplusplus
}
#endif
#endif
