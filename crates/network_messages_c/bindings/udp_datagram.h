/* Made by `./format --c` from ../network_messages/formats/udp_datagram.fields: edit that file and make this one anew.
 *
 * A datagram of UDP over IPv4, with its checksum (RFC 768).
 *
 *  0                   1                   2                   3
 *  0 1 2 3 4 5 6 7 8 9 0 1 2 3 4 5 6 7 8 9 0 1 2 3 4 5 6 7 8 9 0 1
 * +-+-+-+-+-+-+-+-+-+-+-+-+-+-+-+-+-+-+-+-+-+-+-+-+-+-+-+-+-+-+-+-+
 * |             source            |             target            |
 * +-+-+-+-+-+-+-+-+-+-+-+-+-+-+-+-+-+-+-+-+-+-+-+-+-+-+-+-+-+-+-+-+
 * |           data_bytes          |        stored_sum16_udp       |
 * +-+-+-+-+-+-+-+-+-+-+-+-+-+-+-+-+-+-+-+-+-+-+-+-+-+-+-+-+-+-+-+-+
 * /                  data (data_bytes - 8 bytes)                  /
 * +-+-+-+-+-+-+-+-+-+-+-+-+-+-+-+-+-+-+-+-+-+-+-+-+-+-+-+-+-+-+-+-+
 */
#ifndef UDP_DATAGRAM_H
#define UDP_DATAGRAM_H

#include "ipv4_pseudo.h"
#include <stdbool.h>
#include <stddef.h>
#include <stdint.h>

#ifdef __cplusplus
extern "C" {
#endif

/* The list `data`, in storage of the caller. */
struct udp_datagram_data {
    /* The storage: null only if it has room for no item. A pack only reads it. */
    uint8_t *items;
    /* The number of items that it has room for. A parse needs it, and a pack does not. */
    size_t capacity;
    /* The number of items. */
    size_t length;
};

struct udp_datagram {
    /* The fields of the header of IPv4 that the checksum covers. */
    struct ipv4_pseudo pseudo;
    /* The port of the sender. */
    uint16_t source;
    /* The port of the receiver. */
    uint16_t target;
    /* The data. At most 65527 bytes. */
    struct udp_datagram_data data;
};

/* The result of a call. */
enum udp_datagram_status {
    /* The call did its work. */
    UDP_DATAGRAM_OK = 0,
    /* The bytes end before the fields do. */
    UDP_DATAGRAM_END_OF_INPUT = 1,
    /* The buffer is too short. */
    UDP_DATAGRAM_NO_ROOM = 2,
    /* A field has a value that the format does not allow. */
    UDP_DATAGRAM_DOES_NOT_FIT = 3,
    /* A pointer is null. */
    UDP_DATAGRAM_NULL = 4,
    /* The storage has no room for the items of `data`. */
    UDP_DATAGRAM_NO_ROOM_DATA = 5,
    /* The size of `data` is below the 8 bytes that it counts too. */
    UDP_DATAGRAM_SHORT_LENGTH = 6,
    /* The checksum is not that of the datagram. */
    UDP_DATAGRAM_WRONG_SUM = 7
};

/* Returns the text of a status, in lower case and without a full stop. */
const char *udp_datagram_status_text(enum udp_datagram_status status);

/* Parses the fields at the start of `length` bytes into `*out`, and the items of lists into the
 * storage that the caller has set in `out->data`, with `out->pseudo` as the caller has set it. Sets
 * `*taken` to the number of bytes that the fields take unless `taken` is null, and returns
 * UDP_DATAGRAM_OK. Items after the last one are as before. After an error `*out` is as before, but
 * the items in the storage are unspecified, and `*taken` is the number of items of the list without
 * room for them, or 0. The errors are: UDP_DATAGRAM_NULL if `out` is null, or `bytes` is null and
 * `length` is not 0, or the items of a list are null and its capacity is not 0; else the first in
 * the order of the bits: UDP_DATAGRAM_SHORT_LENGTH if the size of `data` is below the 8 bytes that
 * it counts too; UDP_DATAGRAM_END_OF_INPUT if the bytes end before the fields do, if nothing in
 * them is refused; else UDP_DATAGRAM_NO_ROOM_DATA if `data` has more items than its capacity; else
 * UDP_DATAGRAM_WRONG_SUM if the checksum is not that of the datagram. */
enum udp_datagram_status udp_datagram_parse(const uint8_t *bytes, size_t length, struct udp_datagram *out, size_t *taken);

/* Writes the fields to the first of `length` bytes, and zeros up to a whole byte, sets `*written`
 * to the number of these bytes unless `written` is null, and returns UDP_DATAGRAM_OK. The bytes
 * after them are as before. After an error all bytes are as before, and `*written` is 0. `*in` and
 * the buffer may not overlap. The errors are: UDP_DATAGRAM_NULL if `in` is null, or `buffer` is
 * null and `length` is not 0, or the items of a list are null and its length is not 0; else
 * UDP_DATAGRAM_DOES_NOT_FIT if a field has a value that the format does not allow; else
 * UDP_DATAGRAM_NO_ROOM if they are more than `length`. */
enum udp_datagram_status udp_datagram_pack(
    const struct udp_datagram *in, uint8_t *buffer, size_t length, size_t *written);

/* Returns the name of the first field whose value the format does not allow, for which a pack returns
 * UDP_DATAGRAM_DOES_NOT_FIT, or null if there is none or a pointer is null. It is not proved. */
const char *udp_datagram_misfit(const struct udp_datagram *in);

#ifdef __cplusplus
}
#endif
#endif
