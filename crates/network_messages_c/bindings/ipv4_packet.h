/* Made by `./format --c` from ../network_messages/formats/ipv4_packet.fields: edit that file and make this one anew.
 *
 * The header of an IPv4 packet with its options and its checksum (RFC 791, section 3.1).
 *
 *  0                   1                   2                   3
 *  0 1 2 3 4 5 6 7 8 9 0 1 2 3 4 5 6 7 8 9 0 1 2 3 4 5 6 7 8 9 0 1
 * +-+-+-+-+-+-+-+-+-+-+-+-+-+-+-+-+-+-+-+-+-+-+-+-+-+-+-+-+-+-+-+-+
 * |   =4  |options|    service    |             length            |
 * +-+-+-+-+-+-+-+-+-+-+-+-+-+-+-+-+-+-+-+-+-+-+-+-+-+-+-+-+-+-+-+-+
 * |               id              |=|k|m|          offset         |
 * +-+-+-+-+-+-+-+-+-+-+-+-+-+-+-+-+-+-+-+-+-+-+-+-+-+-+-+-+-+-+-+-+
 * |      ttl      |    protocol   |          stored_sum16         |
 * +-+-+-+-+-+-+-+-+-+-+-+-+-+-+-+-+-+-+-+-+-+-+-+-+-+-+-+-+-+-+-+-+
 * |                             source                            |
 * +-+-+-+-+-+-+-+-+-+-+-+-+-+-+-+-+-+-+-+-+-+-+-+-+-+-+-+-+-+-+-+-+
 * |                             target                            |
 * +-+-+-+-+-+-+-+-+-+-+-+-+-+-+-+-+-+-+-+-+-+-+-+-+-+-+-+-+-+-+-+-+
 * /             options (4 * options_bytes - 20 bytes)            /
 * +-+-+-+-+-+-+-+-+-+-+-+-+-+-+-+-+-+-+-+-+-+-+-+-+-+-+-+-+-+-+-+-+
 */
#ifndef IPV4_PACKET_H
#define IPV4_PACKET_H

#include <stdbool.h>
#include <stddef.h>
#include <stdint.h>

#ifdef __cplusplus
extern "C" {
#endif

/* The list `options`, in storage of the caller. */
struct ipv4_packet_options {
    /* The storage: null only if it has room for no item. A pack only reads it. */
    uint8_t *items;
    /* The number of items that it has room for. A parse needs it, and a pack does not. */
    size_t capacity;
    /* The number of items. */
    size_t length;
};

struct ipv4_packet {
    /* The class of service, and the congestion mark. */
    uint8_t service;
    /* The bytes of the packet, with this header. */
    uint16_t length;
    /* The packet that a fragment belongs to. */
    uint16_t id;
    /* True if the packet must not be fragmented. */
    bool keep_whole;
    /* True if more fragments follow. */
    bool more;
    /* The place of the fragment, in units of 8 bytes. Below 2^13. */
    uint16_t offset;
    /* The number of routers that may still forward it. */
    uint8_t ttl;
    /* The protocol of the payload. */
    uint8_t protocol;
    /* The sender. */
    uint8_t source[4];
    /* The receiver. */
    uint8_t target[4];
    /* The options. At most 40 bytes, a multiple of 4. */
    struct ipv4_packet_options options;
};

/* The result of a call. */
enum ipv4_packet_status {
    /* The call did its work. */
    IPV4_PACKET_OK = 0,
    /* The bytes end before the fields do. */
    IPV4_PACKET_END_OF_INPUT = 1,
    /* The buffer is too short. */
    IPV4_PACKET_NO_ROOM = 2,
    /* A field has a value that the format does not allow. */
    IPV4_PACKET_DOES_NOT_FIT = 3,
    /* A pointer is null. */
    IPV4_PACKET_NULL = 4,
    /* The storage has no room for the items of `options`. */
    IPV4_PACKET_NO_ROOM_OPTIONS = 5,
    /* The version is not 4. */
    IPV4_PACKET_OTHER_VERSION = 6,
    /* The reserved bit is set. */
    IPV4_PACKET_RESERVED_SET = 7,
    /* The size of `options` is below the 20 bytes that it counts too. */
    IPV4_PACKET_SHORT_HEADER = 8,
    /* The checksum is not that of the header. */
    IPV4_PACKET_WRONG_SUM = 9
};

/* Returns the text of a status, in lower case and without a full stop. */
const char *ipv4_packet_status_text(enum ipv4_packet_status status);

/* Parses the fields at the start of `length` bytes into `*out`, and the items of lists into the
 * storage that the caller has set in `out->options`. Sets `*taken` to the number of bytes that the
 * fields take unless `taken` is null, and returns IPV4_PACKET_OK. Items after the last one are as
 * before. After an error `*out` is as before, but the items in the storage are unspecified, and
 * `*taken` is the number of items of the list without room for them, or 0. The errors are:
 * IPV4_PACKET_NULL if `out` is null, or `bytes` is null and `length` is not 0, or the items of a
 * list are null and its capacity is not 0; else the first in the order of the bits:
 * IPV4_PACKET_OTHER_VERSION if the version is not 4; IPV4_PACKET_RESERVED_SET if the reserved bit
 * is set; IPV4_PACKET_SHORT_HEADER if the size of `options` is below the 20 bytes that it counts
 * too; IPV4_PACKET_END_OF_INPUT if the bytes end before the fields do, if nothing in them is
 * refused; else IPV4_PACKET_NO_ROOM_OPTIONS if `options` has more items than its capacity; else
 * IPV4_PACKET_WRONG_SUM if the checksum is not that of the header. */
enum ipv4_packet_status ipv4_packet_parse(const uint8_t *bytes, size_t length, struct ipv4_packet *out, size_t *taken);

/* Writes the fields to the first of `length` bytes, and zeros up to a whole byte, sets `*written`
 * to the number of these bytes unless `written` is null, and returns IPV4_PACKET_OK. The bytes
 * after them are as before. After an error all bytes are as before, and `*written` is 0. `*in` and
 * the buffer may not overlap. The errors are: IPV4_PACKET_NULL if `in` is null, or `buffer` is null
 * and `length` is not 0, or the items of a list are null and its length is not 0; else
 * IPV4_PACKET_DOES_NOT_FIT if a field has a value that the format does not allow; else
 * IPV4_PACKET_NO_ROOM if they are more than `length`. */
enum ipv4_packet_status ipv4_packet_pack(
    const struct ipv4_packet *in, uint8_t *buffer, size_t length, size_t *written);

/* Returns the name of the first field whose value the format does not allow, for which a pack returns
 * IPV4_PACKET_DOES_NOT_FIT, or null if there is none or a pointer is null. It is not proved. */
const char *ipv4_packet_misfit(const struct ipv4_packet *in);

#ifdef __cplusplus
}
#endif
#endif
