/* Made by `./format --c` from ../protocols/formats/ethernet_header.fields: edit that file and make this one anew.
 *
 * The header of an Ethernet frame with an EtherType (IEEE 802.3, section 3.1.1).
 *
 *  0                   1                   2                   3
 *  0 1 2 3 4 5 6 7 8 9 0 1 2 3 4 5 6 7 8 9 0 1 2 3 4 5 6 7 8 9 0 1
 * +-+-+-+-+-+-+-+-+-+-+-+-+-+-+-+-+-+-+-+-+-+-+-+-+-+-+-+-+-+-+-+-+
 * |                             target                            |
 * +-+-+-+-+-+-+-+-+-+-+-+-+-+-+-+-+-+-+-+-+-+-+-+-+-+-+-+-+-+-+-+-+
 * |                               |                               |
 * +-+-+-+-+-+-+-+-+-+-+-+-+-+-+-+-+-+-+-+-+-+-+-+-+-+-+-+-+-+-+-+-+
 * |                             source                            |
 * +-+-+-+-+-+-+-+-+-+-+-+-+-+-+-+-+-+-+-+-+-+-+-+-+-+-+-+-+-+-+-+-+
 * |              kind             |
 * +-+-+-+-+-+-+-+-+-+-+-+-+-+-+-+-+-+-+-+-+-+-+-+-+-+-+-+-+-+-+-+-+
 * /                 tag (VlanTag, if it is there)                 /
 * +-+-+-+-+-+-+-+-+-+-+-+-+-+-+-+-+-+-+-+-+-+-+-+-+-+-+-+-+-+-+-+-+
 */
#ifndef ETHERNET_HEADER_H
#define ETHERNET_HEADER_H

#include "vlan_tag.h"
#include <stdbool.h>
#include <stddef.h>
#include <stdint.h>

#ifdef __cplusplus
extern "C" {
#endif

/* The numbers of `ether_type`; a field may have another number below 2^16. */
enum ethernet_header_ether_type {
    ETHERNET_HEADER_ETHER_TYPE_IPV4 = 2048,
    ETHERNET_HEADER_ETHER_TYPE_ARP = 2054,
    ETHERNET_HEADER_ETHER_TYPE_VLAN = 33024,
    ETHERNET_HEADER_ETHER_TYPE_IPV6 = 34525
};

struct ethernet_header {
    /* The address of the receiver. */
    uint8_t target[6];
    /* The address of the sender. */
    uint8_t source[6];
    /* The EtherType of what follows. A number of `ether_type`, or another one below 2^16. */
    uint16_t kind;
    /* True if `tag` is there. */
    bool has_tag;
    /* The tag for a virtual network. It is there if, and only if, `kind == Vlan`. */
    struct vlan_tag tag;
};

/* The result of a call. */
enum ethernet_header_status {
    /* The call did its work. */
    ETHERNET_HEADER_OK = 0,
    /* The bytes end before the fields do. */
    ETHERNET_HEADER_END_OF_INPUT = 1,
    /* The buffer is too short. */
    ETHERNET_HEADER_NO_ROOM = 2,
    /* A field has a value that the format does not allow. */
    ETHERNET_HEADER_DOES_NOT_FIT = 3,
    /* A pointer is null. */
    ETHERNET_HEADER_NULL = 4
};

/* Returns the text of a status, in lower case and without a full stop. */
const char *ethernet_header_status_text(enum ethernet_header_status status);

/* Parses the fields at the start of `length` bytes into `*out`, sets `*taken` to the number of
 * bytes that they take unless `taken` is null, and returns ETHERNET_HEADER_OK. After an error
 * `*out` is as before, and `*taken` is 0. The errors are: ETHERNET_HEADER_NULL if `out` is null, or
 * `bytes` is null and `length` is not 0; else ETHERNET_HEADER_END_OF_INPUT if the bytes end before
 * the fields do. */
enum ethernet_header_status ethernet_header_parse(const uint8_t *bytes, size_t length, struct ethernet_header *out, size_t *taken);

/* Writes the fields to the first of `length` bytes, and zeros up to a whole byte, sets `*written`
 * to the number of these bytes unless `written` is null, and returns ETHERNET_HEADER_OK. The bytes
 * after them are as before. After an error all bytes are as before, and `*written` is 0. `*in` and
 * the buffer may not overlap. The errors are: ETHERNET_HEADER_NULL if `in` is null, or `buffer` is
 * null and `length` is not 0; else ETHERNET_HEADER_DOES_NOT_FIT if a field has a value that the
 * format does not allow; else ETHERNET_HEADER_NO_ROOM if they are more than `length`. */
enum ethernet_header_status ethernet_header_pack(
    const struct ethernet_header *in, uint8_t *buffer, size_t length, size_t *written);

/* Returns the name of the first field whose value the format does not allow, for which a pack returns
 * ETHERNET_HEADER_DOES_NOT_FIT, or null if there is none or a pointer is null. It is not proved. */
const char *ethernet_header_misfit(const struct ethernet_header *in);

#ifdef __cplusplus
}
#endif
#endif
