/* Made by `./format --c` from ../protocols/formats/vlan_tag.fields: edit that file and make this one anew.
 *
 * The tag of a virtual network, after its EtherType 0x8100 (IEEE 802.1Q, section 9.6).
 *
 *  0                   1                   2                   3
 *  0 1 2 3 4 5 6 7 8 9 0 1 2 3 4 5 6 7 8 9 0 1 2 3 4 5 6 7 8 9 0 1
 * +-+-+-+-+-+-+-+-+-+-+-+-+-+-+-+-+-+-+-+-+-+-+-+-+-+-+-+-+-+-+-+-+
 * |prior|d|          vlan         |              kind             |
 * +-+-+-+-+-+-+-+-+-+-+-+-+-+-+-+-+-+-+-+-+-+-+-+-+-+-+-+-+-+-+-+-+
 */
#ifndef VLAN_TAG_H
#define VLAN_TAG_H

#include <stdbool.h>
#include <stddef.h>
#include <stdint.h>

#ifdef __cplusplus
extern "C" {
#endif

/* The bytes that the fields take. */
#define VLAN_TAG_SIZE 4

struct vlan_tag {
    /* The priority code point. Below 2^3. */
    uint8_t priority;
    /* True if the frame may be dropped first. */
    bool drop_eligible;
    /* The identifier of the network. Below 2^12. */
    uint16_t vlan;
    /* The EtherType of what follows. */
    uint16_t kind;
};

/* The result of a call. */
enum vlan_tag_status {
    /* The call did its work. */
    VLAN_TAG_OK = 0,
    /* The bytes end before the fields do. */
    VLAN_TAG_END_OF_INPUT = 1,
    /* The buffer is too short. */
    VLAN_TAG_NO_ROOM = 2,
    /* A field has a value that the format does not allow. */
    VLAN_TAG_DOES_NOT_FIT = 3,
    /* A pointer is null. */
    VLAN_TAG_NULL = 4
};

/* Returns the text of a status, in lower case and without a full stop. */
const char *vlan_tag_status_text(enum vlan_tag_status status);

/* Parses the fields at the start of `length` bytes into `*out`, and returns VLAN_TAG_OK. After an
 * error `*out` is as before. The errors are: VLAN_TAG_NULL if `out` is null, or `bytes` is null and
 * `length` is not 0; else VLAN_TAG_END_OF_INPUT for fewer than 4 bytes. */
enum vlan_tag_status vlan_tag_parse(const uint8_t *bytes, size_t length, struct vlan_tag *out);

/* Writes the fields to the first 4 of `length` bytes, sets `*written` to 4 unless `written` is
 * null, and returns VLAN_TAG_OK. The bytes after them are as before. After an error all bytes are
 * as before, and `*written` is 0. `*in` and the buffer may not overlap. The errors are:
 * VLAN_TAG_NULL if `in` is null, or `buffer` is null and `length` is not 0; else
 * VLAN_TAG_DOES_NOT_FIT if a field has a value that the format does not allow; else
 * VLAN_TAG_NO_ROOM for fewer than 4 bytes. */
enum vlan_tag_status vlan_tag_pack(
    const struct vlan_tag *in, uint8_t *buffer, size_t length, size_t *written);

/* Returns the name of the first field whose value the format does not allow, for which a pack returns
 * VLAN_TAG_DOES_NOT_FIT, or null if there is none or a pointer is null. It is not proved. */
const char *vlan_tag_misfit(const struct vlan_tag *in);

#ifdef __cplusplus
}
#endif
#endif
