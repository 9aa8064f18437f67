/* Made by `./format --c` from ../protocols/formats/vlan_tag.fields: edit that file and make this one anew. */
#include "vlan_tag.h"

struct vlan_tag_parsed {
    int32_t status;
    struct vlan_tag value;
};

struct vlan_tag_packed {
    int32_t status;
    size_t written;
};

/* The proved functions. */
struct vlan_tag_parsed proved_vlan_tag_parse(const uint8_t *bytes, size_t length);
struct vlan_tag_packed proved_vlan_tag_pack(const struct vlan_tag *value, uint8_t *buffer, size_t length);

/* The layout that the proved functions have: with another one this type has a negative size. */
typedef char vlan_tag_layout[sizeof(struct vlan_tag) == 6 && offsetof(struct vlan_tag, kind) == 4 ? 1 : -1];

enum vlan_tag_status vlan_tag_parse(const uint8_t *bytes, size_t length, struct vlan_tag *out)
{
    struct vlan_tag_parsed parsed;
    if (!out || (!bytes && length))
        return VLAN_TAG_NULL;
    parsed = proved_vlan_tag_parse(bytes, length);
    if (parsed.status == VLAN_TAG_OK)
        *out = parsed.value;
    return (enum vlan_tag_status)parsed.status;
}

enum vlan_tag_status vlan_tag_pack(const struct vlan_tag *in, uint8_t *buffer, size_t length, size_t *written)
{
    struct vlan_tag_packed packed = {VLAN_TAG_NULL, 0};
    if (in && (buffer || !length))
        packed = proved_vlan_tag_pack(in, buffer, length);
    if (written)
        *written = packed.written;
    return (enum vlan_tag_status)packed.status;
}

const char *vlan_tag_misfit(const struct vlan_tag *value)
{
    if (!value)
        return NULL;
    if (value->priority > 7)
        return "priority";
    if (value->vlan > 4095)
        return "vlan";
    return NULL;
}

const char *vlan_tag_status_text(enum vlan_tag_status status)
{
    switch (status) {
    case VLAN_TAG_OK:
        return "the call did its work";
    case VLAN_TAG_END_OF_INPUT:
        return "the bytes end before the fields do";
    case VLAN_TAG_NO_ROOM:
        return "the buffer is too short";
    case VLAN_TAG_DOES_NOT_FIT:
        return "a field has a value that the format does not allow";
    case VLAN_TAG_NULL:
        return "a pointer is null";
    }
    return "no status";
}
