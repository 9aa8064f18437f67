/* Made by `./format --c` from ../protocols/formats/ethernet_header.fields: edit that file and make this one anew. */
#include "ethernet_header.h"

struct ethernet_header_parsed {
    int32_t status;
    size_t taken;
    struct ethernet_header value;
};

struct ethernet_header_packed {
    int32_t status;
    size_t written;
};

/* The proved functions. */
struct ethernet_header_parsed proved_ethernet_header_parse(const uint8_t *bytes, size_t length);
struct ethernet_header_packed proved_ethernet_header_pack(const struct ethernet_header *value, uint8_t *buffer, size_t length);

/* The layout that the proved functions have: with another one this type has a negative size. */
typedef char ethernet_header_layout[sizeof(struct ethernet_header) == 22 && offsetof(struct ethernet_header, tag) == 16 ? 1 : -1];

enum ethernet_header_status ethernet_header_parse(const uint8_t *bytes, size_t length, struct ethernet_header *out, size_t *taken)
{
    struct ethernet_header_parsed parsed;
    if (taken)
        *taken = 0;
    if (!out || (!bytes && length))
        return ETHERNET_HEADER_NULL;
    parsed = proved_ethernet_header_parse(bytes, length);
    if (parsed.status == ETHERNET_HEADER_OK)
        *out = parsed.value;
    if (taken)
        *taken = parsed.taken;
    return (enum ethernet_header_status)parsed.status;
}

enum ethernet_header_status ethernet_header_pack(const struct ethernet_header *in, uint8_t *buffer, size_t length, size_t *written)
{
    struct ethernet_header_packed packed = {ETHERNET_HEADER_NULL, 0};
    if (in && (buffer || !length))
        packed = proved_ethernet_header_pack(in, buffer, length);
    if (written)
        *written = packed.written;
    return (enum ethernet_header_status)packed.status;
}

const char *ethernet_header_misfit(const struct ethernet_header *value)
{
    if (!value)
        return NULL;
    if (value->has_tag != (value->kind == 33024))
        return "tag";
    if (value->has_tag) {
        if (value->tag.priority > 7)
            return "tag.priority";
        if (value->tag.vlan > 4095)
            return "tag.vlan";
    }
    return NULL;
}

const char *ethernet_header_status_text(enum ethernet_header_status status)
{
    switch (status) {
    case ETHERNET_HEADER_OK:
        return "the call did its work";
    case ETHERNET_HEADER_END_OF_INPUT:
        return "the bytes end before the fields do";
    case ETHERNET_HEADER_NO_ROOM:
        return "the buffer is too short";
    case ETHERNET_HEADER_DOES_NOT_FIT:
        return "a field has a value that the format does not allow";
    case ETHERNET_HEADER_NULL:
        return "a pointer is null";
    }
    return "no status";
}
