/* Made by `./format --c` from ../network_messages/formats/ipv4_packet.fields: edit that file and make this one anew. */
#include "ipv4_packet.h"

#include <string.h>

/* The fields, and the numbers of items of the lists. */
struct ipv4_packet_head {
    uint8_t service;
    uint16_t length;
    uint16_t id;
    bool keep_whole;
    bool more;
    uint16_t offset;
    uint8_t ttl;
    uint8_t protocol;
    uint8_t source[4];
    uint8_t target[4];
    size_t options;
};

struct ipv4_packet_parsed {
    int32_t status;
    size_t taken;
    struct ipv4_packet_head value;
};

struct ipv4_packet_packed {
    int32_t status;
    size_t written;
};

/* The proved functions. */
struct ipv4_packet_parsed proved_ipv4_packet_parse(const uint8_t *bytes, size_t length, uint8_t *options_items, size_t options_capacity);
struct ipv4_packet_packed proved_ipv4_packet_pack(const struct ipv4_packet_head *value, const uint8_t *options_items, size_t options_length, uint8_t *buffer, size_t length);

/* The layout that the proved functions have: with another one this type has a negative size. */
typedef char ipv4_packet_layout[sizeof(struct ipv4_packet_head) == 32 && offsetof(struct ipv4_packet_head, options) == 24 ? 1 : -1];

enum ipv4_packet_status ipv4_packet_parse(const uint8_t *bytes, size_t length, struct ipv4_packet *out, size_t *taken)
{
    struct ipv4_packet_parsed parsed;
    if (taken)
        *taken = 0;
    if (!out || (!bytes && length) || (!out->options.items && out->options.capacity))
        return IPV4_PACKET_NULL;
    parsed = proved_ipv4_packet_parse(bytes, length, out->options.items, out->options.capacity);
    if (parsed.status == IPV4_PACKET_OK) {
        out->service = parsed.value.service;
        out->length = parsed.value.length;
        out->id = parsed.value.id;
        out->keep_whole = parsed.value.keep_whole;
        out->more = parsed.value.more;
        out->offset = parsed.value.offset;
        out->ttl = parsed.value.ttl;
        out->protocol = parsed.value.protocol;
        memcpy(out->source, parsed.value.source, sizeof out->source);
        memcpy(out->target, parsed.value.target, sizeof out->target);
        out->options.length = parsed.value.options;
    }
    if (taken)
        *taken = parsed.taken;
    return (enum ipv4_packet_status)parsed.status;
}

enum ipv4_packet_status ipv4_packet_pack(const struct ipv4_packet *in, uint8_t *buffer, size_t length, size_t *written)
{
    struct ipv4_packet_packed packed = {IPV4_PACKET_NULL, 0};
    if (in && (buffer || !length) && (in->options.items || !in->options.length)) {
        struct ipv4_packet_head head;
        head.service = in->service;
        head.length = in->length;
        head.id = in->id;
        head.keep_whole = in->keep_whole;
        head.more = in->more;
        head.offset = in->offset;
        head.ttl = in->ttl;
        head.protocol = in->protocol;
        memcpy(head.source, in->source, sizeof head.source);
        memcpy(head.target, in->target, sizeof head.target);
        head.options = in->options.length;
        packed = proved_ipv4_packet_pack(&head, in->options.items, in->options.length, buffer, length);
    }
    if (written)
        *written = packed.written;
    return (enum ipv4_packet_status)packed.status;
}

const char *misfit_of_ipv4_packet(const struct ipv4_packet_head *value, const uint8_t *options_items, size_t options_length)
{
    (void)options_items;
    if (value->offset > 8191)
        return "offset";
    if (options_length > 40 || options_length % 4 != 0)
        return "options";
    return NULL;
}

const char *ipv4_packet_misfit(const struct ipv4_packet *in)
{
    struct ipv4_packet_head head;
    if (!in || (!in->options.items && in->options.length))
        return NULL;
    head.service = in->service;
    head.length = in->length;
    head.id = in->id;
    head.keep_whole = in->keep_whole;
    head.more = in->more;
    head.offset = in->offset;
    head.ttl = in->ttl;
    head.protocol = in->protocol;
    memcpy(head.source, in->source, sizeof head.source);
    memcpy(head.target, in->target, sizeof head.target);
    head.options = in->options.length;
    return misfit_of_ipv4_packet(&head, in->options.items, in->options.length);
}

const char *ipv4_packet_status_text(enum ipv4_packet_status status)
{
    switch (status) {
    case IPV4_PACKET_OK:
        return "the call did its work";
    case IPV4_PACKET_END_OF_INPUT:
        return "the bytes end before the fields do";
    case IPV4_PACKET_NO_ROOM:
        return "the buffer is too short";
    case IPV4_PACKET_DOES_NOT_FIT:
        return "a field has a value that the format does not allow";
    case IPV4_PACKET_NULL:
        return "a pointer is null";
    case IPV4_PACKET_NO_ROOM_OPTIONS:
        return "the storage has no room for the items of `options`";
    case IPV4_PACKET_OTHER_VERSION:
        return "the version is not 4";
    case IPV4_PACKET_RESERVED_SET:
        return "the reserved bit is set";
    case IPV4_PACKET_SHORT_HEADER:
        return "the size of `options` is below the 20 bytes that it counts too";
    case IPV4_PACKET_WRONG_SUM:
        return "the checksum is not that of the header";
    }
    return "no status";
}
