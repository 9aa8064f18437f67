/* Made by `./format --c` from ../network_messages/formats/udp_datagram.fields: edit that file and make this one anew. */
#include "udp_datagram.h"

/* The fields, and the numbers of items of the lists. */
struct udp_datagram_head {
    struct ipv4_pseudo pseudo;
    uint16_t source;
    uint16_t target;
    size_t data;
};

struct udp_datagram_parsed {
    int32_t status;
    size_t taken;
    struct udp_datagram_head value;
};

struct udp_datagram_packed {
    int32_t status;
    size_t written;
};

/* The proved functions. */
struct udp_datagram_parsed proved_udp_datagram_parse(const uint8_t *bytes, size_t length, uint8_t *data_items, size_t data_capacity, const struct ipv4_pseudo *pseudo);
struct udp_datagram_packed proved_udp_datagram_pack(const struct udp_datagram_head *value, const uint8_t *data_items, size_t data_length, uint8_t *buffer, size_t length);

/* The layout that the proved functions have: with another one this type has a negative size. */
typedef char udp_datagram_layout[sizeof(struct udp_datagram_head) == 24 && offsetof(struct udp_datagram_head, data) == 16 ? 1 : -1];

enum udp_datagram_status udp_datagram_parse(const uint8_t *bytes, size_t length, struct udp_datagram *out, size_t *taken)
{
    struct udp_datagram_parsed parsed;
    if (taken)
        *taken = 0;
    if (!out || (!bytes && length) || (!out->data.items && out->data.capacity))
        return UDP_DATAGRAM_NULL;
    parsed = proved_udp_datagram_parse(bytes, length, out->data.items, out->data.capacity, &out->pseudo);
    if (parsed.status == UDP_DATAGRAM_OK) {
        out->pseudo = parsed.value.pseudo;
        out->source = parsed.value.source;
        out->target = parsed.value.target;
        out->data.length = parsed.value.data;
    }
    if (taken)
        *taken = parsed.taken;
    return (enum udp_datagram_status)parsed.status;
}

enum udp_datagram_status udp_datagram_pack(const struct udp_datagram *in, uint8_t *buffer, size_t length, size_t *written)
{
    struct udp_datagram_packed packed = {UDP_DATAGRAM_NULL, 0};
    if (in && (buffer || !length) && (in->data.items || !in->data.length)) {
        struct udp_datagram_head head;
        head.pseudo = in->pseudo;
        head.source = in->source;
        head.target = in->target;
        head.data = in->data.length;
        packed = proved_udp_datagram_pack(&head, in->data.items, in->data.length, buffer, length);
    }
    if (written)
        *written = packed.written;
    return (enum udp_datagram_status)packed.status;
}

const char *misfit_of_udp_datagram(const struct udp_datagram_head *value, const uint8_t *data_items, size_t data_length)
{
    (void)value;
    (void)data_items;
    if (data_length > 65527)
        return "data";
    return NULL;
}

const char *udp_datagram_misfit(const struct udp_datagram *in)
{
    struct udp_datagram_head head;
    if (!in || (!in->data.items && in->data.length))
        return NULL;
    head.pseudo = in->pseudo;
    head.source = in->source;
    head.target = in->target;
    head.data = in->data.length;
    return misfit_of_udp_datagram(&head, in->data.items, in->data.length);
}

const char *udp_datagram_status_text(enum udp_datagram_status status)
{
    switch (status) {
    case UDP_DATAGRAM_OK:
        return "the call did its work";
    case UDP_DATAGRAM_END_OF_INPUT:
        return "the bytes end before the fields do";
    case UDP_DATAGRAM_NO_ROOM:
        return "the buffer is too short";
    case UDP_DATAGRAM_DOES_NOT_FIT:
        return "a field has a value that the format does not allow";
    case UDP_DATAGRAM_NULL:
        return "a pointer is null";
    case UDP_DATAGRAM_NO_ROOM_DATA:
        return "the storage has no room for the items of `data`";
    case UDP_DATAGRAM_SHORT_LENGTH:
        return "the size of `data` is below the 8 bytes that it counts too";
    case UDP_DATAGRAM_WRONG_SUM:
        return "the checksum is not that of the datagram";
    }
    return "no status";
}
