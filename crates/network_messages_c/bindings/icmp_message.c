/* Made by `./format --c` from ../network_messages/formats/icmp_message.fields: edit that file and make this one anew. */
#include "icmp_message.h"

/* The fields, and the numbers of items of the lists. */
struct icmp_message_head {
    uint8_t kind;
    uint8_t code;
    uint16_t identifier;
    uint16_t sequence;
    size_t data;
};

struct icmp_message_parsed {
    int32_t status;
    size_t taken;
    struct icmp_message_head value;
};

struct icmp_message_packed {
    int32_t status;
    size_t written;
};

/* The proved functions. */
struct icmp_message_parsed proved_icmp_message_parse(const uint8_t *bytes, size_t length, uint8_t *data_items, size_t data_capacity);
struct icmp_message_packed proved_icmp_message_pack(const struct icmp_message_head *value, const uint8_t *data_items, size_t data_length, uint8_t *buffer, size_t length);

/* The layout that the proved functions have: with another one this type has a negative size. */
typedef char icmp_message_layout[sizeof(struct icmp_message_head) == 16 && offsetof(struct icmp_message_head, data) == 8 ? 1 : -1];

enum icmp_message_status icmp_message_parse(const uint8_t *bytes, size_t length, struct icmp_message *out, size_t *taken)
{
    struct icmp_message_parsed parsed;
    if (taken)
        *taken = 0;
    if (!out || (!bytes && length) || (!out->data.items && out->data.capacity))
        return ICMP_MESSAGE_NULL;
    parsed = proved_icmp_message_parse(bytes, length, out->data.items, out->data.capacity);
    if (parsed.status == ICMP_MESSAGE_OK) {
        out->kind = parsed.value.kind;
        out->code = parsed.value.code;
        out->identifier = parsed.value.identifier;
        out->sequence = parsed.value.sequence;
        out->data.length = parsed.value.data;
    }
    if (taken)
        *taken = parsed.taken;
    return (enum icmp_message_status)parsed.status;
}

enum icmp_message_status icmp_message_pack(const struct icmp_message *in, uint8_t *buffer, size_t length, size_t *written)
{
    struct icmp_message_packed packed = {ICMP_MESSAGE_NULL, 0};
    if (in && (buffer || !length) && (in->data.items || !in->data.length)) {
        struct icmp_message_head head;
        head.kind = in->kind;
        head.code = in->code;
        head.identifier = in->identifier;
        head.sequence = in->sequence;
        head.data = in->data.length;
        packed = proved_icmp_message_pack(&head, in->data.items, in->data.length, buffer, length);
    }
    if (written)
        *written = packed.written;
    return (enum icmp_message_status)packed.status;
}

const char *misfit_of_icmp_message(const struct icmp_message_head *value, const uint8_t *data_items, size_t data_length)
{
    (void)data_items;
    if (!(value->kind == 0 || value->kind == 8))
        return "kind";
    if (data_length > UINT64_C(4294967295))
        return "data";
    return NULL;
}

const char *icmp_message_misfit(const struct icmp_message *in)
{
    struct icmp_message_head head;
    if (!in || (!in->data.items && in->data.length))
        return NULL;
    head.kind = in->kind;
    head.code = in->code;
    head.identifier = in->identifier;
    head.sequence = in->sequence;
    head.data = in->data.length;
    return misfit_of_icmp_message(&head, in->data.items, in->data.length);
}

const char *icmp_message_status_text(enum icmp_message_status status)
{
    switch (status) {
    case ICMP_MESSAGE_OK:
        return "the call did its work";
    case ICMP_MESSAGE_END_OF_INPUT:
        return "the bytes end before the fields do";
    case ICMP_MESSAGE_NO_ROOM:
        return "the buffer is too short";
    case ICMP_MESSAGE_DOES_NOT_FIT:
        return "a field has a value that the format does not allow";
    case ICMP_MESSAGE_NULL:
        return "a pointer is null";
    case ICMP_MESSAGE_NO_ROOM_DATA:
        return "the storage has no room for the items of `data`";
    case ICMP_MESSAGE_NO_ECHO:
        return "`kind` is not the number of a case of `Echo`";
    case ICMP_MESSAGE_WRONG_SUM:
        return "the checksum is not that of the message";
    }
    return "no status";
}
