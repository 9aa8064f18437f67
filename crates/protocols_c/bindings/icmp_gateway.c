/* Made by `./format --c` from ../protocols/formats/icmp_gateway.fields: edit that file and make this one anew. */
#include "icmp_gateway.h"

struct icmp_gateway_parsed {
    int32_t status;
    struct icmp_gateway value;
};

struct icmp_gateway_packed {
    int32_t status;
    size_t written;
};

/* The proved functions. */
struct icmp_gateway_parsed proved_icmp_gateway_parse(const uint8_t *bytes, size_t length);
struct icmp_gateway_packed proved_icmp_gateway_pack(const struct icmp_gateway *value, uint8_t *buffer, size_t length);

/* The layout that the proved functions have: with another one this type has a negative size. */
typedef char icmp_gateway_layout[sizeof(struct icmp_gateway) == 4 && offsetof(struct icmp_gateway, address) == 0 ? 1 : -1];

enum icmp_gateway_status icmp_gateway_parse(const uint8_t *bytes, size_t length, struct icmp_gateway *out)
{
    struct icmp_gateway_parsed parsed;
    if (!out || (!bytes && length))
        return ICMP_GATEWAY_NULL;
    parsed = proved_icmp_gateway_parse(bytes, length);
    if (parsed.status == ICMP_GATEWAY_OK)
        *out = parsed.value;
    return (enum icmp_gateway_status)parsed.status;
}

enum icmp_gateway_status icmp_gateway_pack(const struct icmp_gateway *in, uint8_t *buffer, size_t length, size_t *written)
{
    struct icmp_gateway_packed packed = {ICMP_GATEWAY_NULL, 0};
    if (in && (buffer || !length))
        packed = proved_icmp_gateway_pack(in, buffer, length);
    if (written)
        *written = packed.written;
    return (enum icmp_gateway_status)packed.status;
}

const char *icmp_gateway_misfit(const struct icmp_gateway *value)
{
    (void)value;
    return NULL;
}

const char *icmp_gateway_status_text(enum icmp_gateway_status status)
{
    switch (status) {
    case ICMP_GATEWAY_OK:
        return "the call did its work";
    case ICMP_GATEWAY_END_OF_INPUT:
        return "the bytes end before the fields do";
    case ICMP_GATEWAY_NO_ROOM:
        return "the buffer is too short";
    case ICMP_GATEWAY_DOES_NOT_FIT:
        return "a field has a value that the format does not allow";
    case ICMP_GATEWAY_NULL:
        return "a pointer is null";
    }
    return "no status";
}
