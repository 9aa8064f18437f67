/* Made by `./format --c` from ../network_messages/formats/ipv4_pseudo.fields: edit that file and make this one anew. */
#include "ipv4_pseudo.h"

struct ipv4_pseudo_parsed {
    int32_t status;
    struct ipv4_pseudo value;
};

struct ipv4_pseudo_packed {
    int32_t status;
    size_t written;
};

/* The proved functions. */
struct ipv4_pseudo_parsed proved_ipv4_pseudo_parse(const uint8_t *bytes, size_t length);
struct ipv4_pseudo_packed proved_ipv4_pseudo_pack(const struct ipv4_pseudo *value, uint8_t *buffer, size_t length);

/* The layout that the proved functions have: with another one this type has a negative size. */
typedef char ipv4_pseudo_layout[sizeof(struct ipv4_pseudo) == 12 && offsetof(struct ipv4_pseudo, length) == 10 ? 1 : -1];

enum ipv4_pseudo_status ipv4_pseudo_parse(const uint8_t *bytes, size_t length, struct ipv4_pseudo *out)
{
    struct ipv4_pseudo_parsed parsed;
    if (!out || (!bytes && length))
        return IPV4_PSEUDO_NULL;
    parsed = proved_ipv4_pseudo_parse(bytes, length);
    if (parsed.status == IPV4_PSEUDO_OK)
        *out = parsed.value;
    return (enum ipv4_pseudo_status)parsed.status;
}

enum ipv4_pseudo_status ipv4_pseudo_pack(const struct ipv4_pseudo *in, uint8_t *buffer, size_t length, size_t *written)
{
    struct ipv4_pseudo_packed packed = {IPV4_PSEUDO_NULL, 0};
    if (in && (buffer || !length))
        packed = proved_ipv4_pseudo_pack(in, buffer, length);
    if (written)
        *written = packed.written;
    return (enum ipv4_pseudo_status)packed.status;
}

const char *ipv4_pseudo_misfit(const struct ipv4_pseudo *value)
{
    (void)value;
    return NULL;
}

const char *ipv4_pseudo_status_text(enum ipv4_pseudo_status status)
{
    switch (status) {
    case IPV4_PSEUDO_OK:
        return "the call did its work";
    case IPV4_PSEUDO_END_OF_INPUT:
        return "the bytes end before the fields do";
    case IPV4_PSEUDO_NO_ROOM:
        return "the buffer is too short";
    case IPV4_PSEUDO_DOES_NOT_FIT:
        return "a field has a value that the format does not allow";
    case IPV4_PSEUDO_NULL:
        return "a pointer is null";
    }
    return "no status";
}
