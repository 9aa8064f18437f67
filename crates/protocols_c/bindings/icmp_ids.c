/* Made by `./format --c` from ../protocols/formats/icmp_ids.fields: edit that file and make this one anew. */
#include "icmp_ids.h"

struct icmp_ids_parsed {
    int32_t status;
    struct icmp_ids value;
};

struct icmp_ids_packed {
    int32_t status;
    size_t written;
};

/* The proved functions. */
struct icmp_ids_parsed proved_icmp_ids_parse(const uint8_t *bytes, size_t length);
struct icmp_ids_packed proved_icmp_ids_pack(const struct icmp_ids *value, uint8_t *buffer, size_t length);

/* The layout that the proved functions have: with another one this type has a negative size. */
typedef char icmp_ids_layout[sizeof(struct icmp_ids) == 4 && offsetof(struct icmp_ids, sequence) == 2 ? 1 : -1];

enum icmp_ids_status icmp_ids_parse(const uint8_t *bytes, size_t length, struct icmp_ids *out)
{
    struct icmp_ids_parsed parsed;
    if (!out || (!bytes && length))
        return ICMP_IDS_NULL;
    parsed = proved_icmp_ids_parse(bytes, length);
    if (parsed.status == ICMP_IDS_OK)
        *out = parsed.value;
    return (enum icmp_ids_status)parsed.status;
}

enum icmp_ids_status icmp_ids_pack(const struct icmp_ids *in, uint8_t *buffer, size_t length, size_t *written)
{
    struct icmp_ids_packed packed = {ICMP_IDS_NULL, 0};
    if (in && (buffer || !length))
        packed = proved_icmp_ids_pack(in, buffer, length);
    if (written)
        *written = packed.written;
    return (enum icmp_ids_status)packed.status;
}

const char *icmp_ids_misfit(const struct icmp_ids *value)
{
    (void)value;
    return NULL;
}

const char *icmp_ids_status_text(enum icmp_ids_status status)
{
    switch (status) {
    case ICMP_IDS_OK:
        return "the call did its work";
    case ICMP_IDS_END_OF_INPUT:
        return "the bytes end before the fields do";
    case ICMP_IDS_NO_ROOM:
        return "the buffer is too short";
    case ICMP_IDS_DOES_NOT_FIT:
        return "a field has a value that the format does not allow";
    case ICMP_IDS_NULL:
        return "a pointer is null";
    }
    return "no status";
}
