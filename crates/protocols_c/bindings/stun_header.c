/* Made by `./format --c` from ../protocols/formats/stun_header.fields: edit that file and make this one anew. */
#include "stun_header.h"

struct stun_header_parsed {
    int32_t status;
    struct stun_header value;
};

struct stun_header_packed {
    int32_t status;
    size_t written;
};

/* The proved functions. */
struct stun_header_parsed proved_stun_header_parse(const uint8_t *bytes, size_t length);
struct stun_header_packed proved_stun_header_pack(const struct stun_header *value, uint8_t *buffer, size_t length);

/* The layout that the proved functions have: with another one this type has a negative size. */
typedef char stun_header_layout[sizeof(struct stun_header) == 16 && offsetof(struct stun_header, id) == 4 ? 1 : -1];

enum stun_header_status stun_header_parse(const uint8_t *bytes, size_t length, struct stun_header *out)
{
    struct stun_header_parsed parsed;
    if (!out || (!bytes && length))
        return STUN_HEADER_NULL;
    parsed = proved_stun_header_parse(bytes, length);
    if (parsed.status == STUN_HEADER_OK)
        *out = parsed.value;
    return (enum stun_header_status)parsed.status;
}

enum stun_header_status stun_header_pack(const struct stun_header *in, uint8_t *buffer, size_t length, size_t *written)
{
    struct stun_header_packed packed = {STUN_HEADER_NULL, 0};
    if (in && (buffer || !length))
        packed = proved_stun_header_pack(in, buffer, length);
    if (written)
        *written = packed.written;
    return (enum stun_header_status)packed.status;
}

const char *stun_header_misfit(const struct stun_header *value)
{
    if (!value)
        return NULL;
    if (value->kind > 16383)
        return "kind";
    return NULL;
}

const char *stun_header_status_text(enum stun_header_status status)
{
    switch (status) {
    case STUN_HEADER_OK:
        return "the call did its work";
    case STUN_HEADER_END_OF_INPUT:
        return "the bytes end before the fields do";
    case STUN_HEADER_NO_ROOM:
        return "the buffer is too short";
    case STUN_HEADER_DOES_NOT_FIT:
        return "a field has a value that the format does not allow";
    case STUN_HEADER_NULL:
        return "a pointer is null";
    case STUN_HEADER_NO_STUN:
        return "the first two bits are not 0";
    case STUN_HEADER_NO_COOKIE:
        return "the magic cookie is not 0x2112A442";
    }
    return "no status";
}
