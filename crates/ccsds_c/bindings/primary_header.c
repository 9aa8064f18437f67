/* Made by `./format --c` from ../bitstream_callers/formats/primary_header.fields: edit that file and make this one anew. */
#include "primary_header.h"

struct primary_header_parsed {
    int32_t status;
    struct primary_header value;
};

struct primary_header_packed {
    int32_t status;
    size_t written;
};

/* The proved functions. */
struct primary_header_parsed proved_primary_header_parse(const uint8_t *bytes, size_t length);
struct primary_header_packed proved_primary_header_pack(const struct primary_header *value, uint8_t *buffer, size_t length);

/* The layout that the proved functions have: with another one this type has a negative size. */
typedef char primary_header_layout[sizeof(struct primary_header) == 10 && offsetof(struct primary_header, length) == 8 ? 1 : -1];

enum primary_header_status primary_header_parse(const uint8_t *bytes, size_t length, struct primary_header *out)
{
    struct primary_header_parsed parsed;
    if (!out || (!bytes && length))
        return PRIMARY_HEADER_NULL;
    parsed = proved_primary_header_parse(bytes, length);
    if (parsed.status == PRIMARY_HEADER_OK)
        *out = parsed.value;
    return (enum primary_header_status)parsed.status;
}

enum primary_header_status primary_header_pack(const struct primary_header *in, uint8_t *buffer, size_t length, size_t *written)
{
    struct primary_header_packed packed = {PRIMARY_HEADER_NULL, 0};
    if (in && (buffer || !length))
        packed = proved_primary_header_pack(in, buffer, length);
    if (written)
        *written = packed.written;
    return (enum primary_header_status)packed.status;
}

const char *primary_header_misfit(const struct primary_header *value)
{
    if (!value)
        return NULL;
    if (value->apid > 2047)
        return "apid";
    if (value->sequence > 3)
        return "sequence";
    if (value->count > 16383)
        return "count";
    return NULL;
}

const char *primary_header_status_text(enum primary_header_status status)
{
    switch (status) {
    case PRIMARY_HEADER_OK:
        return "the call did its work";
    case PRIMARY_HEADER_END_OF_INPUT:
        return "the bytes end before the fields do";
    case PRIMARY_HEADER_NO_ROOM:
        return "the buffer is too short";
    case PRIMARY_HEADER_DOES_NOT_FIT:
        return "a field has a value that the format does not allow";
    case PRIMARY_HEADER_NULL:
        return "a pointer is null";
    case PRIMARY_HEADER_WRONG_VERSION:
        return "the version is not 0";
    }
    return "no status";
}
