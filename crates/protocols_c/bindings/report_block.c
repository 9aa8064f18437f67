/* Made by `./format --c` from ../protocols/formats/report_block.fields: edit that file and make this one anew. */
#include "report_block.h"

struct report_block_parsed {
    int32_t status;
    struct report_block value;
};

struct report_block_packed {
    int32_t status;
    size_t written;
};

/* The proved functions. */
struct report_block_parsed proved_report_block_parse(const uint8_t *bytes, size_t length);
struct report_block_packed proved_report_block_pack(const struct report_block *value, uint8_t *buffer, size_t length);

/* The layout that the proved functions have: with another one this type has a negative size. */
typedef char report_block_layout[sizeof(struct report_block) == 28 && offsetof(struct report_block, delay) == 24 ? 1 : -1];

enum report_block_status report_block_parse(const uint8_t *bytes, size_t length, struct report_block *out)
{
    struct report_block_parsed parsed;
    if (!out || (!bytes && length))
        return REPORT_BLOCK_NULL;
    parsed = proved_report_block_parse(bytes, length);
    if (parsed.status == REPORT_BLOCK_OK)
        *out = parsed.value;
    return (enum report_block_status)parsed.status;
}

enum report_block_status report_block_pack(const struct report_block *in, uint8_t *buffer, size_t length, size_t *written)
{
    struct report_block_packed packed = {REPORT_BLOCK_NULL, 0};
    if (in && (buffer || !length))
        packed = proved_report_block_pack(in, buffer, length);
    if (written)
        *written = packed.written;
    return (enum report_block_status)packed.status;
}

const char *report_block_misfit(const struct report_block *value)
{
    if (!value)
        return NULL;
    if (value->lost < -8388608 || value->lost > 8388607)
        return "lost";
    return NULL;
}

const char *report_block_status_text(enum report_block_status status)
{
    switch (status) {
    case REPORT_BLOCK_OK:
        return "the call did its work";
    case REPORT_BLOCK_END_OF_INPUT:
        return "the bytes end before the fields do";
    case REPORT_BLOCK_NO_ROOM:
        return "the buffer is too short";
    case REPORT_BLOCK_DOES_NOT_FIT:
        return "a field has a value that the format does not allow";
    case REPORT_BLOCK_NULL:
        return "a pointer is null";
    }
    return "no status";
}
