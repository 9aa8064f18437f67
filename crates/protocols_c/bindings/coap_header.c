/* Made by `./format --c` from ../protocols/formats/coap_header.fields: edit that file and make this one anew. */
#include "coap_header.h"

/* The fields, and the numbers of items of the lists. */
struct coap_header_head {
    uint8_t kind;
    uint8_t class_;
    uint8_t detail;
    uint16_t id;
    size_t token;
};

struct coap_header_parsed {
    int32_t status;
    size_t taken;
    struct coap_header_head value;
};

struct coap_header_packed {
    int32_t status;
    size_t written;
};

/* The proved functions. */
struct coap_header_parsed proved_coap_header_parse(const uint8_t *bytes, size_t length, uint8_t *token_items, size_t token_capacity);
struct coap_header_packed proved_coap_header_pack(const struct coap_header_head *value, const uint8_t *token_items, size_t token_length, uint8_t *buffer, size_t length);

/* The layout that the proved functions have: with another one this type has a negative size. */
typedef char coap_header_layout[sizeof(struct coap_header_head) == 16 && offsetof(struct coap_header_head, token) == 8 ? 1 : -1];

enum coap_header_status coap_header_parse(const uint8_t *bytes, size_t length, struct coap_header *out, size_t *taken)
{
    struct coap_header_parsed parsed;
    if (taken)
        *taken = 0;
    if (!out || (!bytes && length) || (!out->token.items && out->token.capacity))
        return COAP_HEADER_NULL;
    parsed = proved_coap_header_parse(bytes, length, out->token.items, out->token.capacity);
    if (parsed.status == COAP_HEADER_OK) {
        out->kind = parsed.value.kind;
        out->class_ = parsed.value.class_;
        out->detail = parsed.value.detail;
        out->id = parsed.value.id;
        out->token.length = parsed.value.token;
    }
    if (taken)
        *taken = parsed.taken;
    return (enum coap_header_status)parsed.status;
}

enum coap_header_status coap_header_pack(const struct coap_header *in, uint8_t *buffer, size_t length, size_t *written)
{
    struct coap_header_packed packed = {COAP_HEADER_NULL, 0};
    if (in && (buffer || !length) && (in->token.items || !in->token.length)) {
        struct coap_header_head head;
        head.kind = in->kind;
        head.class_ = in->class_;
        head.detail = in->detail;
        head.id = in->id;
        head.token = in->token.length;
        packed = proved_coap_header_pack(&head, in->token.items, in->token.length, buffer, length);
    }
    if (written)
        *written = packed.written;
    return (enum coap_header_status)packed.status;
}

const char *misfit_of_coap_header(const struct coap_header_head *value, const uint8_t *token_items, size_t token_length)
{
    (void)token_items;
    if (value->kind > 3)
        return "kind";
    if (value->class_ > 7)
        return "class";
    if (value->detail > 31)
        return "detail";
    if (token_length > 15)
        return "token";
    return NULL;
}

const char *coap_header_misfit(const struct coap_header *in)
{
    struct coap_header_head head;
    if (!in || (!in->token.items && in->token.length))
        return NULL;
    head.kind = in->kind;
    head.class_ = in->class_;
    head.detail = in->detail;
    head.id = in->id;
    head.token = in->token.length;
    return misfit_of_coap_header(&head, in->token.items, in->token.length);
}

const char *coap_header_status_text(enum coap_header_status status)
{
    switch (status) {
    case COAP_HEADER_OK:
        return "the call did its work";
    case COAP_HEADER_END_OF_INPUT:
        return "the bytes end before the fields do";
    case COAP_HEADER_NO_ROOM:
        return "the buffer is too short";
    case COAP_HEADER_DOES_NOT_FIT:
        return "a field has a value that the format does not allow";
    case COAP_HEADER_NULL:
        return "a pointer is null";
    case COAP_HEADER_NO_ROOM_TOKEN:
        return "the storage has no room for the items of `token`";
    case COAP_HEADER_OTHER_VERSION:
        return "the version is not 1";
    }
    return "no status";
}
