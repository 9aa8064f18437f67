/* Made by `./format --c` from ../protocols/formats/icmp_header.fields: edit that file and make this one anew. */
#include "icmp_header.h"

#include <string.h>

/* The fields, and what each case of a choice holds. */
struct icmp_header_head {
    uint8_t code;
    uint16_t checksum;
    uint32_t body_case;
    struct icmp_ids body_echo_reply;
    struct icmp_gateway body_redirect;
    struct icmp_ids body_echo;
    uint8_t body_other;
};

struct icmp_header_parsed {
    int32_t status;
    size_t taken;
    struct icmp_header_head value;
};

struct icmp_header_packed {
    int32_t status;
    size_t written;
};

/* The proved functions. */
struct icmp_header_parsed proved_icmp_header_parse(const uint8_t *bytes, size_t length);
struct icmp_header_packed proved_icmp_header_pack(const struct icmp_header_head *value, uint8_t *buffer, size_t length);

/* The layout that the proved functions have: with another one this type has a negative size. */
typedef char icmp_header_layout[sizeof(struct icmp_header_head) == 24 && offsetof(struct icmp_header_head, body_other) == 20 ? 1 : -1];

enum icmp_header_status icmp_header_parse(const uint8_t *bytes, size_t length, struct icmp_header *out, size_t *taken)
{
    struct icmp_header_parsed parsed;
    if (taken)
        *taken = 0;
    if (!out || (!bytes && length))
        return ICMP_HEADER_NULL;
    parsed = proved_icmp_header_parse(bytes, length);
    if (parsed.status == ICMP_HEADER_OK) {
        out->code = parsed.value.code;
        out->checksum = parsed.value.checksum;
        out->body.which = (enum icmp_header_body_case)parsed.value.body_case;
        switch (out->body.which) {
        case ICMP_HEADER_BODY_ECHO_REPLY:
            out->body.as.echo_reply = parsed.value.body_echo_reply;
            break;
        case ICMP_HEADER_BODY_REDIRECT:
            out->body.as.redirect = parsed.value.body_redirect;
            break;
        case ICMP_HEADER_BODY_ECHO:
            out->body.as.echo = parsed.value.body_echo;
            break;
        case ICMP_HEADER_BODY_OTHER:
            out->body.as.other = parsed.value.body_other;
            break;
        }
    }
    if (taken)
        *taken = parsed.taken;
    return (enum icmp_header_status)parsed.status;
}

enum icmp_header_status icmp_header_pack(const struct icmp_header *in, uint8_t *buffer, size_t length, size_t *written)
{
    struct icmp_header_packed packed = {ICMP_HEADER_NULL, 0};
    if (in && (buffer || !length)) {
        struct icmp_header_head head;
        memset(&head, 0, sizeof head);
        head.code = in->code;
        head.checksum = in->checksum;
        head.body_case = (uint32_t)in->body.which;
        switch (in->body.which) {
        case ICMP_HEADER_BODY_ECHO_REPLY:
            head.body_echo_reply = in->body.as.echo_reply;
            break;
        case ICMP_HEADER_BODY_REDIRECT:
            head.body_redirect = in->body.as.redirect;
            break;
        case ICMP_HEADER_BODY_ECHO:
            head.body_echo = in->body.as.echo;
            break;
        case ICMP_HEADER_BODY_OTHER:
            head.body_other = in->body.as.other;
            break;
        }
        packed = proved_icmp_header_pack(&head, buffer, length);
    }
    if (written)
        *written = packed.written;
    return (enum icmp_header_status)packed.status;
}

const char *misfit_of_icmp_header(const struct icmp_header_head *value)
{
    if (value->body_case > 3)
        return "body";
    if (value->body_case == 3) {
        if (value->body_other == 0 || value->body_other == 5 || value->body_other == 8)
            return "body";
    }
    return NULL;
}

const char *icmp_header_misfit(const struct icmp_header *in)
{
    struct icmp_header_head head;
    if (!in)
        return NULL;
    memset(&head, 0, sizeof head);
    head.code = in->code;
    head.checksum = in->checksum;
    head.body_case = (uint32_t)in->body.which;
    switch (in->body.which) {
    case ICMP_HEADER_BODY_ECHO_REPLY:
        head.body_echo_reply = in->body.as.echo_reply;
        break;
    case ICMP_HEADER_BODY_REDIRECT:
        head.body_redirect = in->body.as.redirect;
        break;
    case ICMP_HEADER_BODY_ECHO:
        head.body_echo = in->body.as.echo;
        break;
    case ICMP_HEADER_BODY_OTHER:
        head.body_other = in->body.as.other;
        break;
    }
    return misfit_of_icmp_header(&head);
}

const char *icmp_header_status_text(enum icmp_header_status status)
{
    switch (status) {
    case ICMP_HEADER_OK:
        return "the call did its work";
    case ICMP_HEADER_END_OF_INPUT:
        return "the bytes end before the fields do";
    case ICMP_HEADER_NO_ROOM:
        return "the buffer is too short";
    case ICMP_HEADER_DOES_NOT_FIT:
        return "a field has a value that the format does not allow";
    case ICMP_HEADER_NULL:
        return "a pointer is null";
    }
    return "no status";
}
