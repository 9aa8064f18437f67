/* Made by `./format --c` from ../protocols/formats/coap_header.fields: edit that file and make this one anew.
 *
 * The header of a CoAP message and its token (RFC 7252, section 3).
 *
 *  0                   1                   2                   3
 *  0 1 2 3 4 5 6 7 8 9 0 1 2 3 4 5 6 7 8 9 0 1 2 3 4 5 6 7 8 9 0 1
 * +-+-+-+-+-+-+-+-+-+-+-+-+-+-+-+-+-+-+-+-+-+-+-+-+-+-+-+-+-+-+-+-+
 * | =1|kin|token_c|class|  detail |               id              |
 * +-+-+-+-+-+-+-+-+-+-+-+-+-+-+-+-+-+-+-+-+-+-+-+-+-+-+-+-+-+-+-+-+
 * /                   token (token_count bytes)                   /
 * +-+-+-+-+-+-+-+-+-+-+-+-+-+-+-+-+-+-+-+-+-+-+-+-+-+-+-+-+-+-+-+-+
 */
#ifndef COAP_HEADER_H
#define COAP_HEADER_H

#include <stdbool.h>
#include <stddef.h>
#include <stdint.h>

#ifdef __cplusplus
extern "C" {
#endif

/* The numbers of `message`. */
enum coap_header_message {
    COAP_HEADER_MESSAGE_CONFIRMABLE = 0,
    COAP_HEADER_MESSAGE_NON_CONFIRMABLE = 1,
    COAP_HEADER_MESSAGE_ACKNOWLEDGEMENT = 2,
    COAP_HEADER_MESSAGE_RESET = 3
};

/* The list `token`, in storage of the caller. */
struct coap_header_token {
    /* The storage: null only if it has room for no item. A pack only reads it. */
    uint8_t *items;
    /* The number of items that it has room for. A parse needs it, and a pack does not. */
    size_t capacity;
    /* The number of items. */
    size_t length;
};

struct coap_header {
    /* The kind of the message. A number of `message`. */
    uint8_t kind;
    /* The class of the code: a request, or how it went. Below 2^3. The description calls it
     * `class`. */
    uint8_t class_;
    /* The method of a request, or the detail of a response. Below 2^5. */
    uint8_t detail;
    /* The number that an acknowledgement shares with its message. */
    uint16_t id;
    /* The bytes that a response shares with its request. Fewer than 2^4. */
    struct coap_header_token token;
};

/* The result of a call. */
enum coap_header_status {
    /* The call did its work. */
    COAP_HEADER_OK = 0,
    /* The bytes end before the fields do. */
    COAP_HEADER_END_OF_INPUT = 1,
    /* The buffer is too short. */
    COAP_HEADER_NO_ROOM = 2,
    /* A field has a value that the format does not allow. */
    COAP_HEADER_DOES_NOT_FIT = 3,
    /* A pointer is null. */
    COAP_HEADER_NULL = 4,
    /* The storage has no room for the items of `token`. */
    COAP_HEADER_NO_ROOM_TOKEN = 5,
    /* The version is not 1. */
    COAP_HEADER_OTHER_VERSION = 6
};

/* Returns the text of a status, in lower case and without a full stop. */
const char *coap_header_status_text(enum coap_header_status status);

/* Parses the fields at the start of `length` bytes into `*out`, and the items of lists into the
 * storage that the caller has set in `out->token`. Sets `*taken` to the number of bytes that the
 * fields take unless `taken` is null, and returns COAP_HEADER_OK. Items after the last one are as
 * before. After an error `*out` is as before, but the items in the storage are unspecified, and
 * `*taken` is the number of items of the list without room for them, or 0. The errors are:
 * COAP_HEADER_NULL if `out` is null, or `bytes` is null and `length` is not 0, or the items of a
 * list are null and its capacity is not 0; else the first in the order of the bits:
 * COAP_HEADER_OTHER_VERSION if the version is not 1; COAP_HEADER_END_OF_INPUT if the bytes end
 * before the fields do, if nothing in them is refused; else COAP_HEADER_NO_ROOM_TOKEN if `token`
 * has more items than its capacity. */
enum coap_header_status coap_header_parse(const uint8_t *bytes, size_t length, struct coap_header *out, size_t *taken);

/* Writes the fields to the first of `length` bytes, and zeros up to a whole byte, sets `*written`
 * to the number of these bytes unless `written` is null, and returns COAP_HEADER_OK. The bytes
 * after them are as before. After an error all bytes are as before, and `*written` is 0. `*in` and
 * the buffer may not overlap. The errors are: COAP_HEADER_NULL if `in` is null, or `buffer` is null
 * and `length` is not 0, or the items of a list are null and its length is not 0; else
 * COAP_HEADER_DOES_NOT_FIT if a field has a value that the format does not allow; else
 * COAP_HEADER_NO_ROOM if they are more than `length`. */
enum coap_header_status coap_header_pack(
    const struct coap_header *in, uint8_t *buffer, size_t length, size_t *written);

/* Returns the name of the first field whose value the format does not allow, for which a pack returns
 * COAP_HEADER_DOES_NOT_FIT, or null if there is none or a pointer is null. It is not proved. */
const char *coap_header_misfit(const struct coap_header *in);

#ifdef __cplusplus
}
#endif
#endif
