/* Made by `./format --c` from ../network_messages/formats/icmp_message.fields: edit that file and make this one anew.
 *
 * An echo or an echo reply of ICMP, with its checksum (RFC 792).
 *
 *  0                   1                   2                   3
 *  0 1 2 3 4 5 6 7 8 9 0 1 2 3 4 5 6 7 8 9 0 1 2 3 4 5 6 7 8 9 0 1
 * +-+-+-+-+-+-+-+-+-+-+-+-+-+-+-+-+-+-+-+-+-+-+-+-+-+-+-+-+-+-+-+-+
 * |      kind     |      code     |          stored_sum16         |
 * +-+-+-+-+-+-+-+-+-+-+-+-+-+-+-+-+-+-+-+-+-+-+-+-+-+-+-+-+-+-+-+-+
 * |           identifier          |            sequence           |
 * +-+-+-+-+-+-+-+-+-+-+-+-+-+-+-+-+-+-+-+-+-+-+-+-+-+-+-+-+-+-+-+-+
 * /                    data (bytes to the end)                    /
 * +-+-+-+-+-+-+-+-+-+-+-+-+-+-+-+-+-+-+-+-+-+-+-+-+-+-+-+-+-+-+-+-+
 */
#ifndef ICMP_MESSAGE_H
#define ICMP_MESSAGE_H

#include <stdbool.h>
#include <stddef.h>
#include <stdint.h>

#ifdef __cplusplus
extern "C" {
#endif

/* The numbers of `echo`. */
enum icmp_message_echo {
    ICMP_MESSAGE_ECHO_REPLY = 0,
    ICMP_MESSAGE_ECHO_REQUEST = 8
};

/* The list `data`, in storage of the caller. */
struct icmp_message_data {
    /* The storage: null only if it has room for no item. A pack only reads it. */
    uint8_t *items;
    /* The number of items that it has room for. A parse needs it, and a pack does not. */
    size_t capacity;
    /* The number of items. */
    size_t length;
};

struct icmp_message {
    /* The message. A number of `echo`. */
    uint8_t kind;
    /* The code, which is 0. */
    uint8_t code;
    /* Which program asks. */
    uint16_t identifier;
    /* The number of the message. */
    uint16_t sequence;
    /* The data, which the reply repeats. All bytes up to the end. At most 4294967295 are packed. */
    struct icmp_message_data data;
};

/* The result of a call. */
enum icmp_message_status {
    /* The call did its work. */
    ICMP_MESSAGE_OK = 0,
    /* The bytes end before the fields do. */
    ICMP_MESSAGE_END_OF_INPUT = 1,
    /* The buffer is too short. */
    ICMP_MESSAGE_NO_ROOM = 2,
    /* A field has a value that the format does not allow. */
    ICMP_MESSAGE_DOES_NOT_FIT = 3,
    /* A pointer is null. */
    ICMP_MESSAGE_NULL = 4,
    /* The storage has no room for the items of `data`. */
    ICMP_MESSAGE_NO_ROOM_DATA = 5,
    /* `kind` is not the number of a case of `Echo`. */
    ICMP_MESSAGE_NO_ECHO = 6,
    /* The checksum is not that of the message. */
    ICMP_MESSAGE_WRONG_SUM = 7
};

/* Returns the text of a status, in lower case and without a full stop. */
const char *icmp_message_status_text(enum icmp_message_status status);

/* Parses `length` bytes as the fields into `*out`, and the items of lists into the storage that the
 * caller has set in `out->data`. Sets `*taken` to the number of bytes that the fields take unless
 * `taken` is null, and returns ICMP_MESSAGE_OK. Items after the last one are as before. After an
 * error `*out` is as before, but the items in the storage are unspecified, and `*taken` is the
 * number of items of the list without room for them, or 0. The errors are: ICMP_MESSAGE_NULL if
 * `out` is null, or `bytes` is null and `length` is not 0, or the items of a list are null and its
 * capacity is not 0; else the first in the order of the bits: ICMP_MESSAGE_NO_ECHO if `kind` is not
 * the number of a case of `Echo`; ICMP_MESSAGE_END_OF_INPUT if the bytes end before the fields do,
 * if nothing in them is refused; else ICMP_MESSAGE_NO_ROOM_DATA if `data` has more items than its
 * capacity; else ICMP_MESSAGE_WRONG_SUM if the checksum is not that of the message. */
enum icmp_message_status icmp_message_parse(const uint8_t *bytes, size_t length, struct icmp_message *out, size_t *taken);

/* Writes the fields to the first of `length` bytes, and zeros up to a whole byte, sets `*written`
 * to the number of these bytes unless `written` is null, and returns ICMP_MESSAGE_OK. The bytes
 * after them are as before. After an error all bytes are as before, and `*written` is 0. `*in` and
 * the buffer may not overlap. The errors are: ICMP_MESSAGE_NULL if `in` is null, or `buffer` is
 * null and `length` is not 0, or the items of a list are null and its length is not 0; else
 * ICMP_MESSAGE_DOES_NOT_FIT if a field has a value that the format does not allow; else
 * ICMP_MESSAGE_NO_ROOM if they are more than `length`. */
enum icmp_message_status icmp_message_pack(
    const struct icmp_message *in, uint8_t *buffer, size_t length, size_t *written);

/* Returns the name of the first field whose value the format does not allow, for which a pack returns
 * ICMP_MESSAGE_DOES_NOT_FIT, or null if there is none or a pointer is null. It is not proved. */
const char *icmp_message_misfit(const struct icmp_message *in);

#ifdef __cplusplus
}
#endif
#endif
