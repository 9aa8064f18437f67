/* Made by `./format --c` from ../protocols/formats/mqtt_header.fields: edit that file and make this one anew.
 *
 * The fixed header of an MQTT packet (MQTT 3.1.1, section 2.2).
 *
 *  0                   1                   2                   3
 *  0 1 2 3 4 5 6 7 8 9 0 1 2 3 4 5 6 7 8 9 0 1 2 3 4 5 6 7 8 9 0 1
 * +-+-+-+-+-+-+-+-+
 * |  kind |a|qua|r|
 * +-+-+-+-+-+-+-+-+-+-+-+-+-+-+-+-+-+-+-+-+-+-+-+-+-+-+-+-+-+-+-+-+
 * /                  remaining (groups of 8 bits)                 /
 * +-+-+-+-+-+-+-+-+-+-+-+-+-+-+-+-+-+-+-+-+-+-+-+-+-+-+-+-+-+-+-+-+
 */
#ifndef MQTT_HEADER_H
#define MQTT_HEADER_H

#include <stdbool.h>
#include <stddef.h>
#include <stdint.h>

#ifdef __cplusplus
extern "C" {
#endif

/* The numbers of `packet`. */
enum mqtt_header_packet {
    MQTT_HEADER_PACKET_CONNECT = 1,
    MQTT_HEADER_PACKET_CONN_ACK = 2,
    MQTT_HEADER_PACKET_PUBLISH = 3,
    MQTT_HEADER_PACKET_PUB_ACK = 4,
    MQTT_HEADER_PACKET_PUB_REC = 5,
    MQTT_HEADER_PACKET_PUB_REL = 6,
    MQTT_HEADER_PACKET_PUB_COMP = 7,
    MQTT_HEADER_PACKET_SUBSCRIBE = 8,
    MQTT_HEADER_PACKET_SUB_ACK = 9,
    MQTT_HEADER_PACKET_UNSUBSCRIBE = 10,
    MQTT_HEADER_PACKET_UNSUB_ACK = 11,
    MQTT_HEADER_PACKET_PING_REQ = 12,
    MQTT_HEADER_PACKET_PING_RESP = 13,
    MQTT_HEADER_PACKET_DISCONNECT = 14,
    MQTT_HEADER_PACKET_AUTH = 15
};

struct mqtt_header {
    /* The kind of the packet. A number of `packet`. */
    uint8_t kind;
    /* True if the packet was sent before, if it is `Publish`. */
    bool again;
    /* The quality of service, if the packet is `Publish`. Below 2^2. */
    uint8_t quality;
    /* True if the server is to keep the message, if the packet is `Publish`. */
    bool retain;
    /* The number of bytes that follow. */
    uint32_t remaining;
};

/* The result of a call. */
enum mqtt_header_status {
    /* The call did its work. */
    MQTT_HEADER_OK = 0,
    /* The bytes end before the fields do. */
    MQTT_HEADER_END_OF_INPUT = 1,
    /* The buffer is too short. */
    MQTT_HEADER_NO_ROOM = 2,
    /* A field has a value that the format does not allow. */
    MQTT_HEADER_DOES_NOT_FIT = 3,
    /* A pointer is null. */
    MQTT_HEADER_NULL = 4,
    /* A number of variable width is too large, or ends in a group of 0 behind others. */
    MQTT_HEADER_BAD_NUMBER = 5,
    /* `kind` is not the number of a case of `Packet`. */
    MQTT_HEADER_NO_PACKET = 6
};

/* Returns the text of a status, in lower case and without a full stop. */
const char *mqtt_header_status_text(enum mqtt_header_status status);

/* Parses the fields at the start of `length` bytes into `*out`, sets `*taken` to the number of
 * bytes that they take unless `taken` is null, and returns MQTT_HEADER_OK. After an error `*out` is
 * as before, and `*taken` is 0. The errors are: MQTT_HEADER_NULL if `out` is null, or `bytes` is
 * null and `length` is not 0; else the first in the order of the bits: MQTT_HEADER_NO_PACKET if
 * `kind` is not the number of a case of `Packet`; MQTT_HEADER_BAD_NUMBER if a number of variable
 * width is too large, or ends in a group of 0 behind others; MQTT_HEADER_END_OF_INPUT if the bytes
 * end before the fields do, if nothing in them is refused. */
enum mqtt_header_status mqtt_header_parse(const uint8_t *bytes, size_t length, struct mqtt_header *out, size_t *taken);

/* Writes the fields to the first of `length` bytes, and zeros up to a whole byte, sets `*written`
 * to the number of these bytes unless `written` is null, and returns MQTT_HEADER_OK. The bytes
 * after them are as before. After an error all bytes are as before, and `*written` is 0. `*in` and
 * the buffer may not overlap. The errors are: MQTT_HEADER_NULL if `in` is null, or `buffer` is null
 * and `length` is not 0; else MQTT_HEADER_DOES_NOT_FIT if a field has a value that the format does
 * not allow; else MQTT_HEADER_NO_ROOM if they are more than `length`. */
enum mqtt_header_status mqtt_header_pack(
    const struct mqtt_header *in, uint8_t *buffer, size_t length, size_t *written);

/* Returns the name of the first field whose value the format does not allow, for which a pack returns
 * MQTT_HEADER_DOES_NOT_FIT, or null if there is none or a pointer is null. It is not proved. */
const char *mqtt_header_misfit(const struct mqtt_header *in);

#ifdef __cplusplus
}
#endif
#endif
