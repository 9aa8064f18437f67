/* Made by `./format --c` from ../protocols/formats/icmp_gateway.fields: edit that file and make this one anew.
 *
 * The router of a redirect.
 *
 *  0                   1                   2                   3
 *  0 1 2 3 4 5 6 7 8 9 0 1 2 3 4 5 6 7 8 9 0 1 2 3 4 5 6 7 8 9 0 1
 * +-+-+-+-+-+-+-+-+-+-+-+-+-+-+-+-+-+-+-+-+-+-+-+-+-+-+-+-+-+-+-+-+
 * |                            address                            |
 * +-+-+-+-+-+-+-+-+-+-+-+-+-+-+-+-+-+-+-+-+-+-+-+-+-+-+-+-+-+-+-+-+
 */
#ifndef ICMP_GATEWAY_H
#define ICMP_GATEWAY_H

#include <stdbool.h>
#include <stddef.h>
#include <stdint.h>

#ifdef __cplusplus
extern "C" {
#endif

/* The bytes that the fields take. */
#define ICMP_GATEWAY_SIZE 4

struct icmp_gateway {
    /* The IPv4 address of the router. */
    uint8_t address[4];
};

/* The result of a call. */
enum icmp_gateway_status {
    /* The call did its work. */
    ICMP_GATEWAY_OK = 0,
    /* The bytes end before the fields do. */
    ICMP_GATEWAY_END_OF_INPUT = 1,
    /* The buffer is too short. */
    ICMP_GATEWAY_NO_ROOM = 2,
    /* A field has a value that the format does not allow. */
    ICMP_GATEWAY_DOES_NOT_FIT = 3,
    /* A pointer is null. */
    ICMP_GATEWAY_NULL = 4
};

/* Returns the text of a status, in lower case and without a full stop. */
const char *icmp_gateway_status_text(enum icmp_gateway_status status);

/* Parses the fields at the start of `length` bytes into `*out`, and returns ICMP_GATEWAY_OK. After
 * an error `*out` is as before. The errors are: ICMP_GATEWAY_NULL if `out` is null, or `bytes` is
 * null and `length` is not 0; else ICMP_GATEWAY_END_OF_INPUT for fewer than 4 bytes. */
enum icmp_gateway_status icmp_gateway_parse(const uint8_t *bytes, size_t length, struct icmp_gateway *out);

/* Writes the fields to the first 4 of `length` bytes, sets `*written` to 4 unless `written` is
 * null, and returns ICMP_GATEWAY_OK. The bytes after them are as before. After an error all bytes
 * are as before, and `*written` is 0. `*in` and the buffer may not overlap. The errors are:
 * ICMP_GATEWAY_NULL if `in` is null, or `buffer` is null and `length` is not 0; else
 * ICMP_GATEWAY_DOES_NOT_FIT if a field has a value that the format does not allow; else
 * ICMP_GATEWAY_NO_ROOM for fewer than 4 bytes. */
enum icmp_gateway_status icmp_gateway_pack(
    const struct icmp_gateway *in, uint8_t *buffer, size_t length, size_t *written);

/* Returns the name of the first field whose value the format does not allow, for which a pack returns
 * ICMP_GATEWAY_DOES_NOT_FIT, or null if there is none or a pointer is null. It is not proved. */
const char *icmp_gateway_misfit(const struct icmp_gateway *in);

#ifdef __cplusplus
}
#endif
#endif
