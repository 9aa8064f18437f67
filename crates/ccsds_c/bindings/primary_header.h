/* Made by `./format --c` from ../bitstream_callers/formats/primary_header.fields: edit that file and make this one anew.
 *
 * The primary header of a CCSDS space packet.
 *
 *  0                   1                   2                   3
 *  0 1 2 3 4 5 6 7 8 9 0 1 2 3 4 5 6 7 8 9 0 1 2 3 4 5 6 7 8 9 0 1
 * +-+-+-+-+-+-+-+-+-+-+-+-+-+-+-+-+-+-+-+-+-+-+-+-+-+-+-+-+-+-+-+-+
 * |  =0 |t|s|         apid        |seq|           count           |
 * +-+-+-+-+-+-+-+-+-+-+-+-+-+-+-+-+-+-+-+-+-+-+-+-+-+-+-+-+-+-+-+-+
 * |             length            |
 * +-+-+-+-+-+-+-+-+-+-+-+-+-+-+-+-+
 */
#ifndef PRIMARY_HEADER_H
#define PRIMARY_HEADER_H

#include <stdbool.h>
#include <stddef.h>
#include <stdint.h>

#ifdef __cplusplus
extern "C" {
#endif

/* The bytes that the fields take. */
#define PRIMARY_HEADER_SIZE 6

struct primary_header {
    /* True if the packet is a telecommand, and not telemetry. */
    bool telecommand;
    /* True if a secondary header follows. */
    bool secondary;
    /* The application of the packet. Below 2^11. */
    uint16_t apid;
    /* The sequence flags. Below 2^2. */
    uint8_t sequence;
    /* The number of the packet in its sequence. Below 2^14. */
    uint16_t count;
    /* The number of bytes in the data field, minus 1. */
    uint16_t length;
};

/* The result of a call. */
enum primary_header_status {
    /* The call did its work. */
    PRIMARY_HEADER_OK = 0,
    /* The bytes end before the fields do. */
    PRIMARY_HEADER_END_OF_INPUT = 1,
    /* The buffer is too short. */
    PRIMARY_HEADER_NO_ROOM = 2,
    /* A field has a value that the format does not allow. */
    PRIMARY_HEADER_DOES_NOT_FIT = 3,
    /* A pointer is null. */
    PRIMARY_HEADER_NULL = 4,
    /* The version is not 0. */
    PRIMARY_HEADER_WRONG_VERSION = 5
};

/* Returns the text of a status, in lower case and without a full stop. */
const char *primary_header_status_text(enum primary_header_status status);

/* Parses the fields at the start of `length` bytes into `*out`, and returns PRIMARY_HEADER_OK.
 * After an error `*out` is as before. The errors are: PRIMARY_HEADER_NULL if `out` is null, or
 * `bytes` is null and `length` is not 0; else the first in the order of the bits:
 * PRIMARY_HEADER_WRONG_VERSION if the version is not 0; PRIMARY_HEADER_END_OF_INPUT for fewer than
 * 6 bytes, if nothing in them is refused. */
enum primary_header_status primary_header_parse(const uint8_t *bytes, size_t length, struct primary_header *out);

/* Writes the fields to the first 6 of `length` bytes, sets `*written` to 6 unless `written` is
 * null, and returns PRIMARY_HEADER_OK. The bytes after them are as before. After an error all bytes
 * are as before, and `*written` is 0. `*in` and the buffer may not overlap. The errors are:
 * PRIMARY_HEADER_NULL if `in` is null, or `buffer` is null and `length` is not 0; else
 * PRIMARY_HEADER_DOES_NOT_FIT if a field has a value that the format does not allow; else
 * PRIMARY_HEADER_NO_ROOM for fewer than 6 bytes. */
enum primary_header_status primary_header_pack(
    const struct primary_header *in, uint8_t *buffer, size_t length, size_t *written);

/* Returns the name of the first field whose value the format does not allow, for which a pack returns
 * PRIMARY_HEADER_DOES_NOT_FIT, or null if there is none or a pointer is null. It is not proved. */
const char *primary_header_misfit(const struct primary_header *in);

#ifdef __cplusplus
}
#endif
#endif
