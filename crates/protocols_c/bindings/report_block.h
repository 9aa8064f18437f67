/* Made by `./format --c` from ../protocols/formats/report_block.fields: edit that file and make this one anew.
 *
 * A receiver's report on one source of RTP (RFC 3550, section 6.4.1).
 *
 *  0                   1                   2                   3
 *  0 1 2 3 4 5 6 7 8 9 0 1 2 3 4 5 6 7 8 9 0 1 2 3 4 5 6 7 8 9 0 1
 * +-+-+-+-+-+-+-+-+-+-+-+-+-+-+-+-+-+-+-+-+-+-+-+-+-+-+-+-+-+-+-+-+
 * |                              ssrc                             |
 * +-+-+-+-+-+-+-+-+-+-+-+-+-+-+-+-+-+-+-+-+-+-+-+-+-+-+-+-+-+-+-+-+
 * | fraction_lost |                      lost                     |
 * +-+-+-+-+-+-+-+-+-+-+-+-+-+-+-+-+-+-+-+-+-+-+-+-+-+-+-+-+-+-+-+-+
 * |                            highest                            |
 * +-+-+-+-+-+-+-+-+-+-+-+-+-+-+-+-+-+-+-+-+-+-+-+-+-+-+-+-+-+-+-+-+
 * |                             jitter                            |
 * +-+-+-+-+-+-+-+-+-+-+-+-+-+-+-+-+-+-+-+-+-+-+-+-+-+-+-+-+-+-+-+-+
 * |                          last_report                          |
 * +-+-+-+-+-+-+-+-+-+-+-+-+-+-+-+-+-+-+-+-+-+-+-+-+-+-+-+-+-+-+-+-+
 * |                             delay                             |
 * +-+-+-+-+-+-+-+-+-+-+-+-+-+-+-+-+-+-+-+-+-+-+-+-+-+-+-+-+-+-+-+-+
 */
#ifndef REPORT_BLOCK_H
#define REPORT_BLOCK_H

#include <stdbool.h>
#include <stddef.h>
#include <stdint.h>

#ifdef __cplusplus
extern "C" {
#endif

/* The bytes that the fields take. */
#define REPORT_BLOCK_SIZE 24

struct report_block {
    /* The source. */
    uint32_t ssrc;
    /* The part of the packets that was lost since the last report, in units of 1/256. */
    uint8_t fraction_lost;
    /* The number of packets that were lost in all. From -8388608 to 8388607. */
    int32_t lost;
    /* The highest sequence number that was received, after the number of its cycles. */
    uint32_t highest;
    /* The variation of the time between packets, in units of the RTP timestamp. */
    uint32_t jitter;
    /* The middle bits of the NTP timestamp of the source's last report. */
    uint32_t last_report;
    /* The time since that report, in units of 2^-16 seconds. */
    uint32_t delay;
};

/* The result of a call. */
enum report_block_status {
    /* The call did its work. */
    REPORT_BLOCK_OK = 0,
    /* The bytes end before the fields do. */
    REPORT_BLOCK_END_OF_INPUT = 1,
    /* The buffer is too short. */
    REPORT_BLOCK_NO_ROOM = 2,
    /* A field has a value that the format does not allow. */
    REPORT_BLOCK_DOES_NOT_FIT = 3,
    /* A pointer is null. */
    REPORT_BLOCK_NULL = 4
};

/* Returns the text of a status, in lower case and without a full stop. */
const char *report_block_status_text(enum report_block_status status);

/* Parses the fields at the start of `length` bytes into `*out`, and returns REPORT_BLOCK_OK. After
 * an error `*out` is as before. The errors are: REPORT_BLOCK_NULL if `out` is null, or `bytes` is
 * null and `length` is not 0; else REPORT_BLOCK_END_OF_INPUT for fewer than 24 bytes. */
enum report_block_status report_block_parse(const uint8_t *bytes, size_t length, struct report_block *out);

/* Writes the fields to the first 24 of `length` bytes, sets `*written` to 24 unless `written` is
 * null, and returns REPORT_BLOCK_OK. The bytes after them are as before. After an error all bytes
 * are as before, and `*written` is 0. `*in` and the buffer may not overlap. The errors are:
 * REPORT_BLOCK_NULL if `in` is null, or `buffer` is null and `length` is not 0; else
 * REPORT_BLOCK_DOES_NOT_FIT if a field has a value that the format does not allow; else
 * REPORT_BLOCK_NO_ROOM for fewer than 24 bytes. */
enum report_block_status report_block_pack(
    const struct report_block *in, uint8_t *buffer, size_t length, size_t *written);

/* Returns the name of the first field whose value the format does not allow, for which a pack returns
 * REPORT_BLOCK_DOES_NOT_FIT, or null if there is none or a pointer is null. It is not proved. */
const char *report_block_misfit(const struct report_block *in);

#ifdef __cplusplus
}
#endif
#endif
