/* Made by `./format --c` from ../protocols/formats/rtcp_receiver_report.fields: edit that file and make this one anew.
 *
 * A receiver report of RTCP, with its report blocks (RFC 3550, section 6.4.2).
 *
 *  0                   1                   2                   3
 *  0 1 2 3 4 5 6 7 8 9 0 1 2 3 4 5 6 7 8 9 0 1 2 3 4 5 6 7 8 9 0 1
 * +-+-+-+-+-+-+-+-+-+-+-+-+-+-+-+-+-+-+-+-+-+-+-+-+-+-+-+-+-+-+-+-+
 * | =2|p|reports_c|      =201     |             length            |
 * +-+-+-+-+-+-+-+-+-+-+-+-+-+-+-+-+-+-+-+-+-+-+-+-+-+-+-+-+-+-+-+-+
 * |                              ssrc                             |
 * +-+-+-+-+-+-+-+-+-+-+-+-+-+-+-+-+-+-+-+-+-+-+-+-+-+-+-+-+-+-+-+-+
 * /             reports (reports_count of ReportBlock)            /
 * +-+-+-+-+-+-+-+-+-+-+-+-+-+-+-+-+-+-+-+-+-+-+-+-+-+-+-+-+-+-+-+-+
 */
#ifndef RTCP_RECEIVER_REPORT_H
#define RTCP_RECEIVER_REPORT_H

#include "report_block.h"
#include <stdbool.h>
#include <stddef.h>
#include <stdint.h>

#ifdef __cplusplus
extern "C" {
#endif

/* The list `reports`, in storage of the caller. */
struct rtcp_receiver_report_reports {
    /* The storage: null only if it has room for no item. A pack only reads it. */
    struct report_block *items;
    /* The number of items that it has room for. A parse needs it, and a pack does not. */
    size_t capacity;
    /* The number of items. */
    size_t length;
};

struct rtcp_receiver_report {
    /* True if there is padding at the end of the packet. */
    bool padding;
    /* The 32-bit words of the packet, less 1. */
    uint16_t length;
    /* The receiver. */
    uint32_t ssrc;
    /* The report blocks, one for each source. Fewer than 2^5. */
    struct rtcp_receiver_report_reports reports;
};

/* The result of a call. */
enum rtcp_receiver_report_status {
    /* The call did its work. */
    RTCP_RECEIVER_REPORT_OK = 0,
    /* The bytes end before the fields do. */
    RTCP_RECEIVER_REPORT_END_OF_INPUT = 1,
    /* The buffer is too short. */
    RTCP_RECEIVER_REPORT_NO_ROOM = 2,
    /* A field has a value that the format does not allow. */
    RTCP_RECEIVER_REPORT_DOES_NOT_FIT = 3,
    /* A pointer is null. */
    RTCP_RECEIVER_REPORT_NULL = 4,
    /* The storage has no room for the items of `reports`. */
    RTCP_RECEIVER_REPORT_NO_ROOM_REPORTS = 5,
    /* The version is not 2. */
    RTCP_RECEIVER_REPORT_OTHER_VERSION = 6,
    /* The packet is no receiver report. */
    RTCP_RECEIVER_REPORT_OTHER_PACKET = 7
};

/* Returns the text of a status, in lower case and without a full stop. */
const char *rtcp_receiver_report_status_text(enum rtcp_receiver_report_status status);

/* Parses the fields at the start of `length` bytes into `*out`, and the items of lists into the
 * storage that the caller has set in `out->reports`. Sets `*taken` to the number of bytes that the
 * fields take unless `taken` is null, and returns RTCP_RECEIVER_REPORT_OK. Items after the last one
 * are as before. After an error `*out` is as before, but the items in the storage are unspecified,
 * and `*taken` is the number of items of the list without room for them, or 0. The errors are:
 * RTCP_RECEIVER_REPORT_NULL if `out` is null, or `bytes` is null and `length` is not 0, or the
 * items of a list are null and its capacity is not 0; else the first in the order of the bits:
 * RTCP_RECEIVER_REPORT_OTHER_VERSION if the version is not 2; RTCP_RECEIVER_REPORT_OTHER_PACKET if
 * the packet is no receiver report; RTCP_RECEIVER_REPORT_END_OF_INPUT if the bytes end before the
 * fields do, if nothing in them is refused; else RTCP_RECEIVER_REPORT_NO_ROOM_REPORTS if `reports`
 * has more items than its capacity. */
enum rtcp_receiver_report_status rtcp_receiver_report_parse(const uint8_t *bytes, size_t length, struct rtcp_receiver_report *out, size_t *taken);

/* Writes the fields to the first of `length` bytes, and zeros up to a whole byte, sets `*written`
 * to the number of these bytes unless `written` is null, and returns RTCP_RECEIVER_REPORT_OK. The
 * bytes after them are as before. After an error all bytes are as before, and `*written` is 0.
 * `*in` and the buffer may not overlap. The errors are: RTCP_RECEIVER_REPORT_NULL if `in` is null,
 * or `buffer` is null and `length` is not 0, or the items of a list are null and its length is not
 * 0; else RTCP_RECEIVER_REPORT_DOES_NOT_FIT if a field has a value that the format does not allow;
 * else RTCP_RECEIVER_REPORT_NO_ROOM if they are more than `length`. */
enum rtcp_receiver_report_status rtcp_receiver_report_pack(
    const struct rtcp_receiver_report *in, uint8_t *buffer, size_t length, size_t *written);

/* Returns the name of the first field whose value the format does not allow, for which a pack returns
 * RTCP_RECEIVER_REPORT_DOES_NOT_FIT, or null if there is none or a pointer is null. It is not proved. */
const char *rtcp_receiver_report_misfit(const struct rtcp_receiver_report *in);

#ifdef __cplusplus
}
#endif
#endif
