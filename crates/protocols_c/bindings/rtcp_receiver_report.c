/* Made by `./format --c` from ../protocols/formats/rtcp_receiver_report.fields: edit that file and make this one anew. */
#include "rtcp_receiver_report.h"

/* The fields, and the numbers of items of the lists. */
struct rtcp_receiver_report_head {
    bool padding;
    uint16_t length;
    uint32_t ssrc;
    size_t reports;
};

struct rtcp_receiver_report_parsed {
    int32_t status;
    size_t taken;
    struct rtcp_receiver_report_head value;
};

struct rtcp_receiver_report_packed {
    int32_t status;
    size_t written;
};

/* The proved functions. */
struct rtcp_receiver_report_parsed proved_rtcp_receiver_report_parse(const uint8_t *bytes, size_t length, struct report_block *reports_items, size_t reports_capacity);
struct rtcp_receiver_report_packed proved_rtcp_receiver_report_pack(const struct rtcp_receiver_report_head *value, const struct report_block *reports_items, size_t reports_length, uint8_t *buffer, size_t length);

/* The layout that the proved functions have: with another one this type has a negative size. */
typedef char rtcp_receiver_report_layout[sizeof(struct rtcp_receiver_report_head) == 16 && offsetof(struct rtcp_receiver_report_head, reports) == 8 ? 1 : -1];

enum rtcp_receiver_report_status rtcp_receiver_report_parse(const uint8_t *bytes, size_t length, struct rtcp_receiver_report *out, size_t *taken)
{
    struct rtcp_receiver_report_parsed parsed;
    if (taken)
        *taken = 0;
    if (!out || (!bytes && length) || (!out->reports.items && out->reports.capacity))
        return RTCP_RECEIVER_REPORT_NULL;
    parsed = proved_rtcp_receiver_report_parse(bytes, length, out->reports.items, out->reports.capacity);
    if (parsed.status == RTCP_RECEIVER_REPORT_OK) {
        out->padding = parsed.value.padding;
        out->length = parsed.value.length;
        out->ssrc = parsed.value.ssrc;
        out->reports.length = parsed.value.reports;
    }
    if (taken)
        *taken = parsed.taken;
    return (enum rtcp_receiver_report_status)parsed.status;
}

enum rtcp_receiver_report_status rtcp_receiver_report_pack(const struct rtcp_receiver_report *in, uint8_t *buffer, size_t length, size_t *written)
{
    struct rtcp_receiver_report_packed packed = {RTCP_RECEIVER_REPORT_NULL, 0};
    if (in && (buffer || !length) && (in->reports.items || !in->reports.length)) {
        struct rtcp_receiver_report_head head;
        head.padding = in->padding;
        head.length = in->length;
        head.ssrc = in->ssrc;
        head.reports = in->reports.length;
        packed = proved_rtcp_receiver_report_pack(&head, in->reports.items, in->reports.length, buffer, length);
    }
    if (written)
        *written = packed.written;
    return (enum rtcp_receiver_report_status)packed.status;
}

const char *misfit_of_rtcp_receiver_report(const struct rtcp_receiver_report_head *value, const struct report_block *reports_items, size_t reports_length)
{
    (void)value;
    if (reports_length > 31)
        return "reports";
    for (size_t i = 0; i < reports_length; i++) {
        if (reports_items[i].lost < -8388608 || reports_items[i].lost > 8388607)
            return "reports.lost";
    }
    return NULL;
}

const char *rtcp_receiver_report_misfit(const struct rtcp_receiver_report *in)
{
    struct rtcp_receiver_report_head head;
    if (!in || (!in->reports.items && in->reports.length))
        return NULL;
    head.padding = in->padding;
    head.length = in->length;
    head.ssrc = in->ssrc;
    head.reports = in->reports.length;
    return misfit_of_rtcp_receiver_report(&head, in->reports.items, in->reports.length);
}

const char *rtcp_receiver_report_status_text(enum rtcp_receiver_report_status status)
{
    switch (status) {
    case RTCP_RECEIVER_REPORT_OK:
        return "the call did its work";
    case RTCP_RECEIVER_REPORT_END_OF_INPUT:
        return "the bytes end before the fields do";
    case RTCP_RECEIVER_REPORT_NO_ROOM:
        return "the buffer is too short";
    case RTCP_RECEIVER_REPORT_DOES_NOT_FIT:
        return "a field has a value that the format does not allow";
    case RTCP_RECEIVER_REPORT_NULL:
        return "a pointer is null";
    case RTCP_RECEIVER_REPORT_NO_ROOM_REPORTS:
        return "the storage has no room for the items of `reports`";
    case RTCP_RECEIVER_REPORT_OTHER_VERSION:
        return "the version is not 2";
    case RTCP_RECEIVER_REPORT_OTHER_PACKET:
        return "the packet is no receiver report";
    }
    return "no status";
}
