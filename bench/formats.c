/* Calls of printed formats for C, and the same work by hand, for a count of instructions: 4000 records, one after another.
 *
 * usage: formats FORMAT CALL     FORMAT: ccsds, vlan, coap, icmp, rtcp     CALL: none, parse, parse-hand, pack, pack-hand
 *
 * After `./build ccsds_c` and `./build protocols_c`:
 *
 *     cc -O2 -Icrates/ccsds_c/out/include -Icrates/protocols_c/out/include bench/formats.c \
 *         crates/ccsds_c/out/libccsds.a crates/protocols_c/out/libprotocols.a -o formats
 *
 * and then valgrind --tool=callgrind ./formats ccsds parse. Of its file `callgrind_annotate --inclusive=yes` prints the
 * instructions of `primary_header_parse`, which is called 4000 times, and of `parse_ccsds`, which first makes the records:
 * `parse-hand` calls it 8000 times. */
#include "coap_header.h"
#include "icmp_header.h"
#include "primary_header.h"
#include "rtcp_receiver_report.h"
#include "vlan_tag.h"

#include <stdio.h>
#include <stdlib.h>
#include <string.h>

enum { CALLS = 4000, LONGEST = 32, TOKEN = 8 };
enum call { NONE, PARSE, PARSE_BY_HAND, PACK, PACK_BY_HAND };
enum format { CCSDS, VLAN, COAP, ICMP, RTCP };

#define BY_HAND static __attribute__((noinline))

/* Returns the number of big-endian bytes. */
static inline uint16_t two(const uint8_t *it) { return (uint16_t)(it[0] << 8 | it[1]); }
static inline uint32_t four(const uint8_t *it) { return (uint32_t)two(it) << 16 | two(it + 2); }

/* Writes a number as big-endian bytes. */
static inline void put_two(uint8_t *it, uint32_t value)
{
    it[0] = (uint8_t)(value >> 8);
    it[1] = (uint8_t)value;
}
static inline void put_four(uint8_t *it, uint32_t value)
{
    put_two(it, value >> 16);
    put_two(it + 2, value);
}

BY_HAND int parse_ccsds(const uint8_t *bytes, size_t length, struct primary_header *out)
{
    if (!out || (!bytes && length))
        return PRIMARY_HEADER_NULL;
    if (length && bytes[0] >> 5)
        return PRIMARY_HEADER_WRONG_VERSION;
    if (length < 6)
        return PRIMARY_HEADER_END_OF_INPUT;
    out->telecommand = bytes[0] >> 4 & 1;
    out->secondary = bytes[0] >> 3 & 1;
    out->apid = two(bytes) & 0x7ff;
    out->sequence = bytes[2] >> 6;
    out->count = two(bytes + 2) & 0x3fff;
    out->length = two(bytes + 4);
    return PRIMARY_HEADER_OK;
}

BY_HAND int pack_ccsds(const struct primary_header *in, uint8_t *buffer, size_t length, size_t *written)
{
    if (written)
        *written = 0;
    if (!in || (!buffer && length))
        return PRIMARY_HEADER_NULL;
    if (in->apid >> 11 || in->sequence >> 2 || in->count >> 14)
        return PRIMARY_HEADER_DOES_NOT_FIT;
    if (length < 6)
        return PRIMARY_HEADER_NO_ROOM;
    put_two(buffer, (uint32_t)in->telecommand << 12 | (uint32_t)in->secondary << 11 | in->apid);
    put_two(buffer + 2, (uint32_t)in->sequence << 14 | in->count);
    put_two(buffer + 4, in->length);
    if (written)
        *written = 6;
    return PRIMARY_HEADER_OK;
}

BY_HAND int parse_vlan(const uint8_t *bytes, size_t length, struct vlan_tag *out)
{
    if (!out || (!bytes && length))
        return VLAN_TAG_NULL;
    if (length < 4)
        return VLAN_TAG_END_OF_INPUT;
    out->priority = bytes[0] >> 5;
    out->drop_eligible = bytes[0] >> 4 & 1;
    out->vlan = two(bytes) & 0xfff;
    out->kind = two(bytes + 2);
    return VLAN_TAG_OK;
}

BY_HAND int pack_vlan(const struct vlan_tag *in, uint8_t *buffer, size_t length, size_t *written)
{
    if (written)
        *written = 0;
    if (!in || (!buffer && length))
        return VLAN_TAG_NULL;
    if (in->priority >> 3 || in->vlan >> 12)
        return VLAN_TAG_DOES_NOT_FIT;
    if (length < 4)
        return VLAN_TAG_NO_ROOM;
    put_two(buffer, (uint32_t)in->priority << 13 | (uint32_t)in->drop_eligible << 12 | in->vlan);
    put_two(buffer + 2, in->kind);
    if (written)
        *written = 4;
    return VLAN_TAG_OK;
}

BY_HAND int parse_coap(const uint8_t *bytes, size_t length, struct coap_header *out, size_t *taken)
{
    size_t token;
    if (taken)
        *taken = 0;
    if (!out || (!bytes && length) || (!out->token.items && out->token.capacity))
        return COAP_HEADER_NULL;
    if (length && bytes[0] >> 6 != 1)
        return COAP_HEADER_OTHER_VERSION;
    if (length < 4)
        return COAP_HEADER_END_OF_INPUT;
    token = bytes[0] & 15;
    if (length < 4 + token)
        return COAP_HEADER_END_OF_INPUT;
    if (out->token.capacity < token)
        return COAP_HEADER_NO_ROOM_TOKEN;
    out->kind = bytes[0] >> 4 & 3;
    out->class_ = bytes[1] >> 5;
    out->detail = bytes[1] & 31;
    out->id = two(bytes + 2);
    out->token.length = token;
    memcpy(out->token.items, bytes + 4, token);
    if (taken)
        *taken = 4 + token;
    return COAP_HEADER_OK;
}

BY_HAND int pack_coap(const struct coap_header *in, uint8_t *buffer, size_t length, size_t *written)
{
    if (written)
        *written = 0;
    if (!in || (!buffer && length) || (!in->token.items && in->token.length))
        return COAP_HEADER_NULL;
    if (in->kind > 3 || in->class_ >> 3 || in->detail >> 5 || in->token.length > 15)
        return COAP_HEADER_DOES_NOT_FIT;
    if (length < 4 + in->token.length)
        return COAP_HEADER_NO_ROOM;
    buffer[0] = (uint8_t)(1 << 6 | in->kind << 4 | in->token.length);
    buffer[1] = (uint8_t)(in->class_ << 5 | in->detail);
    put_two(buffer + 2, in->id);
    memcpy(buffer + 4, in->token.items, in->token.length);
    if (written)
        *written = 4 + in->token.length;
    return COAP_HEADER_OK;
}

BY_HAND int parse_icmp(const uint8_t *bytes, size_t length, struct icmp_header *out, size_t *taken)
{
    bool is_known;
    if (taken)
        *taken = 0;
    if (!out || (!bytes && length))
        return ICMP_HEADER_NULL;
    if (length < 4)
        return ICMP_HEADER_END_OF_INPUT;
    is_known = bytes[0] == 0 || bytes[0] == 5 || bytes[0] == 8;
    if (is_known && length < 8)
        return ICMP_HEADER_END_OF_INPUT;
    out->code = bytes[1];
    out->checksum = two(bytes + 2);
    if (bytes[0] == 5) {
        out->body.which = ICMP_HEADER_BODY_REDIRECT;
        memcpy(out->body.as.redirect.address, bytes + 4, 4);
    } else if (is_known) {
        struct icmp_ids ids = {two(bytes + 4), two(bytes + 6)};
        out->body.which = bytes[0] ? ICMP_HEADER_BODY_ECHO : ICMP_HEADER_BODY_ECHO_REPLY;
        out->body.as.echo = ids;
    } else {
        out->body.which = ICMP_HEADER_BODY_OTHER;
        out->body.as.other = bytes[0];
    }
    if (taken)
        *taken = is_known ? 8 : 4;
    return ICMP_HEADER_OK;
}

BY_HAND int pack_icmp(const struct icmp_header *in, uint8_t *buffer, size_t length, size_t *written)
{
    static const uint8_t types[] = {0, 5, 8};
    uint8_t other = in ? in->body.as.other : 0;
    bool is_other = in && in->body.which == ICMP_HEADER_BODY_OTHER;
    size_t size = is_other ? 4 : 8;
    if (written)
        *written = 0;
    if (!in || (!buffer && length))
        return ICMP_HEADER_NULL;
    if (in->body.which > ICMP_HEADER_BODY_OTHER || (is_other && (other == 0 || other == 5 || other == 8)))
        return ICMP_HEADER_DOES_NOT_FIT;
    if (length < size)
        return ICMP_HEADER_NO_ROOM;
    buffer[0] = is_other ? other : types[in->body.which];
    buffer[1] = in->code;
    put_two(buffer + 2, in->checksum);
    if (in->body.which == ICMP_HEADER_BODY_REDIRECT) {
        memcpy(buffer + 4, in->body.as.redirect.address, 4);
    } else if (!is_other) {
        put_two(buffer + 4, in->body.as.echo.identifier);
        put_two(buffer + 6, in->body.as.echo.sequence);
    }
    if (written)
        *written = size;
    return ICMP_HEADER_OK;
}

BY_HAND int parse_rtcp(const uint8_t *bytes, size_t length, struct rtcp_receiver_report *out, size_t *taken)
{
    size_t count, room;
    if (taken)
        *taken = 0;
    if (!out || (!bytes && length) || (!out->reports.items && out->reports.capacity))
        return RTCP_RECEIVER_REPORT_NULL;
    if (length && bytes[0] >> 6 != 2)
        return RTCP_RECEIVER_REPORT_OTHER_VERSION;
    if (length > 1 && bytes[1] != 201)
        return RTCP_RECEIVER_REPORT_OTHER_PACKET;
    if (length < 8)
        return RTCP_RECEIVER_REPORT_END_OF_INPUT;
    count = bytes[0] & 31;
    if (length < 8 + 24 * count)
        return RTCP_RECEIVER_REPORT_END_OF_INPUT;
    room = out->reports.capacity;
    if (room < count)
        return RTCP_RECEIVER_REPORT_NO_ROOM_REPORTS;
    out->padding = bytes[0] >> 5 & 1;
    out->length = two(bytes + 2);
    out->ssrc = four(bytes + 4);
    out->reports.length = count;
    for (size_t k = 0; k < count; k++) {
        const uint8_t *it = bytes + 8 + 24 * k;
        struct report_block *block = out->reports.items + k;
        block->ssrc = four(it);
        block->fraction_lost = it[4];
        block->lost = (int32_t)(four(it + 4) << 8) >> 8;
        block->highest = four(it + 8);
        block->jitter = four(it + 12);
        block->last_report = four(it + 16);
        block->delay = four(it + 20);
    }
    if (taken)
        *taken = 8 + 24 * count;
    return RTCP_RECEIVER_REPORT_OK;
}

BY_HAND int pack_rtcp(const struct rtcp_receiver_report *in, uint8_t *buffer, size_t length, size_t *written)
{
    if (written)
        *written = 0;
    if (!in || (!buffer && length) || (!in->reports.items && in->reports.length))
        return RTCP_RECEIVER_REPORT_NULL;
    if (in->reports.length > 31)
        return RTCP_RECEIVER_REPORT_DOES_NOT_FIT;
    for (size_t k = 0; k < in->reports.length; k++)
        if (in->reports.items[k].lost < -0x800000 || in->reports.items[k].lost > 0x7fffff)
            return RTCP_RECEIVER_REPORT_DOES_NOT_FIT;
    if (length < 8 + 24 * in->reports.length)
        return RTCP_RECEIVER_REPORT_NO_ROOM;
    buffer[0] = (uint8_t)(2 << 6 | in->padding << 5 | in->reports.length);
    buffer[1] = 201;
    put_two(buffer + 2, in->length);
    put_four(buffer + 4, in->ssrc);
    for (size_t k = 0; k < in->reports.length; k++) {
        const struct report_block *block = in->reports.items + k;
        uint8_t *it = buffer + 8 + 24 * k;
        put_four(it, block->ssrc);
        put_four(it + 4, ((uint32_t)block->lost & 0xffffff) | (uint32_t)block->fraction_lost << 24);
        put_four(it + 8, block->highest);
        put_four(it + 12, block->jitter);
        put_four(it + 16, block->last_report);
        put_four(it + 20, block->delay);
    }
    if (written)
        *written = 8 + 24 * in->reports.length;
    return RTCP_RECEIVER_REPORT_OK;
}

/* The values of one format. */
union value {
    struct primary_header ccsds;
    struct vlan_tag vlan;
    struct coap_header coap;
    struct icmp_header icmp;
    struct rtcp_receiver_report rtcp;
};

/* Parses one record by the library, or by hand. */
static int parse(enum format format, bool by_hand, const uint8_t *bytes, size_t length, union value *out, size_t *taken)
{
    switch (format) {
    case CCSDS:
        return by_hand ? parse_ccsds(bytes, length, &out->ccsds) : (int)primary_header_parse(bytes, length, &out->ccsds);
    case VLAN:
        return by_hand ? parse_vlan(bytes, length, &out->vlan) : (int)vlan_tag_parse(bytes, length, &out->vlan);
    case COAP:
        return by_hand ? parse_coap(bytes, length, &out->coap, taken)
                       : (int)coap_header_parse(bytes, length, &out->coap, taken);
    case ICMP:
        return by_hand ? parse_icmp(bytes, length, &out->icmp, taken)
                       : (int)icmp_header_parse(bytes, length, &out->icmp, taken);
    case RTCP:
        return by_hand ? parse_rtcp(bytes, length, &out->rtcp, taken)
                       : (int)rtcp_receiver_report_parse(bytes, length, &out->rtcp, taken);
    }
    return -1;
}

/* Packs one record by the library, or by hand. */
static int pack(enum format format, bool by_hand, const union value *in, uint8_t *buffer, size_t length, size_t *written)
{
    switch (format) {
    case CCSDS:
        return by_hand ? pack_ccsds(&in->ccsds, buffer, length, written)
                       : (int)primary_header_pack(&in->ccsds, buffer, length, written);
    case VLAN:
        return by_hand ? pack_vlan(&in->vlan, buffer, length, written)
                       : (int)vlan_tag_pack(&in->vlan, buffer, length, written);
    case COAP:
        return by_hand ? pack_coap(&in->coap, buffer, length, written)
                       : (int)coap_header_pack(&in->coap, buffer, length, written);
    case ICMP:
        return by_hand ? pack_icmp(&in->icmp, buffer, length, written)
                       : (int)icmp_header_pack(&in->icmp, buffer, length, written);
    case RTCP:
        return by_hand ? pack_rtcp(&in->rtcp, buffer, length, written)
                       : (int)rtcp_receiver_report_pack(&in->rtcp, buffer, length, written);
    }
    return -1;
}

/* Makes the bytes of a record from random ones: CoAP has a token of four bytes, ICMP an echo, RTCP one block. */
static void prepare(enum format format, uint8_t bytes[LONGEST])
{
    if (format == CCSDS) {
        bytes[0] &= 31;
    } else if (format == COAP) {
        bytes[0] = (uint8_t)(1 << 6 | (bytes[0] & 0x30) | 4);
    } else if (format == ICMP) {
        bytes[0] = 8;
    } else if (format == RTCP) {
        bytes[0] = (uint8_t)(2 << 6 | (bytes[0] & 32) | 1);
        bytes[1] = 201;
    }
}

/* Returns the place of a name among five, or ends the program. */
static int place_of(const char *name, const char *const names[5])
{
    for (int k = 0; k < 5; k++)
        if (!strcmp(name, names[k]))
            return k;
    fprintf(stderr, "formats: %s is not known\n", name);
    exit(2);
}

/* The records, with the storage of their lists. */
static uint8_t bytes[CALLS][LONGEST];
static union value values[CALLS];
static uint8_t tokens[CALLS][TOKEN];
static struct report_block blocks[CALLS];

/* Makes record k of the random bytes there, and parses it by hand. */
static void make(enum format format, int k)
{
    prepare(format, bytes[k]);
    if (format == COAP) {
        values[k].coap.token.items = tokens[k];
        values[k].coap.token.capacity = TOKEN;
    } else if (format == RTCP) {
        values[k].rtcp.reports.items = blocks + k;
        values[k].rtcp.reports.capacity = 1;
    }
    if (parse(format, true, bytes[k], LONGEST, values + k, NULL)) {
        fputs("formats: a record is not parsed\n", stderr);
        exit(1);
    }
}

int main(int count, char **words)
{
    static const char *const formats[] = {"ccsds", "vlan", "coap", "icmp", "rtcp"};
    static const char *const calls[] = {"none", "parse", "parse-hand", "pack", "pack-hand"};
    enum format format = (enum format)place_of(count > 1 ? words[1] : "", formats);
    enum call which = (enum call)place_of(count > 2 ? words[2] : "", calls);
    uint64_t state = 1, sum = 0;
    uint8_t buffer[LONGEST] = {0};
    for (int k = 0; k < CALLS; k++) {
        for (int at = 0; at < LONGEST; at++) {
            state = state * 6364136223846793005u + 1442695040888963407u;
            bytes[k][at] = (uint8_t)(state >> 56);
        }
        make(format, k);
    }
    for (int k = 0; k < CALLS; k++) {
        size_t moved = 0;
        if (which == PARSE || which == PARSE_BY_HAND)
            sum += (uint64_t)parse(format, which == PARSE_BY_HAND, bytes[k], LONGEST, values + k, &moved);
        else if (which == PACK || which == PACK_BY_HAND)
            sum += (uint64_t)pack(format, which == PACK_BY_HAND, values + k, buffer, LONGEST, &moved);
        for (int at = 0; at < LONGEST; at++)
            sum = sum * 31 + buffer[at];
        sum = sum * 31 + moved;
    }
    printf("%016llx\n", (unsigned long long)sum);
    return 0;
}
