/* Calls the library with the rows of standard input, on each line the name of a format and bytes in hex, and with random
 * values. Plain shifts say what is right. Prints the number of calls. */
#include "coap_header.h"
#include "ethernet_header.h"
#include "icmp_header.h"
#include "mqtt_header.h"
#include "rtcp_receiver_report.h"
#include "socks_login.h"
#include "stun_header.h"

#include <stdio.h>
#include <stdlib.h>
#include <string.h>

enum {
    MOST = 64, /* the bytes of the longest buffer */
    BLOCKS = 32 /* one more than the most report blocks */
};

static unsigned long calls;

/* Ends the test if a fact is not so. */
static void holds(int is, const char *what, int line)
{
    if (!is) {
        printf("test_protocols.c:%d: not so: %s\n", line, what);
        exit(1);
    }
}
#define HOLDS(what) holds(what, #what, __LINE__)

/* The next number of a generator. */
static uint64_t state = 1;
static uint64_t next(void)
{
    state ^= state << 13;
    state ^= state >> 7;
    state ^= state << 17;
    return state;
}

/* Bytes at the end of a block of just their length. */
static uint8_t *block(const uint8_t *bytes, size_t length)
{
    uint8_t *found = calloc(length ? length : 1, 1);
    HOLDS(found != NULL);
    if (length)
        memcpy(found, bytes, length);
    return found;
}

/* What a pack into a buffer of each length up to MOST is to do: it is called with the fields `it`. */
typedef int packer(const void *it, uint8_t *buffer, size_t length, size_t *written);

static void packs(packer *pack, const void *it, const uint8_t *bytes, size_t size, int fits)
{
    for (size_t length = 0; length <= MOST; length++) {
        uint8_t before[MOST], *buffer;
        size_t written = 99;
        int status = !fits ? 3 : length < size ? 2 : 0;
        for (size_t i = 0; i < MOST; i++)
            before[i] = (uint8_t)next();
        buffer = block(before, length);
        HOLDS(pack(it, buffer, length, &written) == status);
        HOLDS(written == (status ? 0 : size));
        if (!status)
            memcpy(before, bytes, size);
        HOLDS(!memcmp(buffer, before, length));
        calls++;
        free(buffer);
    }
}

/* ---- MQTT */

static int mqtt_pack(const void *it, uint8_t *buffer, size_t length, size_t *written)
{
    return mqtt_header_pack(it, buffer, length, written);
}

/* The bytes of fields. */
static size_t mqtt_bytes(const struct mqtt_header *it, uint8_t *bytes)
{
    uint32_t left = it->remaining;
    size_t size = 1;
    bytes[0] = (uint8_t)(it->kind << 4 | it->again << 3 | it->quality << 1 | it->retain);
    for (; left > 127; left >>= 7)
        bytes[size++] = (uint8_t)(left | 128);
    bytes[size++] = (uint8_t)left;
    return size;
}

static int mqtt_wanted(const uint8_t *b, size_t length, struct mqtt_header *it, size_t *taken)
{
    uint64_t sum = 0;
    unsigned place = 0;
    if (!length)
        return MQTT_HEADER_END_OF_INPUT;
    if (!(b[0] >> 4))
        return MQTT_HEADER_NO_PACKET;
    for (size_t i = 1; i < length; i++) {
        sum |= (uint64_t)(b[i] & 127) << place;
        if (b[i] < 128) {
            if (sum >> 32)
                return MQTT_HEADER_BAD_NUMBER;
            it->kind = b[0] >> 4;
            it->again = b[0] >> 3 & 1;
            it->quality = b[0] >> 1 & 3;
            it->retain = b[0] & 1;
            it->remaining = (uint32_t)sum;
            *taken = i + 1;
            return MQTT_HEADER_OK;
        }
        place += 7;
        if (place >= 32)
            return MQTT_HEADER_BAD_NUMBER;
    }
    return MQTT_HEADER_END_OF_INPUT;
}

static int same_mqtt(const struct mqtt_header *a, const struct mqtt_header *b)
{
    return a->kind == b->kind && a->again == b->again && a->quality == b->quality && a->retain == b->retain
        && a->remaining == b->remaining;
}

/* Parses bytes. */
static void mqtt_parses(const uint8_t *bytes, size_t length)
{
    struct mqtt_header it, before, right;
    uint8_t packed[MOST], *part = block(bytes, length);
    size_t taken = 99, size = 0;
    int status = mqtt_wanted(bytes, length, &right, &size);
    memset(&it, 0xA5, sizeof it);
    memcpy(&before, &it, sizeof it);
    HOLDS((int)mqtt_header_parse(part, length, &it, &taken) == status);
    HOLDS(taken == size);
    calls++;
    if (status)
        HOLDS(!memcmp(&it, &before, sizeof it));
    else {
        HOLDS(same_mqtt(&it, &right));
        size = mqtt_bytes(&it, packed);
        packs(mqtt_pack, &it, packed, size, 1);
    }
    free(part);
}

/* Packs random fields, some of which do not fit, and parses them again. */
static void random_mqtt(void)
{
    struct mqtt_header it = {0, 0, 0, 0, 0}, again;
    uint8_t b[MOST];
    size_t size, taken;
    it.kind = next() % 17;
    it.again = next() & 1;
    it.quality = next() % 16 ? next() & 3 : 4 + (next() & 3);
    it.retain = next() & 1;
    it.remaining = (uint32_t)(next() >> (32 + next() % 32));
    size = mqtt_bytes(&it, b);
    if (it.kind == 0 || it.kind > 15 || it.quality > 3) {
        packs(mqtt_pack, &it, b, size, 0);
        return;
    }
    packs(mqtt_pack, &it, b, size, 1);
    HOLDS(mqtt_header_parse(b, MOST, &again, &taken) == MQTT_HEADER_OK && taken == size && same_mqtt(&it, &again));
    calls++;
}

/* ---- Ethernet */

static int ethernet_pack(const void *it, uint8_t *buffer, size_t length, size_t *written)
{
    return ethernet_header_pack(it, buffer, length, written);
}

/* The bytes of fields. */
static size_t ethernet_bytes(const struct ethernet_header *it, uint8_t *b)
{
    memcpy(b, it->target, 6);
    memcpy(b + 6, it->source, 6);
    b[12] = (uint8_t)(it->kind >> 8);
    b[13] = (uint8_t)it->kind;
    if (!it->has_tag)
        return 14;
    b[14] = (uint8_t)(it->tag.priority << 5 | it->tag.drop_eligible << 4 | it->tag.vlan >> 8);
    b[15] = (uint8_t)it->tag.vlan;
    b[16] = (uint8_t)(it->tag.kind >> 8);
    b[17] = (uint8_t)it->tag.kind;
    return 18;
}

/* Parses bytes. */
static void ethernet_parses(const uint8_t *bytes, size_t length)
{
    struct ethernet_header it, before;
    uint8_t packed[MOST], *part = block(bytes, length);
    size_t taken = 99, size = length > 13 && bytes[12] == 0x81 && !bytes[13] ? 18 : 14;
    int status = length < size ? ETHERNET_HEADER_END_OF_INPUT : ETHERNET_HEADER_OK;
    memset(&it, 0xA5, sizeof it);
    memcpy(&before, &it, sizeof it);
    HOLDS((int)ethernet_header_parse(part, length, &it, &taken) == status);
    HOLDS(taken == (status ? 0 : size));
    calls++;
    if (status)
        HOLDS(!memcmp(&it, &before, sizeof it));
    else {
        HOLDS(ethernet_bytes(&it, packed) == size && !memcmp(packed, bytes, size));
        packs(ethernet_pack, &it, packed, size, 1);
    }
    free(part);
}

/* Packs random fields, some of which do not fit, and parses them again. */
static void random_ethernet(void)
{
    struct ethernet_header it, again;
    uint8_t b[MOST] = {0};
    size_t size, taken;
    memset(&it, 0, sizeof it);
    for (int i = 0; i < 6; i++) {
        it.target[i] = (uint8_t)next();
        it.source[i] = (uint8_t)next();
    }
    it.kind = next() & 1 ? ETHERNET_HEADER_ETHER_TYPE_VLAN : (uint16_t)next();
    it.has_tag = next() % 8 ? it.kind == ETHERNET_HEADER_ETHER_TYPE_VLAN : next() & 1;
    it.tag.priority = next() % 16 ? next() & 7 : (uint8_t)next();
    it.tag.drop_eligible = next() & 1;
    it.tag.vlan = next() % 16 ? next() & 4095 : (uint16_t)next();
    it.tag.kind = (uint16_t)next();
    size = ethernet_bytes(&it, b);
    if (it.has_tag != (it.kind == 0x8100) || (it.has_tag && (it.tag.priority > 7 || it.tag.vlan > 4095))) {
        packs(ethernet_pack, &it, b, size, 0);
        return;
    }
    packs(ethernet_pack, &it, b, size, 1);
    HOLDS(ethernet_header_parse(b, MOST, &again, &taken) == ETHERNET_HEADER_OK && taken == size);
    memset(b, 0, MOST);
    HOLDS(ethernet_bytes(&it, b) == size && again.has_tag == it.has_tag && again.kind == it.kind);
    calls++;
}

/* ---- CoAP, with a list */

static int coap_pack(const void *it, uint8_t *buffer, size_t length, size_t *written)
{
    return coap_header_pack(it, buffer, length, written);
}

/* The bytes of fields. */
static size_t coap_bytes(const struct coap_header *it, uint8_t *b)
{
    b[0] = (uint8_t)(1 << 6 | it->kind << 4 | it->token.length);
    b[1] = (uint8_t)(it->class_ << 5 | it->detail);
    b[2] = (uint8_t)(it->id >> 8);
    b[3] = (uint8_t)it->id;
    if (it->token.length)
        memcpy(b + 4, it->token.items, it->token.length);
    return 4 + it->token.length;
}

/* Parses bytes with room for each number of items, each storage at the end of its block. */
static void coap_parses(const uint8_t *bytes, size_t length)
{
    size_t count = length ? bytes[0] & 15 : 0;
    int status = length && bytes[0] >> 6 != 1 ? COAP_HEADER_OTHER_VERSION
        : !length || length < 4 + count ? COAP_HEADER_END_OF_INPUT
                                        : COAP_HEADER_OK;
    for (size_t room = 0; room <= 16; room++) {
        struct coap_header it, before;
        uint8_t fill[16], packed[MOST], *part = block(bytes, length), *storage;
        size_t taken = 99, wanted = status ? 0 : room < count ? count : 4 + count;
        memset(fill, 0xEE, sizeof fill);
        storage = block(fill, room);
        memset(&it, 0xA5, sizeof it);
        it.token.items = room ? storage : NULL;
        it.token.capacity = room;
        memcpy(&before, &it, sizeof it);
        HOLDS((int)coap_header_parse(part, length, &it, &taken)
            == (status ? status : room < count ? COAP_HEADER_NO_ROOM_TOKEN : COAP_HEADER_OK));
        HOLDS(taken == wanted);
        calls++;
        if (status || room < count)
            HOLDS(!memcmp(&it, &before, sizeof it));
        else {
            HOLDS(it.token.length == count && coap_bytes(&it, packed) == taken && !memcmp(packed, bytes, taken));
            HOLDS(!memcmp(storage + count, fill, room - count));
            packs(coap_pack, &it, packed, taken, 1);
        }
        free(part);
        free(storage);
    }
}

/* Packs random fields, some of which do not fit. */
static void random_coap(void)
{
    uint8_t items[17], b[MOST];
    struct coap_header it = {0, 0, 0, 0, {NULL, 0, 0}};
    for (int i = 0; i < 17; i++)
        items[i] = (uint8_t)next();
    it.kind = next() & 3;
    it.class_ = next() % 16 ? next() & 7 : (uint8_t)next();
    it.detail = next() % 16 ? next() & 31 : (uint8_t)next();
    it.id = (uint16_t)next();
    it.token.items = items;
    it.token.length = next() % 18;
    packs(coap_pack, &it, b, coap_bytes(&it, b), it.class_ < 8 && it.detail < 32 && it.token.length < 16);
}

/* Null pointers. */
static void coap_nulls(void)
{
    struct coap_header it = {0, 0, 1, 0, {NULL, 1, 1}};
    uint8_t bytes[5] = {0x41, 1, 0, 0, 9};
    size_t n = 99;
    HOLDS(coap_header_parse(bytes, 5, &it, &n) == COAP_HEADER_NULL && n == 0);
    HOLDS(coap_header_pack(&it, bytes, 5, &n) == COAP_HEADER_NULL && n == 0);
    it.token.capacity = it.token.length = 0;
    HOLDS(coap_header_parse(bytes, 5, &it, &n) == COAP_HEADER_NO_ROOM_TOKEN && n == 1);
    HOLDS(coap_header_pack(&it, bytes, 5, &n) == COAP_HEADER_OK && n == 4 && bytes[4] == 9);
    calls += 4;
}

/* ---- ICMP, with a choice */

static int icmp_pack(const void *it, uint8_t *buffer, size_t length, size_t *written)
{
    return icmp_header_pack(it, buffer, length, written);
}

/* The bytes of fields. */
static size_t icmp_bytes(const struct icmp_header *it, uint8_t *b)
{
    const struct icmp_ids *ids = &it->body.as.echo;
    b[0] = it->body.as.other;
    b[1] = it->code;
    b[2] = (uint8_t)(it->checksum >> 8);
    b[3] = (uint8_t)it->checksum;
    switch (it->body.which) {
    case ICMP_HEADER_BODY_OTHER:
        return 4;
    case ICMP_HEADER_BODY_REDIRECT:
        b[0] = 5;
        memcpy(b + 4, it->body.as.redirect.address, 4);
        return 8;
    case ICMP_HEADER_BODY_ECHO_REPLY:
        b[0] = 0;
        ids = &it->body.as.echo_reply;
        break;
    case ICMP_HEADER_BODY_ECHO:
        b[0] = 8;
        break;
    }
    b[4] = (uint8_t)(ids->identifier >> 8);
    b[5] = (uint8_t)ids->identifier;
    b[6] = (uint8_t)(ids->sequence >> 8);
    b[7] = (uint8_t)ids->sequence;
    return 8;
}

/* Parses bytes. */
static void icmp_parses(const uint8_t *bytes, size_t length)
{
    struct icmp_header it, before;
    uint8_t packed[MOST], *part = block(bytes, length);
    size_t taken = 99, size = length && (bytes[0] == 0 || bytes[0] == 5 || bytes[0] == 8) ? 8 : 4;
    int status = length < size ? ICMP_HEADER_END_OF_INPUT : ICMP_HEADER_OK;
    memset(&it, 0xA5, sizeof it);
    memcpy(&before, &it, sizeof it);
    HOLDS((int)icmp_header_parse(part, length, &it, &taken) == status);
    HOLDS(taken == (status ? 0 : size));
    calls++;
    if (status)
        HOLDS(!memcmp(&it, &before, sizeof it));
    else {
        HOLDS(it.body.which == (bytes[0] == 0 ? ICMP_HEADER_BODY_ECHO_REPLY
                : bytes[0] == 5               ? ICMP_HEADER_BODY_REDIRECT
                : bytes[0] == 8               ? ICMP_HEADER_BODY_ECHO
                                              : ICMP_HEADER_BODY_OTHER));
        HOLDS(icmp_bytes(&it, packed) == size && !memcmp(packed, bytes, size));
        packs(icmp_pack, &it, packed, size, 1);
    }
    free(part);
}

/* Packs random fields, some of which do not fit, and parses them again. */
static void random_icmp(void)
{
    struct icmp_header it, again;
    uint8_t b[MOST] = {0}, other[MOST];
    unsigned which = next() % 5;
    size_t size, taken;
    memset(&it, (int)(next() & 255), sizeof it);
    it.code = (uint8_t)next();
    it.checksum = (uint16_t)next();
    it.body.which = (enum icmp_header_body_case)which;
    if (which == ICMP_HEADER_BODY_OTHER)
        it.body.as.other = next() & 1 ? next() % 10 : (uint8_t)next();
    size = icmp_bytes(&it, b);
    if (which > 3 || (which == ICMP_HEADER_BODY_OTHER && (b[0] == 0 || b[0] == 5 || b[0] == 8))) {
        packs(icmp_pack, &it, b, size, 0);
        return;
    }
    packs(icmp_pack, &it, b, size, 1);
    HOLDS(icmp_header_parse(b, MOST, &again, &taken) == ICMP_HEADER_OK && taken == size);
    HOLDS(again.body.which == it.body.which && icmp_bytes(&again, other) == size && !memcmp(other, b, size));
    calls++;
}

/* ---- SOCKS, with bytes of stated sizes */

static int socks_pack(const void *it, uint8_t *buffer, size_t length, size_t *written)
{
    return socks_login_pack(it, buffer, length, written);
}

/* The bytes of fields. */
static size_t socks_bytes(const struct socks_login *it, uint8_t *b)
{
    size_t size = 2;
    b[0] = 1;
    b[1] = (uint8_t)it->name.length;
    for (size_t i = 0; i < it->name.length; i++)
        b[size++] = it->name.items[i];
    b[size++] = (uint8_t)it->password.length;
    for (size_t i = 0; i < it->password.length; i++)
        b[size++] = it->password.items[i];
    return size;
}

/* Parses bytes with some room for the name and the password, each storage at the end of its block. */
static void socks_rooms(const uint8_t *bytes, size_t length, int status, size_t name_room, size_t password_room)
{
    struct socks_login it, before;
    uint8_t fill[300], packed[MOST], *part = block(bytes, length), *name, *password;
    size_t taken = 99, n = status ? 0 : bytes[1], m = status ? 0 : bytes[2 + n];
    int wanted = status        ? status
        : name_room < n        ? SOCKS_LOGIN_NO_ROOM_NAME
        : password_room < m    ? SOCKS_LOGIN_NO_ROOM_PASSWORD
                               : SOCKS_LOGIN_OK;
    memset(fill, 0xEE, sizeof fill);
    name = block(fill, name_room);
    password = block(fill, password_room);
    memset(&it, 0xA5, sizeof it);
    it.name.items = name_room ? name : NULL;
    it.name.capacity = name_room;
    it.password.items = password;
    it.password.capacity = password_room;
    memcpy(&before, &it, sizeof it);
    HOLDS((int)socks_login_parse(part, length, &it, &taken) == wanted);
    HOLDS(taken == (status ? 0 : name_room < n ? n : password_room < m ? m : 3 + n + m));
    calls++;
    if (wanted)
        HOLDS(!memcmp(&it, &before, sizeof it));
    else {
        HOLDS(it.name.length == n && it.password.length == m);
        HOLDS(socks_bytes(&it, packed) == taken && !memcmp(packed, bytes, taken));
        HOLDS(!memcmp(name + n, fill, name_room - n) && !memcmp(password + m, fill, password_room - m));
        packs(socks_pack, &it, packed, taken, 1);
    }
    free(part);
    free(name);
    free(password);
}

/* Parses bytes, of which there are at most MOST. */
static void socks_parses(const uint8_t *bytes, size_t length)
{
    size_t n = length > 1 ? bytes[1] : 0, m = length > 2 + n ? bytes[2 + n] : 0;
    int status = length && bytes[0] != 1                       ? SOCKS_LOGIN_OTHER_VERSION
        : length < 2 || length < 3 + n || length < 3 + n + m ? SOCKS_LOGIN_END_OF_INPUT
                                                               : SOCKS_LOGIN_OK;
    for (size_t i = 0; i < 3; i++)
        for (size_t j = 0; j < 3; j++)
            socks_rooms(bytes, length, status, i + n ? i + n - 1 : 0, j + m ? j + m - 1 : 0);
}

/* Packs random fields, some of which do not fit. */
static void random_socks(void)
{
    uint8_t items[300], b[700];
    struct socks_login it;
    size_t most = next() % 8 ? 30 : 300;
    for (int i = 0; i < 300; i++)
        items[i] = (uint8_t)next();
    it.name.items = items;
    it.name.length = next() % most;
    it.password.items = items + 1;
    it.password.length = next() % 30;
    if (it.name.length > 255 || socks_bytes(&it, b) <= MOST)
        packs(socks_pack, &it, b, 3 + it.name.length + it.password.length, it.name.length < 256);
}

/* ---- STUN, with two constants */

static int stun_pack(const void *it, uint8_t *buffer, size_t length, size_t *written)
{
    return stun_header_pack(it, buffer, length, written);
}

/* Parses bytes, and packs their fields again. */
static void stun_parses(const uint8_t *bytes, size_t length)
{
    struct stun_header it, before;
    uint8_t *part = block(bytes, length);
    int is_cookie = length > 7 && !memcmp(bytes + 4, "\x21\x12\xA4\x42", 4);
    int status = length && bytes[0] > 63 ? STUN_HEADER_NO_STUN
        : length > 7 && !is_cookie       ? STUN_HEADER_NO_COOKIE
        : length < STUN_HEADER_SIZE      ? STUN_HEADER_END_OF_INPUT
                                         : STUN_HEADER_OK;
    memset(&it, 0xA5, sizeof it);
    memcpy(&before, &it, sizeof it);
    HOLDS((int)stun_header_parse(part, length, &it) == status);
    calls++;
    if (status)
        HOLDS(!memcmp(&it, &before, sizeof it));
    else {
        HOLDS(it.kind == (bytes[0] << 8 | bytes[1]) && it.length == (bytes[2] << 8 | bytes[3]));
        HOLDS(!memcmp(it.id, bytes + 8, 12) && !stun_header_misfit(&it));
        packs(stun_pack, &it, bytes, STUN_HEADER_SIZE, 1);
        it.kind |= 1 << 14;
        packs(stun_pack, &it, bytes, STUN_HEADER_SIZE, 0);
        HOLDS(!strcmp(stun_header_misfit(&it), "kind"));
    }
    free(part);
}

/* ---- RTCP, with a list of parts */

static int rtcp_pack(const void *it, uint8_t *buffer, size_t length, size_t *written)
{
    return rtcp_receiver_report_pack(it, buffer, length, written);
}

/* Writes a number of 32 bits. */
static void put_word(uint8_t *b, uint32_t it)
{
    for (int i = 0; i < 4; i++)
        b[i] = (uint8_t)(it >> (24 - 8 * i));
}

/* The number of 32 bits at a place. */
static uint32_t word(const uint8_t *b)
{
    return (uint32_t)b[0] << 24 | (uint32_t)b[1] << 16 | (uint32_t)b[2] << 8 | b[3];
}

/* The bytes of fields. */
static size_t rtcp_bytes(const struct rtcp_receiver_report *it, uint8_t *b)
{
    size_t size = 8;
    b[0] = (uint8_t)(0x80 | it->padding << 5 | (it->reports.length & 31));
    b[1] = 201;
    b[2] = (uint8_t)(it->length >> 8);
    b[3] = (uint8_t)it->length;
    put_word(b + 4, it->ssrc);
    for (size_t i = 0; i < it->reports.length; i++, size += 24) {
        const struct report_block *one = &it->reports.items[i];
        put_word(b + size, one->ssrc);
        put_word(b + size + 4, (uint32_t)one->fraction_lost << 24 | ((uint32_t)one->lost & 0xFFFFFF));
        put_word(b + size + 8, one->highest);
        put_word(b + size + 12, one->jitter);
        put_word(b + size + 16, one->last_report);
        put_word(b + size + 20, one->delay);
    }
    return size;
}

/* Compares a report block with its bytes. */
static int same_block(const struct report_block *it, const uint8_t *b)
{
    int32_t lost = (int32_t)(word(b + 4) & 0xFFFFFF);
    lost -= lost >> 23 ? 1 << 24 : 0;
    return it->ssrc == word(b) && it->fraction_lost == b[4] && it->lost == lost && it->highest == word(b + 8)
        && it->jitter == word(b + 12) && it->last_report == word(b + 16) && it->delay == word(b + 20);
}

static int block_pack(const void *it, uint8_t *buffer, size_t length, size_t *written)
{
    return report_block_pack(it, buffer, length, written);
}

/* Parses the bytes of a report block. */
static void block_parses(const uint8_t *bytes, size_t length)
{
    struct report_block it, before;
    uint8_t *part = block(bytes, length);
    int status = length < REPORT_BLOCK_SIZE ? REPORT_BLOCK_END_OF_INPUT : REPORT_BLOCK_OK;
    memset(&it, 0xA5, sizeof it);
    memcpy(&before, &it, sizeof it);
    HOLDS((int)report_block_parse(part, length, &it) == status);
    calls++;
    if (status)
        HOLDS(!memcmp(&it, &before, sizeof it));
    else {
        HOLDS(same_block(&it, bytes));
        packs(block_pack, &it, bytes, REPORT_BLOCK_SIZE, 1);
    }
    free(part);
}

/* Parses bytes with some room for the report blocks, with the storage at the end of its block. */
static void rtcp_room(const uint8_t *bytes, size_t length, int status, size_t room)
{
    struct rtcp_receiver_report it, before;
    size_t count = status ? 0 : bytes[0] & 31, taken = 99;
    uint8_t packed[8 + 24 * BLOCKS], fill[sizeof(struct report_block)], *part = block(bytes, length);
    struct report_block *storage = calloc(room ? room : 1, sizeof *storage);
    HOLDS(storage != NULL);
    memset(fill, 0xEE, sizeof fill);
    for (size_t i = 0; i < room; i++)
        memcpy(&storage[i], fill, sizeof fill);
    memset(&it, 0xA5, sizeof it);
    it.reports.items = room ? storage : NULL;
    it.reports.capacity = room;
    memcpy(&before, &it, sizeof it);
    HOLDS((int)rtcp_receiver_report_parse(part, length, &it, &taken)
        == (status ? status : room < count ? RTCP_RECEIVER_REPORT_NO_ROOM_REPORTS : RTCP_RECEIVER_REPORT_OK));
    HOLDS(taken == (status ? 0 : room < count ? count : 8 + 24 * count));
    calls++;
    if (status || room < count)
        HOLDS(!memcmp(&it, &before, sizeof it));
    else {
        HOLDS(it.padding == (bytes[0] >> 5 & 1) && it.length == (bytes[2] << 8 | bytes[3]));
        HOLDS(it.ssrc == word(bytes + 4) && it.reports.length == count);
        for (size_t i = 0; i < count; i++)
            HOLDS(same_block(&storage[i], bytes + 8 + 24 * i));
        for (size_t i = count; i < room; i++)
            HOLDS(!memcmp(&storage[i], fill, sizeof fill));
        HOLDS(rtcp_bytes(&it, packed) == taken && !memcmp(packed, bytes, taken));
        if (taken <= MOST)
            packs(rtcp_pack, &it, packed, taken, 1);
    }
    free(part);
    free(storage);
}

/* Parses bytes with room for fewer report blocks than there are, for just so many, and for one more. */
static void rtcp_parses(const uint8_t *bytes, size_t length)
{
    size_t count = length ? bytes[0] & 31 : 0;
    int status = length && bytes[0] >> 6 != 2 ? RTCP_RECEIVER_REPORT_OTHER_VERSION
        : length > 1 && bytes[1] != 201       ? RTCP_RECEIVER_REPORT_OTHER_PACKET
        : length < 8 + 24 * count             ? RTCP_RECEIVER_REPORT_END_OF_INPUT
                                              : RTCP_RECEIVER_REPORT_OK;
    for (size_t room = count > 2 ? count - 2 : 0; room <= count + 1; room++)
        rtcp_room(bytes, length, status, room);
}

/* Packs random fields, some of which do not fit, and parses them again; if `all`, with buffers of each length too. */
static void random_rtcp(int all)
{
    struct report_block items[BLOCKS], others[BLOCKS];
    struct rtcp_receiver_report it, again;
    uint8_t b[8 + 24 * BLOCKS] = {0}, whole[8 + 24 * BLOCKS];
    size_t size, n = 99;
    int fits;
    it.padding = next() & 1;
    it.length = (uint16_t)next();
    it.ssrc = (uint32_t)next();
    it.reports.items = items;
    it.reports.length = next() % 8 ? next() % 4 : next() % (BLOCKS + 1);
    fits = it.reports.length < BLOCKS;
    for (size_t i = 0; i < it.reports.length; i++) {
        struct report_block *one = &items[i];
        one->ssrc = (uint32_t)next();
        one->fraction_lost = (uint8_t)next();
        one->lost = (int32_t)(next() & 0xFFFFFF) - (1 << 23);
        if (next() % 32 == 0)
            one->lost = next() & 1 ? 1 << 23 : -(1 << 23) - 1;
        fits = fits && one->lost >= -(1 << 23) && one->lost < 1 << 23;
        one->highest = (uint32_t)next();
        one->jitter = (uint32_t)next();
        one->last_report = (uint32_t)next();
        one->delay = (uint32_t)next();
    }
    size = rtcp_bytes(&it, b);
    if (all && (!fits || size <= MOST))
        packs(rtcp_pack, &it, b, size, fits);
    calls++;
    if (!fits) {
        HOLDS(rtcp_receiver_report_pack(&it, whole, sizeof whole, &n) == RTCP_RECEIVER_REPORT_DOES_NOT_FIT && n == 0);
        return;
    }
    HOLDS(rtcp_receiver_report_pack(&it, whole, size - 1, &n) == RTCP_RECEIVER_REPORT_NO_ROOM && n == 0);
    HOLDS(rtcp_receiver_report_pack(&it, whole, sizeof whole, &n) == RTCP_RECEIVER_REPORT_OK && n == size);
    HOLDS(!memcmp(whole, b, size));
    again.reports.items = others;
    again.reports.capacity = BLOCKS;
    HOLDS(rtcp_receiver_report_parse(b, sizeof b, &again, &n) == RTCP_RECEIVER_REPORT_OK && n == size);
    HOLDS(rtcp_bytes(&again, whole) == size && !memcmp(whole, b, size));
    calls += 2;
}

/* Null pointers. */
static void rtcp_nulls(void)
{
    struct rtcp_receiver_report it = {0, 7, 1, {NULL, 1, 1}};
    uint8_t bytes[32] = {0x81, 201, 0, 7};
    size_t n = 99;
    HOLDS(rtcp_receiver_report_parse(bytes, 32, &it, &n) == RTCP_RECEIVER_REPORT_NULL && n == 0);
    HOLDS(rtcp_receiver_report_pack(&it, bytes, 32, &n) == RTCP_RECEIVER_REPORT_NULL && n == 0);
    it.reports.capacity = it.reports.length = 0;
    HOLDS(rtcp_receiver_report_parse(bytes, 32, &it, &n) == RTCP_RECEIVER_REPORT_NO_ROOM_REPORTS && n == 1);
    HOLDS(rtcp_receiver_report_pack(&it, bytes, 32, &n) == RTCP_RECEIVER_REPORT_OK && n == 8 && bytes[0] == 0x80);
    calls += 4;
}

/* Null pointers. */
static void nulls(void)
{
    struct mqtt_header it = {3, true, 1, false, 5};
    uint8_t bytes[4] = {0x30, 0, 0, 0};
    size_t n = 99;
    HOLDS(mqtt_header_parse(NULL, 0, &it, &n) == MQTT_HEADER_END_OF_INPUT && n == 0);
    HOLDS(mqtt_header_parse(NULL, 2, &it, &n) == MQTT_HEADER_NULL && it.remaining == 5);
    n = 99;
    HOLDS(mqtt_header_parse(bytes, 2, NULL, &n) == MQTT_HEADER_NULL && n == 0);
    HOLDS(mqtt_header_parse(bytes, 2, &it, NULL) == MQTT_HEADER_OK && it.remaining == 0);
    HOLDS(mqtt_header_pack(&it, NULL, 0, &n) == MQTT_HEADER_NO_ROOM && n == 0);
    HOLDS(mqtt_header_pack(&it, NULL, 2, &n) == MQTT_HEADER_NULL && n == 0);
    HOLDS(mqtt_header_pack(NULL, bytes, 2, &n) == MQTT_HEADER_NULL && n == 0);
    HOLDS(mqtt_header_pack(&it, bytes, 2, NULL) == MQTT_HEADER_OK && bytes[0] == 0x30);
    HOLDS(!strcmp(mqtt_header_status_text(MQTT_HEADER_NO_ROOM), "the buffer is too short"));
    calls += 9;
}

int main(void)
{
    char line[512];
    while (fgets(line, sizeof line, stdin)) {
        uint8_t bytes[200];
        size_t length = 0;
        unsigned one;
        char *at = strchr(line, ' ');
        HOLDS(at != NULL);
        for (at++; sscanf(at, "%2x", &one) == 1; at += 2)
            bytes[length++] = (uint8_t)one;
        for (size_t part = 0; part <= length; part++) {
            if (line[0] == 'm')
                mqtt_parses(bytes, part);
            else if (line[0] == 'e')
                ethernet_parses(bytes, part);
            else if (line[0] == 'c')
                coap_parses(bytes, part);
            else if (line[0] == 'i')
                icmp_parses(bytes, part);
            else if (!strncmp(line, "socks", 5))
                socks_parses(bytes, part);
            else if (!strncmp(line, "stun", 4))
                stun_parses(bytes, part);
            else if (!strncmp(line, "rtcp", 4))
                rtcp_parses(bytes, part);
            else if (!strncmp(line, "report", 6))
                block_parses(bytes, part);
        }
    }
    for (unsigned k = 0; k < 10000; k++) {
        uint8_t bytes[18], packet[80];
        for (unsigned i = 0; i < 18; i++)
            bytes[i] = (uint8_t)next();
        mqtt_parses(bytes, next() % 9);
        bytes[12] = k % 2 ? bytes[12] : 0x81;
        bytes[13] = k % 2 ? bytes[13] : 0;
        ethernet_parses(bytes, 10 + next() % 9);
        random_mqtt();
        random_ethernet();
        random_coap();
        bytes[0] = (uint8_t)(k % 4 ? 0x40 | (bytes[0] & 63) : bytes[0]);
        if (k % 8 == 0)
            coap_parses(bytes, next() % 19);
        bytes[0] = (uint8_t)(k % 4 ? bytes[0] % 10 : bytes[0]);
        icmp_parses(bytes, next() % 10);
        random_icmp();
        random_socks();
        bytes[0] = (uint8_t)(k % 4 ? 1 : bytes[0]);
        bytes[1] %= 16;
        bytes[2 + bytes[1]] %= 32;
        socks_parses(bytes, next() % 19);
        for (unsigned i = 0; i < sizeof packet; i++)
            packet[i] = (uint8_t)next();
        packet[0] = (uint8_t)(k % 8 ? 0x80 | (packet[0] & 0x23) : packet[0]);
        packet[1] = k % 8 == 1 ? packet[1] : 201;
        rtcp_parses(packet, next() % (sizeof packet + 1));
        packet[0] &= k % 8 ? 63 : 255;
        memcpy(packet + 4, "\x21\x12\xA4\x42", k % 4 ? 4 : 3);
        stun_parses(packet, next() % 24);
        block_parses(packet, next() % 2 ? 24 : next() % 30);
        for (int i = 0; i < 10; i++)
            random_rtcp(i == 0);
    }
    nulls();
    coap_nulls();
    rtcp_nulls();
    printf("%lu calls\n", calls);
    return 0;
}
