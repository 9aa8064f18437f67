/* Calls the library with the rows of standard input, on each line the name of a format and bytes in hex, and with random
 * values. Plain shifts and sums say what is right. Prints the number of calls. */
#include "icmp_message.h"
#include "ipv4_packet.h"
#include "udp_datagram.h"

#include <stdio.h>
#include <stdlib.h>
#include <string.h>

enum { ROUNDS = 30000, LONGEST = 128, DATA = 64, UNTOUCHED = 0x5A };

static unsigned long calls;
static uint64_t state = 88172645463325252u;

static uint64_t next(void)
{
    state ^= state << 13;
    state ^= state >> 7;
    state ^= state << 17;
    return state;
}

static size_t below(size_t most) { return (size_t)(next() % most); }

static void fill(uint8_t *it, size_t count)
{
    for (size_t i = 0; i < count; i++)
        it[i] = (uint8_t)next();
}

#define CHECK(condition) check((condition), #condition, __LINE__)

static void check(bool holds, const char *condition, int line)
{
    if (!holds) {
        printf("line %d: %s\n", line, condition);
        exit(1);
    }
}

static unsigned two(const uint8_t *it) { return (unsigned)it[0] << 8 | it[1]; }

static void put_two(uint8_t *it, unsigned value)
{
    it[0] = (uint8_t)(value >> 8);
    it[1] = (uint8_t)value;
}

/* Returns the sum of the words of bytes, with a zero after an odd number of them, added to another sum. */
static unsigned long words(unsigned long sum, const uint8_t *it, size_t count)
{
    for (size_t i = 0; i < count; i++)
        sum += i % 2 ? it[i] : (unsigned long)it[i] << 8;
    return sum;
}

static unsigned inverted(unsigned long sum)
{
    while (sum >> 16)
        sum = (sum & 0xFFFF) + (sum >> 16);
    return 0xFFFF - (unsigned)sum;
}

/* ---- UDP */

static unsigned udp_sum(const struct ipv4_pseudo *pseudo, const uint8_t *bytes, size_t size)
{
    unsigned long sum = words(words(0, pseudo->source, 4), pseudo->target, 4) + pseudo->protocol + pseudo->length;
    unsigned found = inverted(words(words(sum, bytes, 6), bytes + 8, size - 8));
    return found ? found : 0xFFFF;
}

static enum udp_datagram_status udp_wanted(
    const uint8_t *bytes, size_t length, const struct ipv4_pseudo *pseudo, size_t room)
{
    size_t size;
    if (length < 8)
        return UDP_DATAGRAM_END_OF_INPUT;
    size = two(bytes + 4);
    if (size < 8)
        return UDP_DATAGRAM_SHORT_LENGTH;
    if (length < size)
        return UDP_DATAGRAM_END_OF_INPUT;
    if (room < size - 8)
        return UDP_DATAGRAM_NO_ROOM_DATA;
    return udp_sum(pseudo, bytes, size) == two(bytes + 6) ? UDP_DATAGRAM_OK : UDP_DATAGRAM_WRONG_SUM;
}

static void udp_parsed(const uint8_t *bytes, size_t length, const struct ipv4_pseudo *pseudo, size_t room)
{
    uint8_t data[DATA];
    struct udp_datagram it, was;
    size_t taken = 99;
    enum udp_datagram_status wanted = udp_wanted(bytes, length, pseudo, room);
    memset(&it, UNTOUCHED, sizeof it);
    memset(data, UNTOUCHED, sizeof data);
    it.pseudo = *pseudo;
    it.data.items = data;
    it.data.capacity = room;
    was = it;
    calls++;
    CHECK(udp_datagram_parse(bytes, length, &it, &taken) == wanted);
    if (wanted != UDP_DATAGRAM_OK) {
        CHECK(!memcmp(&it, &was, sizeof it));
        CHECK(taken == (wanted == UDP_DATAGRAM_NO_ROOM_DATA ? two(bytes + 4) - 8u : 0));
        return;
    }
    CHECK(taken == two(bytes + 4) && it.source == two(bytes) && it.target == two(bytes + 2));
    CHECK(it.data.length == taken - 8 && !memcmp(data, bytes + 8, it.data.length));
    for (size_t i = it.data.length; i < DATA; i++)
        CHECK(data[i] == UNTOUCHED);
}

static void udp_packed(const struct udp_datagram *it, const uint8_t *bytes, size_t size)
{
    uint8_t buffer[LONGEST];
    size_t written = 99;
    memset(buffer, UNTOUCHED, sizeof buffer);
    calls += 2;
    CHECK(udp_datagram_pack(it, buffer, size - 1, &written) == UDP_DATAGRAM_NO_ROOM && written == 0);
    CHECK(buffer[0] == UNTOUCHED && buffer[size - 2] == UNTOUCHED);
    CHECK(udp_datagram_pack(it, buffer, sizeof buffer, &written) == UDP_DATAGRAM_OK && written == size);
    CHECK(!memcmp(buffer, bytes, size) && buffer[size] == UNTOUCHED);
}

static void udp(void)
{
    uint8_t bytes[LONGEST];
    struct ipv4_pseudo pseudo;
    struct udp_datagram it;
    size_t count = below(DATA + 1), size = count + 8;
    fill(bytes, sizeof bytes);
    fill(pseudo.source, 4);
    fill(pseudo.target, 4);
    pseudo.protocol = (uint8_t)next();
    pseudo.length = (uint16_t)next();
    put_two(bytes + 4, (unsigned)size);
    put_two(bytes + 6, udp_sum(&pseudo, bytes, size));
    it.pseudo = pseudo;
    it.source = (uint16_t)two(bytes);
    it.target = (uint16_t)two(bytes + 2);
    it.data.items = bytes + 8;
    it.data.length = it.data.capacity = count;
    udp_packed(&it, bytes, size);
    udp_parsed(bytes, size, &pseudo, count);
    udp_parsed(bytes, size + 3, &pseudo, DATA);
    udp_parsed(bytes, below(size), &pseudo, DATA);
    if (count)
        udp_parsed(bytes, size, &pseudo, count - 1);
    bytes[below(size)] ^= (uint8_t)(1 << below(8));
    udp_parsed(bytes, size, &pseudo, below(DATA + 1));
    pseudo.protocol ^= 1;
    udp_parsed(bytes, size, &pseudo, DATA);
}

/* ---- IPv4 */

static unsigned ipv4_sum(const uint8_t *bytes, size_t size)
{
    return inverted(words(words(0, bytes, 10), bytes + 12, size - 12));
}

static enum ipv4_packet_status ipv4_wanted(const uint8_t *bytes, size_t length, size_t room)
{
    size_t size;
    if (length < 1)
        return IPV4_PACKET_END_OF_INPUT;
    if (bytes[0] >> 4 != 4)
        return IPV4_PACKET_OTHER_VERSION;
    if (length >= 7 && bytes[6] & 0x80)
        return IPV4_PACKET_RESERVED_SET;
    size = 4 * (bytes[0] & 15u);
    if (length < 20)
        return IPV4_PACKET_END_OF_INPUT;
    if (size < 20)
        return IPV4_PACKET_SHORT_HEADER;
    if (length < size)
        return IPV4_PACKET_END_OF_INPUT;
    if (room < size - 20)
        return IPV4_PACKET_NO_ROOM_OPTIONS;
    return ipv4_sum(bytes, size) == two(bytes + 10) ? IPV4_PACKET_OK : IPV4_PACKET_WRONG_SUM;
}

static void ipv4_parsed(const uint8_t *bytes, size_t length, size_t room)
{
    uint8_t options[DATA], buffer[LONGEST];
    struct ipv4_packet it;
    size_t taken = 99, written = 99;
    enum ipv4_packet_status wanted = ipv4_wanted(bytes, length, room);
    memset(&it, UNTOUCHED, sizeof it);
    it.options.items = options;
    it.options.capacity = room;
    calls++;
    CHECK(ipv4_packet_parse(bytes, length, &it, &taken) == wanted);
    if (wanted != IPV4_PACKET_OK) {
        CHECK(taken == (wanted == IPV4_PACKET_NO_ROOM_OPTIONS ? 4 * (bytes[0] & 15u) - 20u : 0));
        return;
    }
    CHECK(taken == 4 * (bytes[0] & 15u) && it.options.length == taken - 20 && it.service == bytes[1]);
    CHECK(it.length == two(bytes + 2) && it.id == two(bytes + 4) && it.keep_whole == (bytes[6] >> 6 & 1));
    CHECK(it.more == (bytes[6] >> 5 & 1) && it.offset == (two(bytes + 6) & 0x1FFF) && it.ttl == bytes[8]);
    CHECK(it.protocol == bytes[9] && !memcmp(it.source, bytes + 12, 4) && !memcmp(it.target, bytes + 16, 4));
    CHECK(!memcmp(options, bytes + 20, it.options.length));
    memset(buffer, UNTOUCHED, sizeof buffer);
    calls += 3;
    CHECK(ipv4_packet_pack(&it, buffer, taken - 1, &written) == IPV4_PACKET_NO_ROOM && buffer[0] == UNTOUCHED);
    CHECK(ipv4_packet_pack(&it, buffer, sizeof buffer, &written) == IPV4_PACKET_OK && written == taken);
    CHECK(!memcmp(buffer, bytes, taken) && buffer[taken] == UNTOUCHED);
    it.offset |= 0x2000;
    CHECK(ipv4_packet_pack(&it, buffer, sizeof buffer, &written) == IPV4_PACKET_DOES_NOT_FIT && written == 0);
    CHECK(!strcmp(ipv4_packet_misfit(&it), "offset"));
}

static void ipv4(void)
{
    uint8_t bytes[LONGEST];
    size_t options = 4 * below(11), size = 20 + options;
    fill(bytes, sizeof bytes);
    bytes[0] = (uint8_t)(0x40 | size / 4);
    bytes[6] &= 0x7F;
    put_two(bytes + 10, ipv4_sum(bytes, size));
    ipv4_parsed(bytes, size, options);
    ipv4_parsed(bytes, sizeof bytes, DATA);
    ipv4_parsed(bytes, below(size), DATA);
    if (options)
        ipv4_parsed(bytes, size, options - 1);
    bytes[below(size)] ^= (uint8_t)(1 << below(8));
    ipv4_parsed(bytes, size, below(DATA));
}

/* ---- ICMP */

static enum icmp_message_status icmp_wanted(const uint8_t *bytes, size_t length, size_t room)
{
    if (length < 1)
        return ICMP_MESSAGE_END_OF_INPUT;
    if (bytes[0] != 0 && bytes[0] != 8)
        return ICMP_MESSAGE_NO_ECHO;
    if (length < 8)
        return ICMP_MESSAGE_END_OF_INPUT;
    if (room < length - 8)
        return ICMP_MESSAGE_NO_ROOM_DATA;
    return inverted(words(words(0, bytes, 2), bytes + 4, length - 4)) == two(bytes + 2) ? ICMP_MESSAGE_OK
                                                                                        : ICMP_MESSAGE_WRONG_SUM;
}

static void icmp_parsed(const uint8_t *bytes, size_t length, size_t room)
{
    uint8_t data[DATA], buffer[LONGEST];
    struct icmp_message it;
    size_t taken = 99, written = 99;
    enum icmp_message_status wanted = icmp_wanted(bytes, length, room);
    it.data.items = data;
    it.data.capacity = room;
    calls++;
    CHECK(icmp_message_parse(bytes, length, &it, &taken) == wanted);
    if (wanted != ICMP_MESSAGE_OK) {
        CHECK(taken == (wanted == ICMP_MESSAGE_NO_ROOM_DATA ? length - 8 : 0));
        return;
    }
    CHECK(taken == length && it.kind == bytes[0] && it.code == bytes[1] && it.identifier == two(bytes + 4));
    CHECK(it.sequence == two(bytes + 6) && it.data.length == length - 8 && !memcmp(data, bytes + 8, length - 8));
    memset(buffer, UNTOUCHED, sizeof buffer);
    calls += 2;
    CHECK(icmp_message_pack(&it, buffer, sizeof buffer, &written) == ICMP_MESSAGE_OK && written == length);
    CHECK(!memcmp(buffer, bytes, length) && buffer[length] == UNTOUCHED);
    it.kind = 3;
    CHECK(icmp_message_pack(&it, buffer, sizeof buffer, &written) == ICMP_MESSAGE_DOES_NOT_FIT && written == 0);
}

static void icmp(void)
{
    uint8_t bytes[LONGEST];
    size_t count = below(DATA + 1), size = count + 8;
    fill(bytes, sizeof bytes);
    bytes[0] = (uint8_t)(8 * below(2));
    put_two(bytes + 2, inverted(words(words(0, bytes, 2), bytes + 4, size - 4)));
    icmp_parsed(bytes, size, count);
    icmp_parsed(bytes, size, DATA);
    icmp_parsed(bytes, below(size), DATA);
    if (count)
        icmp_parsed(bytes, size, count - 1);
    bytes[below(size)] ^= (uint8_t)(1 << below(8));
    icmp_parsed(bytes, size, DATA);
}

/* ---- rows, and pointers that are null */

static size_t bytes_of(const char *digits, uint8_t *bytes)
{
    size_t count = 0;
    unsigned value;
    for (; count < LONGEST && sscanf(digits + 2 * count, "%2x", &value) == 1; count++)
        bytes[count] = (uint8_t)value;
    return count;
}

static void row(const char *name, const uint8_t *bytes, size_t length)
{
    for (size_t cut = 0; cut <= length; cut++) {
        if (!strcmp(name, "ipv4_packet"))
            ipv4_parsed(bytes, cut, DATA);
        else if (!strcmp(name, "icmp_message"))
            icmp_parsed(bytes, cut, DATA);
    }
}

static void nulls(void)
{
    uint8_t bytes[LONGEST] = {0};
    struct udp_datagram it;
    size_t count = 99;
    memset(&it, 0, sizeof it);
    calls += 5;
    CHECK(udp_datagram_parse(bytes, 8, NULL, &count) == UDP_DATAGRAM_NULL);
    CHECK(udp_datagram_parse(NULL, 8, &it, &count) == UDP_DATAGRAM_NULL);
    it.data.capacity = 1;
    CHECK(udp_datagram_parse(bytes, 8, &it, &count) == UDP_DATAGRAM_NULL);
    CHECK(udp_datagram_pack(NULL, bytes, 8, &count) == UDP_DATAGRAM_NULL);
    it.data.length = 1;
    CHECK(udp_datagram_pack(&it, bytes, sizeof bytes, &count) == UDP_DATAGRAM_NULL);
}

int main(void)
{
    char line[512], name[64], digits[384];
    uint8_t bytes[LONGEST];
    while (fgets(line, sizeof line, stdin)) {
        digits[0] = 0;
        CHECK(sscanf(line, "%63s %383s", name, digits) >= 1);
        row(name, bytes, bytes_of(digits, bytes));
    }
    nulls();
    for (int i = 0; i < ROUNDS; i++) {
        udp();
        ipv4();
        icmp();
    }
    printf("%lu calls\n", calls);
    return 0;
}
