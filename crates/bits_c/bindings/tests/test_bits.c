/* Calls the reader at each place of some bytes, and the writer at each place of a buffer, for each width, in both orders.
 * A loop over the bits says what is right, and for the first exponential Golomb numbers the tables of H.264. Prints the
 * number of calls. */
#include "bits.h"

#include <stdio.h>
#include <stdlib.h>
#include <string.h>

enum { BYTES = 24, BITS = 8 * BYTES };
static unsigned long calls;

/* Table 9-2 of H.264: the bits of the first numbers; and table 9-3: the signed numbers in their order. */
static const char *const ue[] = {"1", "010", "011", "00100", "00101", "00110", "00111", "0001000", "0001001", "0001010"};
static const int32_t se[] = {0, 1, -1, 2, -2, 3, -3, 4, -4, 5};

/* Ends the test if a fact is not so. */
static void holds(int is, const char *what, int line)
{
    calls++;
    if (!is) {
        printf("test_bits.c:%d: not so: %s\n", line, what);
        exit(1);
    }
}
#define HOLDS(what) holds(what, #what, __LINE__)

/* Returns a bit. */
static int bit(const uint8_t *bytes, uint64_t at, int low)
{
    return bytes[at / 8] >> (low ? at % 8 : 7 - at % 8) & 1;
}

/* Returns the number in `width` bits, at most 64, bit by bit. */
static uint64_t number(const uint8_t *bytes, uint64_t at, uint32_t width, int low)
{
    uint64_t found = 0;
    for (uint32_t k = 0; k < width; k++)
        found |= (uint64_t)bit(bytes, at + k, low) << (low ? k : width - 1 - k);
    return found;
}

/* Reads an unsigned and a signed number at a place. */
static void reads(const uint8_t *bytes, uint64_t at, uint32_t width, int low)
{
    struct bits_reader it;
    uint64_t value = 99, wanted;
    int64_t signed_value = 99;
    int status = width > 64 ? BITS_WIDTH : at + width > BITS ? BITS_END_OF_INPUT : BITS_OK;
    HOLDS(bits_open(&it, bytes, BYTES) == BITS_OK && bits_skip(&it, at) == BITS_OK && bits_left(&it) == BITS - at);
    wanted = status ? 99 : number(bytes, at, width, low);
    HOLDS((int)(low ? bits_read_unsigned_le : bits_read_unsigned)(&it, width, &value) == status && value == wanted);
    HOLDS(bits_at(&it) == (status ? at : at + width));
    it.at = at;
    status = width ? status : BITS_WIDTH;
    wanted = status ? 99 : wanted;
    if (!status && width < 64 && wanted >> (width - 1))
        wanted |= ~(uint64_t)0 << width;
    HOLDS((int)(low ? bits_read_signed_le : bits_read_signed)(&it, width, &signed_value) == status);
    HOLDS((uint64_t)signed_value == wanted && it.at == (status ? at : at + width));
    HOLDS(bits_seek(&it, at) == BITS_OK && it.at == at && bits_seek(&it, BITS + 1) == BITS_END_OF_INPUT && it.at == at);
    HOLDS(bits_align(&it) == BITS_OK && it.at == (at + 7) / 8 * 8);
}

/* Reads bytes and unary numbers at a place. */
static void reads_runs(const uint8_t *bytes, uint64_t at, int low)
{
    struct bits_reader it;
    HOLDS(bits_open(&it, bytes, BYTES) == BITS_OK);
    for (size_t length = 0; length <= 3; length++) {
        uint8_t found[3] = {1, 2, 3}, wanted[3] = {1, 2, 3};
        int fits = at + 8 * length <= BITS;
        for (size_t k = 0; fits && k < length; k++)
            wanted[k] = (uint8_t)number(bytes, at + 8 * k, 8, low);
        it.at = at;
        HOLDS((low ? bits_read_bytes_le : bits_read_bytes)(&it, found, length) == (fits ? BITS_OK : BITS_END_OF_INPUT));
        HOLDS(!memcmp(found, wanted, 3) && it.at == (fits ? at + 8 * length : at));
    }
    for (int stop = 0; stop < 2; stop++) {
        uint64_t end = at, value = 99;
        while (end < BITS && bit(bytes, end, low) != stop)
            end++;
        it.at = at;
        HOLDS((low ? bits_read_unary_le : bits_read_unary)(&it, stop, &value) == (end < BITS ? BITS_OK : BITS_END_OF_INPUT));
        HOLDS(value == (end < BITS ? end - at : 99) && it.at == (end < BITS ? end + 1 : at));
    }
}

/* Reads exponential Golomb numbers at a place. */
static void reads_golomb(const uint8_t *bytes, uint64_t at, int low)
{
    struct bits_reader it;
    uint64_t zeros = 0, wanted = 99, end = at;
    uint32_t value = 99;
    int32_t signed_value = 99;
    int status;
    while (at + zeros < BITS && !bit(bytes, at + zeros, low))
        zeros++;
    status = zeros > 31 ? BITS_TOO_LONG : at + 2 * zeros + 1 > BITS ? BITS_END_OF_INPUT : BITS_OK;
    if (!status) {
        wanted = ((uint64_t)1 << zeros) - 1 + number(bytes, at + zeros + 1, (uint32_t)zeros, low);
        end = at + 2 * zeros + 1;
    }
    HOLDS(bits_open(&it, bytes, BYTES) == BITS_OK);
    it.at = at;
    HOLDS((int)(low ? bits_read_ue_le : bits_read_ue)(&it, &value) == status && value == wanted && it.at == end);
    it.at = at;
    HOLDS((int)(low ? bits_read_se_le : bits_read_se)(&it, &signed_value) == status && it.at == end);
    HOLDS(status ? signed_value == 99 : (wanted % 2 ? 1 : -1) * (int64_t)((wanted + 1) / 2) == signed_value);
}

/* Null pointers, no bytes, and places after the end. */
static void limits(uint8_t *bytes)
{
    struct bits_reader it;
    uint64_t value = 99;
    uint32_t golomb = 99;
    int32_t signed_golomb = 99;
    HOLDS(bits_open(&it, NULL, 0) == BITS_OK && bits_left(&it) == 0);
    HOLDS(bits_read_unsigned(&it, 1, &value) == BITS_END_OF_INPUT && value == 99);
    HOLDS(bits_read_ue(&it, &golomb) == BITS_END_OF_INPUT && bits_read_unary(&it, 1, &value) == BITS_END_OF_INPUT);
    HOLDS(bits_read_bytes(&it, NULL, 0) == BITS_OK && bits_read_bytes(&it, NULL, 1) == BITS_NULL);
    HOLDS(bits_read_unsigned(&it, 0, &value) == BITS_OK && value == 0);
    HOLDS(bits_open(&it, NULL, 1) == BITS_NULL && bits_open(NULL, bytes, 1) == BITS_NULL);
    HOLDS(bits_read_unsigned(NULL, 1, &value) == BITS_NULL && bits_read_unsigned(&it, 1, NULL) == BITS_NULL);
    HOLDS(bits_read_se(NULL, &signed_golomb) == BITS_NULL && bits_read_ue_le(&it, NULL) == BITS_NULL);
    HOLDS(bits_seek(NULL, 0) == BITS_NULL && bits_at(NULL) == 0 && bits_read_bytes_le(NULL, bytes, 1) == BITS_NULL);
    HOLDS(bits_open(&it, bytes, BYTES) == BITS_OK);
    HOLDS(bits_skip(&it, ~(uint64_t)0) == BITS_END_OF_INPUT && it.at == 0);
    it.at = ~(uint64_t)0;
    HOLDS(bits_read_unsigned(&it, 64, &value) == BITS_END_OF_INPUT && bits_left(&it) == 0);
    HOLDS(bits_read_unary(&it, 0, &value) == BITS_END_OF_INPUT && bits_read_se(&it, &signed_golomb) == BITS_END_OF_INPUT);
    HOLDS(bits_align(&it) == BITS_OK);
    HOLDS(!strcmp(bits_status_text(BITS_END_OF_INPUT), "fewer bits are left"));
    HOLDS(!strcmp(bits_status_text(BITS_TOO_LONG), "the number begins with more than 31 zeros"));
}

/* Puts a number of `width` bits, at most 64, into bytes, bit by bit. */
static void put(uint8_t *bytes, uint64_t at, uint32_t width, uint64_t value, int low)
{
    for (uint32_t k = 0; k < width; k++) {
        uint64_t place = at + k;
        int one = value >> (low ? k : width - 1 - k) & 1;
        uint8_t mask = (uint8_t)(1u << (low ? place % 8 : 7 - place % 8));
        bytes[place / 8] = (uint8_t)(one ? bytes[place / 8] | mask : bytes[place / 8] & ~mask);
    }
}

/* Sets a writer to a place of bytes that are all `filled`, and a copy of them. */
static void start(struct bits_writer *it, uint8_t *buffer, uint8_t *wanted, uint64_t at, int filled)
{
    memset(buffer, filled, BYTES);
    memset(wanted, filled, BYTES);
    HOLDS(bits_writer_open(it, buffer, BYTES) == BITS_OK && bits_room(it) == BITS);
    it->at = at;
}

/* Tests what a write left, which was to take bits, or has an error. */
static void left(const struct bits_writer *it, const uint8_t *wanted, uint64_t at)
{
    HOLDS(!memcmp(it->bytes, wanted, BYTES) && bits_written(it) == at && bits_room(it) == BITS - at);
}

/* Writes a number at a place, in one order of bits, over bytes that are all `filled`, and zeros up to a whole byte. */
static void writes(uint8_t *buffer, uint64_t at, uint32_t width, int low, int filled)
{
    enum bits_status (*write)(struct bits_writer *, uint32_t, uint64_t) = low ? bits_write_unsigned_le : bits_write_unsigned;
    uint8_t wanted[BYTES];
    struct bits_writer it;
    uint64_t value = (at * 0x9e3779b97f4a7c15u) ^ ((uint64_t)width << 57) ^ 0x5555;
    int status = width > 64 ? BITS_WIDTH : at + width > BITS ? BITS_NO_ROOM : BITS_OK;
    if (width < 64)
        value &= ((uint64_t)1 << width) - 1;
    start(&it, buffer, wanted, at, filled);
    if (width < 64) { /* a number with one bit more is refused, with room and without */
        HOLDS(write(&it, width, value | (uint64_t)1 << width) == BITS_DOES_NOT_FIT && it.at == at);
        HOLDS(!memcmp(buffer, wanted, BYTES));
    }
    if (!status)
        put(wanted, at, width, value, low);
    HOLDS((int)write(&it, width, value) == status);
    left(&it, wanted, status ? at : at + width);
    at = it.at;
    put(wanted, at, (uint32_t)(-at % 8), 0, low);
    HOLDS((low ? bits_write_align_le : bits_write_align)(&it) == BITS_OK);
    left(&it, wanted, (at + 7) / 8 * 8);
}

/* Writes signed numbers at a place: the least, the greatest, -1, and those beyond. */
static void writes_signed(uint8_t *buffer, uint64_t at, uint32_t width, int low, int filled)
{
    enum bits_status (*write)(struct bits_writer *, uint32_t, int64_t) = low ? bits_write_signed_le : bits_write_signed;
    uint64_t most = width ? ((uint64_t)1 << (width <= 64 ? width - 1 : 63)) - 1 : 0;
    const uint64_t values[] = {most, ~most, ~(uint64_t)0, most + 1, ~most - 1};
    for (int k = 0; k < 5; k++) {
        uint8_t wanted[BYTES];
        struct bits_writer it;
        int64_t value = (int64_t)values[k];
        int fits = (value < 0 ? ~(uint64_t)value : (uint64_t)value) <= most;
        int status = !width || width > 64 ? BITS_WIDTH : !fits ? BITS_DOES_NOT_FIT : at + width > BITS ? BITS_NO_ROOM : 0;
        start(&it, buffer, wanted, at, filled);
        if (!status)
            put(wanted, at, width, (uint64_t)value, low);
        HOLDS((int)write(&it, width, value) == status);
        left(&it, wanted, status ? at : at + width);
    }
}

/* Writes bytes and unary numbers at a place. */
static void writes_runs(uint8_t *buffer, uint64_t at, int low, int filled)
{
    static const uint8_t given[3] = {0x1b, 0xe4, 0x7f};
    uint8_t wanted[BYTES];
    struct bits_writer it;
    for (size_t length = 0; length <= 3; length++) {
        int status = at + 8 * length > BITS ? BITS_NO_ROOM : BITS_OK;
        start(&it, buffer, wanted, at, filled);
        for (size_t k = 0; !status && k < length; k++)
            put(wanted, at + 8 * k, 8, number(given + k, 0, 8, low), low);
        HOLDS((int)(low ? bits_write_bytes_le : bits_write_bytes)(&it, given, length) == status);
        left(&it, wanted, status ? at : at + 8 * length);
    }
    for (uint64_t count = 0; count <= 140; count += count < 3 || count > 60 ? 1 : 19) {
        for (int stop = 0; stop < 2; stop++) {
            int status = at + count + 1 > BITS ? BITS_NO_ROOM : BITS_OK;
            start(&it, buffer, wanted, at, filled);
            for (uint64_t k = 0; !status && k <= count; k++)
                put(wanted, at + k, 1, k < count ? !stop : stop, low);
            HOLDS((int)(low ? bits_write_unary_le : bits_write_unary)(&it, stop, count) == status);
            left(&it, wanted, status ? at : at + count + 1);
        }
    }
}

/* Writes an exponential Golomb number at a place, and the signed number at its place in the order. */
static void writes_golomb(uint8_t *buffer, uint64_t at, uint32_t value, int low, int filled)
{
    uint8_t wanted[BYTES];
    struct bits_writer it;
    uint64_t more = (uint64_t)value + 1;
    uint32_t zeros = 0;
    int64_t half = (int64_t)(more / 2);
    int32_t signed_value = value == 0xffffffff ? INT32_MIN : (int32_t)(value % 2 ? half : -half);
    int status;
    while (more >> zeros > 1)
        zeros++;
    status = zeros == 32 ? BITS_DOES_NOT_FIT : at + 2 * zeros + 1 > BITS ? BITS_NO_ROOM : BITS_OK;
    for (int is_signed = 0; is_signed < 2; is_signed++) {
        start(&it, buffer, wanted, at, filled);
        if (!status) {
            put(wanted, at, zeros, 0, low);
            put(wanted, at + zeros, 1, 1, low);
            put(wanted, at + zeros + 1, zeros, more & (((uint64_t)1 << zeros) - 1), low);
        }
        if (is_signed)
            HOLDS((int)(low ? bits_write_se_le : bits_write_se)(&it, signed_value) == status);
        else
            HOLDS((int)(low ? bits_write_ue_le : bits_write_ue)(&it, value) == status);
        left(&it, wanted, status ? at : at + 2 * zeros + 1);
    }
}

/* Writes the rows of the tables, and reads them back. */
static void tables(uint8_t *buffer)
{
    for (uint32_t k = 0; k < 10; k++) {
        uint8_t wanted[BYTES];
        struct bits_writer it;
        struct bits_reader back;
        uint32_t value = 99;
        int32_t signed_value = 99;
        size_t size = strlen(ue[k]);
        start(&it, buffer, wanted, 3, 0xff);
        for (size_t n = 0; n < size; n++)
            put(wanted, 3 + n, 1, ue[k][n] == '1', 0);
        HOLDS(bits_write_ue(&it, k) == BITS_OK);
        left(&it, wanted, 3 + size);
        it.at = 3;
        HOLDS(bits_write_se(&it, se[k]) == BITS_OK);
        left(&it, wanted, 3 + size);
        HOLDS(bits_open(&back, wanted, BYTES) == BITS_OK && bits_seek(&back, 3) == BITS_OK);
        HOLDS(bits_read_ue(&back, &value) == BITS_OK && value == k && back.at == 3 + size);
        HOLDS(bits_seek(&back, 3) == BITS_OK && bits_read_se(&back, &signed_value) == BITS_OK && signed_value == se[k]);
    }
}

/* Null pointers, no bytes, and places after the end, of a writer. */
static void writer_limits(uint8_t *buffer)
{
    struct bits_writer it;
    HOLDS(bits_writer_open(&it, NULL, 0) == BITS_OK && bits_room(&it) == 0);
    HOLDS(bits_write_unsigned(&it, 1, 1) == BITS_NO_ROOM && bits_write_unsigned_le(&it, 0, 0) == BITS_OK);
    HOLDS(bits_write_bytes(&it, NULL, 0) == BITS_OK && bits_write_bytes(&it, NULL, 1) == BITS_NULL);
    HOLDS(bits_write_unary(&it, 1, 0) == BITS_NO_ROOM && bits_write_ue(&it, 0) == BITS_NO_ROOM);
    HOLDS(bits_writer_open(&it, NULL, 1) == BITS_NULL && bits_writer_open(NULL, buffer, 1) == BITS_NULL);
    HOLDS(bits_write_unsigned(NULL, 1, 1) == BITS_NULL && bits_write_unsigned_le(NULL, 1, 1) == BITS_NULL);
    HOLDS(bits_write_signed(NULL, 1, 0) == BITS_NULL && bits_write_se_le(NULL, 1) == BITS_NULL);
    HOLDS(bits_writer_open(&it, buffer, BYTES) == BITS_OK && bits_room(NULL) == 0 && bits_written(NULL) == 0);
    HOLDS(bits_write_unary(&it, 0, ~(uint64_t)0) == BITS_NO_ROOM && it.at == 0);
    it.at = ~(uint64_t)0;
    HOLDS(bits_write_unsigned(&it, 64, 1) == BITS_NO_ROOM && it.at == ~(uint64_t)0 && bits_room(&it) == 0);
    HOLDS(bits_write_align(&it) == BITS_NO_ROOM && bits_write_align_le(&it) == BITS_NO_ROOM && it.at == ~(uint64_t)0);
    HOLDS(bits_write_align(NULL) == BITS_NULL && bits_write_align_le(NULL) == BITS_NULL);
    HOLDS(!strcmp(bits_status_text(BITS_DOES_NOT_FIT), "the number has more bits"));
}

/* Reads at each place of bytes. */
static void all_reads(const uint8_t *bytes)
{
    for (uint64_t at = 0; at <= BITS; at++) {
        for (int low = 0; low < 2; low++) {
            for (uint32_t width = 0; width <= 66; width++)
                reads(bytes, at, width, low);
            reads_runs(bytes, at, low);
            reads_golomb(bytes, at, low);
        }
    }
}

/* Writes at each place of a buffer. */
static void all_writes(uint8_t *buffer)
{
    static const uint32_t golomb[] = {0, 1, 2, 3, 6, 7, 254, 255, 0x12345678, 0x7fffffff, 0xfffffffe, 0xffffffff};
    for (uint64_t at = 0; at <= BITS; at++) {
        for (int how = 0; how < 4; how++) {
            int filled = how & 2 ? 0xa6 : 0x39;
            for (uint32_t width = 0; width <= 66; width++) {
                writes(buffer, at, width, how & 1, filled);
                writes_signed(buffer, at, width, how & 1, filled);
            }
            writes_runs(buffer, at, how & 1, filled);
            for (size_t k = 0; k < sizeof golomb / sizeof *golomb; k++)
                writes_golomb(buffer, at, golomb[k], how & 1, filled);
        }
    }
}

int main(void)
{
    uint8_t *bytes = malloc(BYTES); /* a read past its end is seen by sanitizers */
    if (!bytes)
        return 2;
    for (int k = 0; k < BYTES; k++)
        bytes[k] = (uint8_t)(k * 73 + 41);
    all_reads(bytes);
    limits(bytes);
    for (int few = 0; few < 3; few++) { /* long runs: of zeros, of ones, and zeros with a one in the middle */
        memset(bytes, few == 1 ? 0xff : 0, BYTES);
        bytes[9] |= few == 2;
        all_reads(bytes);
    }
    all_writes(bytes);
    tables(bytes);
    writer_limits(bytes);
    free(bytes);
    printf("%lu calls\n", calls);
    return 0;
}
