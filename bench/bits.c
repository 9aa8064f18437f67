/* Calls of bits_c, and the same work by hand, for a count of instructions: 4000 numbers of one width, one after another.
 *
 * usage: bits CALL WIDTH     CALL: none, read, read-hand, write, write-hand
 *
 * After `./build bits_c`: cc -O2 -Icrates/bits_c/out/include bench/bits.c crates/bits_c/out/libbits.a -o bits, and then
 * valgrind --tool=callgrind ./bits read 13, less the count of ./bits none 13, over 4000. */
#include "bits.h"

#include <stdio.h>
#include <stdlib.h>
#include <string.h>

enum { CALLS = 4000 };
enum call { NONE, READ, READ_BY_HAND, WRITE, WRITE_BY_HAND };

/* Returns the call of a name. */
static enum call named(const char *name)
{
    static const char *const names[] = {"none", "read", "read-hand", "write", "write-hand"};
    for (int k = NONE; k <= WRITE_BY_HAND; k++)
        if (!strcmp(name, names[k]))
            return (enum call)k;
    return NONE;
}

/* Reads a number, a part of a byte at a time. */
static __attribute__((noinline)) int read_by_hand(struct bits_reader *it, uint32_t width, uint64_t *value)
{
    uint64_t found = 0;
    if (!it || !it->bytes || !value)
        return BITS_NULL;
    if (width > 64)
        return BITS_WIDTH;
    if (it->at + width > 8 * it->length)
        return BITS_END_OF_INPUT;
    for (uint32_t left = width; left;) {
        uint32_t room = 8 - it->at % 8, count = left < room ? left : room;
        found = found << count | (it->bytes[it->at / 8] >> (room - count) & ((1u << count) - 1));
        it->at += count;
        left -= count;
    }
    *value = found;
    return BITS_OK;
}

/* Writes a number, a part of a byte at a time. */
static __attribute__((noinline)) int write_by_hand(struct bits_writer *it, uint32_t width, uint64_t value)
{
    if (!it || !it->bytes)
        return BITS_NULL;
    if (width > 64)
        return BITS_WIDTH;
    if (width < 64 && value >> width)
        return BITS_DOES_NOT_FIT;
    if (it->at + width > 8 * it->length)
        return BITS_NO_ROOM;
    for (uint32_t left = width; left;) {
        uint32_t room = 8 - it->at % 8, count = left < room ? left : room;
        uint32_t mask = ((1u << count) - 1) << (room - count);
        uint8_t *byte = it->bytes + it->at / 8;
        *byte = (uint8_t)((*byte & ~mask) | ((uint32_t)(value >> (left - count)) << (room - count) & mask));
        it->at += count;
        left -= count;
    }
    return BITS_OK;
}

int main(int count, char **words)
{
    static uint8_t bytes[8 * CALLS];
    enum call which = named(count > 1 ? words[1] : "none");
    uint32_t width = count > 2 ? (uint32_t)atoi(words[2]) : 0;
    uint64_t sum = 0, value = 0;
    struct bits_reader reader;
    struct bits_writer writer;
    for (size_t k = 0; k < sizeof bytes; k++)
        bytes[k] = (uint8_t)(k * 31 + 7);
    bits_open(&reader, bytes, sizeof bytes);
    bits_writer_open(&writer, bytes, sizeof bytes);
    for (int k = 0; k < CALLS; k++) {
        uint64_t given = (uint64_t)k * 0x9e3779b97f4a7c15u >> (64 - width) % 64;
        if (which == READ)
            sum += (uint64_t)bits_read_unsigned(&reader, width, &value);
        else if (which == READ_BY_HAND)
            sum += (uint64_t)read_by_hand(&reader, width, &value);
        else if (which == WRITE)
            sum += (uint64_t)bits_write_unsigned(&writer, width, given);
        else if (which == WRITE_BY_HAND)
            sum += (uint64_t)write_by_hand(&writer, width, given);
        sum = sum * 31 + value;
    }
    for (size_t k = 0; k < sizeof bytes; k++)
        sum = sum * 31 + bytes[k];
    printf("%016llx\n", (unsigned long long)sum);
    return 0;
}
