/* Calls the library with the rows of standard input, a row of bytes in hex on each line, and with random values. Plain
 * shifts say what is right. Prints the number of calls. */
#include "primary_header.h"

#include <stdio.h>
#include <stdlib.h>
#include <string.h>

static unsigned long calls;

/* Ends the test if a fact is not so. */
static void holds(int is, const char *what, int line)
{
    if (!is) {
        printf("test_primary_header.c:%d: not so: %s\n", line, what);
        exit(1);
    }
}
#define HOLDS(what) holds(what, #what, __LINE__)

/* The next number of a generator. */
static uint64_t state = 1;
static uint64_t next(void)
{
    state ^= state << 13;
    state ^= state >> 7;
    state ^= state << 17;
    return state;
}

/* What a parse of `length` bytes is to return. */
static int wanted(const uint8_t *bytes, size_t length)
{
    if (length && bytes[0] >> 5)
        return PRIMARY_HEADER_WRONG_VERSION;
    return length < 6 ? PRIMARY_HEADER_END_OF_INPUT : PRIMARY_HEADER_OK;
}

/* Compares the fields with the bits of 6 bytes. */
static void same(const struct primary_header *it, const uint8_t *b)
{
    HOLDS(it->telecommand == (b[0] >> 4 & 1) && it->secondary == (b[0] >> 3 & 1));
    HOLDS(it->apid == ((b[0] & 7) << 8 | b[1]));
    HOLDS(it->sequence == b[2] >> 6 && it->count == ((b[2] & 63) << 8 | b[3]));
    HOLDS(it->length == (b[4] << 8 | b[5]));
}

/* Packs fields into buffers of all lengths up to 8, each at the end of its block. */
static void packs(const struct primary_header *it, const uint8_t *bytes, int fits)
{
    for (size_t length = 0; length <= 8; length++) {
        uint8_t *buffer = malloc(length ? length : 1), before[8];
        size_t written = 99;
        int status = !fits ? PRIMARY_HEADER_DOES_NOT_FIT : length < 6 ? PRIMARY_HEADER_NO_ROOM : PRIMARY_HEADER_OK;
        HOLDS(buffer != NULL);
        for (size_t i = 0; i < length; i++)
            buffer[i] = before[i] = (uint8_t)next();
        HOLDS((int)primary_header_pack(it, buffer, length, &written) == status);
        HOLDS(written == (status ? 0u : 6u));
        if (!status) {
            HOLDS(!memcmp(buffer, bytes, 6));
            memcpy(before, bytes, 6);
        }
        HOLDS(!memcmp(buffer, before, length));
        calls++;
        free(buffer);
    }
}

/* Parses the first bytes of a row, at the end of a block of just that length. */
static void parses(const uint8_t *bytes, size_t length)
{
    struct primary_header it, before;
    uint8_t *part = malloc(length ? length : 1);
    int status;
    HOLDS(part != NULL);
    memcpy(part, bytes, length);
    memset(&it, 0xA5, sizeof it);
    memcpy(&before, &it, sizeof it);
    status = primary_header_parse(part, length, &it);
    calls++;
    HOLDS(status == wanted(bytes, length));
    if (status)
        HOLDS(!memcmp(&it, &before, sizeof it));
    else {
        same(&it, bytes);
        packs(&it, bytes, 1);
    }
    free(part);
}

/* Packs random fields, some of which do not fit, and parses them again. */
static void random_fields(void)
{
    struct primary_header it, again;
    uint8_t b[6];
    int wide = (int)(next() % 8);
    it.telecommand = next() & 1;
    it.secondary = next() & 1;
    it.apid = next() & (wide == 0 ? 0xFFFF : 2047);
    it.sequence = next() & (wide == 1 ? 255 : 3);
    it.count = next() & (wide == 2 ? 0xFFFF : 16383);
    it.length = (uint16_t)next();
    b[0] = (uint8_t)(it.telecommand << 4 | it.secondary << 3 | it.apid >> 8);
    b[1] = (uint8_t)it.apid;
    b[2] = (uint8_t)(it.sequence << 6 | it.count >> 8);
    b[3] = (uint8_t)it.count;
    b[4] = (uint8_t)(it.length >> 8);
    b[5] = (uint8_t)it.length;
    if (it.apid > 2047 || it.sequence > 3 || it.count > 16383) {
        packs(&it, b, 0);
        return;
    }
    packs(&it, b, 1);
    HOLDS(primary_header_parse(b, 6, &again) == PRIMARY_HEADER_OK);
    same(&again, b);
    calls++;
}

/* Null pointers. */
static void nulls(void)
{
    struct primary_header it = {true, false, 6, 3, 0, 1};
    uint8_t bytes[6] = {0};
    size_t written = 99;
    HOLDS(primary_header_parse(NULL, 0, &it) == PRIMARY_HEADER_END_OF_INPUT);
    HOLDS(primary_header_parse(NULL, 6, &it) == PRIMARY_HEADER_NULL && it.apid == 6);
    HOLDS(primary_header_parse(bytes, 6, NULL) == PRIMARY_HEADER_NULL);
    HOLDS(primary_header_pack(&it, NULL, 0, &written) == PRIMARY_HEADER_NO_ROOM && written == 0);
    HOLDS(primary_header_pack(&it, NULL, 6, &written) == PRIMARY_HEADER_NULL && written == 0);
    HOLDS(primary_header_pack(NULL, bytes, 6, &written) == PRIMARY_HEADER_NULL && written == 0 && !bytes[0]);
    HOLDS(primary_header_pack(&it, bytes, 6, NULL) == PRIMARY_HEADER_OK && bytes[0] == 0x10);
    HOLDS(!strcmp(primary_header_status_text(PRIMARY_HEADER_WRONG_VERSION), "the version is not 0"));
    calls += 8;
}

int main(void)
{
    char line[256];
    while (fgets(line, sizeof line, stdin)) {
        uint8_t bytes[64];
        size_t length = 0;
        unsigned one;
        for (char *at = line; sscanf(at, "%2x", &one) == 1; at += 2)
            bytes[length++] = (uint8_t)one;
        for (size_t part = 0; part <= length; part++)
            parses(bytes, part);
    }
    for (unsigned k = 0; k < 20000; k++) {
        uint8_t bytes[6];
        for (unsigned i = 0; i < 6; i++)
            bytes[i] = (uint8_t)next();
        bytes[0] &= k % 4 ? 31 : 255;
        parses(bytes, 6);
        random_fields();
    }
    nulls();
    printf("%lu calls\n", calls);
    return 0;
}
