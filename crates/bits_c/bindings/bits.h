/* Reads numbers of any number of bits from bytes in memory, and writes them to a buffer, in either order of bits.
 *
 * A call whose name ends in `_le` takes the lowest bit of each byte first, and the lowest bit of a number first. The
 * others take the highest first. The caller owns the bytes and the state, which is a struct. No call allocates. */
#ifndef BITS_H
#define BITS_H

#include <stdbool.h>
#include <stddef.h>
#include <stdint.h>

#ifdef __cplusplus
extern "C" {
#endif

/* The bytes, and the number of bits that were read. `bits_open` sets it; `at` may be set to any number. */
struct bits_reader {
    const uint8_t *bytes;
    size_t length;
    uint64_t at;
};

/* The buffer, and the number of bits that were written. `bits_writer_open` sets it; `at` may be set to any number. */
struct bits_writer {
    uint8_t *bytes;
    size_t length;
    uint64_t at;
};

/* The result of a call. */
enum bits_status {
    /* The call did its work. */
    BITS_OK = 0,
    /* Fewer bits are left. The reader is as before. */
    BITS_END_OF_INPUT = 1,
    /* More than 64 bits, or a signed number of no bits. The reader or writer is as before. */
    BITS_WIDTH = 2,
    /* A pointer is null. */
    BITS_NULL = 3,
    /* The buffer has fewer bits left. The writer and the buffer are as before. */
    BITS_NO_ROOM = 4,
    /* The number has more bits. The writer and the buffer are as before. */
    BITS_DOES_NOT_FIT = 5,
    /* An exponential Golomb number begins with more than 31 zeros. The reader is as before. */
    BITS_TOO_LONG = 6
};

/* Returns the text of a status, in lower case and without a full stop. */
const char *bits_status_text(enum bits_status status);

/* Sets a reader to the first bit of `length` bytes. They must stay as they are while it is used. */
enum bits_status bits_open(struct bits_reader *reader, const uint8_t *bytes, size_t length);

/* Reads a number of `width` bits, 0 to 64, into `*value`, and goes on by these bits. After an error of this call or of
 * another read, `*value` is as before. */
enum bits_status bits_read_unsigned(struct bits_reader *reader, uint32_t width, uint64_t *value);
enum bits_status bits_read_unsigned_le(struct bits_reader *reader, uint32_t width, uint64_t *value);

/* Reads a signed number of `width` bits, 1 to 64, in two's complement. */
enum bits_status bits_read_signed(struct bits_reader *reader, uint32_t width, int64_t *value);
enum bits_status bits_read_signed_le(struct bits_reader *reader, uint32_t width, int64_t *value);

/* Reads `length` bytes into a buffer, from any bit on. After an error the buffer is as before. */
enum bits_status bits_read_bytes(struct bits_reader *reader, uint8_t *buffer, size_t length);
enum bits_status bits_read_bytes_le(struct bits_reader *reader, uint8_t *buffer, size_t length);

/* Reads a unary number: the number of bits before the first bit that is `stop`, and that bit. */
enum bits_status bits_read_unary(struct bits_reader *reader, bool stop, uint64_t *value);
enum bits_status bits_read_unary_le(struct bits_reader *reader, bool stop, uint64_t *value);

/* Reads an exponential Golomb number, `ue(v)` of H.264: n zeros, a one and n bits, which is 2^n - 1 and these n bits.
 * The result is below 2^32 - 1. */
enum bits_status bits_read_ue(struct bits_reader *reader, uint32_t *value);
enum bits_status bits_read_ue_le(struct bits_reader *reader, uint32_t *value);

/* Reads a signed exponential Golomb number, `se(v)` of H.264: the place of a number in the order 0, 1, -1, 2, -2. */
enum bits_status bits_read_se(struct bits_reader *reader, int32_t *value);
enum bits_status bits_read_se_le(struct bits_reader *reader, int32_t *value);

/* Passes over `count` bits. */
enum bits_status bits_skip(struct bits_reader *reader, uint64_t count);

/* Goes on to the next whole byte. */
enum bits_status bits_align(struct bits_reader *reader);

/* Goes to the bit after the first `at` bits. */
enum bits_status bits_seek(struct bits_reader *reader, uint64_t at);

/* Returns the number of bits that are left, 0 for a null pointer. */
uint64_t bits_left(const struct bits_reader *reader);

/* Returns the number of bits that were read, 0 for a null pointer. */
uint64_t bits_at(const struct bits_reader *reader);

/* Sets a writer to the first bit of a buffer of `length` bytes. */
enum bits_status bits_writer_open(struct bits_writer *writer, uint8_t *bytes, size_t length);

/* Writes a number of `width` bits, 0 to 64, and goes on by these bits. This call and each other write leaves all other
 * bits of the buffer as they were, those before its bits and those after them. */
enum bits_status bits_write_unsigned(struct bits_writer *writer, uint32_t width, uint64_t value);
enum bits_status bits_write_unsigned_le(struct bits_writer *writer, uint32_t width, uint64_t value);

/* Writes a signed number of `width` bits, 1 to 64, in two's complement. */
enum bits_status bits_write_signed(struct bits_writer *writer, uint32_t width, int64_t value);
enum bits_status bits_write_signed_le(struct bits_writer *writer, uint32_t width, int64_t value);

/* Writes `length` bytes, from any bit on. They must not overlap the buffer. */
enum bits_status bits_write_bytes(struct bits_writer *writer, const uint8_t *bytes, size_t length);
enum bits_status bits_write_bytes_le(struct bits_writer *writer, const uint8_t *bytes, size_t length);

/* Writes a unary number: `value` bits that are not `stop`, and then the bit `stop`. */
enum bits_status bits_write_unary(struct bits_writer *writer, bool stop, uint64_t value);
enum bits_status bits_write_unary_le(struct bits_writer *writer, bool stop, uint64_t value);

/* Writes an exponential Golomb number: the status is BITS_DOES_NOT_FIT for 2^32 - 1. */
enum bits_status bits_write_ue(struct bits_writer *writer, uint32_t value);
enum bits_status bits_write_ue_le(struct bits_writer *writer, uint32_t value);

/* Writes a signed exponential Golomb number: the status is BITS_DOES_NOT_FIT for -2^31. */
enum bits_status bits_write_se(struct bits_writer *writer, int32_t value);
enum bits_status bits_write_se_le(struct bits_writer *writer, int32_t value);

/* Writes zeros up to a whole byte. */
enum bits_status bits_write_align(struct bits_writer *writer);
enum bits_status bits_write_align_le(struct bits_writer *writer);

/* Returns the number of bits that the buffer has room for, 0 for a null pointer. */
uint64_t bits_room(const struct bits_writer *writer);

/* Returns the number of bits that were written, 0 for a null pointer. */
uint64_t bits_written(const struct bits_writer *writer);

#ifdef __cplusplus
}
#endif
#endif
