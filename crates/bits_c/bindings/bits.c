/* The calls of bits.h: they test for null pointers, and call the proved functions. */
#include "bits.h"

struct bits_unsigned {
    int32_t status;
    uint64_t value;
};

struct bits_signed {
    int32_t status;
    int64_t value;
};

/* The proved functions. */
struct bits_unsigned proved_bits_read_unsigned(struct bits_reader *reader, uint32_t width);
struct bits_signed proved_bits_read_signed(struct bits_reader *reader, uint32_t width);
int32_t proved_bits_read_bytes(struct bits_reader *reader, uint8_t *buffer, size_t length);
struct bits_unsigned proved_bits_read_unary(struct bits_reader *reader, bool stop);
struct bits_unsigned proved_bits_read_ue(struct bits_reader *reader);
struct bits_signed proved_bits_read_se(struct bits_reader *reader);
struct bits_unsigned proved_bits_read_unsigned_le(struct bits_reader *reader, uint32_t width);
struct bits_signed proved_bits_read_signed_le(struct bits_reader *reader, uint32_t width);
int32_t proved_bits_read_bytes_le(struct bits_reader *reader, uint8_t *buffer, size_t length);
struct bits_unsigned proved_bits_read_unary_le(struct bits_reader *reader, bool stop);
struct bits_unsigned proved_bits_read_ue_le(struct bits_reader *reader);
struct bits_signed proved_bits_read_se_le(struct bits_reader *reader);
int32_t proved_bits_skip(struct bits_reader *reader, uint64_t count);
void proved_bits_align(struct bits_reader *reader);
int32_t proved_bits_seek(struct bits_reader *reader, uint64_t at);
uint64_t proved_bits_left(const struct bits_reader *reader);
int32_t proved_bits_write_unsigned(struct bits_writer *writer, uint32_t width, uint64_t value);
int32_t proved_bits_write_signed(struct bits_writer *writer, uint32_t width, int64_t value);
int32_t proved_bits_write_bytes(struct bits_writer *writer, const uint8_t *bytes, size_t length);
int32_t proved_bits_write_unary(struct bits_writer *writer, bool stop, uint64_t value);
int32_t proved_bits_write_ue(struct bits_writer *writer, uint32_t value);
int32_t proved_bits_write_se(struct bits_writer *writer, int32_t value);
int32_t proved_bits_write_align(struct bits_writer *writer);
int32_t proved_bits_write_unsigned_le(struct bits_writer *writer, uint32_t width, uint64_t value);
int32_t proved_bits_write_signed_le(struct bits_writer *writer, uint32_t width, int64_t value);
int32_t proved_bits_write_bytes_le(struct bits_writer *writer, const uint8_t *bytes, size_t length);
int32_t proved_bits_write_unary_le(struct bits_writer *writer, bool stop, uint64_t value);
int32_t proved_bits_write_ue_le(struct bits_writer *writer, uint32_t value);
int32_t proved_bits_write_se_le(struct bits_writer *writer, int32_t value);
int32_t proved_bits_write_align_le(struct bits_writer *writer);
uint64_t proved_bits_room(const struct bits_writer *writer);

/* The layouts that the proved functions have: with another one a type has a negative size. */
typedef char bits_layout[sizeof(struct bits_reader) == 24 && offsetof(struct bits_reader, at) == 16 ? 1 : -1];
typedef char bits_writer_layout[sizeof(struct bits_writer) == 24 && offsetof(struct bits_writer, at) == 16 ? 1 : -1];

/* What a reader of no bytes points to: the proved functions expect no null pointer in a struct. */
static const uint8_t none[1];

/* The same for a writer. No call writes to it. */
static uint8_t no_room[1];

static int is_null(const struct bits_reader *reader)
{
    return !reader || !reader->bytes;
}

enum bits_status bits_open(struct bits_reader *reader, const uint8_t *bytes, size_t length)
{
    if (!reader || (!bytes && length))
        return BITS_NULL;
    reader->bytes = bytes ? bytes : none;
    reader->length = length;
    reader->at = 0;
    return BITS_OK;
}

enum bits_status bits_read_unsigned(struct bits_reader *reader, uint32_t width, uint64_t *value)
{
    struct bits_unsigned read;
    if (is_null(reader) || !value)
        return BITS_NULL;
    read = proved_bits_read_unsigned(reader, width);
    if (read.status == BITS_OK)
        *value = read.value;
    return (enum bits_status)read.status;
}

enum bits_status bits_read_signed(struct bits_reader *reader, uint32_t width, int64_t *value)
{
    struct bits_signed read;
    if (is_null(reader) || !value)
        return BITS_NULL;
    read = proved_bits_read_signed(reader, width);
    if (read.status == BITS_OK)
        *value = read.value;
    return (enum bits_status)read.status;
}

enum bits_status bits_read_bytes(struct bits_reader *reader, uint8_t *buffer, size_t length)
{
    if (is_null(reader) || (!buffer && length))
        return BITS_NULL;
    return (enum bits_status)proved_bits_read_bytes(reader, buffer, length);
}

enum bits_status bits_read_unary(struct bits_reader *reader, bool stop, uint64_t *value)
{
    struct bits_unsigned read;
    if (is_null(reader) || !value)
        return BITS_NULL;
    read = proved_bits_read_unary(reader, stop);
    if (read.status == BITS_OK)
        *value = read.value;
    return (enum bits_status)read.status;
}

enum bits_status bits_read_ue(struct bits_reader *reader, uint32_t *value)
{
    struct bits_unsigned read;
    if (is_null(reader) || !value)
        return BITS_NULL;
    read = proved_bits_read_ue(reader);
    if (read.status == BITS_OK)
        *value = (uint32_t)read.value;
    return (enum bits_status)read.status;
}

enum bits_status bits_read_se(struct bits_reader *reader, int32_t *value)
{
    struct bits_signed read;
    if (is_null(reader) || !value)
        return BITS_NULL;
    read = proved_bits_read_se(reader);
    if (read.status == BITS_OK)
        *value = (int32_t)read.value;
    return (enum bits_status)read.status;
}

enum bits_status bits_read_unsigned_le(struct bits_reader *reader, uint32_t width, uint64_t *value)
{
    struct bits_unsigned read;
    if (is_null(reader) || !value)
        return BITS_NULL;
    read = proved_bits_read_unsigned_le(reader, width);
    if (read.status == BITS_OK)
        *value = read.value;
    return (enum bits_status)read.status;
}

enum bits_status bits_read_signed_le(struct bits_reader *reader, uint32_t width, int64_t *value)
{
    struct bits_signed read;
    if (is_null(reader) || !value)
        return BITS_NULL;
    read = proved_bits_read_signed_le(reader, width);
    if (read.status == BITS_OK)
        *value = read.value;
    return (enum bits_status)read.status;
}

enum bits_status bits_read_bytes_le(struct bits_reader *reader, uint8_t *buffer, size_t length)
{
    if (is_null(reader) || (!buffer && length))
        return BITS_NULL;
    return (enum bits_status)proved_bits_read_bytes_le(reader, buffer, length);
}

enum bits_status bits_read_unary_le(struct bits_reader *reader, bool stop, uint64_t *value)
{
    struct bits_unsigned read;
    if (is_null(reader) || !value)
        return BITS_NULL;
    read = proved_bits_read_unary_le(reader, stop);
    if (read.status == BITS_OK)
        *value = read.value;
    return (enum bits_status)read.status;
}

enum bits_status bits_read_ue_le(struct bits_reader *reader, uint32_t *value)
{
    struct bits_unsigned read;
    if (is_null(reader) || !value)
        return BITS_NULL;
    read = proved_bits_read_ue_le(reader);
    if (read.status == BITS_OK)
        *value = (uint32_t)read.value;
    return (enum bits_status)read.status;
}

enum bits_status bits_read_se_le(struct bits_reader *reader, int32_t *value)
{
    struct bits_signed read;
    if (is_null(reader) || !value)
        return BITS_NULL;
    read = proved_bits_read_se_le(reader);
    if (read.status == BITS_OK)
        *value = (int32_t)read.value;
    return (enum bits_status)read.status;
}

enum bits_status bits_skip(struct bits_reader *reader, uint64_t count)
{
    return is_null(reader) ? BITS_NULL : (enum bits_status)proved_bits_skip(reader, count);
}

enum bits_status bits_align(struct bits_reader *reader)
{
    if (is_null(reader))
        return BITS_NULL;
    proved_bits_align(reader);
    return BITS_OK;
}

enum bits_status bits_seek(struct bits_reader *reader, uint64_t at)
{
    return is_null(reader) ? BITS_NULL : (enum bits_status)proved_bits_seek(reader, at);
}

uint64_t bits_left(const struct bits_reader *reader)
{
    return is_null(reader) ? 0 : proved_bits_left(reader);
}

uint64_t bits_at(const struct bits_reader *reader)
{
    return reader ? reader->at : 0;
}

static int is_null_writer(const struct bits_writer *writer)
{
    return !writer || !writer->bytes;
}

enum bits_status bits_writer_open(struct bits_writer *writer, uint8_t *bytes, size_t length)
{
    if (!writer || (!bytes && length))
        return BITS_NULL;
    writer->bytes = bytes ? bytes : no_room;
    writer->length = length;
    writer->at = 0;
    return BITS_OK;
}

enum bits_status bits_write_unsigned(struct bits_writer *writer, uint32_t width, uint64_t value)
{
    if (is_null_writer(writer))
        return BITS_NULL;
    return (enum bits_status)proved_bits_write_unsigned(writer, width, value);
}

enum bits_status bits_write_signed(struct bits_writer *writer, uint32_t width, int64_t value)
{
    if (is_null_writer(writer))
        return BITS_NULL;
    return (enum bits_status)proved_bits_write_signed(writer, width, value);
}

enum bits_status bits_write_bytes(struct bits_writer *writer, const uint8_t *bytes, size_t length)
{
    if (is_null_writer(writer) || (!bytes && length))
        return BITS_NULL;
    return (enum bits_status)proved_bits_write_bytes(writer, bytes, length);
}

enum bits_status bits_write_unary(struct bits_writer *writer, bool stop, uint64_t value)
{
    if (is_null_writer(writer))
        return BITS_NULL;
    return (enum bits_status)proved_bits_write_unary(writer, stop, value);
}

enum bits_status bits_write_ue(struct bits_writer *writer, uint32_t value)
{
    if (is_null_writer(writer))
        return BITS_NULL;
    return (enum bits_status)proved_bits_write_ue(writer, value);
}

enum bits_status bits_write_se(struct bits_writer *writer, int32_t value)
{
    if (is_null_writer(writer))
        return BITS_NULL;
    return (enum bits_status)proved_bits_write_se(writer, value);
}

enum bits_status bits_write_align(struct bits_writer *writer)
{
    if (is_null_writer(writer))
        return BITS_NULL;
    return (enum bits_status)proved_bits_write_align(writer);
}

enum bits_status bits_write_unsigned_le(struct bits_writer *writer, uint32_t width, uint64_t value)
{
    if (is_null_writer(writer))
        return BITS_NULL;
    return (enum bits_status)proved_bits_write_unsigned_le(writer, width, value);
}

enum bits_status bits_write_signed_le(struct bits_writer *writer, uint32_t width, int64_t value)
{
    if (is_null_writer(writer))
        return BITS_NULL;
    return (enum bits_status)proved_bits_write_signed_le(writer, width, value);
}

enum bits_status bits_write_bytes_le(struct bits_writer *writer, const uint8_t *bytes, size_t length)
{
    if (is_null_writer(writer) || (!bytes && length))
        return BITS_NULL;
    return (enum bits_status)proved_bits_write_bytes_le(writer, bytes, length);
}

enum bits_status bits_write_unary_le(struct bits_writer *writer, bool stop, uint64_t value)
{
    if (is_null_writer(writer))
        return BITS_NULL;
    return (enum bits_status)proved_bits_write_unary_le(writer, stop, value);
}

enum bits_status bits_write_ue_le(struct bits_writer *writer, uint32_t value)
{
    if (is_null_writer(writer))
        return BITS_NULL;
    return (enum bits_status)proved_bits_write_ue_le(writer, value);
}

enum bits_status bits_write_se_le(struct bits_writer *writer, int32_t value)
{
    if (is_null_writer(writer))
        return BITS_NULL;
    return (enum bits_status)proved_bits_write_se_le(writer, value);
}

enum bits_status bits_write_align_le(struct bits_writer *writer)
{
    if (is_null_writer(writer))
        return BITS_NULL;
    return (enum bits_status)proved_bits_write_align_le(writer);
}

uint64_t bits_room(const struct bits_writer *writer)
{
    return is_null_writer(writer) ? 0 : proved_bits_room(writer);
}

uint64_t bits_written(const struct bits_writer *writer)
{
    return writer ? writer->at : 0;
}

const char *bits_status_text(enum bits_status status)
{
    switch (status) {
    case BITS_OK:
        return "the call did its work";
    case BITS_END_OF_INPUT:
        return "fewer bits are left";
    case BITS_WIDTH:
        return "more than 64 bits, or a signed number of no bits";
    case BITS_NULL:
        return "a pointer is null";
    case BITS_NO_ROOM:
        return "the buffer has fewer bits left";
    case BITS_DOES_NOT_FIT:
        return "the number has more bits";
    case BITS_TOO_LONG:
        return "the number begins with more than 31 zeros";
    }
    return "no status";
}
