/* Made by `./format --c` from ../protocols/formats/mqtt_header.fields: edit that file and make this one anew. */
#include "mqtt_header.h"

struct mqtt_header_parsed {
    int32_t status;
    size_t taken;
    struct mqtt_header value;
};

struct mqtt_header_packed {
    int32_t status;
    size_t written;
};

/* The proved functions. */
struct mqtt_header_parsed proved_mqtt_header_parse(const uint8_t *bytes, size_t length);
struct mqtt_header_packed proved_mqtt_header_pack(const struct mqtt_header *value, uint8_t *buffer, size_t length);

/* The layout that the proved functions have: with another one this type has a negative size. */
typedef char mqtt_header_layout[sizeof(struct mqtt_header) == 8 && offsetof(struct mqtt_header, remaining) == 4 ? 1 : -1];

enum mqtt_header_status mqtt_header_parse(const uint8_t *bytes, size_t length, struct mqtt_header *out, size_t *taken)
{
    struct mqtt_header_parsed parsed;
    if (taken)
        *taken = 0;
    if (!out || (!bytes && length))
        return MQTT_HEADER_NULL;
    parsed = proved_mqtt_header_parse(bytes, length);
    if (parsed.status == MQTT_HEADER_OK)
        *out = parsed.value;
    if (taken)
        *taken = parsed.taken;
    return (enum mqtt_header_status)parsed.status;
}

enum mqtt_header_status mqtt_header_pack(const struct mqtt_header *in, uint8_t *buffer, size_t length, size_t *written)
{
    struct mqtt_header_packed packed = {MQTT_HEADER_NULL, 0};
    if (in && (buffer || !length))
        packed = proved_mqtt_header_pack(in, buffer, length);
    if (written)
        *written = packed.written;
    return (enum mqtt_header_status)packed.status;
}

const char *mqtt_header_misfit(const struct mqtt_header *value)
{
    if (!value)
        return NULL;
    if (!(value->kind >= 1 && value->kind <= 15))
        return "kind";
    if (value->quality > 3)
        return "quality";
    return NULL;
}

const char *mqtt_header_status_text(enum mqtt_header_status status)
{
    switch (status) {
    case MQTT_HEADER_OK:
        return "the call did its work";
    case MQTT_HEADER_END_OF_INPUT:
        return "the bytes end before the fields do";
    case MQTT_HEADER_NO_ROOM:
        return "the buffer is too short";
    case MQTT_HEADER_DOES_NOT_FIT:
        return "a field has a value that the format does not allow";
    case MQTT_HEADER_NULL:
        return "a pointer is null";
    case MQTT_HEADER_BAD_NUMBER:
        return "a number of variable width is too large, or ends in a group of 0 behind others";
    case MQTT_HEADER_NO_PACKET:
        return "`kind` is not the number of a case of `Packet`";
    }
    return "no status";
}
