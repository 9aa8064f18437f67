/* Made by `./format --c` from ../protocols/formats/socks_login.fields: edit that file and make this one anew. */
#include "socks_login.h"

/* The fields, and the numbers of items of the lists. */
struct socks_login_head {
    size_t name;
    size_t password;
};

struct socks_login_parsed {
    int32_t status;
    size_t taken;
    struct socks_login_head value;
};

struct socks_login_packed {
    int32_t status;
    size_t written;
};

/* The proved functions. */
struct socks_login_parsed proved_socks_login_parse(const uint8_t *bytes, size_t length, uint8_t *name_items, size_t name_capacity, uint8_t *password_items, size_t password_capacity);
struct socks_login_packed proved_socks_login_pack(const struct socks_login_head *value, const uint8_t *name_items, size_t name_length, const uint8_t *password_items, size_t password_length, uint8_t *buffer, size_t length);

/* The layout that the proved functions have: with another one this type has a negative size. */
typedef char socks_login_layout[sizeof(struct socks_login_head) == 16 && offsetof(struct socks_login_head, password) == 8 ? 1 : -1];

enum socks_login_status socks_login_parse(const uint8_t *bytes, size_t length, struct socks_login *out, size_t *taken)
{
    struct socks_login_parsed parsed;
    if (taken)
        *taken = 0;
    if (!out || (!bytes && length) || (!out->name.items && out->name.capacity) || (!out->password.items && out->password.capacity))
        return SOCKS_LOGIN_NULL;
    parsed = proved_socks_login_parse(bytes, length, out->name.items, out->name.capacity, out->password.items, out->password.capacity);
    if (parsed.status == SOCKS_LOGIN_OK) {
        out->name.length = parsed.value.name;
        out->password.length = parsed.value.password;
    }
    if (taken)
        *taken = parsed.taken;
    return (enum socks_login_status)parsed.status;
}

enum socks_login_status socks_login_pack(const struct socks_login *in, uint8_t *buffer, size_t length, size_t *written)
{
    struct socks_login_packed packed = {SOCKS_LOGIN_NULL, 0};
    if (in && (buffer || !length) && (in->name.items || !in->name.length) && (in->password.items || !in->password.length)) {
        struct socks_login_head head;
        head.name = in->name.length;
        head.password = in->password.length;
        packed = proved_socks_login_pack(&head, in->name.items, in->name.length, in->password.items, in->password.length, buffer, length);
    }
    if (written)
        *written = packed.written;
    return (enum socks_login_status)packed.status;
}

const char *misfit_of_socks_login(const struct socks_login_head *value, const uint8_t *name_items, size_t name_length, const uint8_t *password_items, size_t password_length)
{
    (void)value;
    (void)name_items;
    (void)password_items;
    if (name_length > 255)
        return "name";
    if (password_length > 255)
        return "password";
    return NULL;
}

const char *socks_login_misfit(const struct socks_login *in)
{
    struct socks_login_head head;
    if (!in || (!in->name.items && in->name.length) || (!in->password.items && in->password.length))
        return NULL;
    head.name = in->name.length;
    head.password = in->password.length;
    return misfit_of_socks_login(&head, in->name.items, in->name.length, in->password.items, in->password.length);
}

const char *socks_login_status_text(enum socks_login_status status)
{
    switch (status) {
    case SOCKS_LOGIN_OK:
        return "the call did its work";
    case SOCKS_LOGIN_END_OF_INPUT:
        return "the bytes end before the fields do";
    case SOCKS_LOGIN_NO_ROOM:
        return "the buffer is too short";
    case SOCKS_LOGIN_DOES_NOT_FIT:
        return "a field has a value that the format does not allow";
    case SOCKS_LOGIN_NULL:
        return "a pointer is null";
    case SOCKS_LOGIN_NO_ROOM_NAME:
        return "the storage has no room for the items of `name`";
    case SOCKS_LOGIN_NO_ROOM_PASSWORD:
        return "the storage has no room for the items of `password`";
    case SOCKS_LOGIN_OTHER_VERSION:
        return "the version of this message is not 1";
    }
    return "no status";
}
