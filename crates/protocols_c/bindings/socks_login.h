/* Made by `./format --c` from ../protocols/formats/socks_login.fields: edit that file and make this one anew.
 *
 * The name and the password of a user, as a client of SOCKS sends them (RFC 1929, section 2).
 *
 *  0                   1                   2                   3
 *  0 1 2 3 4 5 6 7 8 9 0 1 2 3 4 5 6 7 8 9 0 1 2 3 4 5 6 7 8 9 0 1
 * +-+-+-+-+-+-+-+-+-+-+-+-+-+-+-+-+
 * |       =1      |   name_bytes  |
 * +-+-+-+-+-+-+-+-+-+-+-+-+-+-+-+-+-+-+-+-+-+-+-+-+-+-+-+-+-+-+-+-+
 * /                    name (name_bytes bytes)                    /
 * +-+-+-+-+-+-+-+-+-+-+-+-+-+-+-+-+-+-+-+-+-+-+-+-+-+-+-+-+-+-+-+-+
 * | password_bytes|
 * +-+-+-+-+-+-+-+-+-+-+-+-+-+-+-+-+-+-+-+-+-+-+-+-+-+-+-+-+-+-+-+-+
 * /                password (password_bytes bytes)                /
 * +-+-+-+-+-+-+-+-+-+-+-+-+-+-+-+-+-+-+-+-+-+-+-+-+-+-+-+-+-+-+-+-+
 */
#ifndef SOCKS_LOGIN_H
#define SOCKS_LOGIN_H

#include <stdbool.h>
#include <stddef.h>
#include <stdint.h>

#ifdef __cplusplus
extern "C" {
#endif

/* The list `name`, in storage of the caller. */
struct socks_login_name {
    /* The storage: null only if it has room for no item. A pack only reads it. */
    uint8_t *items;
    /* The number of items that it has room for. A parse needs it, and a pack does not. */
    size_t capacity;
    /* The number of items. */
    size_t length;
};

/* The list `password`, in storage of the caller. */
struct socks_login_password {
    /* The storage: null only if it has room for no item. A pack only reads it. */
    uint8_t *items;
    /* The number of items that it has room for. A parse needs it, and a pack does not. */
    size_t capacity;
    /* The number of items. */
    size_t length;
};

struct socks_login {
    /* The name. At most 255 bytes. */
    struct socks_login_name name;
    /* The password. At most 255 bytes. */
    struct socks_login_password password;
};

/* The result of a call. */
enum socks_login_status {
    /* The call did its work. */
    SOCKS_LOGIN_OK = 0,
    /* The bytes end before the fields do. */
    SOCKS_LOGIN_END_OF_INPUT = 1,
    /* The buffer is too short. */
    SOCKS_LOGIN_NO_ROOM = 2,
    /* A field has a value that the format does not allow. */
    SOCKS_LOGIN_DOES_NOT_FIT = 3,
    /* A pointer is null. */
    SOCKS_LOGIN_NULL = 4,
    /* The storage has no room for the items of `name`. */
    SOCKS_LOGIN_NO_ROOM_NAME = 5,
    /* The storage has no room for the items of `password`. */
    SOCKS_LOGIN_NO_ROOM_PASSWORD = 6,
    /* The version of this message is not 1. */
    SOCKS_LOGIN_OTHER_VERSION = 7
};

/* Returns the text of a status, in lower case and without a full stop. */
const char *socks_login_status_text(enum socks_login_status status);

/* Parses the fields at the start of `length` bytes into `*out`, and the items of lists into the
 * storage that the caller has set in `out->name` and `out->password`. Sets `*taken` to the number
 * of bytes that the fields take unless `taken` is null, and returns SOCKS_LOGIN_OK. Items after the
 * last one are as before. After an error `*out` is as before, but the items in the storage are
 * unspecified, and `*taken` is the number of items of the list without room for them, or 0. The
 * errors are: SOCKS_LOGIN_NULL if `out` is null, or `bytes` is null and `length` is not 0, or the
 * items of a list are null and its capacity is not 0; else the first in the order of the bits:
 * SOCKS_LOGIN_OTHER_VERSION if the version of this message is not 1; SOCKS_LOGIN_END_OF_INPUT if
 * the bytes end before the fields do, if nothing in them is refused; else SOCKS_LOGIN_NO_ROOM_NAME
 * if `name` has more items than its capacity; SOCKS_LOGIN_NO_ROOM_PASSWORD if `password` has more
 * items than its capacity. */
enum socks_login_status socks_login_parse(const uint8_t *bytes, size_t length, struct socks_login *out, size_t *taken);

/* Writes the fields to the first of `length` bytes, and zeros up to a whole byte, sets `*written`
 * to the number of these bytes unless `written` is null, and returns SOCKS_LOGIN_OK. The bytes
 * after them are as before. After an error all bytes are as before, and `*written` is 0. `*in` and
 * the buffer may not overlap. The errors are: SOCKS_LOGIN_NULL if `in` is null, or `buffer` is null
 * and `length` is not 0, or the items of a list are null and its length is not 0; else
 * SOCKS_LOGIN_DOES_NOT_FIT if a field has a value that the format does not allow; else
 * SOCKS_LOGIN_NO_ROOM if they are more than `length`. */
enum socks_login_status socks_login_pack(
    const struct socks_login *in, uint8_t *buffer, size_t length, size_t *written);

/* Returns the name of the first field whose value the format does not allow, for which a pack returns
 * SOCKS_LOGIN_DOES_NOT_FIT, or null if there is none or a pointer is null. It is not proved. */
const char *socks_login_misfit(const struct socks_login *in);

#ifdef __cplusplus
}
#endif
#endif
