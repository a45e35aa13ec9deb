/* Files of SQLite's without a name: they are in memory, and nobody else sees them. */
#include "opfs_temporary.h"

#include <string.h>
SQLITE_EXTENSION_INIT3

struct temporary {
    sqlite3_file base;
    unsigned char *bytes;
    sqlite3_int64 length, room;
};

static int temporary_close(sqlite3_file *base) {
    sqlite3_free(((struct temporary *)base)->bytes);
    return SQLITE_OK;
}

static int temporary_read(sqlite3_file *base, void *bytes, int length, sqlite3_int64 at) {
    struct temporary *file = (struct temporary *)base;
    sqlite3_int64 there = file->length > at ? file->length - at : 0;
    if (there > length) there = length;
    if (there > 0) memcpy(bytes, file->bytes + at, (size_t)there);
    memset((char *)bytes + there, 0, (size_t)(length - there));
    return there == length ? SQLITE_OK : SQLITE_IOERR_SHORT_READ;
}

static int temporary_write(sqlite3_file *base, const void *bytes, int length, sqlite3_int64 at) {
    struct temporary *file = (struct temporary *)base;
    sqlite3_int64 end = at + length, room = file->room ? file->room : 65536;
    while (room < end) room *= 2;
    if (room > file->room) {
        unsigned char *more = sqlite3_realloc64(file->bytes, (sqlite3_uint64)room);
        if (!more) return SQLITE_IOERR_NOMEM;
        file->bytes = more;
        file->room = room;
    }
    if (at > file->length) memset(file->bytes + file->length, 0, (size_t)(at - file->length));
    memcpy(file->bytes + at, bytes, (size_t)length);
    if (end > file->length) file->length = end;
    return SQLITE_OK;
}

static int temporary_truncate(sqlite3_file *base, sqlite3_int64 size) {
    struct temporary *file = (struct temporary *)base;
    if (size < file->length) file->length = size;
    return SQLITE_OK;
}

static int temporary_sync(sqlite3_file *base, int flags) {
    (void)base, (void)flags;
    return SQLITE_OK;
}

static int temporary_size(sqlite3_file *base, sqlite3_int64 *size) {
    *size = ((struct temporary *)base)->length;
    return SQLITE_OK;
}

static int temporary_is_reserved(sqlite3_file *base, int *is_reserved) {
    (void)base;
    *is_reserved = 0;
    return SQLITE_OK;
}

static int temporary_control(sqlite3_file *base, int what, void *at) {
    (void)base, (void)what, (void)at;
    return SQLITE_NOTFOUND;
}

static int temporary_sector(sqlite3_file *base) {
    (void)base;
    return 4096;
}

static int temporary_promises(sqlite3_file *base) {
    (void)base;
    return SQLITE_IOCAP_SAFE_APPEND | SQLITE_IOCAP_POWERSAFE_OVERWRITE;
}

static const sqlite3_io_methods TEMPORARY_METHODS = {
    1, temporary_close, temporary_read, temporary_write, temporary_truncate, temporary_sync, temporary_size, temporary_sync, temporary_sync,
    temporary_is_reserved, temporary_control, temporary_sector, temporary_promises, NULL, NULL, NULL, NULL, NULL, NULL,
};

int temporary_open(sqlite3_file *base) {
    *(struct temporary *)base = (struct temporary){.base = {&TEMPORARY_METHODS}};
    return SQLITE_OK;
}

size_t temporary_room(void) {
    return sizeof(struct temporary);
}
