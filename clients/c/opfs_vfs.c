/* A VFS for SQLite over access handles, as a loadable extension: `file:NAME?vfs=opfs&image=PATH`. The README here says how it is used.

   The handle of a database is open for as long as the database is, and its exclusive lock is the file's lock: levels are kept here alone. A sync is a
   flush. Files without a name are held in memory. There is no shared memory, so WAL needs `PRAGMA locking_mode=EXCLUSIVE` first. */
#define _POSIX_C_SOURCE 200809L
#include "opfs_images.h"
#include "opfs_temporary.h"
SQLITE_EXTENSION_INIT1

#include <stdio.h>
#include <stdlib.h>
#include <string.h>

#define EXPORTED __attribute__((visibility("default")))
#define ORIGIN "https://sqlite.localhost"

enum { MOST_PATH = 1024, SECTOR = 4096, FRONT = 100 };

/* What was written side by side to a journal, and goes out as one write before the database is written. Where that is refused it stays, and is read from
   here, since SQLite takes back from it what it has changed in memory; the database is written again only for that. */
struct pending {
    struct file *file;
    uint64_t at;
    size_t length;
    bool is_refused;
    unsigned char bytes[65536];
};

struct file {
    sqlite3_file base;
    struct image *image;
    opfs_ref handle;
    int level;
    bool is_read_only, is_journal, is_log;
    bool was_synced;               /* whether it was synced since a removal was last made sure */
    bool has_size, has_front;      /* whether its size is known, and its first bytes: nobody else changes a file whose lock is held */
    uint64_t size;
    unsigned char front[FRONT];
    char *path;                    /* of a database; NULL of others */
    bool has_none[2];              /* whether a database is known to have no journal beside it, and no log: nobody else is in the image */
    struct pending *pending;       /* of a database, and of all beside it */
    struct file *next;
};

static sqlite3_mutex *lock;
static struct file *files; /* all that are open */
static const sqlite3_io_methods FILE_METHODS;

/* The code for a result other than OPFS_OK; it is logged. */
static int fault(struct image *image, opfs_result result, int code) {
    bool is_full = result == OPFS_QUOTA_EXCEEDED || result == OPFS_DATA_FULL || result == OPFS_META_FULL;
    if (is_full) code = SQLITE_FULL;
    if (result == OPFS_NO_MEMORY) code = SQLITE_IOERR_NOMEM;
    sqlite3_log(code, "opfs: %s: %s", opfs_name(result), opfs_told(image->store));
    return code;
}

static int done(struct file *file, opfs_result result, int code) {
    int given = result ? fault(file->image, result, code) : SQLITE_OK;
    sqlite3_mutex_leave(lock);
    return given;
}

static struct file *enter(sqlite3_file *base) {
    sqlite3_mutex_enter(lock);
    return (struct file *)base;
}

/* Writes what is pending. */
static opfs_result put(struct pending *pending) {
    if (!pending || !pending->length) return OPFS_OK;
    struct file *file = pending->file;
    opfs_result result = opfs_sync_write(file->image->agent, file->handle, pending->bytes, pending->length, pending->at);
    pending->is_refused = result != OPFS_OK;
    if (!result) pending->length = 0;
    return result;
}

/* The same before something else is done: a refusal is told once. */
static opfs_result put_once(struct pending *pending) {
    return pending && pending->is_refused ? OPFS_OK : put(pending);
}

static void drop(struct pending *pending) {
    pending->length = 0;
    pending->is_refused = false;
    pending->file->has_size = false;
}

/* Whether something is pending for this file. */
static bool has_pending(struct file *file) {
    return file->pending && file->pending->length && file->pending->file == file;
}

/* Files. */

/* Takes a file out of the list; one beside it has nothing pending with it any more. */
static void forget(struct file *file) {
    struct file **at = &files;
    while (*at != file) at = &(*at)->next;
    *at = file->next;
    if (has_pending(file)) drop(file->pending);
    if (!file->path) return;
    for (struct file *it = files; it; it = it->next)
        if (it->pending == file->pending) it->pending = NULL;
    free(file->pending);
    free(file->path);
}

static int file_close(sqlite3_file *base) {
    struct file *file = enter(base);
    opfs_result result = has_pending(file) ? put_once(file->pending) : OPFS_OK, closed = opfs_sync_close(file->image->agent, file->handle);
    if (closed == OPFS_DISK_FAULT) closed = opfs_sync_close(file->image->agent, file->handle); /* it is open still, and asked for once more */
    if (!result) result = closed;
    opfs_drop(file->image->agent, file->handle);
    if (result) fault(file->image, result, SQLITE_IOERR_CLOSE);
    forget(file);
    opfs_result ended = image_release(file->image);
    sqlite3_mutex_leave(lock);
    if (ended && !result) sqlite3_log(SQLITE_IOERR_CLOSE, "opfs: the store ended: %s", opfs_name(ended));
    return result || ended ? SQLITE_IOERR_CLOSE : SQLITE_OK;
}

static opfs_result read_bytes(struct file *file, void *bytes, size_t length, uint64_t at, size_t *got) {
    struct pending *pending = has_pending(file) && at + length > file->pending->at ? file->pending : NULL;
    if (pending && at >= pending->at && at + length <= pending->at + pending->length) {
        memcpy(bytes, pending->bytes + (at - pending->at), length);
        *got = length;
        return OPFS_OK;
    }
    opfs_result result = put(pending);
    return result ? result : opfs_sync_read(file->image->agent, file->handle, bytes, length, at, got);
}

/* Each transaction asks again for the first bytes of a database. */
static opfs_result read_front(struct file *file, void *bytes, size_t length, uint64_t at, size_t *got) {
    size_t there = 0;
    opfs_result result = file->has_front ? OPFS_OK : read_bytes(file, file->front, FRONT, 0, &there);
    file->has_front = file->has_front || (!result && there == FRONT);
    if (!file->has_front) return result ? result : read_bytes(file, bytes, length, at, got);
    memcpy(bytes, file->front + at, length);
    *got = length;
    return OPFS_OK;
}

static int file_read(sqlite3_file *base, void *bytes, int length, sqlite3_int64 at) {
    struct file *file = enter(base);
    size_t got = 0;
    bool is_front = file->path && at + length <= FRONT;
    int code = done(file, (is_front ? read_front : read_bytes)(file, bytes, (size_t)length, (uint64_t)at, &got), SQLITE_IOERR_READ);
    if (code != SQLITE_OK || got == (size_t)length) return code;
    memset((char *)bytes + got, 0, (size_t)length - got);
    return SQLITE_IOERR_SHORT_READ;
}

/* Makes way for a write: what is pending goes out before it, but where the write goes on at its end, or begins a journal anew. */
static opfs_result make_way(struct file *file, size_t length, uint64_t at) {
    struct pending *pending = file->pending;
    if (!has_pending(file)) return put_once(pending);
    if (pending->is_refused && at <= pending->at) drop(pending);
    if (!pending->length) return OPFS_OK;
    bool is_next = !pending->is_refused && at == pending->at + pending->length && length <= sizeof pending->bytes - pending->length;
    return is_next ? OPFS_OK : put(pending);
}

/* A write goes out at once, or is gathered: all of a rollback journal's, and of a log the heads of its frames. */
static opfs_result write_bytes(struct file *file, const void *bytes, size_t length, uint64_t at) {
    struct pending *pending = file->pending;
    bool is_free = pending && length <= sizeof pending->bytes && (!pending->length || has_pending(file));
    bool is_gathered = is_free && (file->is_journal || (file->is_log && (length < 512 || pending->length)));
    if (!is_gathered) return opfs_sync_write(file->image->agent, file->handle, bytes, length, at);
    if (!pending->length) pending->at = at;
    pending->file = file;
    memcpy(pending->bytes + pending->length, bytes, length);
    pending->length += length;
    opfs_result result = file->is_log && length >= 512 ? put(pending) : OPFS_OK;
    if (result) drop(pending);
    return result;
}

static opfs_result size_of(struct file *file) {
    opfs_result result = !file->has_size && has_pending(file) ? put(file->pending) : OPFS_OK;
    if (!result && !file->has_size) result = opfs_sync_get_size(file->image->agent, file->handle, &file->size);
    file->has_size = !result;
    return result;
}

/* Where an earlier write is refused only now that is no SQLITE_FULL, for SQLite would take back a statement alone. */
static int file_write(sqlite3_file *base, const void *bytes, int length, sqlite3_int64 at) {
    struct file *file = enter(base);
    uint64_t end = (uint64_t)at + (uint64_t)length;
    opfs_result late = make_way(file, (size_t)length, (uint64_t)at);
    opfs_result result = late ? late : write_bytes(file, bytes, (size_t)length, (uint64_t)at);
    if (result && !has_pending(file)) file->has_size = false;
    if (!result && file->size < end) file->size = end;
    if (at < FRONT) file->has_front = false;
    int code = done(file, result, SQLITE_IOERR_WRITE);
    return late && code == SQLITE_FULL ? SQLITE_IOERR_WRITE : code;
}

static int file_truncate(sqlite3_file *base, sqlite3_int64 size) {
    struct file *file = enter(base);
    if (has_pending(file) && (uint64_t)size <= file->pending->at) drop(file->pending);
    opfs_result result = has_pending(file) ? put(file->pending) : put_once(file->pending);
    if (!result) result = opfs_sync_truncate(file->image->agent, file->handle, (uint64_t)size);
    file->has_size = !result;
    file->has_front = file->has_front && size >= FRONT;
    file->size = (uint64_t)size;
    return done(file, result, SQLITE_IOERR_TRUNCATE);
}

static int file_sync(sqlite3_file *base, int flags) {
    struct file *file = enter(base);
    (void)flags;
    opfs_result result = has_pending(file) ? put(file->pending) : put_once(file->pending);
    if (!result) result = opfs_sync_flush(file->image->agent, file->handle);
    file->was_synced = true;
    return done(file, result, SQLITE_IOERR_FSYNC);
}

static int file_size(sqlite3_file *base, sqlite3_int64 *size) {
    struct file *file = enter(base);
    opfs_result result = size_of(file);
    *size = (sqlite3_int64)file->size;
    return done(file, result, SQLITE_IOERR_FSTAT);
}

static int file_lock(sqlite3_file *base, int level) {
    struct file *file = (struct file *)base;
    if (level > file->level) file->level = level;
    return SQLITE_OK;
}

static int file_unlock(sqlite3_file *base, int level) {
    struct file *file = (struct file *)base;
    if (level < file->level) file->level = level;
    return SQLITE_OK;
}

static int file_is_reserved(sqlite3_file *base, int *is_reserved) {
    *is_reserved = ((struct file *)base)->level >= SQLITE_LOCK_RESERVED;
    return SQLITE_OK;
}

/* At the end of a transaction, also of one that is not synced, what is pending goes out, so that a refusal is told before it. */
static int file_control(sqlite3_file *base, int what, void *at) {
    struct file *file = enter(base);
    bool is_end = what == SQLITE_FCNTL_SYNC || what == SQLITE_FCNTL_COMMIT_PHASETWO;
    int code = done(file, is_end ? put_once(file->pending) : OPFS_OK, SQLITE_IOERR_WRITE);
    if (is_end) return code;
    if (what == SQLITE_FCNTL_LOCKSTATE) *(int *)at = file->level;
    else if (what == SQLITE_FCNTL_VFSNAME) *(char **)at = sqlite3_mprintf("opfs");
    else return SQLITE_NOTFOUND;
    return SQLITE_OK;
}

static int file_sector(sqlite3_file *base) {
    (void)base;
    return SECTOR;
}

/* After a stop a file has the bytes of its last flush, whole: so nothing that was written beside or behind them harms them. An open file can't be
   removed. Files are not stored in the order of their writes, but of their flushes. */
static int file_promises(sqlite3_file *base) {
    (void)base;
    return SQLITE_IOCAP_SAFE_APPEND | SQLITE_IOCAP_POWERSAFE_OVERWRITE | SQLITE_IOCAP_UNDELETABLE_WHEN_OPEN;
}

static const sqlite3_io_methods FILE_METHODS = {
    1, file_close, file_read, file_write, file_truncate, file_sync, file_size, file_lock, file_unlock, file_is_reserved, file_control, file_sector,
    file_promises, NULL, NULL, NULL, NULL, NULL, NULL,
};

/* The VFS. */

/* The database that a file stands beside, by its path. */
static struct file *database_of(const char *path) {
    struct file *found = NULL;
    for (struct file *it = files; it; it = it->next) {
        size_t length = it->path ? strlen(it->path) : 0;
        bool is_beside = length && !strncmp(path, it->path, length) && (!path[length] || path[length] == '-');
        if (is_beside && (!found || length > strlen(found->path))) found = it;
    }
    return found;
}

/* What a parameter of the URI says, else the environment; NULL where neither does. */
static const char *asked(const char *name, bool has_words, const char *word, const char *variable) {
    const char *value = has_words ? sqlite3_uri_parameter(name, word) : NULL;
    if (!value) value = getenv(variable);
    return value && *value ? value : NULL;
}

/* The image for a file that stands beside no open database; where none is named, the one that is in use alone. NULL is told to the log. */
static struct image *image_for(const char *name, bool has_words) {
    char why[256] = "no image: give `image=PATH` or OPFS_IMAGE";
    const char *path = asked(name, has_words, "image", "OPFS_IMAGE"), *origin = asked(name, has_words, "origin", "OPFS_ORIGIN");
    const char *record = asked(name, has_words, "record", "OPFS_RECORD");
    struct image *image = path ? image_take(path, origin ? origin : ORIGIN, record, why, sizeof why) : image_alone();
    if (!image) sqlite3_log(SQLITE_CANTOPEN, "opfs: %s", why);
    return image;
}

static struct image *image_beside(const char *path) {
    struct file *database = database_of(path);
    return database ? image_share(database->image) : image_for(path, false);
}

/* Opens a file of an image that was taken for it. */
static int open_in(struct file *file, const char *path, int flags) {
    bool may_make = flags & SQLITE_OPEN_CREATE, is_database = flags & SQLITE_OPEN_MAIN_DB;
    struct file *database = database_of(path);
    file->is_read_only = flags & SQLITE_OPEN_READONLY;
    file->is_journal = flags & SQLITE_OPEN_MAIN_JOURNAL;
    file->is_log = flags & SQLITE_OPEN_WAL;
    if (is_database && (!(file->path = strdup(path)) || !(file->pending = calloc(1, sizeof *file->pending)))) return SQLITE_NOMEM;
    if (!is_database && database) file->pending = database->pending;
    if (database) database->has_none[0] = database->has_none[1] = false;
    opfs_result result = image_open(file->image, path, may_make, file->is_read_only, &file->handle);
    if (result) return fault(file->image, result, result == OPFS_NO_MODIFICATION ? SQLITE_BUSY : SQLITE_CANTOPEN);
    file->base.pMethods = &FILE_METHODS;
    return SQLITE_OK;
}

static int open_file(struct file *file, const char *name, int flags) {
    bool is_database = flags & SQLITE_OPEN_MAIN_DB;
    struct file *other = database_of(name);
    file->image = is_database ? image_for(name, true) : image_beside(name);
    if (!file->image) return SQLITE_CANTOPEN;
    bool is_twice = is_database && other && !strcmp(other->path, name) && other->image != file->image;
    if (is_twice) sqlite3_log(SQLITE_CANTOPEN, "opfs: %s is open in another image", name);
    int code = is_twice ? SQLITE_CANTOPEN : open_in(file, name, flags);
    file->next = files;
    files = file;
    if (code == SQLITE_OK) return code;
    forget(file);
    image_release(file->image);
    return code;
}

static int vfs_open(sqlite3_vfs *vfs, const char *name, sqlite3_file *base, int flags, int *given) {
    (void)vfs;
    *(struct file *)base = (struct file){.image = NULL};
    if (given) *given = flags;
    if (!name || flags & SQLITE_OPEN_DELETEONCLOSE) return temporary_open(base);
    sqlite3_mutex_enter(lock);
    int code = open_file((struct file *)base, name, flags);
    sqlite3_mutex_leave(lock);
    return code;
}

/* Makes a removal beside a database sure. Where the journal is removed at the end of a transaction that was synced, that is what commits it; and by
   itself a removal is stored at the next flush only. */
static opfs_result make_sure(struct file *database, bool is_wanted) {
    if (!database || database->is_read_only || !(is_wanted || database->was_synced)) return OPFS_OK;
    database->was_synced = false;
    return opfs_sync_flush(database->image->agent, database->handle);
}

static int vfs_delete(sqlite3_vfs *vfs, const char *name, int is_synced) {
    (void)vfs;
    int code = SQLITE_IOERR_DELETE;
    sqlite3_mutex_enter(lock);
    struct image *image = image_beside(name);
    if (image) {
        struct file *database = database_of(name);
        opfs_result result = database ? put_once(database->pending) : OPFS_OK;
        if (!result) result = image_remove(image, name);
        if (!result) result = make_sure(database, is_synced);
        if (result == OPFS_NOT_FOUND) code = SQLITE_IOERR_DELETE_NOENT;
        else code = result ? fault(image, result, SQLITE_IOERR_DELETE) : SQLITE_OK;
        if (image_release(image) && code == SQLITE_OK) code = SQLITE_IOERR_DELETE;
    }
    sqlite3_mutex_leave(lock);
    return code;
}

/* Where it is kept that there is no such file beside a database; NULL for others. */
static bool *none_of(const char *name) {
    struct file *database = database_of(name);
    const char *end = database ? name + strlen(database->path) : "";
    return !strcmp(end, "-journal") ? &database->has_none[0] : !strcmp(end, "-wal") ? &database->has_none[1] : NULL;
}

/* An empty file counts as none, as on other systems: it is no journal to roll back. */
static opfs_result is_file(struct image *image, const char *name, int *is_there) {
    uint64_t length = 0;
    bool *has_none = none_of(name);
    opfs_result result = has_none && *has_none ? OPFS_OK : image_length(image, name, &length);
    if (has_none) *has_none = !result && !length;
    *is_there = length > 0;
    return result;
}

static int vfs_access(sqlite3_vfs *vfs, const char *name, int flags, int *is_there) {
    (void)vfs, (void)flags;
    int code = SQLITE_IOERR_ACCESS;
    *is_there = 0;
    sqlite3_mutex_enter(lock);
    struct image *image = image_beside(name);
    if (image) {
        opfs_result result = is_file(image, name, is_there);
        code = result ? fault(image, result, SQLITE_IOERR_ACCESS) : SQLITE_OK;
        image_release(image);
    }
    sqlite3_mutex_leave(lock);
    return code;
}

/* A path from the root, without empty names, `.` and `..`. */
static int vfs_full_pathname(sqlite3_vfs *vfs, const char *name, int room, char *full) {
    (void)vfs;
    size_t at = 0;
    for (const char *it = name; *it;) {
        size_t length = strcspn(it, "/");
        bool is_up = length == 2 && !strncmp(it, "..", 2), is_here = length == 0 || (length == 1 && *it == '.');
        while (is_up && at > 0 && full[--at] != '/') {}
        if (!is_up && !is_here) {
            if (at + length + 2 > (size_t)room) return SQLITE_CANTOPEN;
            full[at++] = '/';
            memcpy(full + at, it, length);
            at += length;
        }
        it += length + (it[length] == '/');
    }
    full[at] = 0;
    return at > 0 ? SQLITE_OK : SQLITE_CANTOPEN;
}

/* What is the system's own is left to the VFS that was there before. */

static sqlite3_vfs *below(sqlite3_vfs *vfs) {
    return vfs->pAppData;
}

static void *vfs_dl_open(sqlite3_vfs *vfs, const char *name) {
    return below(vfs)->xDlOpen(below(vfs), name);
}

static void vfs_dl_error(sqlite3_vfs *vfs, int room, char *text) {
    below(vfs)->xDlError(below(vfs), room, text);
}

static void (*vfs_dl_sym(sqlite3_vfs *vfs, void *library, const char *name))(void) {
    return below(vfs)->xDlSym(below(vfs), library, name);
}

static void vfs_dl_close(sqlite3_vfs *vfs, void *library) {
    below(vfs)->xDlClose(below(vfs), library);
}

static int vfs_randomness(sqlite3_vfs *vfs, int length, char *bytes) {
    return below(vfs)->xRandomness(below(vfs), length, bytes);
}

static int vfs_sleep(sqlite3_vfs *vfs, int microseconds) {
    return below(vfs)->xSleep(below(vfs), microseconds);
}

static int vfs_current_time(sqlite3_vfs *vfs, double *days) {
    return below(vfs)->xCurrentTime(below(vfs), days);
}

static int vfs_last_error(sqlite3_vfs *vfs, int room, char *text) {
    return below(vfs)->xGetLastError ? below(vfs)->xGetLastError(below(vfs), room, text) : 0;
}

static int vfs_current_time_64(sqlite3_vfs *vfs, sqlite3_int64 *milliseconds) {
    return below(vfs)->xCurrentTimeInt64(below(vfs), milliseconds);
}

static sqlite3_vfs VFS = {
    .iVersion = 2, .mxPathname = MOST_PATH, .zName = "opfs", .xOpen = vfs_open, .xDelete = vfs_delete, .xAccess = vfs_access,
    .xFullPathname = vfs_full_pathname, .xDlOpen = vfs_dl_open, .xDlError = vfs_dl_error, .xDlSym = vfs_dl_sym, .xDlClose = vfs_dl_close,
    .xRandomness = vfs_randomness, .xSleep = vfs_sleep, .xCurrentTime = vfs_current_time, .xGetLastError = vfs_last_error,
    .xCurrentTimeInt64 = vfs_current_time_64,
};

/* Registers the VFS `opfs`, once; it stays the one that must be named. */
EXPORTED int opfs_vfs_register(void) {
    if (sqlite3_vfs_find("opfs")) return SQLITE_OK;
    if (!lock && !(lock = sqlite3_mutex_alloc(SQLITE_MUTEX_FAST)) && sqlite3_threadsafe()) return SQLITE_NOMEM;
    VFS.pAppData = sqlite3_vfs_find(NULL);
    VFS.szOsFile = (int)(sizeof(struct file) > temporary_room() ? sizeof(struct file) : temporary_room());
    return sqlite3_vfs_register(&VFS, 0);
}

EXPORTED int sqlite3_opfsvfs_init(sqlite3 *database, char **why, const sqlite3_api_routines *routines) {
    SQLITE_EXTENSION_INIT2(routines);
    (void)database, (void)why;
    int code = opfs_vfs_register();
    return code == SQLITE_OK ? SQLITE_OK_LOAD_PERMANENTLY : code;
}
