/* The origin private file system of an image, from C: a store runs as a child process, `opfs_serve IMAGE`, and each call here is one line to it and
   its answer. C11 and POSIX alone. A store and its agents may be used by one thread at a time.

   A call gives OPFS_OK or why not; what it gives besides is set only at OPFS_OK. Texts are UTF-8. docs/SERVE.md and docs/FORMATS.md say what each
   call does and refuses; opfs_name() gives the names that stand there. */
#ifndef OPFS_H
#define OPFS_H

#include <stdbool.h>
#include <stddef.h>
#include <stdint.h>

typedef enum {
    OPFS_OK,
    /* What the store refuses a call with. */
    OPFS_TYPE_ERROR, OPFS_NOT_FOUND, OPFS_TYPE_MISMATCH, OPFS_INVALID_MODIFICATION, OPFS_NO_MODIFICATION, OPFS_INVALID_STATE, OPFS_SECURITY,
    OPFS_QUOTA_EXCEEDED, OPFS_NAME_LIMIT, OPFS_META_FULL, OPFS_DATA_FULL, OPFS_DISK_FAULT, OPFS_STUCK, OPFS_UNBOUND,
    /* Why a line was no call: nothing was done. */
    OPFS_NO_AGENT, OPFS_WAITING, OPFS_ENDED, OPFS_NOT_JSON, OPFS_BAD_SHAPE, OPFS_UNKNOWN_STEP, OPFS_TOO_MANY,
    /* There was no memory here for the line: nothing was sent. */
    OPFS_NO_MEMORY,
    /* The child did not start or refused the image; ended, or was killed; answered otherwise than it can. Each later call gives the same. */
    OPFS_NOT_STARTED, OPFS_GONE, OPFS_ODD
} opfs_result;

typedef struct opfs opfs;
typedef struct opfs_agent opfs_agent;

/* A variable of an agent, which names what a call gave; 0 names nothing. */
typedef uint32_t opfs_ref;

/* The place of a read or write that goes on where the last one ended. */
#define OPFS_CURSOR UINT64_MAX

typedef struct {
    const char *origin; /* a URL */
    bool may_persist;   /* whether it has the grant */
} opfs_origin;

typedef struct {
    const char *serve;         /* the program; where NULL, what OPFS_SERVE of the environment says, else opfs_serve on the path */
    const char *image;         /* made by `opfs format` */
    const char *record;        /* a file that gets each line of the conversation, those that are sent behind `> `; NULL for none */
    const opfs_origin *agents; /* 1 to 64 */
    size_t count;
} opfs_start;

typedef enum { OPFS_NO_CHILD, OPFS_FILE, OPFS_DIRECTORY } opfs_kind;

typedef struct {
    opfs_kind kind;   /* OPFS_NO_CHILD at the end */
    opfs_ref ref;
    const char *name; /* until the next call; of so many bytes, of which any may be 0 */
    size_t length;
} opfs_child;

/* Starts a store. It is given also where that failed, to ask opfs_told() why and to be closed, but for OPFS_NO_MEMORY. */
opfs_result opfs_open(const opfs_start *start, opfs **store);
/* Ends all agents and the child, and waits for it. OPFS_OK: what was kept back is stored. The store is gone in any case; NULL is OK. */
opfs_result opfs_close(opfs *store);
/* The agent of a number, from 1 on; NULL for no such. */
opfs_agent *opfs_agent_of(opfs *store, size_t number);
/* The name of a result, as `NotFoundError`. */
const char *opfs_name(opfs_result result);
/* The last line that the child told; what a refusal carries stands behind its name. Until the next call. */
const char *opfs_told(const opfs *store);
/* The process of the child, 0 where there is none. */
long opfs_process(const opfs *store);
/* How many units the store has cleared to make room. */
uint64_t opfs_evicted(const opfs *store);

/* Directories. A bucket may be NULL for the default one. */
opfs_result opfs_get_directory(opfs_agent *agent, const char *bucket, opfs_ref *as);
opfs_result opfs_get_directory_handle(opfs_agent *agent, opfs_ref dir, const char *name, bool create, opfs_ref *as);
opfs_result opfs_get_file_handle(opfs_agent *agent, opfs_ref dir, const char *name, bool create, opfs_ref *as);
opfs_result opfs_remove_entry(opfs_agent *agent, opfs_ref dir, const char *name, bool recursive);
opfs_result opfs_values(opfs_agent *agent, opfs_ref dir, opfs_ref *as);
opfs_result opfs_next(opfs_agent *agent, opfs_ref iterator, opfs_child *child);
/* The names from a directory to an entry with `/` between them, until the next call; NULL where it is not below. */
opfs_result opfs_resolve(opfs_agent *agent, opfs_ref dir, opfs_ref entry, const char **path);
opfs_result opfs_is_same_entry(opfs_agent *agent, opfs_ref entry, opfs_ref other, bool *same);
/* Lets a variable be used again. What it names stays open, but for a snapshot, whose bytes go at its next use. */
void opfs_drop(opfs_agent *agent, opfs_ref ref);

/* Files and streams. A write of more than 16,777,216 bytes is OPFS_BAD_SHAPE. */
opfs_result opfs_get_file(opfs_agent *agent, opfs_ref file, opfs_ref *as, uint64_t *length, uint64_t *stamp);
opfs_result opfs_slice(opfs_agent *agent, opfs_ref snapshot, uint64_t at, void *bytes, size_t length, size_t *got);
opfs_result opfs_create_writable(opfs_agent *agent, opfs_ref file, bool keep_existing_data, opfs_ref *as);
opfs_result opfs_write(opfs_agent *agent, opfs_ref stream, const void *bytes, size_t length, uint64_t position);
opfs_result opfs_seek(opfs_agent *agent, opfs_ref stream, uint64_t position);
opfs_result opfs_truncate(opfs_agent *agent, opfs_ref stream, uint64_t size);
opfs_result opfs_close_stream(opfs_agent *agent, opfs_ref stream);
opfs_result opfs_abort(opfs_agent *agent, opfs_ref stream);

/* Access handles. A read of more than 65,536 bytes is cut into several. */
opfs_result opfs_create_sync(opfs_agent *agent, opfs_ref file, bool read_only, opfs_ref *as);
opfs_result opfs_sync_read(opfs_agent *agent, opfs_ref sync, void *bytes, size_t length, uint64_t at, size_t *got);
opfs_result opfs_sync_write(opfs_agent *agent, opfs_ref sync, const void *bytes, size_t length, uint64_t at);
/* Writes and flushes; both lines go out at once, so it takes one round trip. It flushes also where the write is refused, and then gives that refusal. */
opfs_result opfs_sync_write_flush(opfs_agent *agent, opfs_ref sync, const void *bytes, size_t length, uint64_t at);
opfs_result opfs_sync_truncate(opfs_agent *agent, opfs_ref sync, uint64_t size);
opfs_result opfs_sync_get_size(opfs_agent *agent, opfs_ref sync, uint64_t *size);
opfs_result opfs_sync_flush(opfs_agent *agent, opfs_ref sync);
opfs_result opfs_sync_close(opfs_agent *agent, opfs_ref sync);

/* Buckets, the clock, and tags. */
opfs_result opfs_persist(opfs_agent *agent, const char *bucket, bool *is_persistent);
opfs_result opfs_persisted(opfs_agent *agent, const char *bucket, bool *is_persistent);
opfs_result opfs_estimate(opfs_agent *agent, uint64_t *usage, uint64_t *quota);
opfs_result opfs_moment(opfs_agent *agent, uint64_t ms);
opfs_result opfs_post(opfs_agent *agent, const char *tag);
/* OPFS_WAITING: no answer yet. Calls of this agent give that too, until calls of others bring one; opfs_awaited() tells the last answer. */
opfs_result opfs_await(opfs_agent *agent, const char *tag);
opfs_result opfs_awaited(const opfs_agent *agent);
/* The agent ends: its streams are aborted, its access handles discarded. */
opfs_result opfs_end(opfs_agent *agent);

#endif
