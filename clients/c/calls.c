/* Tries each call of opfs.h on a store that runs, for `check`. A line each: `passed WHAT`, or `failed WHAT: why`.

   usage: calls IMAGE          an image of 16384 data blocks, 256 blocks an area, and a quota of 8192
          calls small IMAGE    4 data blocks, 1 block an area, and a quota of 3
          calls few IMAGE      prints the results of an open, of two calls, and of the close */
#include "opfs.h"

#include <stdio.h>
#include <stdlib.h>
#include <string.h>

static opfs *store;
static opfs_agent *one, *two, *opaque;
static unsigned char big[200000], back[200000];

static void is(const char *what, opfs_result got, opfs_result wanted) {
    if (got == wanted) printf("passed %s\n", what);
    else printf("failed %s: %s, not %s: %s\n", what, opfs_name(got), opfs_name(wanted), opfs_told(store));
}

static void holds(const char *what, bool it) {
    if (it) printf("passed %s\n", what);
    else printf("failed %s: %s\n", what, opfs_told(store));
}

static bool carried(const char *text) {
    return strstr(opfs_told(store), text) != NULL;
}

static void try_directories(opfs_ref root) {
    opfs_ref dir, file, deep, other;
    char name[257] = "";
    memset(name, 'n', 256);
    is("a bucket's name that is not valid", opfs_get_directory(one, "A", &dir), OPFS_TYPE_ERROR);
    is("a bucket of its own", opfs_get_directory(one, "drafts", &other), OPFS_OK);
    is("a directory of an opaque origin", opfs_get_directory(opaque, NULL, &dir), OPFS_SECURITY);
    is("a directory that is not there", opfs_get_directory_handle(one, root, "d", false, &dir), OPFS_NOT_FOUND);
    is("a directory that is made", opfs_get_directory_handle(one, root, "d", true, &dir), OPFS_OK);
    is("a file that is not there", opfs_get_file_handle(one, dir, "f", false, &file), OPFS_NOT_FOUND);
    is("a file that is made", opfs_get_file_handle(one, dir, "f", true, &file), OPFS_OK);
    is("a file where a directory is", opfs_get_file_handle(one, root, "d", true, &deep), OPFS_TYPE_MISMATCH);
    is("a name that is empty", opfs_get_file_handle(one, dir, "", true, &deep), OPFS_TYPE_ERROR);
    is("a name with a slash", opfs_get_file_handle(one, dir, "a/b", true, &deep), OPFS_TYPE_ERROR);
    is("a name of 256 bytes", opfs_get_file_handle(one, dir, name, true, &deep), OPFS_NAME_LIMIT);
    is("a name that is no UTF-8", opfs_get_file_handle(one, dir, "\xff", true, &deep), OPFS_NOT_JSON);
    is("a variable that names nothing", opfs_get_file_handle(one, 77, "f", true, &deep), OPFS_UNBOUND);
    is("a variable of another kind", opfs_get_file_handle(one, file, "f", true, &deep), OPFS_UNBOUND);
    is("removing a directory that is not empty", opfs_remove_entry(one, root, "d", false), OPFS_INVALID_MODIFICATION);
    is("removing what is not there", opfs_remove_entry(one, root, "x", false), OPFS_NOT_FOUND);
    is("removing with all below", opfs_remove_entry(one, root, "d", true), OPFS_OK);
    is("a file whose directory is gone", opfs_get_file_handle(one, dir, "f", true, &deep), OPFS_NOT_FOUND);
    opfs_drop(one, dir);
    opfs_drop(one, dir);
    opfs_drop(one, file);
    opfs_drop(one, 12345);
    is("two variables after a double drop", opfs_get_directory_handle(one, root, "p", true, &dir), OPFS_OK);
    is("the second of them", opfs_get_directory_handle(one, dir, "q", true, &file), OPFS_OK);
    holds("they differ", dir != file);
}

static void try_names(opfs_ref root) {
    static const char *const NAMES[] = {"\x01\x02\n\t\b\f\r\x1f", " ", "\"quoted\\\"", "zz", "\xc3\xa4\xe2\x82\xac\xf0\x9f\x98\x80"};
    opfs_ref dir, file, iterator, other;
    opfs_child child = {.name = ""};
    const char *path = NULL;
    bool same = false;
    is("a directory of names", opfs_get_directory_handle(one, root, "names", true, &dir), OPFS_OK);
    for (size_t i = 0; i < 5; i++) is("a name of any characters", opfs_get_file_handle(one, dir, NAMES[i], true, &file), OPFS_OK);
    is("values", opfs_values(one, dir, &iterator), OPFS_OK);
    for (size_t i = 0; i < 5; i++) {
        is("next", opfs_next(one, iterator, &child), OPFS_OK);
        holds("the name that next gives", child.kind == OPFS_FILE && child.length == strlen(NAMES[i]) && !strcmp(child.name, NAMES[i]));
    }
    is("resolve", opfs_resolve(one, root, child.ref, &path), OPFS_OK);
    holds("the path of resolve", path && !strncmp(path, "names/", 6) && !strcmp(path + 6, NAMES[4]));
    is("next at the end", opfs_next(one, iterator, &child), OPFS_OK);
    holds("the end", child.kind == OPFS_NO_CHILD);
    is("resolve of what is not below", opfs_resolve(one, dir, root, &path), OPFS_OK);
    holds("it has no path", !path);
    is("resolve of itself", opfs_resolve(one, dir, dir, &path), OPFS_OK);
    holds("its path is empty", path && !*path);
    is("the same directory again", opfs_get_directory_handle(one, root, "names", false, &other), OPFS_OK);
    is("the same entry", opfs_is_same_entry(one, dir, other, &same), OPFS_OK);
    holds("it is", same);
    is("another entry", opfs_is_same_entry(one, dir, root, &same), OPFS_OK);
    holds("it is not", !same);
    is("resolve of nothing", opfs_resolve(one, dir, 99, &path), OPFS_UNBOUND);
}

/* The most that one call writes, and its last bytes. */
static void try_most(opfs_ref root) {
    size_t length = 16777216, got;
    unsigned char *most = calloc(1, length);
    opfs_ref file, handle;
    for (size_t i = 0; i < length; i++) most[i] = (unsigned char)(i >> 3);
    is("a file for the most", opfs_get_file_handle(one, root, "m", true, &file), OPFS_OK);
    is("its handle", opfs_create_sync(one, file, false, &handle), OPFS_OK);
    is("a write of the most bytes", opfs_sync_write(one, handle, most, length, 0), OPFS_OK);
    is("the last ones read", opfs_sync_read(one, handle, back, sizeof back, length - 70000, &got), OPFS_OK);
    holds("its bytes", got == 70000 && !memcmp(back, most + length - got, got));
    is("its close", opfs_sync_close(one, handle), OPFS_OK);
    is("its removal", opfs_remove_entry(one, root, "m", false), OPFS_OK);
    free(most);
}

static void try_streams(opfs_ref root) {
    opfs_ref file, stream, other, snapshot, handle;
    uint64_t length, stamp;
    size_t got;
    is("a file for streams", opfs_get_file_handle(one, root, "s", true, &file), OPFS_OK);
    is("the clock", opfs_moment(one, 1700000000000), OPFS_OK);
    is("the clock beyond a number", opfs_moment(one, UINT64_MAX - 1), OPFS_BAD_SHAPE);
    is("a stream", opfs_create_writable(one, file, false, &stream), OPFS_OK);
    is("an access handle beside it", opfs_create_sync(one, file, false, &handle), OPFS_NO_MODIFICATION);
    holds("what that carries", carried("taken-shared 1"));
    is("a write of a text", opfs_write(one, stream, "a \"text\" \\ of {\"x\":1}", 21, OPFS_CURSOR), OPFS_OK);
    is("a write of no bytes", opfs_write(one, stream, "", 0, OPFS_CURSOR), OPFS_OK);
    is("a write of many bytes", opfs_write(one, stream, big, sizeof big, 30), OPFS_OK);
    is("a seek", opfs_seek(one, stream, 21), OPFS_OK);
    is("a write of one byte nine times", opfs_write(one, stream, "\0\0\0\0\0\0\0\0\0", 9, OPFS_CURSOR), OPFS_OK);
    is("a truncate", opfs_truncate(one, stream, 150030), OPFS_OK);
    is("a write past the quota", opfs_write(one, stream, "x", 1, 1ULL << 40), OPFS_QUOTA_EXCEEDED);
    is("a write of too many bytes", opfs_write(one, stream, big, 16777217, OPFS_CURSOR), OPFS_BAD_SHAPE);
    is("a close", opfs_close_stream(one, stream), OPFS_OK);
    is("a write after it", opfs_write(one, stream, "x", 1, OPFS_CURSOR), OPFS_TYPE_ERROR);
    is("getFile", opfs_get_file(one, file, &snapshot, &length, &stamp), OPFS_OK);
    holds("its length and stamp", length == 150030 && stamp == 1700000000000);
    is("a slice of two pieces and more", opfs_slice(one, snapshot, 30, back, sizeof back, &got), OPFS_OK);
    holds("its bytes", got == 150000 && !memcmp(back, big, got));
    is("a short slice", opfs_slice(one, snapshot, 0, back, 30, &got), OPFS_OK);
    holds("its bytes", got == 30 && !memcmp(back, "a \"text\" \\ of {\"x\":1}\0\0\0\0\0\0\0\0\0", 30));
    is("a slice of no bytes", opfs_slice(one, snapshot, 0, back, 0, &got), OPFS_OK);
    is("a slice past the end", opfs_slice(one, snapshot, 150030, back, 9, &got), OPFS_OK);
    holds("it has no bytes", got == 0);
    is("a stream that keeps", opfs_create_writable(one, file, true, &stream), OPFS_OK);
    is("a second one", opfs_create_writable(two, file, true, &other), OPFS_UNBOUND);
    is("an abort", opfs_abort(one, stream), OPFS_OK);
    is("an abort again", opfs_abort(one, stream), OPFS_TYPE_ERROR);
    is("a seek after it", opfs_seek(one, stream, 1), OPFS_TYPE_ERROR);
    is("a truncate after it", opfs_truncate(one, stream, 1), OPFS_TYPE_ERROR);
    is("getFile of no file", opfs_get_file(one, root, &snapshot, &length, &stamp), OPFS_UNBOUND);
}

static void try_handles(opfs_ref root) {
    opfs_ref file, handle, again;
    uint64_t size;
    size_t got;
    is("a file for handles", opfs_get_file_handle(one, root, "h", true, &file), OPFS_OK);
    is("an access handle", opfs_create_sync(one, file, false, &handle), OPFS_OK);
    is("a second one", opfs_create_sync(one, file, false, &again), OPFS_NO_MODIFICATION);
    holds("what that carries", carried("taken-exclusive 0"));
    is("removing its file", opfs_remove_entry(one, root, "h", false), OPFS_NO_MODIFICATION);
    is("syncWrite of many bytes", opfs_sync_write(one, handle, big, sizeof big, 0), OPFS_OK);
    is("syncWrite at the cursor", opfs_sync_write(one, handle, "end", 3, OPFS_CURSOR), OPFS_OK);
    is("syncGetSize", opfs_sync_get_size(one, handle, &size), OPFS_OK);
    holds("its size", size == sizeof big + 3);
    is("syncRead of many bytes", opfs_sync_read(one, handle, back, sizeof back, 0, &got), OPFS_OK);
    holds("its bytes", got == sizeof back && !memcmp(back, big, got));
    is("syncRead at the cursor", opfs_sync_read(one, handle, back, 10, OPFS_CURSOR, &got), OPFS_OK);
    holds("its bytes", got == 3 && !memcmp(back, "end", 3));
    is("syncTruncate", opfs_sync_truncate(one, handle, 70000), OPFS_OK);
    is("syncTruncate past the quota", opfs_sync_truncate(one, handle, 1ULL << 40), OPFS_QUOTA_EXCEEDED);
    is("syncRead over the end", opfs_sync_read(one, handle, back, sizeof back, 1, &got), OPFS_OK);
    holds("its bytes", got == 69999 && !memcmp(back, big + 1, got));
    is("syncFlush", opfs_sync_flush(one, handle), OPFS_OK);
    is("a write and a flush in one", opfs_sync_write_flush(one, handle, "both", 4, 100), OPFS_OK);
    is("syncRead of it", opfs_sync_read(one, handle, back, 4, 100, &got), OPFS_OK);
    holds("its bytes", got == 4 && !memcmp(back, "both", 4));
    is("a write past the quota, and a flush", opfs_sync_write_flush(one, handle, "x", 1, 1ULL << 40), OPFS_QUOTA_EXCEEDED);
    is("syncGetSize behind it", opfs_sync_get_size(one, handle, &size), OPFS_OK);
    holds("its size", size == 70000);
    is("syncClose", opfs_sync_close(one, handle), OPFS_OK);
    is("syncClose again", opfs_sync_close(one, handle), OPFS_OK);
    is("syncFlush after it", opfs_sync_flush(one, handle), OPFS_INVALID_STATE);
    is("syncRead after it", opfs_sync_read(one, handle, back, 1, 0, &got), OPFS_INVALID_STATE);
    is("syncWrite after it", opfs_sync_write(one, handle, "x", 1, 0), OPFS_INVALID_STATE);
    is("a write and a flush after it", opfs_sync_write_flush(one, handle, "x", 1, 0), OPFS_INVALID_STATE);
    is("syncGetSize after it", opfs_sync_get_size(one, handle, &size), OPFS_INVALID_STATE);
    is("a read-only handle", opfs_create_sync(one, file, true, &handle), OPFS_OK);
    is("a second one", opfs_create_sync(one, file, true, &again), OPFS_OK);
    is("syncWrite of it", opfs_sync_write(one, handle, "x", 1, 0), OPFS_NO_MODIFICATION);
    holds("what that carries", carried("taken-read-only 2"));
    is("syncTruncate of it", opfs_sync_truncate(one, handle, 1), OPFS_NO_MODIFICATION);
    is("syncFlush of it", opfs_sync_flush(one, handle), OPFS_OK);
}

static void try_buckets(void) {
    bool flag = true;
    uint64_t usage, quota;
    is("persisted", opfs_persisted(one, NULL, &flag), OPFS_OK);
    holds("it is not", !flag);
    is("persist without the grant", opfs_persist(one, NULL, &flag), OPFS_OK);
    holds("it is not", !flag);
    is("persist with the grant", opfs_persist(two, "kept", &flag), OPFS_OK);
    holds("it is", flag);
    is("persist of an opaque origin", opfs_persist(opaque, NULL, &flag), OPFS_TYPE_ERROR);
    is("persisted of a bucket's name that is not valid", opfs_persisted(one, "-", &flag), OPFS_TYPE_ERROR);
    is("estimate", opfs_estimate(one, &usage, &quota), OPFS_OK);
    holds("its numbers", quota == 8192ULL * 4096 && usage > 0 && usage < quota);
    is("estimate of an opaque origin", opfs_estimate(opaque, &usage, &quota), OPFS_TYPE_ERROR);
}

static void try_tags(void) {
    opfs_ref dir;
    is("an await that waits", opfs_await(one, "a"), OPFS_WAITING);
    is("a call of the agent that waits", opfs_get_directory(one, NULL, &dir), OPFS_WAITING);
    is("its await again", opfs_await(one, "b"), OPFS_WAITING);
    is("a post of another tag", opfs_post(two, "b"), OPFS_OK);
    is("it waits still", opfs_awaited(one), OPFS_WAITING);
    is("a call of the other meanwhile", opfs_get_directory(two, NULL, &dir), OPFS_OK);
    is("the post", opfs_post(two, "a"), OPFS_OK);
    is("the await is answered", opfs_awaited(one), OPFS_OK);
    is("an await of what is posted", opfs_await(one, "a"), OPFS_OK);
    is("a tag that is empty", opfs_await(one, ""), OPFS_BAD_SHAPE);
    is("the same of a post", opfs_post(one, ""), OPFS_BAD_SHAPE);
    is("a call after it", opfs_get_directory(one, NULL, &dir), OPFS_OK);
    is("an await that nobody can answer", opfs_await(opaque, "z"), OPFS_STUCK);
    is("an await of one", opfs_await(one, "c"), OPFS_WAITING);
    is("and of the other", opfs_await(two, "d"), OPFS_STUCK);
    is("the end of the other", opfs_end(two), OPFS_OK);
    is("the first is stuck", opfs_awaited(one), OPFS_STUCK);
    is("a call after the end", opfs_get_directory(two, NULL, &dir), OPFS_ENDED);
    is("the end again", opfs_end(two), OPFS_ENDED);
    is("an agent's end with rows that are open", opfs_end(one), OPFS_OK);
}

static int try_small(const char *image) {
    opfs_origin origins[] = {{"https://a.example", false}, {"https://b.example", false}, {"https://a.example", false}};
    opfs_ref root, file, stream, handle;
    opfs_result result = opfs_open(&(opfs_start){.image = image, .agents = origins, .count = 3}, &store);
    is("opening a small image", result, OPFS_OK);
    one = opfs_agent_of(store, 1);
    two = opfs_agent_of(store, 2);
    opfs_get_directory(one, NULL, &root);
    opfs_get_file_handle(one, root, "f", true, &file);
    opfs_create_writable(one, file, false, &stream);
    is("a write that fits", opfs_write(one, stream, big, 8192, 0), OPFS_OK);
    is("its close", opfs_close_stream(one, stream), OPFS_OK);
    opfs_get_directory(two, NULL, &root);
    opfs_get_file_handle(two, root, "f", true, &file);
    opfs_create_sync(two, file, false, &handle);
    is("a write that needs room", opfs_sync_write(two, handle, big, 12288, 0), OPFS_OK);
    holds("what was cleared for it", opfs_evicted(store) == 1);
    opfs_get_directory(one, NULL, &root);
    opfs_get_file_handle(one, root, "f", true, &file);
    opfs_create_writable(one, file, false, &stream);
    is("a write without room", opfs_write(one, stream, big, 8192, 0), OPFS_DATA_FULL);
    for (char name[201] = ""; !result;) {
        memset(name, 'm' + (int)strlen(name) % 3, 200);
        name[199] = (char)('a' + rand() % 26), name[198] = (char)('a' + rand() % 26);
        result = opfs_get_file_handle(one, root, name, true, &file);
    }
    is("names without room", result, OPFS_META_FULL);
    is("an await that waits at the end", opfs_await(one, "never"), OPFS_WAITING);
    is("closing it", opfs_close(store), OPFS_OK);
    return 0;
}

/* Of an open, of two calls, and of the close. */
static int try_few(const char *image) {
    opfs_origin origin = {"https://a.example", false};
    opfs_ref dir;
    printf("%s\n", opfs_name(opfs_open(&(opfs_start){.image = image, .agents = &origin, .count = 1}, &store)));
    printf("told %s\n", opfs_told(store));
    one = opfs_agent_of(store, 1);
    for (int i = 0; one && i < 2; i++) printf("%s\n", opfs_name(opfs_get_directory(one, NULL, &dir)));
    printf("%s\n", opfs_name(opfs_close(store)));
    return 0;
}

int main(int count, char **words) {
    opfs_origin origins[] = {{"https://a.example", false}, {"https://a.example", true}, {"blob:x", false}};
    opfs_ref root;
    setvbuf(stdout, NULL, _IOLBF, 0);
    for (size_t i = 0; i < sizeof big; i++) big[i] = (unsigned char)(rand() >> 7);
    if (count == 3) return strcmp(words[1], "small") ? try_few(words[2]) : try_small(words[2]);
    if (count != 2) return 1;
    is("opening", opfs_open(&(opfs_start){.image = words[1], .agents = origins, .count = 3}, &store), OPFS_OK);
    one = opfs_agent_of(store, 1);
    two = opfs_agent_of(store, 2);
    opaque = opfs_agent_of(store, 3);
    holds("there are three agents", one && two && opaque && !opfs_agent_of(store, 4) && !opfs_agent_of(store, 0));
    is("the root", opfs_get_directory(one, NULL, &root), OPFS_OK);
    try_directories(root);
    try_names(root);
    try_streams(root);
    try_handles(root);
    try_most(root);
    try_buckets();
    try_tags();
    is("closing", opfs_close(store), OPFS_OK);
    is("closing nothing", opfs_close(NULL), OPFS_OK);
    return 0;
}
