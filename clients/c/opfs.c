/* The calls of opfs.h: each puts a step together, makes it, and checks its answer. */
#define _POSIX_C_SOURCE 200809L
#include "opfs_lines.h"

#include <stdlib.h>
#include <string.h>
#include <sys/wait.h>

enum { MOST_READ = 65536, MOST_WRITTEN = 16777216 };

/* Directories. */

opfs_result opfs_get_directory(opfs_agent *agent, const char *bucket, opfs_ref *as) {
    struct text *out = op_begin(agent, "getDirectory");
    if (bucket) op_member_text(out, "bucket", bucket);
    return op_ask_plain_ref(agent, as);
}

static opfs_result get_handle(opfs_agent *agent, const char *word, opfs_ref dir, const char *name, bool create, opfs_ref *as) {
    struct text *out = op_begin(agent, word);
    op_ref(out, "dir", dir);
    op_member_text(out, "name", name);
    if (create) op_true(out, "create");
    return op_ask_plain_ref(agent, as);
}

opfs_result opfs_get_directory_handle(opfs_agent *agent, opfs_ref dir, const char *name, bool create, opfs_ref *as) {
    return get_handle(agent, "getDirectoryHandle", dir, name, create, as);
}

opfs_result opfs_get_file_handle(opfs_agent *agent, opfs_ref dir, const char *name, bool create, opfs_ref *as) {
    return get_handle(agent, "getFileHandle", dir, name, create, as);
}

opfs_result opfs_remove_entry(opfs_agent *agent, opfs_ref dir, const char *name, bool recursive) {
    struct text *out = op_begin(agent, "removeEntry");
    op_ref(out, "dir", dir);
    op_member_text(out, "name", name);
    if (recursive) op_true(out, "recursive");
    return op_ask_plain(agent);
}

opfs_result opfs_values(opfs_agent *agent, opfs_ref dir, opfs_ref *as) {
    op_ref(op_begin(agent, "values"), "dir", dir);
    return op_ask_plain_ref(agent, as);
}

opfs_result opfs_next(opfs_agent *agent, opfs_ref iterator, opfs_child *child) {
    opfs_ref ref;
    op_ref(op_begin(agent, "next"), "iterator", iterator);
    opfs_result result = op_ask_ref(agent, &ref);
    if (result) return result;
    char *rest = agent->store->rest;
    *child = (opfs_child){.ref = ref};
    if (!strcmp(rest, " end")) {
        opfs_drop(agent, ref);
        child->ref = 0;
        return OPFS_OK;
    }
    child->kind = !strncmp(rest, " file ", 6) ? OPFS_FILE : OPFS_DIRECTORY;
    if (child->kind != OPFS_FILE && strncmp(rest, " directory ", 11)) return op_sure(agent, false);
    rest += child->kind == OPFS_FILE ? 6 : 11;
    char *end = op_room(agent->store, rest);
    if (!end) return OPFS_NO_MEMORY;
    child->name = end;
    bool is_right = op_name_in(&rest, &end) && !*rest;
    child->length = (size_t)(end - child->name);
    *end = 0;
    return op_sure(agent, is_right);
}

opfs_result opfs_resolve(opfs_agent *agent, opfs_ref dir, opfs_ref entry, const char **path) {
    struct text *out = op_begin(agent, "resolve");
    op_ref(out, "dir", dir);
    op_ref(out, "entry", entry);
    opfs_result result = op_ask(agent);
    if (result) return result;
    char *rest = agent->store->rest, *end = op_room(agent->store, rest);
    if (!end) return OPFS_NO_MEMORY;
    *path = NULL;
    if (!strcmp(rest, " null")) return OPFS_OK;
    if (strncmp(rest, " [", 2)) return op_sure(agent, false);
    *path = end;
    bool is_right = true;
    for (rest += 2; is_right && *rest != ']';) {
        if (end > *path) is_right = *rest++ == ',';
        if (end > *path) *end++ = '/';
        is_right = is_right && op_name_in(&rest, &end);
    }
    is_right = is_right && !rest[1];
    *end = 0;
    return op_sure(agent, is_right);
}

opfs_result opfs_is_same_entry(opfs_agent *agent, opfs_ref entry, opfs_ref other, bool *same) {
    struct text *out = op_begin(agent, "isSameEntry");
    op_ref(out, "entry", entry);
    op_ref(out, "other", other);
    return op_ask_flag(agent, same);
}

/* Files and streams. */

opfs_result opfs_get_file(opfs_agent *agent, opfs_ref file, opfs_ref *as, uint64_t *length, uint64_t *stamp) {
    op_ref(op_begin(agent, "getFile"), "file", file);
    opfs_result result = op_ask_ref(agent, as);
    return result ? result : op_sure(agent, op_two_numbers(agent->store->rest, length, stamp));
}

/* Reads in pieces of what a step may read. */
static opfs_result read_pieces(
    opfs_agent *agent, const char *word, const char *of, opfs_ref ref, unsigned char *bytes, size_t length, uint64_t at, size_t *got) {
    size_t done = 0, piece, count;
    do {
        piece = length - done < MOST_READ ? length - done : MOST_READ;
        struct text *out = op_begin(agent, word);
        op_ref(out, of, ref);
        op_member_number(out, "len", piece);
        if (at != OPFS_CURSOR) op_member_number(out, "at", at + done);
        opfs_result result = op_ask(agent);
        if (result) return result;
        if (!op_bytes_in(agent->store->rest, bytes + done, piece, &count)) return op_sure(agent, false);
        done += count;
    } while (count == piece && done < length);
    *got = done;
    return OPFS_OK;
}

opfs_result opfs_slice(opfs_agent *agent, opfs_ref snapshot, uint64_t at, void *bytes, size_t length, size_t *got) {
    return read_pieces(agent, "slice", "snapshot", snapshot, bytes, length, at, got);
}

opfs_result opfs_create_writable(opfs_agent *agent, opfs_ref file, bool keep_existing_data, opfs_ref *as) {
    struct text *out = op_begin(agent, "createWritable");
    op_ref(out, "file", file);
    if (keep_existing_data) op_true(out, "keepExistingData");
    return op_ask_plain_ref(agent, as);
}

opfs_result opfs_write(opfs_agent *agent, opfs_ref stream, const void *bytes, size_t length, uint64_t position) {
    if (length > MOST_WRITTEN) return OPFS_BAD_SHAPE;
    struct text *out = op_begin(agent, "write");
    op_ref(out, "stream", stream);
    if (position != OPFS_CURSOR) op_member_number(out, "position", position);
    op_member(out, "data");
    op_data(out, bytes, length);
    return op_ask_plain(agent);
}

/* A call of one variable, and of a number where it has a name. */
static opfs_result ask_of(opfs_agent *agent, const char *word, const char *of, opfs_ref ref, const char *name, uint64_t number) {
    struct text *out = op_begin(agent, word);
    op_ref(out, of, ref);
    if (name) op_member_number(out, name, number);
    return op_ask_plain(agent);
}

opfs_result opfs_seek(opfs_agent *agent, opfs_ref stream, uint64_t position) {
    return ask_of(agent, "seek", "stream", stream, "position", position);
}

opfs_result opfs_truncate(opfs_agent *agent, opfs_ref stream, uint64_t size) {
    return ask_of(agent, "truncate", "stream", stream, "size", size);
}

opfs_result opfs_close_stream(opfs_agent *agent, opfs_ref stream) {
    return ask_of(agent, "close", "stream", stream, NULL, 0);
}

opfs_result opfs_abort(opfs_agent *agent, opfs_ref stream) {
    return ask_of(agent, "abort", "stream", stream, NULL, 0);
}

/* Access handles. */

opfs_result opfs_create_sync(opfs_agent *agent, opfs_ref file, bool read_only, opfs_ref *as) {
    struct text *out = op_begin(agent, "createSyncAccessHandle");
    op_ref(out, "file", file);
    if (read_only) op_member_text(out, "mode", "read-only");
    return op_ask_plain_ref(agent, as);
}

opfs_result opfs_sync_read(opfs_agent *agent, opfs_ref sync, void *bytes, size_t length, uint64_t at, size_t *got) {
    return read_pieces(agent, "syncRead", "sync", sync, bytes, length, at, got);
}

static void begin_sync_write(opfs_agent *agent, opfs_ref sync, const void *bytes, size_t length, uint64_t at) {
    struct text *out = op_begin(agent, "syncWrite");
    op_ref(out, "sync", sync);
    if (at != OPFS_CURSOR) op_member_number(out, "at", at);
    op_member(out, "data");
    op_data(out, bytes, length);
}

opfs_result opfs_sync_write(opfs_agent *agent, opfs_ref sync, const void *bytes, size_t length, uint64_t at) {
    if (length > MOST_WRITTEN) return OPFS_BAD_SHAPE;
    uint64_t done;
    begin_sync_write(agent, sync, bytes, length, at);
    opfs_result result = op_ask_number(agent, &done);
    return result ? result : op_sure(agent, done == length);
}

opfs_result opfs_sync_write_flush(opfs_agent *agent, opfs_ref sync, const void *bytes, size_t length, uint64_t at) {
    if (length > MOST_WRITTEN) return OPFS_BAD_SHAPE;
    uint64_t done;
    begin_sync_write(agent, sync, bytes, length, at);
    op_ref(op_begin_next(agent, "syncFlush"), "sync", sync);
    opfs_result sent = op_send_step(agent);
    if (sent) return sent;
    opfs_result written = op_number_of(agent, op_answered(agent, "syncWrite"), &done);
    if (!written) written = op_sure(agent, done == length);
    if (agent->store->failed) return agent->store->failed;
    opfs_result flushed = op_answered(agent, "syncFlush");
    if (!flushed) flushed = op_sure(agent, !*agent->store->rest);
    return written ? written : flushed;
}

opfs_result opfs_sync_truncate(opfs_agent *agent, opfs_ref sync, uint64_t size) {
    return ask_of(agent, "syncTruncate", "sync", sync, "size", size);
}

opfs_result opfs_sync_get_size(opfs_agent *agent, opfs_ref sync, uint64_t *size) {
    op_ref(op_begin(agent, "syncGetSize"), "sync", sync);
    return op_ask_number(agent, size);
}

opfs_result opfs_sync_flush(opfs_agent *agent, opfs_ref sync) {
    return ask_of(agent, "syncFlush", "sync", sync, NULL, 0);
}

opfs_result opfs_sync_close(opfs_agent *agent, opfs_ref sync) {
    return ask_of(agent, "syncClose", "sync", sync, NULL, 0);
}

/* Buckets, the clock, and tags. */

static opfs_result ask_bucket(opfs_agent *agent, const char *word, const char *bucket, bool *flag) {
    struct text *out = op_begin(agent, word);
    if (bucket) op_member_text(out, "bucket", bucket);
    return op_ask_flag(agent, flag);
}

opfs_result opfs_persist(opfs_agent *agent, const char *bucket, bool *is_persistent) {
    return ask_bucket(agent, "persist", bucket, is_persistent);
}

opfs_result opfs_persisted(opfs_agent *agent, const char *bucket, bool *is_persistent) {
    return ask_bucket(agent, "persisted", bucket, is_persistent);
}

opfs_result opfs_estimate(opfs_agent *agent, uint64_t *usage, uint64_t *quota) {
    op_begin(agent, "estimate");
    opfs_result result = op_ask(agent);
    return result ? result : op_sure(agent, op_two_numbers(agent->store->rest, usage, quota));
}

opfs_result opfs_moment(opfs_agent *agent, uint64_t ms) {
    op_member_number(op_begin(agent, "moment"), "ms", ms);
    return op_ask_plain(agent);
}

/* Takes a line as the answer to an await that is open. */
static bool is_awaited(opfs *store, char *line) {
    for (size_t i = 0; i < store->count; i++) {
        opfs_agent *agent = &store->agents[i];
        opfs_result result = agent->waits ? op_answer_in(agent, line, "await") : OPFS_ODD;
        if (result == OPFS_ODD) continue;
        agent->waits = false;
        agent->awaited = result;
        return result || !*store->rest;
    }
    return false;
}

/* Takes a line as one that the end of the agent brings. */
static bool is_of_end(opfs_agent *agent, char *line) {
    static const char *const WORDS[] = {"abort", "discard", "end"};
    opfs_result result = OPFS_ODD;
    for (size_t i = 0; !agent->ended && !agent->waits && result == OPFS_ODD && i < 3; i++) {
        result = op_answer_in(agent, line, WORDS[i]);
        agent->ended = !result && i == 2;
    }
    return !result && !*agent->store->rest;
}

/* Hears what awaits are answered: behind a line that is no call, whose answer comes last. Gives why the line before it was refused. */
static opfs_result settle(opfs *store) {
    opfs_result refusal = OPFS_OK;
    bool waits = false;
    for (size_t i = 0; i < store->count; i++) waits |= store->agents[i].waits;
    if (!waits) return OPFS_OK;
    if (!op_send(store, "?\n", 2)) return op_give_up(store, OPFS_GONE);
    for (char *line; (line = op_hear_answer(store)) && strcmp(line, "? NoAgent");) {
        if (!strncmp(line, "? ", 2)) refusal = op_result_in(line + 2, OPFS_NO_AGENT, OPFS_TOO_MANY, &store->rest);
        else if (!is_awaited(store, line)) refusal = OPFS_ODD;
        if (refusal == OPFS_ODD) return op_give_up(store, OPFS_ODD);
    }
    return store->failed ? store->failed : refusal;
}

opfs_result opfs_post(opfs_agent *agent, const char *tag) {
    op_member_text(op_begin(agent, "post"), "tag", tag);
    opfs_result result = op_ask_plain(agent), later = result ? OPFS_OK : settle(agent->store);
    return result ? result : later;
}

opfs_result opfs_await(opfs_agent *agent, const char *tag) {
    op_member_text(op_begin(agent, "await"), "tag", tag);
    opfs_result result = op_send_step(agent);
    if (result) return result;
    agent->waits = true;
    result = settle(agent->store);
    if (!result) return opfs_awaited(agent);
    agent->waits = false;
    return result;
}

opfs_result opfs_awaited(const opfs_agent *agent) {
    return agent->store->failed ? agent->store->failed : agent->waits ? OPFS_WAITING : agent->awaited;
}

opfs_result opfs_end(opfs_agent *agent) {
    opfs *store = agent->store;
    char line[32];
    if (store->failed) return store->failed;
    if (agent->ended || agent->waits) return agent->ended ? OPFS_ENDED : OPFS_WAITING;
    int length = snprintf(line, sizeof line, "%u end\n", agent->number);
    if (!op_send(store, line, (size_t)length)) return op_give_up(store, OPFS_GONE);
    while (!agent->ended) {
        char *told = op_hear_answer(store);
        if (!told) return store->failed;
        if (!is_of_end(agent, told)) return op_give_up(store, OPFS_ODD);
    }
    return settle(store);
}

/* Starting and ending. */

static bool send_agents(opfs *store, const opfs_start *start) {
    struct text *out = &store->out;
    for (size_t i = 0; i < start->count; i++) {
        op_text(out, i ? ",{\"origin\":" : "{\"agents\":[{\"origin\":");
        op_json(out, start->agents[i].origin, strlen(start->agents[i].origin));
        op_text(out, start->agents[i].may_persist ? ",\"grants\":[\"persistent-storage\"]}" : "}");
    }
    op_text(out, "]}\n");
    if (out->failed) return false;
    op_send(store, out->at, out->length);
    return true;
}

static opfs_result begin_talk(opfs *store, const opfs_start *start) {
    uint64_t count;
    if (start->count < 1 || start->count > MOST_AGENTS || !op_grow(&store->in, 1)) return OPFS_NOT_STARTED;
    store->in.at[0] = 0;
    for (store->count = 0; store->count < start->count; store->count++)
        store->agents[store->count] = (opfs_agent){.store = store, .number = (unsigned)store->count + 1};
    if (start->record && !(store->record = fopen(start->record, "w"))) return OPFS_NOT_STARTED;
    if (!op_start(store, start->serve, start->image) || !send_agents(store, start)) return OPFS_NOT_STARTED;
    char *line = op_hear(store);
    if (!line || strncmp(line, "ready", 5)) return OPFS_NOT_STARTED;
    line += 5;
    return op_number_in(&line, &count) && !*line && count == start->count ? OPFS_OK : OPFS_ODD;
}

opfs_result opfs_open(const opfs_start *start, opfs **store) {
    *store = calloc(1, sizeof **store);
    if (!*store) return OPFS_NO_MEMORY;
    (*store)->to = (*store)->from = -1;
    opfs_result result = begin_talk(*store, start);
    return result ? op_give_up(*store, result) : OPFS_OK;
}

/* Hears what the end of all agents brings, and the child's status. */
static opfs_result end_talk(opfs *store) {
    bool is_right = true;
    op_shut(&store->to);
    for (char *line; (line = op_hear(store));) {
        bool is_known = !strncmp(line, "evict ", 6) || is_awaited(store, line);
        for (size_t i = 0; i < store->count && !is_known; i++) is_known = is_of_end(&store->agents[i], line);
        is_right = is_right && is_known;
    }
    for (size_t i = 0; i < store->count; i++) is_right = is_right && store->agents[i].ended;
    op_shut(&store->from);
    int status = op_reap(store);
    if (store->failed) return store->failed;
    if (!WIFEXITED(status) || WEXITSTATUS(status)) return OPFS_GONE;
    return is_right ? OPFS_OK : OPFS_ODD;
}

opfs_result opfs_close(opfs *store) {
    if (!store) return OPFS_OK;
    opfs_result result = store->failed ? store->failed : end_talk(store);
    if (store->record && fclose(store->record) && !result) result = OPFS_GONE;
    for (size_t i = 0; i < store->count; i++) free(store->agents[i].links);
    free(store->in.at);
    free(store->out.at);
    free(store);
    return result;
}

opfs_agent *opfs_agent_of(opfs *store, size_t number) {
    return store && number >= 1 && number <= store->count ? &store->agents[number - 1] : NULL;
}

const char *opfs_told(const opfs *store) {
    return store && store->in.at ? store->in.at + store->line : "";
}

long opfs_process(const opfs *store) {
    return store->child;
}

uint64_t opfs_evicted(const opfs *store) {
    return store->evicted;
}
