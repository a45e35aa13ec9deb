/* The example of README.md: a note is written through a stream, changed through an access handle, and listed. */
#include "opfs.h"

#include <stdio.h>

/* Says what went wrong, once for all calls. */
static opfs_result wrong(const char *what, opfs_result result) {
    if (result) printf("%s: %s\n", what, opfs_name(result));
    return result;
}

static opfs_result write_note(opfs_agent *agent, opfs_ref dir) {
    opfs_ref file, stream, handle;
    if (wrong("file", opfs_get_file_handle(agent, dir, "note", true, &file))) return OPFS_GONE;
    if (wrong("stream", opfs_create_writable(agent, file, false, &stream))) return OPFS_GONE;
    if (wrong("write", opfs_write(agent, stream, "hello, store", 12, OPFS_CURSOR))) return OPFS_GONE;
    if (wrong("handle", opfs_create_sync(agent, file, false, &handle)) != OPFS_NO_MODIFICATION) return OPFS_ODD;
    if (wrong("close", opfs_close_stream(agent, stream))) return OPFS_GONE;
    if (wrong("handle", opfs_create_sync(agent, file, false, &handle))) return OPFS_GONE;
    if (wrong("write", opfs_sync_write(agent, handle, "HELLO", 5, 0))) return OPFS_GONE;
    return wrong("close", opfs_sync_close(agent, handle));
}

static opfs_result list(opfs_agent *agent, opfs_ref dir) {
    opfs_ref iterator, snapshot;
    opfs_child child;
    uint64_t length, stamp;
    char text[64];
    size_t got;
    opfs_result result = opfs_values(agent, dir, &iterator);
    while (!result && !(result = opfs_next(agent, iterator, &child)) && child.kind == OPFS_FILE) {
        printf("%s", child.name);
        if ((result = opfs_get_file(agent, child.ref, &snapshot, &length, &stamp))) break;
        result = opfs_slice(agent, snapshot, 0, text, sizeof text, &got);
        if (!result) printf(", %d bytes: %.*s\n", (int)length, (int)got, text);
    }
    return wrong("list", result);
}

int main(int count, char **words) {
    if (count < 2) return printf("usage: example IMAGE [RECORD]\n"), 1;
    opfs_origin origin = {"https://a.example", false};
    opfs *store;
    opfs_ref dir;
    opfs_start start = {.image = words[1], .record = count > 2 ? words[2] : NULL, .agents = &origin, .count = 1};
    opfs_result result = wrong("open", opfs_open(&start, &store));
    opfs_agent *agent = opfs_agent_of(store, 1);
    if (!result) result = wrong("directory", opfs_get_directory(agent, NULL, &dir));
    if (!result) result = write_note(agent, dir);
    if (!result) result = list(agent, dir);
    if (wrong("end", opfs_close(store))) return 1;
    return result ? 1 : 0;
}
