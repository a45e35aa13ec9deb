/* Images, and files in them by path. */
#define _XOPEN_SOURCE 700
#include "opfs_images.h"

#include <stdio.h>
#include <stdlib.h>
#include <string.h>

static struct image *images;

static opfs_result release(struct image *image) {
    opfs_result result = opfs_close(image->store);
    free(image->path);
    free(image->origin);
    free(image);
    return result;
}

static struct image *refuse(struct image *image, char *why, size_t room, const char *text) {
    snprintf(why, room, "%s: %s", image->path ? image->path : "no path", text);
    release(image);
    return NULL;
}

static struct image *start(char *path, const char *origin, const char *record, char *why, size_t room) {
    struct image *image = calloc(1, sizeof *image);
    if (!image) return free(path), snprintf(why, room, "no memory"), NULL;
    image->path = path;
    image->origin = strdup(origin);
    image->users = 1;
    if (!path || !image->origin) return refuse(image, why, room, "there is no such file");
    opfs_origin agent = {origin, false};
    opfs_result result = opfs_open(&(opfs_start){.image = path, .record = record, .agents = &agent, .count = 1}, &image->store);
    if (result) return refuse(image, why, room, image->store && *opfs_told(image->store) ? opfs_told(image->store) : opfs_name(result));
    image->agent = opfs_agent_of(image->store, 1);
    result = opfs_get_directory(image->agent, NULL, &image->root);
    if (result) return refuse(image, why, room, opfs_name(result));
    image->next = images;
    return images = image;
}

struct image *image_take(const char *path, const char *origin, const char *record, char *why, size_t room) {
    char *real = realpath(path, NULL);
    for (struct image *it = images; it && real; it = it->next) {
        if (strcmp(it->path, real) || !opfs_process(it->store)) continue;
        free(real);
        if (!strcmp(it->origin, origin)) return image_share(it);
        snprintf(why, room, "%s: open for %s", path, it->origin);
        return NULL;
    }
    return start(real, origin, record, why, room);
}

struct image *image_alone(void) {
    return images && !images->next ? image_share(images) : NULL;
}

struct image *image_share(struct image *image) {
    image->users++;
    return image;
}

opfs_result image_release(struct image *image) {
    struct image **at = &images;
    if (--image->users > 0) return OPFS_OK;
    while (*at != image) at = &(*at)->next;
    *at = image->next;
    return release(image);
}

void image_leave(struct image *image, opfs_ref dir) {
    if (dir != image->root) opfs_drop(image->agent, dir);
}

opfs_result image_place(struct image *image, const char *path, bool create, opfs_ref *dir, const char **name) {
    char part[256];
    *dir = image->root;
    for (*name = path + (*path == '/'); strchr(*name, '/'); *name = strchr(*name, '/') + 1) {
        size_t length = strcspn(*name, "/");
        opfs_ref next;
        if (length >= sizeof part) return image_leave(image, *dir), OPFS_NAME_LIMIT;
        memcpy(part, *name, length);
        part[length] = 0;
        opfs_result result = opfs_get_directory_handle(image->agent, *dir, part, create, &next);
        image_leave(image, *dir);
        if (result) return result;
        *dir = next;
    }
    return OPFS_OK;
}

/* The file at a path. */
static opfs_result file_at(struct image *image, const char *path, bool create, opfs_ref *file) {
    const char *name;
    opfs_ref dir;
    opfs_result result = image_place(image, path, create, &dir, &name);
    if (result) return result;
    result = opfs_get_file_handle(image->agent, dir, name, create, file);
    image_leave(image, dir);
    return result;
}

opfs_result image_open(struct image *image, const char *path, bool create, bool read_only, opfs_ref *handle) {
    opfs_ref file;
    opfs_result result = file_at(image, path, create, &file);
    if (result) return result;
    result = opfs_create_sync(image->agent, file, read_only, handle);
    opfs_drop(image->agent, file);
    return result;
}

opfs_result image_remove(struct image *image, const char *path) {
    const char *name;
    opfs_ref dir;
    opfs_result result = image_place(image, path, false, &dir, &name);
    if (result) return result;
    result = opfs_remove_entry(image->agent, dir, name, false);
    image_leave(image, dir);
    return result;
}

opfs_result image_length(struct image *image, const char *path, uint64_t *length) {
    opfs_ref file, snapshot;
    uint64_t stamp;
    opfs_result result = file_at(image, path, false, &file);
    *length = 0;
    if (result) return result == OPFS_NOT_FOUND || result == OPFS_TYPE_MISMATCH ? OPFS_OK : result;
    result = opfs_get_file(image->agent, file, &snapshot, length, &stamp);
    opfs_drop(image->agent, file);
    if (!result) opfs_drop(image->agent, snapshot);
    return result;
}
