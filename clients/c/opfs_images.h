/* The images that databases of this process stand in: each has one store, which all of its files share. Under the VFS's lock alone. */
#ifndef OPFS_IMAGES_H
#define OPFS_IMAGES_H

#include "opfs.h"

struct image {
    char *path, *origin;
    opfs *store;
    opfs_agent *agent;
    opfs_ref root;
    unsigned users;
    struct image *next;
};

/* The image at a path, once more in use; its store is started where it is not there, or has gone. NULL: `why` says the reason. */
struct image *image_take(const char *path, const char *origin, const char *record, char *why, size_t room);
/* The same of the only image in use; NULL where there is none, or another. */
struct image *image_alone(void);
/* Uses an image that is in use once more. */
struct image *image_share(struct image *image);
/* The last one that lets it go ends its store. */
opfs_result image_release(struct image *image);
/* The directory of a path below the root, and the last name of it. The directory is dropped by image_leave. */
opfs_result image_place(struct image *image, const char *path, bool create, opfs_ref *dir, const char **name);
void image_leave(struct image *image, opfs_ref dir);
opfs_result image_open(struct image *image, const char *path, bool create, bool read_only, opfs_ref *handle);
opfs_result image_remove(struct image *image, const char *path);
/* The length of a file; 0 where there is none. */
opfs_result image_length(struct image *image, const char *path, uint64_t *length);

#endif
