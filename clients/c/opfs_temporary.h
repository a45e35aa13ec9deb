/* Files of SQLite's without a name. */
#ifndef OPFS_TEMPORARY_H
#define OPFS_TEMPORARY_H

#include <sqlite3ext.h>
#include <stddef.h>

int temporary_open(sqlite3_file *base);
/* The bytes of one such file. */
size_t temporary_room(void);

#endif
