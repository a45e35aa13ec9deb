/* The main of a program of SQLite's, with the VFS `opfs` registered before it. */
#include <sqlite3.h>

int program_main(int count, char **words);
int opfs_vfs_register(void);

int main(int count, char **words) {
    return opfs_vfs_register() == SQLITE_OK ? program_main(count, words) : 1;
}
