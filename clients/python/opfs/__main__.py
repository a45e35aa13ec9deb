"""python3 -m opfs IMAGE list | get PATH | put PATH | remove PATH        (a path as a/b/c; `get` writes and `put` reads the standard streams)

The files of the origin https://a.example, or of the one that the environment has as OPFS_ORIGIN, in the image.
"""

from __future__ import annotations

import os
import sys

from . import Directory, Error, Store


def show(directory: Directory, above: str = "") -> None:
    """Prints the paths below a directory, with the lengths of files."""
    for entry in directory:
        path = above + entry.name
        if isinstance(entry, Directory):
            print(f"{path}/")
            show(entry, f"{path}/")
        else:
            print(f"{path} {len(entry.snapshot())}")


def serve(root: Directory, word: str, path: str) -> None:
    if word == "list" and not path:
        return show(root)
    *names, last = path.split("/")
    for name in names:
        root = root.directory(name, create=word == "put")
    if word == "get":
        sys.stdout.buffer.write(root.file(last).read_bytes())
    elif word == "put":
        root.file(last, create=True).write_bytes(sys.stdin.buffer.read())
    elif word == "remove":
        root.remove(last, recursive=True)
    else:
        sys.exit(__doc__)


def main(words: list[str]) -> int:
    if len(words) not in (2, 3):
        sys.exit(__doc__)
    try:
        with Store(words[0], [os.environ.get("OPFS_ORIGIN", "https://a.example")]) as store:
            serve(store.agents[0].directory(), *words[1:], *[""] * (3 - len(words)))
    except Error as error:
        print(f"{type(error).__name__}: {error}", file=sys.stderr)
        return 1
    return 0


if __name__ == "__main__":
    sys.exit(main(sys.argv[1:]))
