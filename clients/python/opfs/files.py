"""Directories, files and what is open of them."""

from __future__ import annotations

import io
import json
from typing import TYPE_CHECKING, Any, Iterator

from .errors import InvalidStateError

if TYPE_CHECKING:
    from .store import Agent

PIECE = 65_536  # bytes of one read
MOST = 16_777_216  # bytes of one write


def data_of(data: Any) -> Any:
    """Bytes or a text, as a step has them."""
    return data if isinstance(data, str) else {"hex": bytes(data).hex()}


def bytes_of(told: str) -> bytes:
    return bytes.fromhex(told.partition(" ")[2])


class Entry:
    """A handle: of a directory or of a file. It stands for a path, whatever is there."""

    kind = ""

    def __init__(self, agent: Agent, name: str) -> None:
        self.agent = agent
        self.name = name
        self.variable = agent.variable(self)

    def is_same(self, other: Entry) -> bool:
        """`isSameEntry`."""
        return self.agent is other.agent and self.agent.ask("isSameEntry", entry=self.variable, other=other.variable) == "true"

    def __repr__(self) -> str:
        return f"<{self.kind} {self.name!r}>"


class Directory(Entry):
    """A directory: iterating gives its entries, in order of their names' bytes."""

    kind = "directory"

    def directory(self, name: str, create: bool = False) -> Directory:
        found = Directory(self.agent, name)
        self.agent.ask("getDirectoryHandle", dir=self.variable, name=name, create=create, as_=found.variable)
        return found

    def file(self, name: str, create: bool = False) -> File:
        found = File(self.agent, name)
        self.agent.ask("getFileHandle", dir=self.variable, name=name, create=create, as_=found.variable)
        return found

    def remove(self, name: str, recursive: bool = False) -> None:
        """`removeEntry`."""
        self.agent.ask("removeEntry", dir=self.variable, name=name, recursive=recursive)

    def resolve(self, entry: Entry) -> list[str] | None:
        """The names from here to an entry; None where it is not below."""
        return json.loads(self.agent.ask("resolve", dir=self.variable, entry=entry.variable))

    def __iter__(self) -> Iterator[Entry]:
        return Entries(self)


class Entries:
    """The entries of a directory, one after another."""

    def __init__(self, directory: Directory) -> None:
        self.agent = directory.agent
        self.variable = self.agent.variable(self)
        self.agent.ask("values", dir=directory.variable, as_=self.variable)

    def __iter__(self) -> Iterator[Entry]:
        return self

    def __next__(self) -> Entry:
        found = Entry(self.agent, "")
        told = self.agent.ask("next", iterator=self.variable, as_=found.variable)
        if told == "end":
            raise StopIteration
        kind, _, name = told.partition(" ")
        found.__class__ = File if kind == "file" else Directory
        found.name = json.loads(name)
        return found


class File(Entry):
    """A file."""

    kind = "file"

    def snapshot(self) -> Snapshot:
        """The bytes as they are stored now: `getFile`."""
        return Snapshot(self)

    def read_bytes(self) -> bytes:
        return self.snapshot().read()

    def read_text(self) -> str:
        return self.read_bytes().decode()

    def write_bytes(self, data: bytes) -> None:
        """Puts other bytes in the place of all, or none."""
        with self.stream() as stream:
            stream.write(data)

    def write_text(self, text: str) -> None:
        self.write_bytes(text.encode())

    def stream(self, keep: bool = False) -> Stream:
        """A writable stream over a copy, which `close` puts in the file's place: `createWritable`."""
        return Stream(self, keep)

    def open(self, mode: str = "r+") -> AccessHandle:
        """A raw file over the bytes in place: `createSyncAccessHandle`; with mode "r" one that may only read."""
        return AccessHandle(self, mode)


class Snapshot:
    """A file's bytes at one moment. `modified` is its time stamp, in milliseconds."""

    def __init__(self, file: File) -> None:
        self.agent, self.name = file.agent, file.name
        self.variable = self.agent.variable(self)
        length, modified = self.agent.ask("getFile", file=file.variable, as_=self.variable).split(" ")
        self.length, self.modified = int(length), int(modified)

    def __len__(self) -> int:
        return self.length

    def read(self, at: int = 0, count: int | None = None) -> bytes:
        """So many bytes from a place on; all that follow where no count is said."""
        end = self.length if count is None else min(at + count, self.length)
        places = range(at, end, PIECE)
        return b"".join(bytes_of(self.agent.ask("slice", snapshot=self.variable, at=it, len=min(PIECE, end - it))) for it in places)


class Stream:
    """A writable stream. As a context it is closed at the end, and aborted where that raised."""

    def __init__(self, file: File, keep: bool) -> None:
        self.agent = file.agent
        self.variable = self.agent.variable(self)
        self.agent.ask("createWritable", file=file.variable, keepExistingData=keep, as_=self.variable)

    def write(self, data: Any, position: int | None = None) -> int:
        """Writes bytes, or a text, at the offset or at a position; the offset is behind them then."""
        if isinstance(data, str):
            data = data.encode()
        view = memoryview(data).cast("B")
        for at in range(0, max(len(view), 1), MOST):
            place = None if position is None or at else position
            self.agent.ask("write", stream=self.variable, data=data_of(view[at : at + MOST]), position=place)
        return len(view)

    def seek(self, position: int) -> None:
        self.agent.ask("seek", stream=self.variable, position=position)

    def truncate(self, size: int) -> None:
        self.agent.ask("truncate", stream=self.variable, size=size)

    def close(self) -> None:
        """Stores the copy in the file's place, wholly or not at all; it is durable then."""
        self.agent.ask("close", stream=self.variable)

    def abort(self) -> None:
        self.agent.ask("abort", stream=self.variable)

    def __enter__(self) -> Stream:
        return self

    def __exit__(self, kind: object, *_: object) -> None:
        self.abort() if kind else self.close()


class AccessHandle(io.RawIOBase):
    """A file's bytes in place, which nobody else may write meanwhile. `flush` makes durable what was written, and so does `close`."""

    def __init__(self, file: File, mode: str) -> None:
        self.opened = False
        super().__init__()
        if mode not in ("r", "r+"):
            raise ValueError('the mode is "r" or "r+"')
        self.agent, self.name, self.mode, self.position = file.agent, file.name, mode, 0
        self.variable = self.agent.variable(self)
        self.agent.ask("createSyncAccessHandle", file=file.variable, mode={"r": "read-only", "r+": "readwrite"}[mode], as_=self.variable)
        self.opened = True

    def ask(self, word: str, **members: Any) -> str:
        if not self.opened:
            raise InvalidStateError("InvalidStateError")
        return self.agent.ask(word, sync=self.variable, **members)

    def readable(self) -> bool:
        return True

    def writable(self) -> bool:
        return self.mode == "r+"

    def seekable(self) -> bool:
        return True

    def readinto(self, into: Any) -> int:
        view, read = memoryview(into).cast("B"), 0
        while read < len(view):
            found = bytes_of(self.ask("syncRead", len=min(PIECE, len(view) - read), at=self.position))
            view[read : read + len(found)] = found
            read, self.position = read + len(found), self.position + len(found)
            if len(found) < PIECE:
                break
        return read

    def write(self, data: Any) -> int:
        view = memoryview(data).cast("B")
        for at in range(0, len(view), MOST):
            piece = view[at : at + MOST]
            self.ask("syncWrite", data=data_of(piece), at=self.position)
            self.position += len(piece)
        return len(view)

    def size(self) -> int:
        return int(self.ask("syncGetSize"))

    def tell(self) -> int:
        return self.position

    def seek(self, offset: int, whence: int = io.SEEK_SET) -> int:
        start = {io.SEEK_SET: 0, io.SEEK_CUR: self.position}.get(whence)
        place = offset + (self.size() if start is None else start)
        if place < 0:
            raise ValueError("a place before the start")
        self.position = place
        return place

    def truncate(self, size: int | None = None) -> int:
        size = self.position if size is None else size
        self.ask("syncTruncate", size=size)
        return size

    def flush(self) -> None:
        if self.opened and self.writable():
            self.ask("syncFlush")

    def close(self) -> None:
        if self.opened:
            try:
                self.ask("syncClose")
            finally:
                self.opened = False
        super().close()
