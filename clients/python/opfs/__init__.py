"""The origin private file system of a page, for Python: agents of a store that the program `opfs_serve` keeps in an image.

    with opfs.Store("image", ["https://a.example"]) as store:
        notes = store.agents[0].directory().file("notes", create=True)
        notes.write_text("first note")
"""

from .errors import (
    DiskFault,
    Error,
    FullError,
    InterfaceError,
    InvalidModificationError,
    InvalidNameError,
    InvalidStateError,
    NameLimitError,
    NoModificationAllowedError,
    NotFoundError,
    QuotaExceededError,
    Refused,
    SecurityError,
    Stuck,
    TypeMismatchError,
)
from .files import AccessHandle, Directory, Entry, File, Snapshot, Stream
from .store import Agent, Estimate, Store, now

__all__ = [
    "AccessHandle", "Agent", "Directory", "DiskFault", "Entry", "Error", "Estimate", "File", "FullError", "InterfaceError", "InvalidModificationError",
    "InvalidNameError", "InvalidStateError", "NameLimitError", "NoModificationAllowedError", "NotFoundError", "QuotaExceededError", "Refused",
    "SecurityError", "Snapshot", "Store", "Stream", "Stuck", "TypeMismatchError", "now",
]  # fmt: skip
