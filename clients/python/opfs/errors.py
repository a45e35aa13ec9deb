"""Why a call was not done."""

from __future__ import annotations


class Error(Exception):
    """The base of all errors here."""


class InterfaceError(Error):
    """The store's program is not there, has ended, or answers otherwise than it should; or an object is used that is of no more use."""


class Refused(Error):
    """A call that the store refused: it changed nothing, but for evictions before it. `name` is the refusal's, `values` are what it carries."""

    def __init__(self, name: str, values: tuple[str, ...] = ()) -> None:
        super().__init__(" ".join((name, *values)))
        self.name = name
        self.values = values


class NotFoundError(Refused, FileNotFoundError):
    """A directory, file or child is not there."""


class TypeMismatchError(Refused):
    """A child of the other kind stands there."""


class InvalidModificationError(Refused):
    """A directory is not empty, and not to be removed with all in it."""


class NoModificationAllowedError(Refused, PermissionError):
    """A lock refuses, or an access handle may only read. `values` are the lock and its count."""


class InvalidStateError(Refused, ValueError):
    """An access handle is closed."""


class SecurityError(Refused, PermissionError):
    """An agent of an opaque origin has no store."""


class InvalidNameError(Refused, ValueError):
    """The Standard's TypeError: a name that is not valid, or a stream that is closed."""


class QuotaExceededError(Refused):
    """The origin's quota is used up. `values` are its usage, the need and the quota, in blocks of 4,096 bytes."""


class FullError(Refused):
    """The image is full: MetaFull or DataFull."""


class NameLimitError(Refused):
    """A name of more than 255 bytes, or more than 32 of them in a path."""


class DiskFault(Refused, OSError):
    """A call of the disk failed under the image."""


class Stuck(Refused):
    """Nobody is left who could post the tag."""


KINDS: dict[str, type[Refused]] = {
    "TypeError": InvalidNameError,
    "NotFoundError": NotFoundError,
    "TypeMismatchError": TypeMismatchError,
    "InvalidModificationError": InvalidModificationError,
    "NoModificationAllowedError": NoModificationAllowedError,
    "InvalidStateError": InvalidStateError,
    "SecurityError": SecurityError,
    "QuotaExceededError": QuotaExceededError,
    "NameLimit": NameLimitError,
    "MetaFull": FullError,
    "DataFull": FullError,
    "DiskFault": DiskFault,
    "Stuck": Stuck,
}


def refusal(text: str) -> Refused:
    """The error of a refusal, as a transcript's line has it."""
    name, *values = text.split(" ")
    return KINDS.get(name, Refused)(name, tuple(values))
