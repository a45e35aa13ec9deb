"""A store, and its agents."""

from __future__ import annotations

import collections
import json
import os
import time
import weakref
from concurrent.futures import Future
from typing import Any, Callable, Deque, NamedTuple, Sequence

from .conversation import Conversation
from .errors import InterfaceError, refusal
from .files import Directory

STAMPING = ("close", "syncWrite", "syncTruncate", "getFileHandle", "getDirectoryHandle", "getDirectory")


class Estimate(NamedTuple):
    """Bytes."""

    usage: int
    quota: int


def now() -> int:
    """The clock, in milliseconds."""
    return time.time_ns() // 1_000_000


class Agent:
    """A tab or worker: its calls on the store. `clock` gives the time stamps of files, in milliseconds; with None they are 0."""

    def __init__(self, talk: Conversation, number: int, origin: str, clock: Callable[[], int] | None) -> None:
        self.talk, self.number, self.origin, self.clock = talk, number, origin, clock
        self.moment = 0
        self.free: Deque[str] = collections.deque()  # variables of objects that are gone
        self.count = 0

    def begin(self, word: str, **members: Any) -> Future[list[str]]:
        """Tells a step, and does not wait for its answer."""
        step = {"do": word, **{key.rstrip("_"): value for key, value in members.items() if value is not None}}
        return self.talk.ask(self.number, word, json.dumps(step, ensure_ascii=False, separators=(",", ":")))

    def ask(self, word: str, **members: Any) -> str:
        """Makes a step. What its answer has behind `ok`; a refusal is raised."""
        if self.clock and word in STAMPING:
            self.tell_moment(self.clock())
        return self.read(self.begin(word, **members))

    def tell_moment(self, moment: int) -> None:
        if moment != self.moment:
            self.moment = moment
            self.read(self.begin("moment", ms=moment))

    @staticmethod
    def read(answer: Future[list[str]]) -> str:
        told = answer.result()[-1].split(" ", 2)[2]
        if told != "ok" and not told.startswith("ok "):
            raise refusal(told)
        return told[3:]

    def variable(self, owner: object) -> str:
        """A name for what an object is of; it is free again when the object is gone, and then names another one's."""
        try:
            name = self.free.popleft()
        except IndexError:
            self.count += 1
            name = f"v{self.count}"
        weakref.finalize(owner, self.free.append, name)
        return name

    def directory(self, bucket: str = "default") -> Directory:
        """The root of a bucket: `navigator.storage.getDirectory()`."""
        found = Directory(self, "")
        self.ask("getDirectory", bucket=bucket, as_=found.variable)
        return found

    def persist(self, bucket: str = "default") -> bool:
        """Asks that the bucket is not evicted; true where it is so now."""
        return self.ask("persist", bucket=bucket) == "true"

    def persisted(self, bucket: str = "default") -> bool:
        return self.ask("persisted", bucket=bucket) == "true"

    def estimate(self) -> Estimate:
        """Usage and quota of the origin, in bytes."""
        usage, quota = self.ask("estimate").split(" ")
        return Estimate(int(usage), int(quota))

    def post(self, tag: str) -> None:
        """Posts a tag to the agents of this origin."""
        self.ask("post", tag=tag)

    def wait(self, tag: str, timeout: float | None = None) -> None:
        """Waits until an agent of this origin has posted a tag; raises Stuck where nobody is left who could."""
        if not 0 < len(tag.encode()) <= 64:
            raise ValueError("a tag has 1 to 64 bytes")
        answer = self.begin("await", tag=tag)
        answer.result(timeout)
        self.read(answer)

    def end(self) -> None:
        """Ends the agent: its open streams are aborted, and its access handles discarded."""
        self.talk.ask(self.number, "end", "end").result()


class Store:
    """An image that `opfs_serve` serves, and its agents: a list of origins, each with the grant to persist where it is a pair with True.

    The program is `program`, or what the environment has as OPFS_SERVE, or `opfs_serve` of the path."""

    def __init__(
        self,
        image: str | os.PathLike[str],
        origins: Sequence[str | tuple[str, bool]] = ("https://a.example",),
        program: str | None = None,
        clock: Callable[[], int] | None = now,
    ) -> None:
        pairs = [(it, False) if isinstance(it, str) else it for it in origins]
        agents = [{"origin": origin, **({"grants": ["persistent-storage"]} if granted else {})} for origin, granted in pairs]
        self.talk = Conversation(program, image, json.dumps({"agents": agents}))
        self.agents = [Agent(self.talk, at + 1, origin, clock) for at, (origin, _) in enumerate(pairs)]
        self.status: int | None = None

    @property
    def evicted(self) -> list[str]:
        """The units that were evicted until now, in order."""
        return list(self.talk.evicted)

    def close(self) -> None:
        """Ends all agents, and stores what is kept back."""
        if self.status is None:
            self.status = self.talk.close()
            if self.status != 0:
                raise InterfaceError(f"the store's program ended with status {self.status}")

    def kill(self) -> None:
        """Ends the program at once. What was stored stands."""
        self.talk.child.kill()
        self.status = self.talk.close()

    def __enter__(self) -> Store:
        return self

    def __exit__(self, *_: object) -> None:
        self.close()
