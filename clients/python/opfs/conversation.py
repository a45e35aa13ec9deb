"""The conversation with `opfs_serve`: lines that are told, and the answers to them."""

from __future__ import annotations

import collections
import os
import subprocess
import threading
from concurrent.futures import Future
from typing import Deque, Sequence

from .errors import InterfaceError

LIMIT = 33_554_432 + 1_024  # bytes of a line


class Asked:
    """A line that was told, of the agent with this number, and what is to come of it."""

    def __init__(self, agent: int, word: str) -> None:
        self.agent = agent
        self.awaits = word == "await"
        self.ends = word == "end"
        self.answer: Future[list[str]] = Future()


class Conversation:
    """A child `opfs_serve`, which answers lines in their order, but for those of agents that await. It may be used from several threads."""

    def __init__(self, program: str | None, image: str | os.PathLike[str], first: str) -> None:
        words = [program or os.environ.get("OPFS_SERVE") or "opfs_serve", os.fspath(image)]
        try:
            self.child = subprocess.Popen(words, stdin=subprocess.PIPE, stdout=subprocess.PIPE, bufsize=0)
        except OSError as error:
            raise InterfaceError(f"{words[0]} can't be started: {error}") from error
        self.lock = threading.Lock()
        self.asked: Deque[Asked] = collections.deque()  # told, and not answered; in their order
        self.waiting: dict[int, Asked] = {}  # agents whose await has no answer yet
        self.ending: dict[int, list[str]] = {}  # lines of an agent's end, so far
        self.evicted: list[str] = []
        self.last: str | None = None
        assert self.child.stdin and self.child.stdout
        self.output = os.fdopen(os.dup(self.child.stdout.fileno()), "rb", 1 << 16)
        self.write(first)
        self.greeting = self.output.readline().decode()
        if not self.greeting.startswith("ready "):
            self.close_streams()
            raise InterfaceError(f"status {self.child.wait()}: {self.greeting.strip() or 'no answer'}")
        self.reader = threading.Thread(target=self.read, daemon=True)
        self.reader.start()

    def write(self, line: str) -> None:
        data = memoryview(line.encode() + b"\n")
        if len(data) > LIMIT:
            raise InterfaceError("the line is too long")
        assert self.child.stdin
        try:
            while data:
                data = data[os.write(self.child.stdin.fileno(), data) :]
        except (OSError, ValueError) as error:
            raise InterfaceError(f"the store's program is gone: {error}") from error

    def ask(self, agent: int, word: str, text: str) -> Future[list[str]]:
        """Tells a line of an agent with this word. Its answer is the list of its lines: one, but for an end."""
        asked = Asked(agent, word)
        with self.lock:
            if self.last is not None:
                raise InterfaceError(self.last)
            self.asked.append(asked)
            try:
                self.write(f"{agent} {text}")
            except InterfaceError:
                self.asked.remove(asked)
                raise
        return asked.answer

    def read(self) -> None:
        """Reads answers until the program ends."""
        why = "the store's program has ended"
        try:
            for line in self.output:
                self.hear(line.decode().rstrip("\n"))
        except (OSError, ValueError, InterfaceError) as error:
            why = str(error)
        with self.lock:
            self.last = why
            left = [*self.asked, *self.waiting.values()]
        for asked in left:
            if not asked.answer.done():
                asked.answer.set_exception(InterfaceError(why))

    def hear(self, line: str) -> None:
        """Takes an answer to the line that it is of."""
        if line.startswith("evict "):
            self.evicted.append(line[6:])
            return
        if line.startswith("? "):
            self.take_first().answer.set_exception(InterfaceError(f"refused: {line[2:]}"))
            return
        place, _, told = line.partition(" ")
        agent = int(place.partition(".")[0])
        word = told.partition(" ")[0]
        if agent in self.waiting:
            self.waiting.pop(agent).answer.set_result([line])
        elif word in ("abort", "discard") and self.is_ending(agent):
            self.ending.setdefault(agent, []).append(line)
        else:
            lines = [*self.ending.pop(agent, []), line]
            self.take_of(agent).answer.set_result(lines)

    def is_ending(self, agent: int) -> bool:
        with self.lock:
            first = next((it for it in self.asked if it.agent == agent), None)
        return first is not None and first.ends

    def take_first(self) -> Asked:
        """The first line without an answer that is no await."""
        with self.lock:
            while self.asked and self.asked[0].awaits:
                self.set_waiting()
            if not self.asked:
                raise InterfaceError("a refusal of no line")
            return self.asked.popleft()

    def take_of(self, agent: int) -> Asked:
        """The line of this agent that is answered now. What was told before it awaits."""
        with self.lock:
            while self.asked and self.asked[0].agent != agent and self.asked[0].awaits:
                self.set_waiting()
            if not self.asked or self.asked[0].agent != agent:
                raise InterfaceError(f"an answer to no line, of agent {agent}")
            return self.asked.popleft()

    def set_waiting(self) -> None:
        first = self.asked.popleft()
        self.waiting[first.agent] = first

    def close_streams(self) -> None:
        for stream in (self.child.stdin, self.child.stdout):
            if stream:
                stream.close()

    def close(self) -> int:
        """Tells nothing more; when the program has ended, its status."""
        if self.child.stdin and not self.child.stdin.closed:
            self.child.stdin.close()
        self.reader.join()
        status = self.child.wait()
        self.close_streams()
        return status

