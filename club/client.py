"""A client of `moderate serve`: one line out, one reply back, what may be believed after a crash, and a lock for the file."""
from __future__ import annotations

import fcntl
import os
import select
import shutil
import subprocess
import time
from collections.abc import Sequence
from contextlib import suppress
from dataclasses import dataclass
from enum import Enum
from pathlib import Path

BUILT = Path(__file__).resolve().parent.parent / "crates/moderate/out/moderate"
DEVICE_FAILED = 60


class Kind(Enum):
    """The first word of a reply."""
    TAKEN = "ok"
    ANSWER = "="
    REFUSED = "no"


@dataclass(frozen=True)
class Reply:
    """A reply: its kind, and the words after the first one. An empty answer has no words."""
    kind: Kind
    words: tuple[str, ...]

    @staticmethod
    def read(text: str) -> Reply:
        first, *words = text.split(" ")
        return Reply(Kind(first), () if text == "= -" else tuple(words))

    @property
    def number(self) -> int | None:
        """The number of a refusal."""
        return int(self.words[0]) if self.kind is Kind.REFUSED else None

    def __str__(self) -> str:
        return " ".join((self.kind.value, *(self.words or "-")))


class Refused(Exception):
    """The program refused to open the file, or to answer a query."""

    def __init__(self, reply: Reply) -> None:
        super().__init__(str(reply))
        self.reply = reply


class Ended(Exception):
    """The program ended, and nobody knows yet whether it took the last line."""


def find_program(named: str | None = None) -> str:
    """The program that is named, else $MODERATE, else the one built here, else the first on the PATH."""
    wanted = named or os.environ.get("MODERATE") or (str(BUILT) if BUILT.exists() else "moderate")
    if found := shutil.which(wanted):
        return found
    raise FileNotFoundError(f"{wanted} is no program: name `moderate` by --program or $MODERATE, or build it by ./first-game")


class Program:
    """A running `moderate serve FILE`, in a process group of its own, so that Ctrl-C doesn't reach it.

    It holds `open_files` open as well: with the descriptor of a lock among them the file stays locked until it has ended.
    """

    def __init__(self, file: Path, named: str | None = None, open_files: Sequence[int] = ()) -> None:
        self.words, self.open_files = [find_program(named), "serve", str(file)], open_files
        self.serve()

    def serve(self) -> None:
        """Starts the program. Raises Refused if it refuses the file."""
        self.serving = subprocess.Popen(self.words, stdin=subprocess.PIPE, stdout=subprocess.PIPE, encoding="utf-8",
                                        errors="replace", pass_fds=self.open_files, process_group=0)
        first = self.line("tables")
        if first.kind is not Kind.ANSWER:  # a refusal of the file is the reply to the first line, whatever that is
            self.stop()
            raise Refused(first)

    def line(self, words: str) -> Reply:
        """Sends one line, which has no line feed, and returns its reply. Raises Ended if the program ends under it."""
        if "\n" in words:
            raise ValueError(f"more than one line: {words!r}")
        if self.serving.stdin.closed:
            raise Ended("moderate isn't running")
        with suppress(BrokenPipeError):  # it has ended; why may still be there to read
            self.serving.stdin.write(words + "\n")
            self.serving.stdin.flush()
        # It wakes up each second, since a Ctrl-C that comes just before the reading would go unnoticed.
        while not select.select([self.serving.stdout], [], [], 1)[0]:
            pass
        text = self.serving.stdout.readline()
        if not text.endswith("\n"):
            raise Ended(f"moderate ended with the status {self.stop()}")
        reply = Reply.read(text[:-1])
        if reply.number == DEVICE_FAILED and words[:1].isdigit():
            raise Ended(f"moderate ended with {reply}")
        return reply

    def ask(self, query: str) -> list[str]:
        """The words of the answer to a query. Raises Refused if there is none."""
        reply = self.line(query)
        if reply.kind is not Kind.ANSWER:
            raise Refused(reply)
        return list(reply.words)

    def stamp(self, table: str) -> int:
        """The table's stamp, and 0 if there is no such table."""
        reply = self.line(f"stamp {table}")
        return int(reply.words[0]) if reply.kind is Kind.ANSWER else 0

    def has_taken(self, command: str, before: int) -> bool:
        """Whether a command was taken under which the program ended: ask once the file is served again.

        `before` is the stamp that the table had when the line was sent. It was taken only if it bore that stamp, and the
        stamp is exactly one more now. This holds as long as nobody else plays on the file, so lock it.
        """
        stamp, table, _ = command.split(" ", 2)
        return stamp == str(before) and self.stamp(table) == before + 1

    def stop(self) -> int:
        """Ends the program at once, by which nothing is lost that was taken, and returns its status."""
        self.serving.kill()
        return self.close()

    def close(self) -> int:
        """Lets the program end with its input, and returns its status: below 0 if a signal ended it."""
        with suppress(BrokenPipeError):
            self.serving.stdin.close()
        self.serving.stdout.close()
        return self.serving.wait()


class Held(Exception):
    """Somebody else holds the lock."""


def take_lock(store: Path, seconds: float = 2) -> int:
    """Locks `club.lock` for `club.store` and returns its descriptor. Raises Held if it can't be had within this time.

    It is released once each process that has the descriptor has ended, in whatever way: hand it to `moderate` as well.
    """
    file = store.resolve().with_suffix(".lock")
    descriptor = os.open(file, os.O_RDWR | os.O_CREAT, 0o666)
    deadline = time.monotonic() + seconds
    while True:
        try:
            fcntl.flock(descriptor, fcntl.LOCK_EX | fcntl.LOCK_NB)
            return descriptor
        except BlockingIOError:
            if time.monotonic() >= deadline:
                os.close(descriptor)
                raise Held(f"{store} is in use: somebody else holds {file}") from None
            time.sleep(0.02)
