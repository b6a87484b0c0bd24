"""What the tests share: new stores, recorded games, and a prompt at a pseudo-terminal."""
from __future__ import annotations

import os
import pty
import re
import select
import shutil
import signal
import subprocess
import sys
import tempfile
import time
import unittest
from pathlib import Path

sys.dont_write_bytecode = True
ROOT = Path(__file__).resolve().parent.parent.parent
sys.path.insert(0, str(ROOT))

from club.client import find_program

TEXTS = ("chart.txt", "roster.toml", "tiles.txt", "board.txt")
LARGE_BOARD = ROOT / "games/operating_rounds_of_four/board.txt"
MEMORY = Path("/dev/shm")
# No answer takes so long, also where others keep the machine busy.
SECONDS = 120
ESCAPES = re.compile(r"\x1b\[[0-9;?]*[a-zA-Z]|\r")


class StoreTest(unittest.TestCase):
    """A test with a folder of its own, in memory if there is room, in which it can make stores."""

    def setUp(self) -> None:
        self.folder = Path(tempfile.mkdtemp(dir=MEMORY if MEMORY.is_dir() else None))
        self.addCleanup(shutil.rmtree, self.folder, ignore_errors=True)
        self.program = find_program()

    def store(self, kit: Path | None = None, name: str = "club.store") -> Path:
        """A new store of the texts of kit/, in place of which those stand that the folder `kit` has."""
        words = []
        for text in TEXTS:
            own = kit / text if kit and (kit / text).exists() else ROOT / "kit" / text
            words += [f"--{text.partition('.')[0]}", str(own)]
        subprocess.run([self.program, "format", str(self.folder / name), *words], check=True, stdout=subprocess.DEVNULL)
        return self.folder / name


def recorded(name: str) -> list[tuple[str, str]]:
    """The lines of a recorded game, each with its right reply."""
    texts = [(ROOT / "games" / name / it).read_bytes().decode("ascii", "replace").split("\n") for it in ("lines", "replies")]
    return [(line, reply) for line, reply in zip(*texts) if reply]


class Terminal:
    """A program at a pseudo-terminal, and what it wrote there, without escapes."""

    def __init__(self, words: list[str], kind: str = "dumb") -> None:
        self.pid, self.file = pty.fork()
        if not self.pid:
            os.environ["TERM"] = kind
            os.execv(words[0], words)
        self.text, self.seen, self.status = "", 0, None

    def type(self, text: str) -> None:
        os.write(self.file, text.encode())

    def wait_for(self, wanted: str) -> str:
        """Waits until something that matches was written after what was waited for before, and returns all up to it."""
        deadline = time.monotonic() + SECONDS
        while not (found := re.compile(wanted).search(self.text, self.seen)):
            if not self.read(deadline - time.monotonic()):
                raise AssertionError(f"{wanted!r} doesn't come in {self.text[self.seen:]!r}")
        start, self.seen = self.seen, found.end()
        return self.text[start:self.seen]

    def read(self, seconds: float) -> bool:
        """Reads what is written within some time, and returns whether anything was."""
        if not select.select([self.file], [], [], max(0, seconds))[0]:
            return False
        try:
            data = os.read(self.file, 65536)
        except OSError:  # nobody has the other end any more
            return False
        self.text += ESCAPES.sub("", data.decode())
        return bool(data)

    def end(self) -> int:
        """Waits for the program's end, and returns its status."""
        while self.read(SECONDS):
            pass
        if self.status is None:
            self.status = os.waitstatus_to_exitcode(os.waitpid(self.pid, 0)[1])
        return self.status

    def kill(self) -> None:
        """Ends the program, if it hasn't ended."""
        if self.status is None:
            os.kill(self.pid, signal.SIGKILL)
            self.end()
        os.close(self.file)
