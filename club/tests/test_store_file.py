"""Files of both versions without the program: those that programs wrote once, and new ones."""
from __future__ import annotations

import re
import subprocess
import sys
import unittest
from pathlib import Path

sys.path.insert(0, str(Path(__file__).resolve().parent))
from desk import ROOT, TEXTS, StoreTest

from club.client import Program
from club.kept import read_kept
from club.looking import look
from club.pages import text_of
from club.store_file import MOST_SLOTS, Table, read, slots_for, written

VECTORS = ROOT / "crates/rr_vectors"
KEPT_FILE = re.compile(r'length: ([0-9_]+),\s*answer: "ok (\d+) (\d+)",\s*runs: "([^"]*)"')
# The version of each file that a program wrote once, and what its directory says of the bank.
VERSIONS = {"new_file": (1, None), "within_a_checkpoint": (1, None), "two_checkpoints": (1, None),
            "named_bank": (2, 2400), "eight_slots": (2, 12_000)}


def vector(name: str) -> tuple[bytes, int, int]:
    """A file that a program wrote once, and how many tables and commands `check` counted."""
    source = (VECTORS / f"src/{name}.rt").read_text()
    length, tables, commands, runs = KEPT_FILE.search(source).groups()
    data = bytearray(int(length))
    for at, digits in (it.split(" ") for it in runs.split("\n")):
        piece = bytes.fromhex(digits)
        data[int(at):int(at) + len(piece)] = piece
    return bytes(data), int(tables), int(commands)


def lines_of(name: str) -> dict[str, list[str]]:
    """The commands that made such a file, by their tables, without stamps."""
    commands: dict[str, list[str]] = {}
    for line in (VECTORS / f"lines/{name}").read_text().splitlines():
        _, table, words = line.split(" ", 2)
        commands.setdefault(table, []).append(words)
    return commands


class VectorsTest(unittest.TestCase):
    def test_each_version_is_read(self) -> None:
        for name, (version, bank) in VERSIONS.items():
            data, tables, commands = vector(name)
            store = read(data)
            self.assertEqual((store.root.version, store.bank), (version, bank), name)
            self.assertEqual(len(store.accepted()), tables, name)
            last = store.root.first + len(store.near) + len(store.far) - 1
            self.assertEqual(last, commands, name)
            self.assertEqual(list(read_kept(data).tables), list(store.accepted()))
            self.assertEqual(read_kept(data).kit.roster.bank, bank or 12_000)

    def test_commands_within_a_checkpoint_are_those_that_were_sent(self) -> None:
        """No checkpoint has ended, so nothing that a `back` took back is dropped."""
        for table, sent in lines_of("within_a_checkpoint").items():
            found = read(vector("within_a_checkpoint")[0]).accepted()[table]
            self.assertEqual(len(found), len(sent))
            for mine, right in zip(found, sent):  # `best` is kept as the run that was found
                run = right.replace("best", "run") + " "
                self.assertTrue(mine == right or mine.startswith(run), (mine, right))

    def test_a_back_leaves_the_turns_before_it(self) -> None:
        """The table is in the auction, and nothing is raised for: each command is a turn."""
        left: list[str] = []
        for words in lines_of("two_checkpoints")["turns"]:
            verb, _, turn = words.partition(" ")
            if verb == "back":
                left = left[:int(turn) + 1]
            elif verb != "forget":
                left.append(words)
        self.assertEqual(read_kept(vector("two_checkpoints")[0]).tables["turns"], left)

    def test_a_record_of_eight_slots(self) -> None:
        """A run with a proof tree of 4,096 words, the most that it has, is in each half."""
        store = read(vector("eight_slots")[0])
        for half in (store.near, store.far):
            longest = max(half, key=len)
            self.assertEqual(slots_for(len(longest)), MOST_SLOTS)
            self.assertEqual(len(longest.partition(" best ")[2].split(" ")), 4096)
        last = read_kept(vector("eight_slots")[0]).tables["long"][-1]
        self.assertEqual(max(store.near, key=len), f"long {last}")


class WrittenTest(StoreTest):
    def texts(self, roster: str = "") -> list[bytes]:
        """The texts of kit/, of which the roster begins with more."""
        chart, names, *others = ((ROOT / "kit" / it).read_bytes() for it in TEXTS)
        return [chart, roster.encode() + names, *others]

    def write(self, data: bytes) -> Path:
        (self.folder / "club.store").write_bytes(data)
        return self.folder / "club.store"

    def test_a_new_file_is_that_of_the_program(self) -> None:
        self.assertEqual(self.store().read_bytes(), written(self.texts(), []))
        (self.folder / "roster.toml").write_bytes(self.texts("bank = 2400\n")[1])
        data = self.store(self.folder, "other.store").read_bytes()
        self.assertEqual(data, written(self.texts("bank = 2400\n"), [], bank=2400))
        self.assertEqual(read(data).bank, 2400)

    def test_a_file_of_each_version_is_played_on_and_shown(self) -> None:
        for version in (1, 2):
            tables = [Table("g1", 2, 0, ["open ann bob", "buy ann"])]
            store = self.write(written(self.texts(), tables, first=3, version=version))
            program = Program(store, self.program)
            self.assertEqual(str(program.line("2 g1 buy bob")), "ok g1 3")
            program.close()
            again = read(store.read_bytes())
            self.assertEqual(again.root.version, version)
            self.assertEqual(again.bank, {1: None, 2: 12_000}[version])
            self.assertEqual(again.accepted(), {"g1": ["open ann bob", "buy ann", "buy bob"]})
            (view, before), = look(store, [], 2, self.program)
            # 2,400 went to the players, 20 and 40 came back for the SV and the C&SL.
            said = "2 turns have ended. It's phase 2. The bank has $9660, and owes $0."
            self.assertIn(said, text_of(view, before))

    def test_the_least_and_the_greatest_bank(self) -> None:
        """Two players get 1,200 each, and 20 comes back for the SV."""
        for bank, left in ((2400, 20), (100_000, 97_620)):
            tables = [Table("g1", 2, 0, ["open ann bob", "buy ann"])]
            store = self.write(written(self.texts(f"bank = {bank}\n"), tables, 3, bank=bank))
            self.assertEqual(read(store.read_bytes()).bank, bank)
            self.assertEqual(read_kept(store.read_bytes()).kit.roster.bank, bank)
            (view, _), = look(store, [], None, self.program)
            self.assertIn(f"The bank has ${left}, and owes $0.", text_of(view, None))


if __name__ == "__main__":
    unittest.main()


class OpenedVectorsTest(StoreTest):
    def test_the_program_opens_each_and_ends_the_checkpoint_of_one(self) -> None:
        for name in VERSIONS:
            data, tables, commands = vector(name)
            file = self.folder / name
            file.write_bytes(data)
            said = subprocess.run([self.program, "check", str(file)], stdout=subprocess.PIPE, text=True, check=True).stdout
            self.assertEqual(said, f"ok {tables} {commands}\n")
        stamps = {"ops": 105, "pair": 81, "long": 24, "turns": 43}
        lines = [f"stamp {table}" for table in stamps] + [f"{39 - turn} long back {turn}" for turn in range(15, 3, -1)]
        right = [f"= {stamp}" for stamp in stamps.values()] + [f"ok long {40 - turn}" for turn in range(15, 3, -1)]
        file, before = self.folder / "eight_slots", read(vector("eight_slots")[0])
        served = subprocess.run([self.program, "serve", str(file)], stdout=subprocess.PIPE, text=True,
                                input="\n".join([*lines, ""]), check=True)
        self.assertEqual(served.stdout.splitlines(), right)
        after = read(file.read_bytes())  # eight of the lines were a checkpoint's steps
        self.assertEqual((after.root.number, after.root.version), (before.root.number + 1, 2))
        self.assertEqual(list(after.accepted()), list(stamps))
