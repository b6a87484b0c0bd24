"""What a file keeps: commands and turns held to the program's answers, and the board to the games that a file has snapshots of."""
from __future__ import annotations

import sys
import unittest
from pathlib import Path
from unittest import mock

sys.path.insert(0, str(Path(__file__).resolve().parent))
from desk import ROOT, StoreTest, recorded

from club.client import Program
from club.kept import Kept, read_kept, turns_of
from club.kit import CORPORATIONS
from club.layout import Lay, Token

from club.store_file import read

sys.path.append(str(ROOT / "tools"))
import game_bytes


class Board:
    """The tiles and tokens of a game's bytes, each oldest first."""

    def __init__(self, data: bytes) -> None:
        self.lays: list[Lay] = []
        self.tokens: list[Token] = []
        with mock.patch.multiple(game_bytes, read_tiles=self.read_tiles, read_tokens=self.read_tokens):
            game_bytes.read_game(game_bytes.Fields(data))

    def read_tiles(self, fields: game_bytes.Fields) -> None:
        for _ in range(fields.number(2)):
            self.lays.append(Lay(fields.name().decode(), fields.number(2), fields.number(1)))

    def read_tokens(self, fields: game_bytes.Fields) -> None:
        for _ in range(fields.number(2)):
            self.tokens.append(Token(CORPORATIONS[fields.number(1)], fields.name().decode(), fields.number(8)))


class KeptTest(StoreTest):
    def serve(self, game: str) -> tuple[Path, Program]:
        """A new store for a recorded game, and the program that serves it."""
        store = self.store(ROOT / "games" / game, f"{game}.store")
        program = Program(store, self.program)
        self.addCleanup(program.stop)
        return store, program

    def test_the_turns_are_those_that_the_program_counts(self) -> None:
        store, program = self.serve("taken_back")
        for line, _ in recorded("taken_back"):
            program.line(line)
            kept = read_kept(store.read_bytes())
            self.assertEqual(list(kept.tables), program.ask("tables"))
            for table, commands in kept.tables.items():
                # A purchase after which the par is due stands as a turn that ended.
                due, turns = program.ask(f"due {table}")[-1], int(program.ask(f"turns {table}")[0])
                self.assertEqual(len(turns_of(commands)) - 2, turns + (due == "par"))

    def test_the_commands_and_the_board_are_those_of_the_game(self) -> None:
        seen = 0
        for game in ("operating_rounds_of_four", "operating_rounds_of_three_tables", "second_tokens"):
            store, program = self.serve(game)
            taken: dict[str, list[str]] = {}
            dues: dict[tuple[str, int], str] = {}
            for line, reply in recorded(game):
                program.line(line)
                if reply.startswith("ok "):
                    _, table, words = line.split(" ", 2)
                    taken.setdefault(table, []).append(words)
                    dues[table, len(taken[table])] = program.ask(f"due {table}")[0]
            data = store.read_bytes()
            kept, tables = read_kept(data), read(data)
            self.assertEqual(list(kept.tables), list(taken))
            for table, commands in taken.items():
                self.assertEqual(len(kept.tables[table]), len(commands))
                for mine, right in zip(kept.tables[table], commands):  # `best` is kept as the run that was found
                    self.assertTrue(mine == right or mine.startswith(right.replace("best", "run") + " "), (mine, right))
            for it in tables.snapshots:
                name, board = tables.tables[it.table].name, Board(it.bytes)
                layout = Kept(kept.kit, {name: kept.tables[name][:it.kept]}).layout(name, dues[name, it.kept])
                self.assertEqual((list(layout.lays), list(layout.tokens)), (board.lays, board.tokens))
                seen += len(board.lays) > 5
        self.assertGreater(seen, 10)


if __name__ == "__main__":
    unittest.main()
