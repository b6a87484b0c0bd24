"""The reading of a kit: what right texts say, and where wrong ones are wrong."""
from __future__ import annotations

import subprocess
import sys
import unittest
from collections.abc import Mapping
from pathlib import Path

sys.path.insert(0, str(Path(__file__).resolve().parent))
from desk import ROOT, StoreTest

from club.kit import (
    FACING, TEXTS, Cell, Centre, CentreKind, Colour, Face, Hex, Kit, KitError, Mark, Place, Tile, Token, Track, face_of, read_folder,
    read_kit)

KIT = {text: (ROOT / "kit" / name).read_bytes() for text, name in TEXTS.items()}
ROSTER = KIT["roster"].decode()
# Texts that are right, though they look odd.
RIGHT = {
    "carriage returns, comments and spaces": {"board": b"# a\r\n\r\n  hex  A 0,0   grey c20/1:5\r\nhex B 1,0 white"},
    "no tiles": {"tiles": b"# none\n"},
    "centres without track, and several": {"board": b"hex A -50,50 yellow c0/1: c0/1: t0: L=OO\nhome PRR A 2\nhome NYC A 1\n"},
    "a blank tile, and the greatest numbers": {"tiles": b"brown 999 x50 c990/4:\nyellow 1 x1\n"},
    "a chart with an empty place": {"chart": b". 10b 20o 30y\n67p 999\n"},
    "several blocks on a hex": {"board": b"hex A 0,0 white\nblock SV A\nblock SV A\nblock B&O A\n"},
}
# Wrong texts, with the line that is wrong.
WRONG = [
    ("chart", b"67p\n60x\n", 2), ("chart", b"67p 0\n", 1), ("chart", b"67p 1000\n", 1), ("chart", b"67p\t60\n", 1), ("chart", b"67p \xc3\xa4\n", 0), ("chart", b"# none\n60y\n", 0),
    ("roster", b"private = [", 0), ("roster", b"private = []\n", 0), ("roster", ROSTER.replace("income=5", "incom=5").encode(), 0),
    ("roster", ROSTER.replace(", trade=800", "").encode(), 0),
    ("tiles", b"yellow 3 x2 t10:0,1\nwhite 4 x2 t10:0,3\n", 2), ("tiles", b"yellow 3 2 t10:0,1\n", 1), ("tiles", b"yellow 03 x2 t10:0,1\n", 1),
    ("tiles", b"yellow 1000 x2\n", 1), ("tiles", b"yellow 3 x51\n", 1), ("tiles", b"yellow 3 x0\n", 1), ("tiles", b"yellow 3 x1\nyellow 3 x1\n", 2),
    ("tiles", b"# a\n\nyellow 3 x2 t15:0,1\n", 3), ("tiles", b"yellow 3 x2 t10:0,0\n", 1), ("tiles", b"yellow 3 x2 t10:0,6\n", 1),
    ("tiles", b"yellow 3 x2 t1000:0\n", 1), ("tiles", b"yellow 3 x2 c10:0\n", 1), ("tiles", b"yellow 3 x2 c10/5:0\n", 1), ("tiles", b"yellow 3 x2 t10/1:0\n", 1),
    ("tiles", b"yellow 3 x2 0-0\n", 1), ("tiles", b"yellow 3 x2 0-3 3-0\n", 1), ("tiles", b"yellow 3 x2 L=A L=A\n", 1), ("tiles", b"yellow 3 x2 L=OOO\n", 1),
    ("tiles", b"yellow 3 x2 o10/20:0\n", 1), ("tiles", b"yellow 3 x2 t10:0,1,\n", 1), ("tiles", b"yellow 3 x2 t10:0 ,1\n", 1),
    ("board", b"hex A 0,0 white\nhex A 1,0 white\n", 2), ("board", b"hex A 0,0 white\nhex B 0,0 white\n", 2), ("board", b"hex a 0,0 white\n", 1),
    ("board", b"hex ABCDE 0,0 white\n", 1), ("board", b"hex A 51,0 white\n", 1), ("board", b"hex A 0,-0 white\n", 1), ("board", b"hex A 0 white\n", 1),
    ("board", b"hex A 0,0 blue\n", 1), ("board", b"hex A 0,0 redt10:0\n", 1), ("board", b"hex A 0,0 white cost=501\n", 1),
    ("board", b"hex A 0,0 white t10: cost=40\n", 1), ("board", b"hex A 0,0 grey o10/20:0\n", 1), ("board", b"# none\n", 0), ("board", b"hexA 0,0 white\n", 1),
    ("board", b"home PRR A 1\nhex A 0,0 grey c10/1:0\n", 1), ("board", b"hex A 0,0 grey t10:0\nhome PRR A 1\n", 2),
    ("board", b"hex A 0,0 grey c10/1:0\nhome PRR A 1\nhome NYC A 1\n", 3), ("board", b"hex A 0,0 grey c10/2:0\nhome PRR A 1\nhome PRR A 1\n", 3),
    ("board", b"hex A 0,0 grey c10/1:0\nhome PRR A 2\n", 2), ("board", b"hex A 0,0 grey c10/1:0\nhome ABC A 1\n", 2),
    ("board", b"hex A 0,0 white\nblock XX A\n", 2), ("board", b"block SV A\nhex A 0,0 white\n", 1), ("board", b"hex A 0,0 white\nblock SV A A\n", 2),
]


def kit_with(texts: Mapping[str, bytes]) -> Kit:
    """The kit of kit/ with other texts in place of some."""
    return read_kit({**KIT, **texts})


class RightTexts(unittest.TestCase):
    def setUp(self) -> None:
        self.kit = read_folder(ROOT / "kit", {})

    def test_the_chart(self) -> None:
        self.assertEqual([len(row) for row in self.kit.chart], [19, 19, 16, 13, 11, 10, 9, 8, 7, 7, 7])
        self.assertEqual(self.kit.chart[0][0], Cell(60, Mark.YELLOW))
        self.assertEqual(self.kit.chart[0][6], Cell(100, Mark.PAR))
        self.assertEqual(self.kit.chart[10][:4], (None, None, None, Cell(10, Mark.BROWN)))
        self.assertEqual(self.kit.chart[3][0], Cell(39, Mark.ORANGE))

    def test_the_roster(self) -> None:
        roster = self.kit.roster
        self.assertEqual(roster.faces, {"SV": 20, "C&SL": 40, "D&H": 70, "M&H": 110, "C&A": 160, "B&O": 220})
        self.assertEqual(roster.incomes, {"SV": 5, "C&SL": 10, "D&H": 15, "M&H": 20, "C&A": 25, "B&O": 30})
        self.assertEqual(roster.tokens, {"PRR": 4, "NYC": 4, "CPR": 4, "B&O": 3, "C&O": 3, "ERIE": 3, "NYNH": 2, "B&M": 2})
        self.assertEqual(roster.prices, {"2": 80, "3": 180, "4": 300, "5": 450, "6": 630, "D": 1100})
        self.assertEqual((roster.counts, roster.trade), ({"2": 6, "3": 5, "4": 4, "5": 3, "6": 2, "D": 6}, 800))

    def test_the_tiles(self) -> None:
        self.assertEqual(len(self.kit.tiles), 31)
        self.assertEqual(self.kit.tiles[57], Tile(Colour.YELLOW, 57, 4, Face((Centre(CentreKind.CITY, 20, (0, 3), 1),))))
        self.assertEqual(self.kit.tiles[3], Tile(Colour.YELLOW, 3, 2, Face((Centre(CentreKind.TOWN, 10, (0, 1)),))))
        self.assertEqual(self.kit.tiles[23], Tile(Colour.GREEN, 23, 3, Face((Track((0, 3)), Track((0, 4))))))

    def test_the_board(self) -> None:
        board = self.kit.board
        off_board = Centre(CentreKind.OFF_BOARD, 40, (2,), later_value=40)
        self.assertEqual(list(board.hexes), ["A", "B", "C", "D", "E", "F"])
        self.assertEqual(board.hexes["E"], Hex("E", Place(4, 0), Colour.RED, 0, Face((off_board,))))
        self.assertEqual(board.homes, [Token("PRR", "A", 1), Token("NYC", "D", 1)])
        self.assertEqual(board.blocks, [("SV", "F")])
        self.assertEqual((board.at(Place(1, 1)).name, board.at(Place(2, 1))), ("F", None))

    def test_costs_and_labels(self) -> None:
        board = kit_with({"board": (ROOT / "games/operating_rounds_of_four/board.txt").read_bytes()}).board
        city = Centre(CentreKind.CITY, 20, (), 1)
        self.assertEqual(board.hexes["D2"], Hex("D2", Place(2, 3), Colour.WHITE, 40, Face((city,))))
        self.assertEqual(board.hexes["D6"].face, Face((city,), "B"))

    def test_odd_texts(self) -> None:
        for name, texts in RIGHT.items():
            with self.subTest(name):
                kit_with(texts)
        kit = kit_with(RIGHT["centres without track, and several"])
        self.assertEqual([it.kind for it in kit.board.hexes["A"].face.centres], [CentreKind.CITY, CentreKind.CITY, CentreKind.TOWN])

    def test_a_folder_with_other_names(self) -> None:
        others = {"board": ROOT / "games/operating_rounds_of_four/board.txt"}
        self.assertEqual(len(read_folder(ROOT / "kit", others).board.hexes), 40)
        with self.assertRaises(OSError):
            read_folder(ROOT / "kit", {"board": ROOT / "kit/none.txt"})


class Edges(unittest.TestCase):
    def test_edges_face_these_places(self) -> None:
        faced = [Place(2, 4), Place(1, 4), Place(1, 3), Place(2, 2), Place(3, 2), Place(3, 3)]
        self.assertEqual([Place(2, 3).across(edge) for edge in range(6)], faced)
        self.assertEqual([Place(2, 3).across(edge).across(FACING[edge]) for edge in range(6)], [Place(2, 3)] * 6)

    def test_a_tile_is_turned(self) -> None:
        """Tile 23 turned by 2 on hex B leads from A (edge 2) to C (5) and to F (0)."""
        turned = read_folder(ROOT / "kit", {}).tiles[23].face.turned(2)
        self.assertEqual(turned.parts, (Track((2, 5)), Track((2, 0))))
        self.assertEqual(turned.edges, {2, 5, 0})
        self.assertEqual(face_of("c20/2:0,5 L=B").turned(1), Face((Centre(CentreKind.CITY, 20, (1, 0), 2),), "B"))

    def test_links_of_a_face(self) -> None:
        """Each edge of a centre is one, with the number of the centre, and each track: in the order of the text."""
        face = face_of("3-0 t10:4,1 0-2 c20/1:5 c0/1:")
        self.assertEqual(face.links, [((0, 3), None), ((4,), 1), ((1,), 1), ((0, 2), None), ((5,), 2)])


class WrongTexts(StoreTest):
    def format(self, texts: Mapping[str, bytes]) -> list[str]:
        """The words of the reply to `moderate format`."""
        words = []
        for text, data in {**KIT, **texts}.items():
            (self.folder / text).write_bytes(data)
            words += [f"--{text}", str(self.folder / text)]
        done = subprocess.run([self.program, "format", str(self.folder / "new.store"), *words], stdout=subprocess.PIPE, check=False)
        (self.folder / "new.store").unlink(missing_ok=True)
        return done.stdout.decode().split()

    def test_wrong_texts_are_refused(self) -> None:
        for text, data, line in WRONG:
            with self.subTest(data), self.assertRaises(KitError) as refused:
                kit_with({text: data})
            self.assertEqual((refused.exception.text, refused.exception.line), (text, line), data)

    def test_the_program_refuses_them_there(self) -> None:
        numbers = {"3": "chart", "4": "roster", "6": "tiles", "7": "board"}
        for text, data, line in WRONG:
            with self.subTest(data):
                no, number, *place = self.format({text: data})
                self.assertEqual((no, numbers[number], place[2:3]), ("no", text, [] if text == "roster" else [str(line)]))

    def test_the_program_takes_the_right_ones(self) -> None:
        for name, texts in RIGHT.items():
            with self.subTest(name):
                self.assertEqual(self.format(texts), ["ok"])

    def test_a_refusal_says_why(self) -> None:
        with self.assertRaises(KitError) as refused:
            kit_with({"tiles": b"yellow 3 x51\n"})
        self.assertEqual(str(refused.exception), "tiles, line 1: '51' is no number from 1 to 50")
        with self.assertRaises(KitError) as refused:
            kit_with({"board": b""})
        self.assertEqual(str(refused.exception), "board: it has no hex")


if __name__ == "__main__":
    unittest.main()
