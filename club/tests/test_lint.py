"""`club/lint`: what it finds in kits that were worked by hand, and the drawing that it writes."""
from __future__ import annotations

import re
import subprocess
import sys
import unittest
import xml.etree.ElementTree as ElementTree
from pathlib import Path

sys.path.insert(0, str(Path(__file__).resolve().parent))
from desk import LARGE_BOARD, ROOT, StoreTest, recorded

from club.findings import findings, turns_on
from club.kit import TEXTS, Colour, face_of, read_folder, read_tiles
from club.layout import Lay, Layout

LINT = ROOT / "club/lint"
# A board in whose middle W takes tiles, one after another: yellow 9, green 20, brown 47.
BOARD = """hex W 0,0 white
hex A 0,1 grey c20/4:3
hex B -1,1 grey c20/4:4
hex C 0,-1 grey t10:0
hex D 1,-1 red o30/50:1
home PRR A 1
home NYC A 1
home CPR A 1
home B&O A 1
home C&O B 1
home ERIE B 1
home NYNH B 1
home B&M B 1
block SV W
block C&SL W
block D&H W
block M&H W
block C&A W
block B&O W
"""
TILES = "yellow 9 x1 0-3\ngreen 20 x1 0-3 1-4\nbrown 47 x1 0-3 1-4 1-3 0-4\n"
# Of each fault: what it changes in the texts, and what is found then. Each is of one thing, and of what follows from it.
FAULTS = {
    "nothing": ([], []),
    "a corporation without a home": ([("home CPR A 1\n", "")], [
        "No `home` line for CPR: such a corporation gets no token, lays no tile and earns nothing."]),
    "privates without a block": ([("block SV W\n", ""), ("block B&O W\n", "")], ["No `block` line for B&O, SV: such a private blocks no hex."]),
    "an off-board area at an edge of the board": ([("o30/50:1", "o30/50:2,0")], [
        "The off-board area of D faces nothing: no track can come to it."]),
    "an off-board area without track": ([("o30/50:1", "o30/50:")], ["The off-board area of D faces nothing: no track can come to it."]),
    "an off-board area that faces a grey hex without track": ([("o30/50:1", "o30/50:2")], [
        "The off-board area of D faces nothing: no track can come to it."]),
    "track that leads off the board": ([("t10:0", "t10:0,3")], ["Track of C leads nowhere at edge 3."]),
    "a hex apart": ([("hex A 0,1", "hex Z 9,9 grey 0-3\nhex A 0,1")], [
        "Track of Z leads nowhere at edge 0, 3.", "Nothing reaches Z from any home, whatever tiles are laid."]),
    "a white hex apart": ([("hex A 0,1", "hex Z 9,9 white\nhex A 0,1")], [
        "Nothing reaches Z from any home, whatever tiles are laid.", "No tile can be laid on Z."]),
    "hexes after an off-board area": ([("o30/50:1", "o30/50:1,4"), ("hex D", "hex E 2,-2 grey c10/1:1\nhex D")], [
        "Nothing reaches E from any home, whatever tiles are laid."]),
    "a town on a hex without a tile for it": ([("hex W 0,0 white", "hex W 0,0 white t10:")], [
        "No tile can be laid on W.", "On this board yellow 9 (2 edges) can follow nothing.",
        "On this board green 20 (4 edges) can follow nothing.", "On this board brown 47 (4 edges) can follow nothing."]),
    "a tile whose edges never face hexes": ([("yellow 9", "yellow 5 x2 0-1 1-2\nyellow 9")], [
        "On this board yellow 5 (3 edges) can follow nothing."]),
    "a yellow tile that is kept by no green one": ([("yellow 9", "yellow 8 x2 0-2\nyellow 9")], [
        "On this board nothing can follow yellow 8 (2 edges)."]),
    "a green tile with an edge less than the yellow one": ([("green 20 x1 0-3 1-4", "green 20 x1 0-1 3-4")], [
        "On this board green 20 (4 edges) can follow nothing.", "On this board brown 47 (4 edges) can follow nothing.",
        "On this board nothing can follow yellow 9 (2 edges)."]),
    "nothing, with tiles that follow one another in the turns that the first one has": (
        [("yellow 9", "yellow 8 x1 0-2\ngreen 21 x1 0-2 0-3\nbrown 48 x1 0-2 0-3 2-3\nyellow 9")], []),
    "no brown tile": ([("brown 47 x1 0-3 1-4 1-3 0-4\n", "")], ["On this board nothing can follow green 20 (4 edges)."]),
    "a brown tile that adds no link": ([("brown 47 x1 0-3 1-4 1-3 0-4\n", "brown 47 x1 1-4 0-3\n")], [
        "On this board brown 47 (4 edges) can follow nothing.", "On this board nothing can follow green 20 (4 edges)."]),
    "a label of a tile": ([("1-3 0-4\n", "1-3 0-4\nbrown 48 x1 0-3 1-4 1-3 0-4 L=OO\n")], ["No hex bears the label OO of tile 48."]),
    "a label of a hex": ([("hex W 0,0 white", "hex W 0,0 brown L=B 0-3")], [
        "No tile bears the label B of hex W.", "On this board yellow 9 (2 edges) can follow nothing.",
        "On this board green 20 (4 edges) can follow nothing.", "On this board brown 47 (4 edges) can follow nothing."]),
    "no tiles": ([(TILES, "# none\n")], ["There are no tiles: the board stays as it is printed."]),
}


class Lint(StoreTest):
    def lint(self, *words: str) -> subprocess.CompletedProcess[str]:
        """A run of lint in the folder of the test."""
        return subprocess.run([sys.executable, str(LINT), *words], cwd=self.folder, capture_output=True, text=True, check=False)

    def write_kit(self, changes: list[tuple[str, str]]) -> None:
        """Writes the kit of this test with some changes."""
        board, tiles = BOARD, TILES
        for old, new in changes:
            self.assertEqual((board + tiles).count(old), 1, old)
            board, tiles = board.replace(old, new), tiles.replace(old, new)
        (self.folder / "board.txt").write_text(board)
        (self.folder / "tiles.txt").write_text(tiles)
        for name in ("chart.txt", "roster.toml"):
            (self.folder / name).write_bytes((ROOT / "kit" / name).read_bytes())

    def test_faults_are_found(self) -> None:
        for fault, (changes, found) in FAULTS.items():
            with self.subTest(fault):
                self.write_kit(changes)
                self.assertEqual(findings(read_folder(self.folder, {})), found)

    def test_what_is_found_is_printed(self) -> None:
        for changes, found in list(FAULTS.values())[:3]:
            self.write_kit(changes)
            done = self.lint(".")
            self.assertEqual((done.stdout.splitlines(), done.stderr, done.returncode), (found or ["Nothing was found."], "", bool(found)))

    def test_the_program_takes_these_kits(self) -> None:
        for fault, (changes, _) in FAULTS.items():
            with self.subTest(fault):
                self.write_kit(changes)
                self.store(self.folder, f"{fault}.store")

    def test_the_small_kit(self) -> None:
        """B and F alone take tiles: B 23 or 27, and F 7 and, after it, green tiles with three edges of which one faces no hex."""
        done = self.lint(str(ROOT / "kit"))
        self.assertEqual(done.returncode, 1)
        self.assertIn("On this board nothing can follow yellow 7 (2 edges).", done.stdout.splitlines())
        self.assertIn("On this board green 24, 25, 26, 28, 29 (3 edges) can follow nothing.", done.stdout.splitlines())

    def test_another_text_in_place_of_the_kit_s(self) -> None:
        done = self.lint(str(ROOT / "kit"), "--board", str(LARGE_BOARD), "-o", "large.html")
        self.assertEqual(done.stdout.splitlines(), [
            "Track of D7 leads nowhere at edge 4.", "Track of E6 leads nowhere at edge 1.", "Track of E7 leads nowhere at edge 2.",
            "No tile bears the label B of hex D6.", "No tile can be laid on D6.", "On this board nothing can follow yellow 3, 4, 58 (2 edges)."])
        pictures = re.findall(r"<svg.*?</svg>", (self.folder / "large.html").read_text(), re.S)
        kinds = [ElementTree.fromstring(it).get("class") for it in pictures]
        self.assertEqual(kinds, ["board", *["tile"] * 32, "market"])

    def test_the_drawing_says_what_was_found(self) -> None:
        self.write_kit([("block SV W\n", "")])
        self.lint(".")
        html = (self.folder / "kit.html").read_text()
        self.assertIn("<li>No `block` line for SV: such a private blocks no hex.</li>", html)
        self.assertEqual(re.findall(r"<figcaption>(.*?)</figcaption>", html), ["edges", "9 × 1", "20 × 1", "47 × 1"])

    def test_a_wrong_text_has_a_plain_message(self) -> None:
        self.write_kit([("green 20 x1", "green 20")])
        done = self.lint(".")
        self.assertEqual((done.stdout, done.returncode), ("", 2))
        self.assertEqual(done.stderr, "lint: tiles, line 2: it isn't `<colour> <number> x<count> <tile>`\n")
        (self.folder / "tiles.txt").unlink()
        done = self.lint(".")
        self.assertEqual((done.stdout, done.returncode), ("", 2))
        self.assertIn("No such file", done.stderr)
        self.assertFalse((self.folder / "kit.html").exists())


class Upgrades(unittest.TestCase):
    def test_turns_of_upgrades(self) -> None:
        """Worked by hand: what lies there, what is to be laid, and the turns in which it may be."""
        rows = [(Colour.WHITE, "", "yellow 8 x1 0-2", [0, 1, 2, 3, 4, 5]), (Colour.YELLOW, "", "yellow 8 x1 0-2", []),
                (Colour.YELLOW, "3-0", "green 23 x1 0-3 0-4", [0, 3]), (Colour.YELLOW, "0-3 L=B", "green 23 x1 0-3 0-4", []),
                (Colour.GREEN, "c30/2:0,1", "brown 1 x1 c40/2:0,1,2", [0, 5]), (Colour.GREEN, "c30/2:0,1", "brown 1 x1 c40/1:0,1,2", []),
                (Colour.GREEN, "c30/1:0,1", "brown 1 x1 c40/1:0,1", []), (Colour.YELLOW, "t10:0,3", "green 1 x1 c20/1:0,1,3", []),
                (Colour.GREEN, "c40/1:0 c40/1:2 L=OO", "brown 67 x1 c50/1:0,3 c50/1:2,4 L=OO", [0]),
                (Colour.GREEN, "c40/1:0 c40/1:2 L=OO", "brown 68 x1 c50/1:0,3 c50/1:1,4 L=OO", []),
                (Colour.GREY, "", "yellow 8 x1 0-2", []), (Colour.BROWN, "", "brown 8 x1 0-2", [])]
        for colour, old, new, turns in rows:
            tile, = read_tiles(new.encode()).values()
            self.assertEqual(turns_on(face_of(old), colour, tile), turns, (old, new))

    def test_tiles_of_recorded_games(self) -> None:
        """A tile that the program laid may follow what lay there, and one that it answered 34 may not."""
        seen = {"ok": 0, "no 34": 0}
        for game in ("operating_rounds_of_four", "operating_rounds_on_six_hexes", "faults_of_a_lay", "tiles_given_back"):
            folder = ROOT / "games" / game
            kit = read_folder(ROOT / "kit", {text: folder / name for text, name in TEXTS.items() if (folder / name).exists()})
            lays: dict[str, list[Lay]] = {}
            for line, reply in recorded(game):
                answer = "ok" if reply.startswith("ok") else reply[:5]
                words = line.split(" ")
                if words[2:3] != ["lay"] or answer not in seen:
                    continue
                seen[answer] += 1
                on, tile, turn, layout = kit.board.hexes[words[4]], kit.tiles[int(words[5])], int(words[6]), Layout(kit, tuple(lays.get(words[1], ())))
                faces_hexes = all(kit.board.at(on.place.across(edge)) for edge in tile.face.turned(turn).edges)
                may_follow = faces_hexes and turn in turns_on(layout.face(on), layout.colour(on), tile)
                self.assertEqual(may_follow, answer == "ok", line)
                if may_follow:
                    lays.setdefault(words[1], []).append(Lay(on.name, tile.number, turn))
        self.assertEqual(seen, {"ok": 74, "no 34": 11})


if __name__ == "__main__":
    unittest.main()
