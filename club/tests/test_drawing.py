"""The pictures: well formed, with all that lies on a board, and nothing upon anything else. Structure, not pixels."""
from __future__ import annotations

import re
import sys
import unittest
import xml.etree.ElementTree as ElementTree
from itertools import combinations
from pathlib import Path

sys.path.insert(0, str(Path(__file__).resolve().parent))
from desk import LARGE_BOARD, ROOT

from club.drawing import INKS, MarketToken, board_svg, edges_svg, market_svg, page, tile_svg
from club.geometry import APOTHEM, SIZE, between, edge_point, middle_of, radius_of, stops_on
from club.kit import CORPORATIONS, Kit, Place, Token, face_of, read_folder, read_tiles
from club.layout import Lay, Layout, links_of

SVG = "{http://www.w3.org/2000/svg}"
# Faces on which there is little room: as on the tiles of 1830 with two towns or two cities, and worse.
CROWDED = ("t10:1,3 t10:0,4", "t10:0,3 t10:1,2", "t10:0,3 t10:1,4", "t10:0,2 t10:1,3", "t10:0,3 t10:2,4", "c60/1:0,1 c60/1:2,3 L=NY",
           "c40/1:0 c40/1:2 L=OO", "c80/2:0,1 c80/2:2,3 L=NY", "c50/1:0,2 c50/1:3,4 L=OO", "c50/1:0,4 c50/1:2,3", "c50/1:0,3 c50/1:1,2",
           "c50/1:0,3 c50/1:2,4", "c50/1:0,3 c50/1:1,4", "c0/1: c0/1: L=OO", "t0: t0:", "c40/1:3 c40/1:0", "t10:2,5 0-1 3-4",
           "0-3 2-4 t50:1 c60/1:5", "c40/1:0,1 c40/1:2,3 c40/1:4,5", "t10:0,1 t10:2,3 t10:4,5")


def large_kit() -> Kit:
    """The kit with the board of 40 hexes."""
    return read_folder(ROOT / "kit", {"board": LARGE_BOARD})


def played() -> Layout:
    """A board on which something lies."""
    lays = (Lay("B4", 57, 0), Lay("C4", 63, 0), Lay("B4", 14, 1), Lay("B3", 9, 2), Lay("B3", 23, 2))
    return Layout(large_kit(), lays, (Token("NYC", "B4", 1), Token("B&O", "E3", 1), Token("NYC", "C4", 1)))


def parsed(svg: str) -> ElementTree.Element:
    """A picture as a tree. Raises ParseError if it isn't well formed."""
    return ElementTree.fromstring(svg)


def words(tree: ElementTree.Element, kind: str) -> list[str]:
    """The words of a kind in a picture."""
    return [it.text for it in tree.iter(f"{SVG}text") if it.get("class") == kind]


def of_class(tree: ElementTree.Element, kind: str) -> list[ElementTree.Element]:
    """The elements of a class, among others perhaps."""
    return [it for it in tree.iter() if kind in it.get("class", "").split()]


def group_of(tree: ElementTree.Element, name: str) -> ElementTree.Element:
    """The group of a hex."""
    return next(it for it in of_class(tree, "hex") if name in words(it, "name"))


class Geometry(unittest.TestCase):
    def test_edges_go_round_clockwise_from_the_lower_right(self) -> None:
        signs = [(round(edge_point(edge).real / APOTHEM, 3), round(edge_point(edge).imag / APOTHEM, 3)) for edge in range(6)]
        self.assertEqual(signs, [(0.5, 0.866), (-0.5, 0.866), (-1.0, 0.0), (-0.5, -0.866), (0.5, -0.866), (1.0, -0.0)])

    def test_an_edge_is_drawn_once(self) -> None:
        """The middle of an edge is that of the edge across it, on the hex there."""
        for edge in range(6):
            there = middle_of(Place(3, 4).across(edge)) + edge_point((edge + 3) % 6)
            self.assertAlmostEqual(abs(middle_of(Place(3, 4)) + edge_point(edge) - there), 0)

    def test_tracks_are_arcs(self) -> None:
        """They stay as far from the middle of their circles as these are wide: half a side about a corner, or one and a half."""
        corner, across = SIZE * 1j, 2 * APOTHEM * edge_point(1) / APOTHEM
        for curve, middle, radius in ((between(0, 1), corner, SIZE / 2), (between(0, 2), across, SIZE * 1.5)):
            for point in curve.samples:
                self.assertAlmostEqual(abs(point - middle), radius, delta=0.6)
        self.assertAlmostEqual(abs(between(0, 3).at(0.5)), 0)

    def test_centres_stand_apart(self) -> None:
        for text in CROWDED:
            face = face_of(text)
            stops = stops_on(face)
            for (one, first), (other, second) in combinations(zip(stops, face.centres), 2):
                self.assertGreater(abs(one - other), 0.9 * min(radius_of(first), radius_of(second)) * 2, text)
            self.assertTrue(all(abs(stop) < APOTHEM for stop in stops), text)


class Tiles(unittest.TestCase):
    def test_every_tile_in_every_turn(self) -> None:
        for tile in read_folder(ROOT / "kit", {}).tiles.values():
            for turn in range(6):
                tree = parsed(tile_svg(tile, turn))
                tracks = sum(len(it.edges) if it in tile.face.centres else 1 for it in tile.face.parts)
                self.assertEqual(len(of_class(tree, "track")), tracks)
                self.assertEqual(words(tree, "number"), [f"#{tile.number}"])

    def test_a_track_begins_and_ends_at_its_turned_edges(self) -> None:
        tile = read_tiles(b"yellow 8 x1 0-2\n")[8]
        path = of_class(parsed(tile_svg(tile, 3)), "track")[0].get("d")
        ends = re.findall(r"-?[0-9.]+ -?[0-9.]+", path)
        self.assertEqual((ends[0], ends[-1]), ("-26.0 -45.0", "52.0 -0.0"))  # edges 3 and 5

    def test_words_on_crowded_tiles(self) -> None:
        """No word lies on another, or on a centre."""
        for number, text in enumerate(CROWDED, 1):
            face = face_of(text)
            tile = read_tiles(f"brown {number} x1 {text}\n".encode())[number]
            found = [it for it in parsed(tile_svg(tile)).iter(f"{SVG}text") if it.get("class") in ("value", "label", "number")]
            places = [(complex(float(it.get("x")), float(it.get("y")) - 3.6), 3.2 * len(it.text)) for it in found]
            for (one, half), (other, other_half) in combinations(places, 2):
                apart = abs((one - other).imag) >= 10 or abs((one - other).real) >= half + other_half
                self.assertTrue(apart, f"{text}: {[it.text for it in found]}")
            for (place, half), stop in ((place, stop) for place in places for stop in stops_on(face)):
                self.assertGreater(abs(place - stop), 14, text)

    def test_values_that_are_one(self) -> None:
        tiles = read_tiles(b"green 54 x1 c60/1:0,1 c60/1:2,3\ngreen 1 x1 c60/1:0,1 t10:2,3\ngreen 2 x1 c0/1:0\n")
        self.assertEqual([sorted(words(parsed(tile_svg(it)), "value")) for it in tiles.values()], [["60"], ["10", "60"], []])

    def test_the_numbers_of_edges(self) -> None:
        self.assertEqual(words(parsed(edges_svg()), "name"), list("012345"))


class Boards(unittest.TestCase):
    def setUp(self) -> None:
        self.layout = played()
        self.tree = parsed(board_svg(self.layout, "2"))

    def test_each_hex_stands_once(self) -> None:
        self.assertEqual(sorted(words(self.tree, "name")), sorted(self.layout.kit.board.hexes))
        box = [float(it) for it in self.tree.get("viewBox").split()]
        for group in self.tree:
            x, y = map(float, re.findall(r"-?[0-9.]+", group.get("transform")))
            self.assertTrue(box[0] <= x - APOTHEM and x + APOTHEM <= box[0] + box[2], group.get("transform"))
            self.assertTrue(box[1] <= y - SIZE and y + SIZE <= box[1] + box[3], group.get("transform"))

    def test_hexes_have_the_colour_of_what_lies_there(self) -> None:
        colours = {name: group_of(self.tree, name).get("class") for name in ("A0", "A1", "B0", "B3", "B4", "C4", "D4")}
        self.assertEqual(colours, {"A0": "hex red", "A1": "hex white", "B0": "hex grey", "B3": "hex green", "B4": "hex green",
                                   "C4": "hex brown", "D4": "hex yellow"})

    def test_tokens_and_kept_slots(self) -> None:
        shown = {name: (words(group_of(self.tree, name), "token"), words(group_of(self.tree, name), "kept")) for name in ("B4", "C4", "E3", "B0", "E2")}
        self.assertEqual(shown, {"B4": (["NYC"], []), "C4": (["NYC"], ["ERIE"]), "E3": (["B&O"], []), "B0": ([], ["CPR"]), "E2": ([], [])})
        self.assertEqual(len(of_class(group_of(self.tree, "C4"), "slot")), 2)

    def test_costs_blocks_and_numbers_of_tiles(self) -> None:
        self.assertEqual(sorted(words(self.tree, "cost")), ["$120", "$40", "$40", "$60", "$80"])
        self.assertEqual(words(group_of(self.tree, "B1"), "block"), ["⊘SV"])
        self.assertEqual(words(group_of(self.tree, "B3"), "number"), ["#23"])
        bare = Layout(self.layout.kit, (Lay("B5", 9, 0), Lay("B1", 9, 0)))
        self.assertEqual(sorted(words(parsed(board_svg(bare)), "cost")), ["$120", "$40", "$60", "$80"])
        self.assertEqual(words(group_of(parsed(board_svg(bare)), "B1"), "block"), [])

    def test_the_value_of_the_phase(self) -> None:
        for phase, faded in ((None, []), ("4", ["60"]), ("5", ["30"]), ("D", ["30"])):
            groups = of_class(group_of(parsed(board_svg(self.layout, phase)), "A0"), "faded")
            self.assertEqual([words(it, "value")[0] for it in groups], faded, phase)

    def test_the_numbers_of_links(self) -> None:
        """Each stands on its hex, and over all hexes."""
        hexes = self.layout.kit.board.hexes.values()
        shown = {}
        for group in self.tree:
            x, y = map(float, re.findall(r"-?[0-9.]+", group.get("transform")))
            for number in (it for it in group.iter(f"{SVG}text") if it.get("class") == "link"):
                at = complex(x + float(number.get("x")), y + float(number.get("y")) - 3.6)
                shown[int(number.text)] = min(hexes, key=lambda on: abs(middle_of(on.place) - at)).name
        self.assertEqual(shown, {it.number: it.hex for it in links_of(self.layout)})
        kinds = ["links" if of_class(it, "links") else "hex" for it in self.tree]
        self.assertEqual(kinds, ["hex"] * 40 + ["links"] * 40)

    def test_what_changed_is_marked_and_on_top(self) -> None:
        tree = parsed(board_svg(self.layout, "2", ["B3"]))
        self.assertEqual([words(it, "name") for it in of_class(tree, "changed")], [["B3"]])
        self.assertEqual(words(list(tree)[39], "name"), ["B3"])


class Markets(unittest.TestCase):
    def setUp(self) -> None:
        self.chart = read_folder(ROOT / "kit", {}).chart

    def test_cells_and_zones(self) -> None:
        tree = parsed(market_svg(self.chart))
        self.assertEqual(len(of_class(tree, "cell")), 19 + 19 + 16 + 13 + 11 + 10 + 9 + 8 + 6 + 5 + 4)
        self.assertEqual([it.get("class") for it in of_class(tree, "cell")][-6:], ["cell par"] * 6)  # on top, as they have wide outlines
        self.assertEqual(len(of_class(tree, "par")), 6)
        self.assertEqual([len(of_class(tree, it)) for it in ("yellow", "orange", "brown")], [19, 11, 15])

    def test_the_first_token_of_a_cell_is_on_top(self) -> None:
        tokens = [MarketToken("PRR", 2, 6), MarketToken("B&O", 3, 6), MarketToken("NYC", 2, 6), MarketToken("CPR", 2, 6)]
        tree = parsed(market_svg(self.chart, tokens, ["NYC"]))
        cell = next(it for it in of_class(tree, "cell") if "CPR" in words(it, "token"))
        self.assertEqual(words(cell, "token"), ["CPR", "NYC", "PRR"])  # what is drawn last lies on top
        tops = [float(it.get("y")) for it in of_class(cell, "token") if it.tag == f"{SVG}rect"]
        self.assertEqual(tops, sorted(tops, reverse=True))
        self.assertEqual(len(of_class(cell, "changed")), 1)

    def test_eight_tokens_have_room(self) -> None:
        tree = parsed(market_svg(self.chart, [MarketToken(it, 0, 6) for it in CORPORATIONS]))
        rects = [it for it in of_class(tree, "token") if it.tag == f"{SVG}rect"]
        self.assertEqual(len({(it.get("x"), it.get("y")) for it in rects}), 8)
        self.assertTrue(all(float(it.get("y")) + 11 <= 54 and float(it.get("x")) + float(it.get("width")) <= 52 for it in rects))


class Pages(unittest.TestCase):
    def test_a_page_needs_no_other_file(self) -> None:
        html = page("Evening <1>", board_svg(played()))
        self.assertIn("<h1>Evening &lt;1&gt;</h1>", html)
        self.assertEqual(set(re.findall(r"https?://[^\"' ]*", html)), {"http://www.w3.org/2000/svg"})
        for form in ('name="viewport"', "prefers-color-scheme: dark", "@media print"):
            self.assertIn(form, html)
        self.assertNotRegex(html, r"<(script|link|img)\b|@import|url\(")

    def test_each_corporation_has_a_colour(self) -> None:
        self.assertEqual(set(INKS), set(CORPORATIONS))
        self.assertEqual(len({paint for paint, _ in INKS.values()}), 8)


if __name__ == "__main__":
    unittest.main()
