"""The numbers of links: those of the documents, and those of the runs in recorded games, whose revenues the program told."""
from __future__ import annotations

import re
import sys
import unittest
from collections.abc import Iterator, Sequence
from dataclasses import dataclass, replace
from itertools import groupby
from pathlib import Path

sys.path.insert(0, str(Path(__file__).resolve().parent))
from desk import ROOT, StoreTest, recorded

from club.client import Program
from club.kit import LATE_TRAINS, TEXTS, Kit, Place, read_board, read_folder
from club.layout import Hexside, Lay, Layout, Link, Node, Stop, Token, hexes_of, hexside, links_of, routes_through

# Recorded games without `back`, whose runs are many or have faults, and how many runs each has that were taken.
GAMES = {"operating_rounds_on_six_hexes": 165, "operating_rounds_of_four": 106, "tiles_given_back": 4, "runs_and_certificates": 7}
SHEET = re.compile(r"[2-6D]=(-|[1-9][0-9]*(-[1-9][0-9]*)*)")
RUN = re.compile(r"[0-9]+ (?P<table>\S+) run \S+(?P<sheet>( \S+=\S+)*)( best .*)?")


def kit_of(game: str) -> Kit:
    """The kit of a recorded game."""
    folder = ROOT / "games" / game
    return read_folder(ROOT / "kit", {text: folder / name for text, name in TEXTS.items() if (folder / name).exists()})


def nodes_of(links: Sequence[Link], route: Sequence[int]) -> list[Node] | None:
    """The nodes of a walk over links from a centre to a centre, if they are one: each hexside leads into another hex."""
    if not all(number <= len(links) for number in route):
        return None
    nodes, last_hex = [links[route[0] - 1].ends[1]], ""
    for link in (links[number - 1] for number in route):
        if nodes[-1] not in link.ends or (isinstance(nodes[-1], Hexside) and link.hex == last_hex):
            return None
        nodes.append(link.far_end(nodes[-1]))
        last_hex = link.hex
    return nodes if isinstance(nodes[0], Stop) and isinstance(nodes[-1], Stop) else None


def revenue_of(layout: Layout, nodes: Sequence[Node], phase: str) -> int:
    """What a route earns, whose nodes are these."""
    centres = [layout.face(layout.kit.board.hexes[it.hex]).centres[it.centre - 1] for it in nodes if isinstance(it, Stop)]
    return sum(it.later_value if it.later_value is not None and phase in LATE_TRAINS else it.value for it in centres)


@dataclass(frozen=True)
class Run:
    """A line `run` of a recorded game: what lay on the board, the phase, the routes by links, and the reply."""

    layout: Layout
    phase: str
    routes: list[list[int]]
    reply: str


class Documents(unittest.TestCase):
    def setUp(self) -> None:
        self.kit = read_folder(ROOT / "kit", {})

    def test_links_of_the_small_board(self) -> None:
        """1 in A; 2 in B; 3 and 4 in C; 5 and 6 in D; 7 in E; the tile on B has two tracks, and moves those after it."""
        self.assertEqual([it.hex for it in links_of(Layout(self.kit))], list("ABCCDDE"))
        links = links_of(Layout(self.kit, (Lay("B", 23, 2),)))
        self.assertEqual([it.hex for it in links], list("ABBCCDDE"))
        self.assertEqual([it.number for it in links], [1, 2, 3, 4, 5, 6, 7, 8])

    def test_ends_of_links(self) -> None:
        links = links_of(Layout(self.kit, (Lay("B", 23, 2),)))
        between_a_and_b, between_b_and_c = hexside(Place(0, 0), 5), hexside(Place(2, 0), 2)
        self.assertEqual(links[0].ends, (between_a_and_b, Stop("A", 1)))
        self.assertEqual(set(links[1].ends), {between_a_and_b, between_b_and_c})
        self.assertEqual(set(links[2].ends), {between_a_and_b, Hexside(Place(1, 0), 0)})
        self.assertEqual(links[4].ends, (hexside(Place(2, 0), 5), Stop("C", 1)))

    def test_routes_by_names(self) -> None:
        """The route from A to C is 1-2-3 at first, and 1-2-4 once B has a tile of two tracks."""
        links = links_of(Layout(self.kit))
        for names in (["A", "B", "C"], ["C", "B", "A"], ["A", "C"]):
            self.assertEqual(routes_through(links, names), [(1, 2, 3)])
        self.assertEqual(routes_through(links_of(Layout(self.kit, (Lay("B", 23, 2),))), ["A", "C"]), [(1, 2, 4)])
        self.assertEqual(routes_through(links, ["A", "C", "D", "E"]), [(1, 2, 3, 4, 5, 6, 7)])
        self.assertEqual(hexes_of(links, (1, 2, 3, 4, 5)), ["A", "B", "C", "D"])

    def test_what_is_no_route(self) -> None:
        links = links_of(Layout(self.kit))
        for names in (["A"], ["A", "D"], ["A", "B"], ["A", "F"], ["A", "X"], ["B", "C"]):
            self.assertEqual(routes_through(links, names), [], names)

    def test_the_shorter_of_two_ways(self) -> None:
        """From A to D the way over B is shorter than that over C and E, which is found if C or E is named."""
        links = links_of(Layout(self.kit_of(b"hex A 0,0 grey c20/1:5,0\nhex B 1,0 grey 2-5\nhex C 0,1 grey 3-5\nhex E 1,1 grey 2-4\n"
                                            b"hex D 2,0 grey c20/1:2,1\n")))
        for names, routes in (("AD", [(1, 3, 6)]), ("ABD", [(1, 3, 6)]), ("ACD", [(2, 4, 5, 7)]), ("DECA", [(2, 4, 5, 7)]), ("ADA", []), ("ABCD", [])):
            self.assertEqual(routes_through(links, names), routes, names)

    def test_a_hexside_leads_into_another_hex(self) -> None:
        links = links_of(Layout(self.kit_of(b"hex A 0,0 grey c20/1:5\nhex B 1,0 grey 2-0 0-5\nhex C 2,0 grey c20/1:2\n")))
        self.assertEqual(routes_through(links, "ABC"), [])

    def kit_of(self, board: bytes) -> Kit:
        """The kit with another board."""
        return replace(self.kit, board=read_board(board))

    def test_the_last_tile_counts(self) -> None:
        layout = Layout(self.kit, (Lay("F", 7, 3), Lay("B", 23, 2), Lay("F", 28, 3)), (Token("PRR", "A", 1), Token("NYC", "D", 1)))
        self.assertEqual([it.number for it in links_of(layout) if it.hex == "F"], [9, 10])
        self.assertEqual((layout.tiles_left()[7], layout.tiles_left()[28], layout.tiles_left()[23]), (4, 0, 2))
        self.assertEqual(layout.slots("A", 1), ["PRR"])
        self.assertEqual(Layout(self.kit).slots("D", 1), ["NYC"])


class RecordedRuns(StoreTest):
    def runs(self, game: str) -> Iterator[Run]:
        """The runs of a recorded game. It is played on the program, which is asked for the phase."""
        program, kit = Program(self.store(ROOT / "games" / game, f"{game}.store")), kit_of(game)
        self.addCleanup(program.close)
        lays: dict[str, list[Lay]] = {}
        for line, reply in recorded(game):
            words = line.split(" ")
            found = RUN.fullmatch(line) if reply.startswith(("ok", "no 39")) else None
            if found and all(SHEET.fullmatch(it) for it in found["sheet"].split()):
                routes = [[int(it) for it in word[2:].split("-")] for word in found["sheet"].split() if word[2:] != "-"]
                phase = program.ask(f"phase {found['table']}")[0]
                yield Run(Layout(kit, tuple(lays.get(found["table"], ()))), phase, routes, reply)
            if words[2:3] == ["lay"] and reply.startswith("ok"):
                lays.setdefault(words[1], []).append(Lay(words[4], int(words[5]), int(words[6])))
            self.assertEqual(str(program.line(line)), reply)

    def test_revenues_of_runs(self) -> None:
        for game, count in GAMES.items():
            taken = [run for run in self.runs(game) if run.reply.startswith("ok")]
            self.assertEqual(len(taken), count, game)
            for run in taken:
                walks = [nodes_of(links_of(run.layout), route) for route in run.routes]
                self.assertNotIn(None, walks, run.routes)
                self.assertEqual(sum(revenue_of(run.layout, it, run.phase) for it in walks), int(run.reply.split(" ")[3]), run.routes)

    def test_routes_are_found_by_names(self) -> None:
        for run in self.runs("operating_rounds_of_four"):
            links = links_of(run.layout)
            for route in run.routes if run.reply.startswith("ok") else []:
                found = routes_through(links, hexes_of(links, route))
                self.assertIn(tuple(route), found)
                self.assertEqual({tuple(hexes_of(links, it)) for it in found} - {tuple(reversed(hexes_of(links, route)))},
                                 {tuple(hexes_of(links, route))})
                stops = [name for name, _ in groupby(it.hex for it in nodes_of(links, route) or () if isinstance(it, Stop))]
                self.assertTrue(routes_through(links, stops))

    def test_refused_routes(self) -> None:
        """Where the program finds no walk between two centres, or numbers in the wrong order (rule 2), there is none here either;
        where it refuses a sheet for a later rule, there is a walk."""
        seen = {"2": 0, "later": 0}
        for game in GAMES:
            for run in (run for run in self.runs(game) if run.reply.startswith("no 39")):
                walks = [route[0] < route[-1] and nodes_of(links_of(run.layout), route) for route in run.routes]
                if run.reply[-1] == "2":
                    seen["2"] += 1
                    self.assertFalse(all(walks), run.routes)
                elif run.reply[-1] in "34567":
                    seen["later"] += 1
                    self.assertTrue(all(walks), run.routes)
        self.assertEqual(seen, {"2": 9, "later": 12})


if __name__ == "__main__":
    unittest.main()
