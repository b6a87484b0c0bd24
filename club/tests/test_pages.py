"""Pages and mails: their structure for the recorded games, what is marked on them, and how a browser shows one."""
from __future__ import annotations

import os
import re
import shutil
import subprocess
import sys
import unittest
import xml.etree.ElementTree as ElementTree
from html import unescape
from html.parser import HTMLParser
from pathlib import Path

sys.path.insert(0, str(Path(__file__).resolve().parent))
from desk import ROOT, SECONDS, StoreTest, recorded

from club.client import Program, take_lock
from club.kept import read_kept
from club.looking import view_before, view_of
from club.pages import html_of, text_of

VOID = ("meta", "input")
BROWSER = next(filter(None, map(shutil.which, ("chromium", "chromium-browser", "google-chrome"))), None)
# A table's page has these headings, after that of who is due.
HEADINGS = ["Board", "Market", "Players", "Corporations", "Privates", "Trains", "Tiles left", "Turns"]
# Of games with more tables than that, these are looked at.
MOST_TABLES = 2
LONG_GAME = "as_many_commands_as_a_table_keeps"
# The rows of two pages, worked out by hand from the lines.
# After `open a b c d` and `buy a`.
FIRST_GAME = """
Player | Cash | Worth | Certificates | Privates
a | $580 | $600 | 1 of 16 | SV
b | $600 | $600 | 0 of 16 |
c | $600 | $600 | 0 of 16 |
d | $600 | $600 | 0 of 16 |
Corporation | Treasury | Floated | Trains | Tokens left | Offering | Pool
PRR | $0 | 0% sold | 0 of 4 | 4 of 4 | 100% | 0%
NYC | $0 | 0% sold | 0 of 4 | 4 of 4 | 100% | 0%
CPR | $0 | 0% sold | 0 of 4 | 4 of 4 | 100% | 0%
B&O | $0 | 0% sold | 0 of 4 | 3 of 3 | 100% | 0%
C&O | $0 | 0% sold | 0 of 4 | 3 of 3 | 100% | 0%
ERIE | $0 | 0% sold | 0 of 4 | 3 of 3 | 100% | 0%
NYNH | $0 | 0% sold | 0 of 4 | 2 of 2 | 100% | 0%
B&M | $0 | 0% sold | 0 of 4 | 2 of 2 | 100% | 0%
Private | Face | Income | Held by
SV | $20 | $5 | a
C&SL | $40 | $10 | offering at $40
D&H | $70 | $15 | offering
M&H | $110 | $20 | offering
C&A | $160 | $25 | offering
B&O | $220 | $30 | offering
Train | Price | Left | Pool | On sale
2 | $80 | 6 of 6 | 0 | bank
3 | $180 | 5 of 5 | 0 |
4 | $300 | 4 of 4 | 0 |
5 | $450 | 3 of 3 | 0 |
6 | $630 | 2 of 2 | 0 |
D | $1100 | 6 of 6 | 0 |
Turn | Played | Changed
2 | |
1 | a: buy | a: private SV, −$20
0 | open a b c d | a: +$600; b: +$600; c: +$600; d: +$600
"""
# The money is reckoned in about.txt; PRR came down from 76 by `hold` and four sales to the 60 of row 7, NYC from 67 by three sales and
# `hold` to the 50 of row 8, both in yellow. b bought last in a stock round. Worth, a: 616 + 2 * 50 + 10 + 40; b: 4 + 2 * 60 + 20 + 50;
# c: 576 + 2 * 67 + 2 * 50 + 30 + 60.
EQUAL_HEIRS = """
Player | Cash | Worth | Certificates | Shares | Privates | President of | Priority
a | $616 | $766 | 2 of 20 | NYC 20% | SV, M&H | |
b | $4 | $194 | 2 of 20 | PRR 20% | C&SL, C&A | PRR |
c | $576 | $900 | 3 of 20 | NYC 20%, B&O 20% | D&H, B&O | NYC, B&O | yes
Corporation | Order | President | Treasury | Price | Cell | Par | Floated | Trains | Tokens left | Offering | Pool
B&O | 1 | c | $0 | $67 | 5,6 | $67 | 20% sold | 0 of 4 | 3 of 3 | 80% | 0%
PRR | 2 | b | $0 | $60 | 7,5 | $76 | yes | 1 of 4: 2 | 3 of 4 | 40% | 40%
NYC | 3 | c | $670 | $50 | 8,5 | $67 | yes | 0 of 4 | 3 of 4 | 30% | 30%
CPR | | | $0 | | | | 0% sold | 0 of 4 | 4 of 4 | 100% | 0%
C&O | | | $0 | | | | 0% sold | 0 of 4 | 3 of 3 | 100% | 0%
ERIE | | | $0 | | | | 0% sold | 0 of 4 | 3 of 3 | 100% | 0%
NYNH | | | $0 | | | | 0% sold | 0 of 4 | 2 of 2 | 100% | 0%
B&M | | | $0 | | | | 0% sold | 0 of 4 | 2 of 2 | 100% | 0%
Private | Face | Income | Held by
SV | $10 | $0 | a
C&SL | $20 | $0 | b
D&H | $30 | $0 | c
M&H | $40 | $0 | a
C&A | $50 | $0 | b
B&O | $60 | $0 | c
Train | Price | Left | Pool | On sale
2 | $1390 | 2 of 3 | 0 | bank
3 | $1500 | 3 of 3 | 0 |
4 | $1600 | 3 of 3 | 0 |
5 | $1700 | 2 of 2 | 0 |
6 | $1800 | 2 of 2 | 0 |
D | $1900 | 2 of 2 | 0 |
Turn | Played | Changed
28 | NYC: hold | NYC: price $50
"""
# What a browser makes of a page, written into its title: whether it's no wider than the window, and whether the numbers of the links
# are shown before and after the switch is touched.
LOOK = """<script>
const shown = () => getComputedStyle(document.querySelector(".links")).display;
const wide = document.documentElement.scrollWidth > innerWidth, before = shown();
document.getElementById("show_links").click();
document.title = [wide, before, shown(), getComputedStyle(document.body).backgroundColor].join(" ");
</script>"""


class Outline(HTMLParser):
    """The elements of a page with their words, without pictures. Each that is opened must be closed, in order."""

    def __init__(self, text: str) -> None:
        super().__init__()
        self.open: list[tuple[str, list[str]]] = []
        self.found: list[tuple[str, str]] = []
        self.feed(re.sub("(?s)<svg.*?</svg>", "", text))
        self.close()
        assert not self.open, self.open

    def handle_starttag(self, tag: str, attrs: list[tuple[str, str | None]]) -> None:
        assert not {name for name, _ in attrs} & {"src", "href", "onload"}, attrs
        if tag not in VOID:
            self.open.append((tag, []))

    def handle_endtag(self, tag: str) -> None:
        opened, words = self.open.pop()
        assert opened == tag, (opened, tag)
        self.found.append((tag, "".join(words)))

    def handle_startendtag(self, tag: str, attrs: list[tuple[str, str | None]]) -> None:
        self.found.append((tag, ""))

    def handle_data(self, data: str) -> None:
        for _, words in self.open:
            words.append(data)

    def all_of(self, tag: str) -> list[str]:
        return [words for name, words in self.found if name == tag]


def classes(svg: str) -> list[str]:
    """The classes of all elements of a picture. Raises ParseError if it isn't well formed."""
    return [name for it in ElementTree.fromstring(svg).iter() for name in it.get("class", "").split()]


def text_in(game: str, name: str) -> list[str]:
    """The lines of a text that a recorded game is played with, without comments."""
    own = ROOT / "games" / game / name
    lines = (own if own.exists() else ROOT / "kit" / name).read_text().splitlines()
    return [it for it in lines if it.strip() and not it.startswith("#")]


class PagesTest(StoreTest):
    def serve(self, game: str) -> tuple[Path, Program]:
        """A new store for a recorded game, and the program that serves it."""
        store = self.store(ROOT / "games" / game, f"{game}.store")
        program = Program(store, self.program)
        self.addCleanup(program.stop)
        return store, program

    def played(self, game: str) -> tuple[Path, Program]:
        """A store on which a recorded game was played."""
        store = self.store(ROOT / "games" / game, f"{game}.store")
        lines = "".join(f"{line}\n" for line, _ in recorded(game))
        subprocess.run([self.program, "serve", store], input=lines.encode(), stdout=subprocess.DEVNULL, check=True)
        program = Program(store, self.program)
        self.addCleanup(program.stop)
        return store, program

    def run_desk(self, name: str, *words: str | Path) -> subprocess.CompletedProcess:
        """Runs a command of the desk."""
        call = [str(ROOT / "club" / name), *map(str, words), "--program", self.program]
        return subprocess.run(call, capture_output=True, text=True, check=False)


class StructureTest(PagesTest):
    def test_pages_of_all_recorded_games(self) -> None:
        for game in sorted(it.name for it in (ROOT / "games").iterdir() if it.name != LONG_GAME):
            store, program = self.played(game)
            kept = read_kept(store.read_bytes())
            for table in program.ask("tables")[:MOST_TABLES]:
                with self.subTest(game=game, table=table):
                    self.look_at(game, table, program, html_of(view_of(program, kept, table), None))
            program.stop()

    def look_at(self, game: str, table: str, program: Program, page: str) -> None:
        """Holds the structure of a page to the texts of the kit and to a few answers."""
        outline, due = Outline(page), program.ask(f"due {table}")
        title = "The game is over" if due == ["over"] else f"{due[0]} is due: {due[1]}"
        self.assertEqual(outline.all_of("h1") + outline.all_of("h2"), [f"Table {table}", title, *HEADINGS])
        board, market, *tiles = [classes(it) for it in re.findall("(?s)<svg.*?</svg>", page)]
        self.assertEqual(board.count("hex"), sum(it.startswith("hex ") for it in text_in(game, "board.txt")))
        self.assertEqual(board.count("links"), board.count("hex"))
        self.assertEqual(market.count("cell"), sum(it != "." for line in text_in(game, "chart.txt") for it in line.split()))
        self.assertEqual(len(tiles), len(text_in(game, "tiles.txt")))
        self.assertEqual(len(outline.all_of("figcaption")), len(tiles))
        # A token on the chart has a box and a word.
        self.assertEqual(market.count("token"), 2 * len(program.ask(f"order {table}")))
        players = next(words for line, reply in recorded(game) for words in [line.split(" ")]
                       if words[1:3] == [table, "open"] and reply.startswith("ok"))[3:]
        turns = int(program.ask(f"turns {table}")[0])
        # A row of heads for each table; the turns, the opening and the turn under way.
        self.assertEqual(len(outline.all_of("tr")), 5 + len(players) + 8 + 6 + 6 + turns + 2)
        for player in players:
            self.assertIn(f"<td>{player}</td>", page)
        self.assertNotIn("<mark>", page)
        self.assertNotIn("http", page.replace("http://www.w3.org/2000/svg", ""))

    def test_rows_that_were_worked_out_by_hand(self) -> None:
        for game, table, wanted in (("first_game", "g1", FIRST_GAME), ("equal_heirs", "heirs", EQUAL_HEIRS)):
            store, program = self.played(game)
            page = html_of(view_of(program, read_kept(store.read_bytes()), table), None)
            rows, lines = page.split("<tr>")[1:], wanted.strip().splitlines()
            cells = [[unescape(it) for it in re.findall("<t[hd]>(.*?)</t[hd]>", row)] for row in rows]
            self.assertEqual([" | ".join(it).replace("  ", " ").replace("  ", " ").rstrip() for it in cells][:len(lines)], lines)

    def test_the_turns_of_a_game(self) -> None:
        """By the lines of `equal_heirs`, in which privates have no incomes; in turn 14 60% of NYC are sold, and in 26 PRR's turn begins."""
        store, program = self.played("equal_heirs")
        rows = view_of(program, read_kept(store.read_bytes()), "heirs").turns.rows
        self.assertEqual(len(rows), 29)
        wanted = {"0": ("open a b c", "a: +$800; b: +$800; c: +$800"), "1": ("a: buy", "a: private SV, −$10"),
                  "5": ("b: buy", "b: private C&A, −$50, PRR 10%"), "7": ("a: done", ""),
                  "6": ("c: buy, par B&O 67", "c: private B&O, −$60, B&O 20%; B&O: price $67"),
                  "8": ("b: par NYC 67, done", "NYC: price $67; b: NYC 20%, −$134"),
                  "14": ("b: buy NYC offer, done", "b: NYC 10%, −$67; NYC: +$670"), "26": ("b: done", "PRR: token on A")}
        self.assertEqual({it: tuple(rows[it].values()) for it in wanted}, wanted)
        self.assertEqual(rows["27"]["Played"], "PRR: hold; b: raise NYC 2, raise PRR 4, raise NYC 1; PRR: force, end")

    def test_choices(self) -> None:
        """By docs/REFERENCE.md: in the auction one buys the cheapest private, bids or passes; after `hold` one deals with trains."""
        wanted = {("first_game", "g1"): ["buy b", "bid b PRIVATE DOLLARS", "pass b"],
                  ("equal_heirs", "heirs"): ["train NYC KIND bank|pool", "train NYC KIND CORPORATION DOLLARS PLAYER PLAYER",
                                             "trade NYC KIND", "private NYC PRIVATE DOLLARS", "force NYC", "raise PLAYER CORPORATION SHARES",
                                             "bankrupt PLAYER", "end NYC"]}
        for (game, table), choices in wanted.items():
            store, program = self.played(game)
            view = view_of(program, read_kept(store.read_bytes()), table)
            self.assertEqual(Outline(html_of(view, None)).all_of("code"), choices)

    def test_a_corporation_with_too_many_trains_must_give_one_up(self) -> None:
        """In `tiles_given_back` PRR has two 4s and a 3 when the first 5 makes the limit two."""
        store, program = self.serve("tiles_given_back")
        lines = [line for line, reply in recorded("tiles_given_back") if reply.startswith("ok")]
        for line in lines[:lines.index("68 tiles drop PRR 4")]:
            program.line(line)
        self.assertEqual(view_of(program, read_kept(store.read_bytes()), "tiles").choices, ["drop PRR KIND"])


class BankTest(PagesTest):
    def test_a_bank_that_the_roster_names(self) -> None:
        """By the recorded replies: four players get 600 each, and at last the bank owes 5."""
        store, program = self.played("bank_of_2400")
        kept = read_kept(store.read_bytes())
        for stamp, has, owes in ((1, 0, 0), (2, 20, 0), (6, 15, 0), (18, 0, 0)):
            view = view_before(program, kept, "g1", stamp)
            said = f"The bank has ${has}, and owes ${owes}."
            self.assertIn(said, html_of(view, None))
            self.assertIn(said, text_of(view, None))
        program.stop()
        said = "21 turns have ended. It's phase 2. The bank has −$5, and owes $5."
        self.assertIn(said, self.run_desk("mail", "--file", store).stdout)


class MarksTest(PagesTest):
    def test_what_a_turn_changed_is_marked(self) -> None:
        """Turn 27 of `tiles_given_back` begins with the stamp 46: PRR lays 14 on B, buys the SV from a for 10, and holds a revenue of 0.

        By about.txt PRR had 530, and a had 1110 - 134 - 3 * 67 = 775. PRR's third `hold` moves its token from the 58 of row 5 to the
        yellow 50, where CPR's comes before it, and no share of it counts. a is worth 785 + 6 * 50 + 30 + 50.
        """
        store, program = self.serve("tiles_given_back")
        lines = [line for line, reply in recorded("tiles_given_back") if reply.startswith("ok")]
        for line in lines[:lines.index("50 tiles hold CPR")]:
            program.line(line)
        kept = read_kept(store.read_bytes())
        views = view_of(program, kept, "tiles"), view_before(program, kept, "tiles", 46)
        page, cells = html_of(*views), ["$785", "$1165", "2 of 28", "D&H, C&A", "2", "3", "$520", "$50", "5,3", "SV", "PRR"]
        turn = ["28", "PRR: lay B 14 1, private SV 10, hold, end", "the board: tile 14 on B; PRR: private SV, −$10, price $50; a: +$10"]
        marks = [unescape(it) for it in re.findall("<mark>(.*?)</mark>", page)]
        self.assertEqual(marks, ["Changes since the stamp 46 are marked.", *cells, "57: 1 of 1", "14: 0 of 1", *turn])
        board, market = [classes(it) for it in re.findall("(?s)<svg.*?</svg>", page)][:2]
        self.assertEqual((board.count("changed"), market.count("changed")), (1, 1))
        self.assertIn('<g class="hex green changed"><title>B green</title>', page)
        mail = text_of(*views)
        # The line of hex B ends with PRR's token.
        self.assertEqual(re.findall(r"(\S+)\*", mail), [it.split(" ")[-1] for it in [*cells, "PRR on city 1", "57: 1 of 1", "14: 0 of 1"]])
        self.assertIn("Turns\n  27  PRR: lay B 14 1, private SV 10, hold, end  [the board: tile 14 on B; PRR:", mail)


class CommandsTest(PagesTest):
    def test_pages_of_all_tables_or_of_some(self) -> None:
        store, program = self.played("two_tables")
        program.stop()
        before, out = store.read_bytes(), self.folder / "out/pages"
        self.assertEqual(self.run_desk("page", "--file", store, "-o", out).returncode, 0)
        tables = sorted({line.split(" ")[1] for line, reply in recorded("two_tables") if reply.startswith("ok")})
        self.assertEqual([it.name for it in sorted(out.iterdir())], [f"{it}.html" for it in tables])
        ran = self.run_desk("mail", tables[1], "--file", store, "--since", "1")
        self.assertTrue(ran.stdout.startswith(f"Table {tables[1]}. Stamp "), ran.stderr)
        self.assertIn("A star marks what changed since the stamp 1.\n", ran.stdout)
        self.assertEqual(ran.stdout.count("Table "), 1)
        self.assertEqual(store.read_bytes(), before)

    def test_what_cannot_be_shown(self) -> None:
        store = self.store()
        (self.folder / "text").write_text("no store")
        for file, tables, said in ((store, ["g9"], "has no table g9"), (self.folder / "nothing", [], "No such file"),
                                   (self.folder / "text", [], "no 64 not a store")):
            ran = self.run_desk("page", *tables, "--file", file)
            self.assertEqual((ran.returncode, ran.stdout), (2, ""))
            self.assertIn(said, ran.stderr)
        lock = take_lock(store)
        self.assertIn("is in use", self.run_desk("mail", "--file", store).stderr)
        os.close(lock)


@unittest.skipUnless(BROWSER, "no Chromium is installed")
class BrowserTest(PagesTest):
    def test_a_page_in_the_dark(self) -> None:
        store, program = self.played("equal_heirs")
        page = self.folder / "page.html"
        page.write_text(html_of(view_of(program, read_kept(store.read_bytes()), "heirs"), None).replace("</body>", f"{LOOK}</body>"))
        words = [BROWSER, "--headless", "--no-sandbox", "--disable-gpu", f"--user-data-dir={self.folder}/profile", "--window-size=500,900",
                 "--blink-settings=preferredColorScheme=0", "--dump-dom", page.as_uri()]
        shown = subprocess.run(words, capture_output=True, text=True, check=True, timeout=4 * SECONDS).stdout
        self.assertEqual(re.findall("<title>(.*?)</title>", shown)[:1], ["false none inline rgb(23, 24, 26)"])


if __name__ == "__main__":
    unittest.main()
