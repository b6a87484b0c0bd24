"""What is shown of tables: held to the program's answers at each turn of three games, and to what the lines of three others mean."""
from __future__ import annotations

import sys
import unittest
import xml.etree.ElementTree as ElementTree
from collections.abc import Iterator, Sequence
from dataclasses import replace
from pathlib import Path

sys.path.insert(0, str(Path(__file__).resolve().parent))
from desk import ROOT, StoreTest, recorded

from club.books import Books, entries_of
from club.client import Program
from club.kept import Kept, read_kept, turns_of
from club.kit import CORPORATIONS, PRIVATES
from club.looking import view_before, view_of
from club.pages import sheet_html
from club.views import Observer, View

# With sales, changes of presidents, forced purchases, every kind of train, a bankruptcy and turns that are taken back.
GAMES = (("operating_rounds_of_three_tables", "h1"), ("a_bankruptcy", "w1"), ("trains_of_every_kind", "kinds"))
# What holds at the end of some turns, worked out by hand from the lines of three games and the rules in docs/REFERENCE.md: presidents;
# how much is in the offering, if not all; what is in the pool; the tokens left of corporations that have placed some; and how many
# are left of the tiles that lie on the board. In each the last private sets the B&O's par, and the C&A brings 10% of PRR.
BY_HAND = {
    # Turns 1 to 7 sell the privates, with a pass of a; b gets the C&A in turn 6 and c the B&O in turn 7. d begins, so a pars PRR in turn
    # 9, and buys shares of it in turns 13, 17 and 26; b, c and d each buy one in 18, 19 and 20. In turn 24 all have passed, and PRR's
    # turn begins with its token at home. b sells its two in turn 32, c one in 33, a two in 35; d buys one of them in 38, and swaps the
    # M&H for 10% of NYC, of which nothing else is sold.
    ("shares_and_the_pool", "p1"): {
        6: ("", "PRR 90", "", "", ""),
        7: ("B&O c", "PRR 90, B&O 80", "", "", ""),
        9: ("PRR a, B&O c", "PRR 70, B&O 80", "", "", ""),
        18: ("PRR a, B&O c", "PRR 40, B&O 80", "", "", ""),
        20: ("PRR a, B&O c", "PRR 20, B&O 80", "", "", ""),
        24: ("PRR a, B&O c", "PRR 20, B&O 80", "", "PRR 3", ""),
        26: ("PRR a, B&O c", "PRR 10, B&O 80", "", "PRR 3", ""),
        32: ("PRR a, B&O c", "PRR 10, B&O 80", "PRR 20", "PRR 3", ""),
        35: ("PRR a, B&O c", "PRR 10, B&O 80", "PRR 50", "PRR 3", ""),
        38: ("PRR a, B&O c", "PRR 10, NYC 90, B&O 80", "PRR 40", "PRR 3", "")},
    # b gets the C&A in turn 5, pars NYC in 8 and PRR in 11. NYC's shares go to a, c, a, b and c in turns 10 and 12 to 15, and PRR's to b
    # in 17, 20 and 23. In turn 26 all have passed; PRR's token is put at home, as its price is the higher one. In turn 27 b sells two
    # of its three shares of NYC: a and c have 20% each, c sits next on b's left, and gives b one 10% more for the president's, so b
    # has 10%, which it sells at last. Between them it sells four of PRR's six. Then NYC's turn begins, with its token at home.
    ("equal_heirs", "heirs"): {
        5: ("", "PRR 90", "", "", ""),
        6: ("B&O c", "PRR 90, B&O 80", "", "", ""),
        8: ("NYC b, B&O c", "PRR 90, NYC 80, B&O 80", "", "", ""),
        11: ("PRR b, NYC b, B&O c", "PRR 70, NYC 70, B&O 80", "", "", ""),
        13: ("PRR b, NYC b, B&O c", "PRR 70, NYC 50, B&O 80", "", "", ""),
        15: ("PRR b, NYC b, B&O c", "PRR 70, NYC 30, B&O 80", "", "", ""),
        20: ("PRR b, NYC b, B&O c", "PRR 50, NYC 30, B&O 80", "", "", ""),
        23: ("PRR b, NYC b, B&O c", "PRR 40, NYC 30, B&O 80", "", "", ""),
        26: ("PRR b, NYC b, B&O c", "PRR 40, NYC 30, B&O 80", "", "PRR 3", ""),
        27: ("PRR b, NYC c, B&O c", "PRR 40, NYC 30, B&O 80", "PRR 40, NYC 30", "PRR 3, NYC 3", "")},
    # a gets the C&A in turn 5 and pars PRR in 7; b gets the B&O in turn 6 and pars CPR in 8. a buys PRR in turns 9, 11 and 13, b CPR in
    # 10, 12, 14 and 16. In turn 18 both have passed. PRR lays 57 on B and places a token there in turn 19; 14 takes its place in 27;
    # 57 goes to G with a token in 29; 9 goes to C in 33; 63 takes the place of 14 in 35; the other 9 goes to K in 39. CPR has no home.
    ("tiles_given_back", "tiles"): {
        7: ("PRR a, B&O b", "PRR 70, B&O 80", "", "", ""),
        8: ("PRR a, CPR b, B&O b", "PRR 70, CPR 80, B&O 80", "", "", ""),
        13: ("PRR a, CPR b, B&O b", "PRR 40, CPR 60, B&O 80", "", "", ""),
        18: ("PRR a, CPR b, B&O b", "PRR 40, CPR 40, B&O 80", "", "PRR 3", ""),
        19: ("PRR a, CPR b, B&O b", "PRR 40, CPR 40, B&O 80", "", "PRR 2", "57: 0 of 1"),
        27: ("PRR a, CPR b, B&O b", "PRR 40, CPR 40, B&O 80", "", "PRR 2", "14: 0 of 1"),
        29: ("PRR a, CPR b, B&O b", "PRR 40, CPR 40, B&O 80", "", "PRR 1", "57: 0 of 1, 14: 0 of 1"),
        33: ("PRR a, CPR b, B&O b", "PRR 40, CPR 40, B&O 80", "", "PRR 1", "57: 0 of 1, 9: 1 of 2, 14: 0 of 1"),
        35: ("PRR a, CPR b, B&O b", "PRR 40, CPR 40, B&O 80", "", "PRR 1", "57: 0 of 1, 9: 1 of 2, 63: 0 of 1"),
        39: ("PRR a, CPR b, B&O b", "PRR 40, CPR 40, B&O 80", "", "PRR 1", "57: 0 of 1, 9: 0 of 2, 63: 0 of 1")}}
TRAINS = ("2", "3", "4", "5", "6", "D")
# Rows by their names, each with its cells by the heads of their columns.
Rows = dict[str, dict[str, str]]


def rows_on_page(view: View) -> dict[str, Rows]:
    """The figures that stand on a page, by the titles of their tables."""
    tree = ElementTree.fromstring(f"<body>{''.join(sheet_html(it, it) for it in view.sheets)}</body>")
    found: dict[str, Rows] = {}
    for title, table in zip(tree.iter("h2"), tree.iter("table")):
        (_, *heads), *rows = [["".join(cell.itertext()) for cell in row] for row in table]
        found[title.text] = {name: dict(zip(heads, cells)) for name, *cells in rows}
    return found


class Follower:
    """A table that is looked at after each turn. The books of turns that ended are asked once, unless the table is taken back."""

    def __init__(self, program: Program, store: Path, table: str) -> None:
        self.program, self.store, self.table = program, store, table
        self.ended: list[list[list[str]]] = []
        self.answers: dict[str, list[str]] = {}

    def ask(self, *words: str) -> list[str]:
        """The answer to a query about the table, which is asked once a turn."""
        query = " ".join((words[0], self.table, *words[1:]))
        self.answers[query] = self.answers.get(query) or self.program.ask(query)
        return self.answers[query]

    def number(self, query: str, *words: str) -> int:
        return int(self.ask(query, *words)[0])

    def look(self) -> tuple[View, Kept, Books]:
        turns, kept = self.number("turns"), read_kept(self.store.read_bytes())
        del self.ended[turns:]
        books = [entries_of(self.ask("book", str(it))) for it in range(len(self.ended), turns + 2)]
        self.ended += books[:-2]
        all_of = Books([*self.ended, *books[-2:]])
        return Observer(self.program, self.table, kept.kit, turns_of(kept.tables[self.table]), all_of).view(), kept, all_of


class ViewsTest(StoreTest):
    def serve(self, game: str = "") -> tuple[Path, Program]:
        """A new store for a recorded game, and the program that serves it."""
        store = self.store(ROOT / "games" / game if game else None, f"{game or 'club'}.store")
        program = Program(store, self.program)
        self.addCleanup(program.stop)
        return store, program

    def turns_of_game(self, game: str, table: str) -> Iterator[Follower]:
        """The table of a recorded game after each turn."""
        store, program = self.serve(game)
        follower, turns = Follower(program, store, table), None
        for line, reply in recorded(game):
            program.line(line)
            follower.answers.clear()
            if reply.startswith(f"ok {table} ") and turns != (turns := follower.number("turns")):
                yield follower


class FiguresTest(ViewsTest):
    def test_each_figure_that_a_query_answers_is_its_answer(self) -> None:
        for game, table in GAMES:
            seen, step = 0, ""
            for follower in self.turns_of_game(game, table):
                view, kept, books = follower.look()
                rows, players, due = rows_on_page(view), kept.tables[table][0].split(" ")[1:], follower.ask("due")
                self.compare_players(follower, rows["Players"], players)
                self.compare_corporations(follower, rows["Corporations"])
                self.compare_shares(follower, rows, players)
                self.compare_privates_and_trains(follower, rows, players)
                self.compare_table(follower, view)
                laid = kept.layout(table, due[0])
                self.assertEqual((view.layout.lays, view.layout.tokens), (laid.lays, laid.tokens))
                if due[-1] == "stock" and step not in ("", "stock"):  # a stock round begins
                    self.assertEqual([it for it in players if rows["Players"][it].get("Priority")], due[:1])
                seen, step = seen + 1, due[-1]
            self.assertGreater(seen, 30, game)

    def compare_players(self, table: Follower, rows: Rows, players: Sequence[str]) -> None:
        self.assertEqual(list(rows), players)
        for name, row in rows.items():
            self.assertEqual(row["Cash"], f"${table.number('cash', name)}")
            self.assertEqual(row["Worth"], f"${table.number('worth', name)}")
            self.assertEqual(row["Certificates"].split(" of ")[1], table.ask("limit")[0])
            held = {it: table.number("holds", name, it) for it in CORPORATIONS}
            self.assertEqual(row.get("Shares", ""), ", ".join(f"{it} {percent}%" for it, percent in held.items() if percent))
            self.assertEqual(row.get("Privates", ""), ", ".join(table.ask("privates", name)))

    def compare_corporations(self, table: Follower, rows: Rows) -> None:
        order = table.ask("order")
        self.assertEqual(list(rows)[:len(order)], order)
        self.assertEqual(set(rows), set(CORPORATIONS))
        for name, row in rows.items():
            self.assertEqual(row["Treasury"], f"${table.number('cash', name)}")
            price = table.ask("price", name)
            self.assertEqual((row.get("Price", ""), row.get("Cell", "")), (f"${price[0]}", ",".join(price[1:])) if price else ("", ""))
            self.assertEqual(row.get("Order", ""), str(order.index(name) + 1) if price else "")
            self.assertEqual(row["Trains"].partition(": ")[2], ", ".join(table.ask("trains", name)))
            self.assertEqual(int(row["Trains"].split(" ")[0]), len(table.ask("trains", name)))
            self.assertEqual(row.get("Privates", ""), ", ".join(table.ask("privates", name)))

    def compare_shares(self, table: Follower, rows: dict[str, Rows], players: Sequence[str]) -> None:
        """What is where adds up with what players hold, and nobody holds more than a president."""
        for name, row in rows["Corporations"].items():
            held = {it: table.number("holds", it, name) for it in players}
            self.assertEqual(sum(held.values()) + int(row["Offering"][:-1]) + int(row["Pool"][:-1]), 100)
            if president := row.get("President"):
                self.assertIn(name, rows["Players"][president]["President of"].split(", "))
                self.assertEqual(held[president], max(held.values()))
                self.assertGreaterEqual(held[president], 20)
            self.assertEqual(bool(president), bool(table.ask("price", name)) or (name == "B&O" and table.ask("due")[-1] == "par"))
            if name == table.ask("due")[0]:
                self.assertEqual(row["Floated"], "yes")

    def compare_privates_and_trains(self, table: Follower, rows: dict[str, Rows], players: Sequence[str]) -> None:
        held = {it: owner for owner in [*players, *CORPORATIONS] for it in table.ask("privates", owner)}
        asked = table.ask("asked")
        for name, row in rows["Privates"].items():
            self.assertEqual(row["Held by"] if name in held else "", held.get(name, ""))
            self.assertEqual(row["Held by"] == f"offering at ${(asked or ['', ''])[1]}", name in asked)
        self.assertEqual(list(rows["Privates"]), list(PRIVATES))
        pool, owned = table.ask("trains", "pool"), [it for name in CORPORATIONS for it in table.ask("trains", name)]
        for kind, row in rows["Trains"].items():
            left, count = map(int, row["Left"].split(" of "))
            self.assertEqual(int(row["Pool"]), pool.count(kind))
            self.assertLessEqual(pool.count(kind) + owned.count(kind), count - left)
            self.assertEqual("pool" in row.get("On sale", ""), kind in pool)
        sold = [it for it, row in rows["Trains"].items() if row["Left"].split(" of ")[0] != row["Left"].split(" of ")[1]]
        self.assertEqual((sold or ["2"])[-1], table.ask("phase")[0])
        self.assertEqual(list(rows["Trains"]), list(TRAINS))

    def compare_table(self, table: Follower, view: View) -> None:
        bank, owed, phase = table.ask("cash", "bank")[0], table.ask("iou")[0], table.ask("phase")[0]
        turns = f"{table.number('turns')} turns have ended."
        self.assertEqual(view.summary, f"{turns} It's phase {phase}. The bank has ${bank}, and owes ${owed}.")
        title = "The game is over" if table.ask("due") == ["over"] else "{} is due: {}".format(*table.ask("due"))
        self.assertEqual((view.stamp, view.title, view.phase), (table.number("stamp"), title, phase))
        for token in view.tokens:
            self.assertEqual(table.ask("price", token.corporation)[1:], [str(token.row), str(token.column)])
        # In one cell the token that came first operates first, and is on top.
        cells = {name: tuple(table.ask("price", name)[1:]) for name in table.ask("order")}
        for cell in set(cells.values()):
            stack = [it.corporation for it in view.tokens if (str(it.row), str(it.column)) == cell]
            self.assertEqual(stack, [name for name in cells if cells[name] == cell])


class ByHandTest(ViewsTest):
    def test_presidents_offering_pool_tokens_and_tiles(self) -> None:
        for (game, table), turns in BY_HAND.items():
            seen = {}
            for follower in self.turns_of_game(game, table):
                if (turn := follower.number("turns")) in turns:
                    view, *_ = follower.look()
                    seen[turn] = self.summed_up(rows_on_page(view)["Corporations"], view)
            self.assertEqual(seen, turns, game)

    def summed_up(self, rows: Rows, view: View) -> tuple[str, ...]:
        """What a page shows, as it stands in BY_HAND."""
        tokens = {name: rows[name]["Tokens left"].split(" of ") for name in CORPORATIONS}
        columns = ([(it, rows[it].get("President")) for it in CORPORATIONS],
                   [(it, rows[it]["Offering"][:-1]) for it in CORPORATIONS if rows[it]["Offering"] != "100%"],
                   [(it, rows[it]["Pool"][:-1]) for it in CORPORATIONS if rows[it]["Pool"] != "0%"],
                   [(it, left) for it, (left, most) in tokens.items() if left != most],
                   [(f"{number}:", left) for number, left in view.tiles_left.items() if len(set(left.split(" of "))) > 1])
        return tuple(", ".join(f"{name} {it}" for name, it in column if it) for column in columns)

    def test_where_tiles_and_tokens_lie(self) -> None:
        """By the lines of PRR's turns 19, 29, 33, 35 and 39, as above; its first token is at home."""
        *_, follower = self.turns_of_game("tiles_given_back", "tiles")
        layout = follower.look()[0].layout
        lays = {(it.hex, it.tile, it.turn) for it in map(layout.last_lay, layout.kit.board.hexes) if it}
        self.assertEqual(lays, {("B", 63, 0), ("G", 57, 0), ("C", 9, 2), ("K", 9, 0)})
        self.assertEqual([(it.corporation, it.hex, it.centre) for it in layout.tokens], [("PRR", it, 1) for it in "ABG"])

    def test_trains_that_the_bank_sells(self) -> None:
        """By the lines of `trains_of_every_kind` up to these stamps; there are three of each of 2, 3 and 4, and two of the others.

        54: B&O has bought the 2s and a 3. 62: PRR two 3s and a 4. 67: NYC two 4s. 79: CPR and B&O a 5 each. 86: CPR the first 6, so that a
        D is sold beside the other. 89: B&O has traded for a D. 92: PRR has bought the other D. 95: NYC the other 6.
        """
        wanted = {54: "3", 62: "4", 67: "5", 79: "6", 86: "6 D", 89: "6 D", 92: "6", 95: ""}
        for follower in self.turns_of_game("trains_of_every_kind", "kinds"):
            if (stamp := follower.number("stamp")) in wanted:
                rows = rows_on_page(follower.look()[0])["Trains"]
                self.assertEqual(" ".join(it for it in rows if "bank" in rows[it].get("On sale", "")), wanted.pop(stamp))
        self.assertEqual(wanted, {})

    def test_priority(self) -> None:
        """By the lines of `shares_and_the_pool`, as above: after a purchase or a sale it's left of who traded, after a `done` as before.

        In turn 20 d bought, in 26 a; in 32, 33 and 35 b, c and a sold; in 38 d bought.
        """
        wanted = {20: "a", 26: "b", 30: "b", 32: "c", 33: "d", 34: "d", 35: "b", 37: "b", 38: "a", 42: "a"}
        for follower in self.turns_of_game("shares_and_the_pool", "p1"):
            if (turn := follower.number("turns")) in wanted:
                rows = rows_on_page(follower.look()[0])["Players"]
                self.assertEqual([it for it in rows if rows[it].get("Priority")], [wanted.pop(turn)])
        self.assertEqual(wanted, {})

    def test_hexes_that_are_blocked(self) -> None:
        """By about.txt of the same game: SV blocks C until PRR holds it in turn 27, D&H blocks K until the first 5 closes it in turn 34."""
        blocks = {}
        for follower in self.turns_of_game("tiles_given_back", "tiles"):
            blocks[follower.number("turns")] = follower.look()[0].layout.kit.board.blocks
        both = [("D&H", "K"), ("SV", "C")]
        self.assertEqual([blocks[it] for it in (18, 26, 27, 33, 34, 39)], [both, both, both[:1], both[:1], [], []])

    def test_certificates_that_count(self) -> None:
        """By the lines of `equal_heirs`, as above: of three players each may have 20.

        In turn 26 a has two privates and 2 shares of NYC; b two, 2 of NYC with the president's, and 5 of PRR; c two, the B&O's president's
        and 2 of NYC. In turn 27 NYC's three sales move it from 67 down to the yellow 60, and PRR's `hold` and four sales from 76 to 71
        and down to the yellow 60: their shares don't count.
        """
        wanted = {26: ["4 of 20", "9 of 20", "5 of 20"], 27: ["2 of 20", "2 of 20", "3 of 20"]}
        for follower in self.turns_of_game("equal_heirs", "heirs"):
            if (turn := follower.number("turns")) in wanted:
                players = rows_on_page(follower.look()[0])["Players"]
                self.assertEqual([it["Certificates"] for it in players.values()], wanted[turn])

    def test_bids(self) -> None:
        """Three raise for the D&H once d has bought the C&SL, and two for the C&A once b has bought the M&H. Other passes take nothing."""
        played = (("open a b c d", "", ""), ("buy a", "", ""), ("bid b D&H 75", "b $75", ""), ("bid c D&H 80", "b $75, c $80", ""),
                  ("bid d C&A 165", "b $75, c $80", "d $165"), ("bid a D&H 90", "b $75, c $80, a $90", "d $165"),
                  ("pass b", "b $75, c $80, a $90", "d $165"), ("bid c C&A 170", "b $75, c $80, a $90", "d $165, c $170"),
                  ("buy d", "b $75, c $80, a $90", "d $165, c $170"), ("pass b", "c $80, a $90", "d $165, c $170"),
                  ("bid c D&H 95", "c $95, a $90", "d $165, c $170"), ("pass a", "", "d $165, c $170"), ("pass a", "", "d $165, c $170"),
                  ("buy b", "", "d $165, c $170"), ("bid d C&A 180", "", "d $180, c $170"), ("pass c", "", ""))
        store, program = self.serve()
        for stamp, (line, on_third, on_fifth) in enumerate(played):
            self.assertIsNone(program.line(f"{stamp} g1 {line}").number, line)
            rows = rows_on_page(view_of(program, read_kept(store.read_bytes()), "g1"))["Privates"]
            self.assertEqual([row.get("Bids", "") for row in rows.values()], ["", "", on_third, "", on_fifth, ""], line)


class ChangesTest(ViewsTest):
    def test_a_table_that_forgot_turns_is_shown_as_before(self) -> None:
        store, program = self.serve("shares_and_the_pool")
        for line, _ in recorded("shares_and_the_pool"):
            program.line(line)
        before = view_of(program, read_kept(store.read_bytes()), "p1")
        stamp = program.stamp("p1")
        self.assertIsNone(program.line(f"{stamp} p1 forget 30").number)
        after = view_of(program, read_kept(store.read_bytes()), "p1")
        self.assertEqual(after, replace(before, stamp=stamp + 1))

    def test_a_table_as_it_was(self) -> None:
        """Of the eight commands five are kept. At each stamp since `back` the table is shown as it was; before it, as it was opened."""
        store, program = self.serve()
        lines, views = ["open a b", "buy a", "bid b C&A 165", "pass a", "back 1", "buy b", "pass a", "bid b C&A 170"], []
        for stamp, line in enumerate(lines):
            self.assertIsNone(program.line(f"{stamp} g1 {line}").number, line)
            views.append(view_of(program, read_kept(store.read_bytes()), "g1"))
        for stamp in range(9):
            shown = views[stamp - 1 if stamp > 4 else 0]
            self.assertEqual(view_before(program, read_kept(store.read_bytes()), "g1", stamp), replace(shown, stamp=stamp))


if __name__ == "__main__":
    unittest.main()
