"""What is shown of a table at one moment: its figures, its board and market, what can be done, and what was played."""
from __future__ import annotations

from collections.abc import Sequence
from dataclasses import dataclass, replace
from functools import cache, cached_property
from itertools import groupby

from club.books import Books, effects
from club.client import Program
from club.drawing import MarketToken
from club.kit import CORPORATIONS, PRIVATES, TRAIN_LIMITS, Kit, Mark
from club.layout import Layout
from club.refusals import choices


@dataclass(frozen=True)
class Sheet:
    """Some figures: rows by their names, each with its cells by the heads of their columns."""
    title: str
    rows: dict[str, dict[str, str]]

    @cached_property
    def heads(self) -> list[str]:
        """The heads of the columns in which something stands, after that of the names."""
        return [head for head in next(iter(self.rows.values())) if any(row[head] for row in self.rows.values())]

    def compared(self, before: Sheet) -> list[list[tuple[str, bool]]]:
        """The cells of each row, and whether each is another one than in an earlier sheet."""
        cells = {name: [(row[it], row[it] != before.rows.get(name, {}).get(it)) for it in self.heads] for name, row in self.rows.items()}
        return [[(name, name not in before.rows), *its] for name, its in cells.items()]


@dataclass(frozen=True)
class View:
    """What is shown of a table. `turns` has what was played in each turn, and what that changed."""
    table: str
    stamp: int
    summary: str
    title: str
    choices: list[str]
    phase: str
    layout: Layout
    tiles_left: dict[int, str]
    tokens: list[MarketToken]
    sheets: list[Sheet]
    turns: Sheet


class Observer:
    """What is known of a table: its commands and its books by turns, and what a program answers."""

    def __init__(self, program: Program, table: str, kit: Kit, turns: list[list[str]], books: Books) -> None:
        self.table, self.kit, self.turns, self.books = table, kit, turns, books
        # The answer to a query about the table, which is asked once.
        self.ask = cache(lambda query, *words: program.ask(" ".join((query, table, *words))))
        self.players, self.phase = turns[0][0].split(" ")[1:], self.ask("phase")[0]
        self.private_owners = {it: owner for owner in [*self.players, *CORPORATIONS] for it in self.ask("privates", owner)}

    def dollars(self, query: str, *words: str) -> str:
        """The money that a query answers with, if there is any."""
        return "".join(f"${it}" for it in self.ask(query, *words)[:1]).replace("$-", "−$")

    def view(self) -> View:
        """What is shown."""
        due = self.ask("due")
        # While a corporation has too many trains, nothing else can be done.
        drops = [f"drop {it} KIND" for it in self.ask("order") if len(self.ask("trains", it)) > TRAIN_LIMITS[self.phase]]
        ordered = dict.fromkeys([*self.ask("order"), *CORPORATIONS])
        rows = {"Players": (self.player, self.players), "Corporations": (self.corporation, ordered), "Privates": (self.private, PRIVATES),
                "Trains": (self.train, TRAIN_LIMITS)}
        sheets = [Sheet(title, {it: row_of(it) for it in names}) for title, (row_of, names) in rows.items()]
        bank, owed = self.dollars("cash", "bank"), self.dollars("iou")
        summary = f"{self.ask('turns')[0]} turns have ended. It's phase {self.phase}. The bank has {bank}, and owes {owed}."
        log = {str(number): {"Played": played(commands), "Changed": effects(entries, self.kit.chart)}
               for number, (commands, entries) in enumerate(zip(self.turns, self.books.turns))}
        blocks = [it for it in self.kit.board.blocks if it[0] in self.bids or self.private_owners.get(it[0]) in self.players]
        layout = self.books.layout(replace(self.kit, board=replace(self.kit.board, blocks=blocks)))
        tiles = {number: f"{left} of {self.kit.tiles[number].count}" for number, left in layout.tiles_left().items()}
        return View(self.table, int(self.ask("stamp")[0]), summary, " is due: ".join(due) if due[1:] else "The game is over",
                    drops or choices(due), self.phase, layout, tiles, list(self.books.tokens.values()), sheets, Sheet("Turns", log))

    def player(self, name: str) -> dict[str, str]:
        """What a player has."""
        shares = [f"{it} {held[0]}%" for it in CORPORATIONS if (held := self.ask("holds", name, it)) != ["0"]]
        privates = self.ask("privates", name)
        # Shares in yellow, orange and brown don't count against the limit.
        coloured = [it.corporation for it in self.books.tokens.values() if it.cell(self.kit.chart).mark not in (Mark.WHITE, Mark.PAR)]
        count = len(privates) + sum(len(self.books.those_at(it, name)) for it in CORPORATIONS if it not in coloured)
        return {"Cash": self.dollars("cash", name), "Worth": self.dollars("worth", name),
                "Certificates": f"{count} of {self.ask('limit')[0]}", "Shares": ", ".join(shares), "Privates": ", ".join(privates),
                "President of": ", ".join(it for it in CORPORATIONS if self.books.places[f"{it}-P"] == name),
                "Priority": "yes" if name == self.priority else ""}

    @cached_property
    def priority(self) -> str | None:
        """Who would begin a stock round: the player left of the last one that got a private, or traded in a stock round."""
        if self.ask("due")[-1] in ("auction", "raise", "par", "over"):
            return None
        commands = [it.split(" ") for its in self.turns for it in its]
        # Who got the last private has set the par of the B&O.
        last = [actor for verb, actor, *words in commands if verb in ("par", "sell") or (verb == "buy" and words)][-1]
        return self.players[(self.players.index(last) + 1) % len(self.players)]

    def corporation(self, name: str) -> dict[str, str]:
        """What a corporation has, its place in the operating order, and where its shares are that nobody holds."""
        order, par, trains = self.ask("order"), self.books.pars.get(name), self.ask("trains", name)
        offered, tokens = self.books.percent(name, "offer"), self.kit.roster.tokens[name]
        president, left = self.books.places[f"{name}-P"], tokens - sum(it == name for it, *_ in self.books.all_of("station"))
        return {"Order": str(order.index(name) + 1) if name in order else "", "President": "" if president == "offer" else president,
                "Treasury": self.dollars("cash", name), "Price": self.dollars("price", name), "Cell": ",".join(self.ask("price", name)[1:]),
                "Par": f"${par.cell(self.kit.chart).price}" if par else "",
                "Floated": "yes" if par and offered <= 40 else f"{100 - offered}% sold",
                "Trains": ": ".join(filter(None, (f"{len(trains)} of {TRAIN_LIMITS[self.phase]}", ", ".join(trains)))),
                "Tokens left": f"{left} of {tokens}", "Privates": ", ".join(self.ask("privates", name)),
                "Offering": f"{offered}%", "Pool": f"{self.books.percent(name, 'pool')}%"}

    def private(self, name: str) -> dict[str, str]:
        """Who holds a private, and what is bid on it."""
        asked, roster = self.ask("asked"), self.kit.roster
        price = f"offering at ${asked[1]}" if name in asked else "offering"
        return {"Face": f"${roster.faces[name]}", "Income": f"${roster.incomes[name]}",
                "Held by": price if name in self.bids else self.private_owners.get(name, "closed"),
                "Bids": ", ".join(f"{player} ${bid}" for player, bid in self.bids.get(name, {}).items())}

    @cached_property
    def bids(self) -> dict[str, dict[str, int]]:
        """The bids on each private that isn't sold. A pass takes back that on the cheapest, for which the player then raised."""
        bids: dict[str, dict[str, int]] = {it: {} for it in PRIVATES}
        for commands, entries in zip(self.turns, self.books.turns):
            for verb, actor, *words in (it.split(" ") for it in commands):
                if verb == "bid":
                    bids[words[0]][actor] = int(words[1])
                elif verb == "pass":
                    next(iter(bids.values()), {}).pop(actor, None)
            for sold in [words[1] for words in entries if words[0] == "move" and words[1] in bids and words[2] != "offer"]:
                del bids[sold]
        return bids

    def train(self, kind: str) -> dict[str, str]:
        """How many trains of a kind bank and pool have. The bank sells the smallest kind that it has, and after a 6 also a D."""
        left = {it: len(self.books.those_at(it, "offer")) for it in TRAIN_LIMITS}
        pool, roster, smallest = self.ask("trains", "pool").count(kind), self.kit.roster, next((it for it in left if left[it]), None)
        is_sold = kind == smallest or (kind == "D" and self.phase in ("6", "D") and left["D"])
        return {"Price": f"${roster.prices[kind]}", "Left": f"{left[kind]} of {roster.counts[kind]}", "Pool": str(pool),
                "On sale": " and ".join(["bank"] * bool(is_sold) + ["pool"] * bool(pool))}


def played(commands: Sequence[str]) -> str:
    """The commands of a turn, without proof trees, by whom they name first."""
    if commands and commands[0].startswith("open "):
        return commands[0]
    words = [it.partition(" best ")[0].split(" ") for it in commands]
    groups = [(actor, [" ".join([verb, *rest]) for verb, _, *rest in its]) for actor, its in groupby(words, lambda it: it[1])]
    return "; ".join(f"{actor}: {', '.join(its)}" for actor, its in groups)
