"""What the entries of a table's turns say, which the query `book` answers with."""
from collections import Counter, defaultdict
from collections.abc import Iterator, Sequence
from dataclasses import dataclass
from functools import cached_property

from club.client import Program
from club.drawing import MarketToken
from club.kit import TRAIN_LIMITS, Chart, Kit, Token
from club.layout import Lay, Layout

# The words of an entry, the first of which says what kind it is.
Entry = list[str]


@dataclass(frozen=True)
class Books:
    """The entries of a table by turns: those of the opening first, and those of the turn under way last."""
    turns: list[list[Entry]]

    def all_of(self, verb: str) -> Iterator[Entry]:
        """The entries of a kind without the word that says so, oldest first."""
        return (words for entries in self.turns for first, *words in entries if first == verb)

    @cached_property
    def places(self) -> dict[str, str]:
        """Where each certificate is, and each train."""
        return dict([*self.all_of("move"), *self.all_of("train")])

    def those_at(self, name: str, place: str) -> list[str]:
        """The shares of a corporation, or the trains of a kind, that are at a place."""
        return [it for it, at in self.places.items() if at == place and it.rpartition("-")[0] == name]

    def percent(self, corporation: str, place: str) -> int:
        """How much of a corporation is at a place."""
        return sum(20 if it.endswith("-P") else 10 for it in self.those_at(corporation, place))

    @cached_property
    def marks(self) -> list[MarketToken]:
        """Where tokens were put on the chart, oldest first."""
        return [MarketToken(it, int(row), int(column)) for it, row, column in self.all_of("mark")]

    @property
    def pars(self) -> dict[str, MarketToken]:
        """Where the token of each corporation was put first."""
        return {it.corporation: it for it in reversed(self.marks)}

    @property
    def tokens(self) -> dict[str, MarketToken]:
        """Where the token of each corporation is, in the order in which they came there."""
        last = {it.corporation: number for number, it in enumerate(self.marks)}
        return {self.marks[it].corporation: self.marks[it] for it in sorted(last.values())}

    def layout(self, kit: Kit) -> Layout:
        """The board as it lies."""
        lays = (Lay(name, int(tile), int(turn)) for name, tile, turn in self.all_of("lay"))
        return Layout(kit, tuple(lays), tuple(Token(it, name, int(centre)) for it, name, centre in self.all_of("station")))


def read_books(program: Program, table: str) -> Books:
    """The books of all turns of a table. Raises Refused if it has forgotten some."""
    last = int(program.ask(f"turns {table}")[0]) + 1
    return Books([entries_of(program.ask(f"book {table} {turn}")) for turn in range(last + 1)])


def entries_of(words: Sequence[str]) -> list[Entry]:
    """The entries in an answer."""
    return [it.split() for it in " ".join(words).split(";") if it]


def effects(entries: Sequence[Entry], chart: Chart) -> str:
    """What entries changed, in a few words for each player and corporation, the pool, the board, and what is gone from the game."""
    gains: dict[str, Counter[str]] = defaultdict(Counter)
    for entry in entries:
        match entry:
            case ["pay", giver, taker, dollars]:
                gains[giver]["$"] -= int(dollars)
                gains[taker]["$"] += int(dollars)
            case ["move" | "train", name, place]:
                gains[place][named(name)] += 1
            case ["mark", name, row, column]:
                gains[name][f"price ${MarketToken(name, int(row), int(column)).cell(chart).price}"] += 1
            case ["lay", name, tile, _]:
                gains["the board"][f"tile {tile} on {name}"] += 1
            case ["station", name, place, _]:
                gains[name][f"token on {place}"] += 1
            case ["best", name, *_]:
                gains[name]["a best run"] += 1
    parts = {owner: [counted(*it) for it in its.items() if it[1]] for owner, its in gains.items() if owner not in ("bank", "offer")}
    return "; ".join(f"{owner}: {', '.join(its)}" for owner, its in parts.items() if its)


def named(name: str) -> str:
    """A certificate or a train, as people call it."""
    owner, _, kind = name.rpartition("-")
    return f"train {owner}" if owner in TRAIN_LIMITS else f"{owner} {20 if kind == 'P' else 10}%" if owner else f"private {name}"


def counted(gain: str, count: int) -> str:
    """Something that came once or more often, or money that was gained or paid."""
    if gain == "$":
        return f"{'+' if count > 0 else '−'}${abs(count)}"
    return f"{count} × {gain}" if count > 1 else gain
