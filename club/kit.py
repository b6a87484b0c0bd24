"""A kit: the chart, the roster, the tiles and the board, read from their four texts as docs/FORMATS.md describes them.

This is a client's reading: `moderate format` is the judge of a kit, and knows rules of which nothing is said here.
"""
from __future__ import annotations

import re
import tomllib
from collections.abc import Callable, Mapping
from dataclasses import dataclass, field, replace
from enum import Enum
from itertools import count
from pathlib import Path
from typing import NamedTuple

EDGE_COUNT = 6
# For each edge the one of the hex across that is one hexside with it.
FACING = (3, 4, 5, 0, 1, 2)
PRIVATES = ("SV", "C&SL", "D&H", "M&H", "C&A", "B&O")
CORPORATIONS = ("PRR", "NYC", "CPR", "B&O", "C&O", "ERIE", "NYNH", "B&M")
# From the first train of these kinds on an off-board area has its later value.
LATE_TRAINS = ("5", "6", "D")
# How many trains a corporation may have, by the phase.
TRAIN_LIMITS = {"2": 4, "3": 4, "4": 3, "5": 2, "6": 2, "D": 2}
# Each text, with the name of its file; a file may also have the name of its text alone.
TEXTS = {"chart": "chart.txt", "roster": "roster.toml", "tiles": "tiles.txt", "board": "board.txt"}

# The arrays of the roster, and their columns.
COLUMNS = (("private", "face"), ("private", "income"), ("corporation", "tokens"), ("train", "price"), ("train", "count"))
NUMBER = re.compile(r"0|-?[1-9][0-9]{0,9}")
CELL = re.compile(r"([1-9][0-9]{0,2})([yobp]?)")
TRACK = re.compile(r"([0-5])-([0-5])")
LABEL = re.compile(r"L=([A-Z]{1,2})")
VALUE = r"(0|[1-9][0-9]?0)"
CENTRE = re.compile(rf"(?:t{VALUE}|c{VALUE}/([1-4])|o{VALUE}/{VALUE}):((?:[0-5](?:,[0-5])*)?)")


class KitError(Exception):
    """A text of a kit is wrong. `text` names it, and `line` is counted from 1; 0 stands for the whole text."""

    def __init__(self, text: str, line: int, why: str) -> None:
        super().__init__(f"{text}, line {line}: {why}" if line else f"{text}: {why}")
        self.text, self.line = text, line


class Colour(Enum):
    """The colour of a hex or of a tile."""
    WHITE = "white"
    YELLOW = "yellow"
    GREEN = "green"
    BROWN = "brown"
    GREY = "grey"
    RED = "red"

    @property
    def following(self) -> Colour | None:
        """The colour of the tiles that may be laid on this one: none on brown, grey and red."""
        return {Colour.WHITE: Colour.YELLOW, Colour.YELLOW: Colour.GREEN, Colour.GREEN: Colour.BROWN}.get(self)


class Mark(Enum):
    """What a cell of the chart is, by its letter: one of a zone, or a par cell, which is white."""
    WHITE = ""
    YELLOW = "y"
    ORANGE = "o"
    BROWN = "b"
    PAR = "p"


class CentreKind(Enum):
    """The kind of a centre."""
    TOWN = "town"
    CITY = "city"
    OFF_BOARD = "off-board area"


class Place(NamedTuple):
    """The axial place of a hex."""
    q: int
    r: int

    def across(self, edge: int) -> Place:
        """The place that an edge faces."""
        q, r = ((0, 1), (-1, 1), (-1, 0), (0, -1), (1, -1), (1, 0))[edge]
        return Place(self.q + q, self.r + r)


@dataclass(frozen=True)
class Track:
    """A track between two edges."""
    edges: tuple[int, ...]


@dataclass(frozen=True)
class Centre:
    """A town, a city with its slots, or an off-board area with its value from the first 5 on; and the edges to which it has track."""
    kind: CentreKind
    value: int
    edges: tuple[int, ...]
    slots: int | None = None
    later_value: int | None = None


Part = Track | Centre
# The edges of a link, and the number of its centre.
FaceLink = tuple[tuple[int, ...], int | None]


@dataclass(frozen=True)
class Face:
    """What is printed on a hex or on a tile: tracks and centres in the order of the text, and a label."""
    parts: tuple[Part, ...] = ()
    label: str | None = None

    @property
    def centres(self) -> tuple[Centre, ...]:
        """The centres, of which the first has the number 1."""
        return tuple(part for part in self.parts if isinstance(part, Centre))

    @property
    def edges(self) -> frozenset[int]:
        """The edges that any part uses."""
        return frozenset(edge for part in self.parts for edge in part.edges)

    @property
    def links(self) -> list[FaceLink]:
        """The links in their order: each edge of a centre with the centre's number, and the two edges of each track."""
        numbers, links = count(1), []
        for part in self.parts:
            number = next(numbers) if isinstance(part, Centre) else None
            links += [((edge,), number) for edge in part.edges] if number else [(tuple(sorted(part.edges)), None)]
        return links

    def turned(self, turn: int) -> Face:
        """The face after a turn by so many sixths, clockwise."""
        return Face(tuple(replace(it, edges=tuple((edge + turn) % EDGE_COUNT for edge in it.edges)) for it in self.parts), self.label)


@dataclass(frozen=True)
class Tile:
    """A tile of the manifest, and how many of it there are."""
    colour: Colour
    number: int
    count: int
    face: Face


@dataclass(frozen=True)
class Hex:
    """A hex of the board, with what is printed on it. The first tile there costs `cost` dollars."""
    name: str
    place: Place
    colour: Colour
    cost: int
    face: Face


@dataclass(frozen=True)
class Token:
    """A corporation's token on a centre of a hex, counted from 1. Its home is where its first one is put."""
    corporation: str
    hex: str
    centre: int


@dataclass
class Board:
    """The hexes by name, in the order of the text, the homes, and pairs of a private and a hex that it blocks."""
    hexes: dict[str, Hex] = field(default_factory=dict)
    homes: list[Token] = field(default_factory=list)
    blocks: list[tuple[str, str]] = field(default_factory=list)

    def at(self, place: Place) -> Hex | None:
        """The hex at a place."""
        return next((it for it in self.hexes.values() if it.place == place), None)

    def add_hex(self, line: str) -> None:
        """Adds the hex that a line spells."""
        form = r"hex ([A-Z0-9]{1,4}) ([^ ,]+),([^ ,]+) (white|yellow|green|brown|grey|red)(?: cost=(\S*))?(?: (.*))?"
        name, q, r, colour, cost, face = matched(form, line, "hex <name> <q>,<r> <colour> [cost=N] <tile>")
        place = Place(number_of(q, -50, 50), number_of(r, -50, 50))
        added = Hex(name, place, Colour(colour), 0 if cost is None else number_of(cost, 0, 500), face_of(face))
        if added.colour is not Colour.RED and any(it.kind is CentreKind.OFF_BOARD for it in added.face.centres):
            raise ValueError("an off-board area stands in red hexes alone")
        if name in self.hexes or self.at(place):
            raise ValueError(f"another hex has the name {name} or the place {q},{r}")
        self.hexes[name] = added

    def add_home(self, line: str) -> None:
        """Adds the home that a line spells."""
        corporation, name, number = matched(r"home (\S+) (\S+) (\S+)", line, "home <corporation> <hex> <centre>")
        if corporation not in CORPORATIONS or name not in self.hexes or corporation in {it.corporation for it in self.homes}:
            raise ValueError(f"{corporation} is no corporation or has a home already, or {name} is no hex of the lines above")
        centres = self.hexes[name].face.centres
        home = Token(corporation, name, number_of(number, 1, max(1, len(centres))))
        slots = centres[home.centre - 1].slots if centres else None
        if sum((it.hex, it.centre) == (name, home.centre) for it in self.homes) >= (slots or 0):
            raise ValueError(f"centre {number} of {name} is no city, or has no slot left for a home")
        self.homes.append(home)

    def add_block(self, line: str) -> None:
        """Adds the block that a line spells."""
        private, name = matched(r"block (\S+) (\S+)", line, "hex ..`, `home ..` or `block <private> <hex>")
        if private not in PRIVATES or name not in self.hexes:
            raise ValueError(f"{private} is no private, or {name} is no hex of the lines above")
        self.blocks.append((private, name))


@dataclass(frozen=True)
class Cell:
    """A cell of the chart, with its price in dollars."""
    price: int
    mark: Mark


# The rows from the top, each with its cells from the left.
Chart = tuple[tuple[Cell | None, ...], ...]


@dataclass(frozen=True)
class Roster:
    """The numbers of the roster by their names, all but tokens and counts in dollars. `trade` is the
    price of a diesel for which another train is handed in, and `bank` what the bank begins with."""
    faces: dict[str, int]
    incomes: dict[str, int]
    tokens: dict[str, int]
    prices: dict[str, int]
    counts: dict[str, int]
    trade: int
    bank: int


@dataclass(frozen=True)
class Kit:
    """What a file's tables are played with. The tiles stand by their number."""
    chart: Chart
    roster: Roster
    tiles: dict[int, Tile]
    board: Board


def read_kit(texts: Mapping[str, bytes]) -> Kit:
    """The kit of the four texts in TEXTS. Raises KitError for the first one that isn't of its form."""
    return Kit(read_chart(texts["chart"]), read_roster(texts["roster"]), read_tiles(texts["tiles"]), read_board(texts["board"]))


def read_folder(folder: Path, others: Mapping[str, Path]) -> Kit:
    """The kit in a folder; `others` are files that are read in place of its texts. Raises KitError, and OSError without a file."""
    files = {text: folder / (text if (folder / text).exists() else name) for text, name in TEXTS.items()} | dict(others)
    return read_kit({text: file.read_bytes() for text, file in files.items()})


def read_chart(data: bytes) -> Chart:
    """The chart of a text."""
    rows: list[tuple[Cell | None, ...]] = []
    read_lines("chart", data, lambda line: rows.append(tuple(map(cell_of, line.split(" ")))))
    if not any(cell and cell.mark is Mark.PAR for row in rows for cell in row):
        raise KitError("chart", 0, "it has no par cell")
    return tuple(rows)


def cell_of(word: str) -> Cell | None:
    """The cell that a word of the chart spells."""
    if word == ".":
        return None
    if not (found := CELL.fullmatch(word)):
        raise ValueError(f"'{word}' is no cell: write '.', or a price from 1 to 999 and y, o, b, p or nothing after it")
    return Cell(int(found[1]), Mark(found[2]))


def read_roster(data: bytes) -> Roster:
    """The roster of a text."""
    try:
        document = tomllib.loads(text_of("roster", data))
        columns = [{it["name"]: it[number] for it in document[key]} for key, number in COLUMNS]
        trade = next(it["trade"] for it in document["train"] if it["name"] == "D")
        return Roster(*columns, trade, document.get("bank", 12_000))
    except tomllib.TOMLDecodeError as why:
        raise KitError("roster", 0, f"it isn't TOML: {why}") from None
    except (KeyError, TypeError, StopIteration) as why:
        raise KitError("roster", 0, f"it hasn't the keys of kit/roster.toml: {why}") from None


def read_tiles(data: bytes) -> dict[int, Tile]:
    """The tiles of a text, by their number."""
    tiles: dict[int, Tile] = {}

    def add(line: str) -> None:
        colour, number, count, face = matched(r"(yellow|green|brown) (\S+) x(\S+)(?: (.*))?", line, "<colour> <number> x<count> <tile>")
        tile = Tile(Colour(colour), number_of(number, 1, 999), number_of(count, 1, 50), face_of(face))
        if tile.number in tiles or any(it.kind is CentreKind.OFF_BOARD for it in tile.face.centres):
            raise ValueError(f"tile {number} stands twice, or has an off-board area")
        tiles[tile.number] = tile
    read_lines("tiles", data, add)
    return tiles


def read_board(data: bytes) -> Board:
    """The board of a text."""
    board = Board()
    adders = {"hex": board.add_hex, "home": board.add_home}
    read_lines("board", data, lambda line: adders.get(line.split(" ")[0], board.add_block)(line))
    if not board.hexes:
        raise KitError("board", 0, "it has no hex")
    return board


def matched(form: str, line: str, shown: str) -> tuple[str, ...]:
    """The words of a line of a form, which is shown if the line isn't of it. There is one space between words."""
    if not (found := re.fullmatch(form, line)):
        raise ValueError(f"it isn't `{shown}`")
    return found.groups()


def face_of(text: str | None) -> Face:
    """The tracks, the centres and the label that words spell."""
    words = text.split(" ") if text else []
    labels = [found[1] for word in words if (found := LABEL.fullmatch(word))]
    parts = tuple(part_of(word) for word in words if not LABEL.fullmatch(word))
    tracks = [frozenset(part.edges) for part in parts if isinstance(part, Track)]
    if len(labels) > 1 or len(set(tracks)) < len(tracks):
        raise ValueError("it has more than one label, or a track twice")
    return Face(parts, labels[0] if labels else None)


def part_of(word: str) -> Part:
    """The track or the centre that a word spells."""
    if (found := TRACK.fullmatch(word)) and found[1] != found[2]:
        return Track((int(found[1]), int(found[2])))
    if not (found := CENTRE.fullmatch(word)):
        raise ValueError(f"'{word}' is no track, town, city, off-board area or label, or a value is no multiple of 10")
    town, city, slots, off_board, later, digits = found.groups()
    edges = tuple(int(it) for it in digits.split(",") if it)
    if len(set(edges)) < len(edges):
        raise ValueError(f"'{word}' has an edge twice")
    kind = CentreKind.TOWN if town else CentreKind.CITY if city else CentreKind.OFF_BOARD
    return Centre(kind, int(town or city or off_board), edges, int(slots) if slots else None, int(later) if later else None)


def number_of(digits: str, least: int, most: int) -> int:
    """The number that digits spell without a leading zero."""
    if not NUMBER.fullmatch(digits) or not least <= int(digits) <= most:
        raise ValueError(f"'{digits}' is no number from {least} to {most}")
    return int(digits)


def text_of(text: str, data: bytes) -> str:
    """The characters of a text, which are ASCII."""
    if not data.isascii():
        raise KitError(text, 0, "it has a byte that isn't ASCII")
    return data.decode("ascii")


def read_lines(text: str, data: bytes, read: Callable[[str], None]) -> None:
    """Reads each line that has a word and doesn't begin with `#`, with one space between words. A ValueError becomes a KitError."""
    for number, line in enumerate(text_of(text, data).replace("\r\n", "\n").split("\n"), 1):
        words = " ".join(word for word in line.split(" ") if word)
        try:
            if words and not line.startswith("#"):
                read(words)
        except ValueError as why:
            raise KitError(text, number, str(why)) from None
