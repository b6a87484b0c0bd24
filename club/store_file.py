"""A store's file, read and written by docs/FORMATS.md, without the program."""
from __future__ import annotations

from collections.abc import Iterator, Sequence
from dataclasses import dataclass, field

PAGE, OPEN, SHUT = 4096, 0xA5, 0
FIRST_DATA, USED = 514, 4086
VERSIONS, NEWEST = (1, 2), 2
# The first page of each half of the journal, how many of its slots hold records, and how many slots
# a record takes at most.
HALVES, SLOTS, MOST_SLOTS = (2, 258), 255, 8
# How many bytes each field of a root has, after its gate.
ROOT_FIELDS = (8, 8, 1, 8, 8, 2)


@dataclass
class Root:
    """What the root in page `side` says, in the order of its fields."""
    side: int
    number: int
    directory: int
    half: int
    first: int
    pages: int
    version: int


@dataclass
class Table:
    """What the directory says of a table, with the commands in the table's chain."""
    name: str
    stamp: int
    floor: int
    kept: list[str]


@dataclass
class Snapshot:
    """A table's position, how many of its commands were played, the game's bytes, their pages."""
    table: int
    kept: int
    bytes: bytes
    pages: list[int] = field(default_factory=list)


@dataclass
class Store:
    """What a file says by its current root. `near` has the records of the current half, `far` those
    of the other one, and `reached` the pages of all chains. Version 1 says nothing of the bank."""
    root: Root
    bank: int | None
    texts: list[bytes]
    tables: list[Table]
    snapshots: list[Snapshot]
    near: list[str]
    far: list[str]
    reached: list[int]

    def accepted(self) -> dict[str, list[str]]:
        """The commands of each table: those in its chain, and then those in the records. A `back`
        among these stands there as well, and so does what it took back."""
        kept = {table.name: list(table.kept) for table in self.tables}
        for record in self.near + self.far:
            name, _, words = record.partition(" ")
            kept.setdefault(name, []).append(words)
        return kept


@dataclass
class Fields:
    """Bytes that are read one field after another."""
    data: bytes
    at: int = 0

    def take(self, count: int) -> bytes:
        """The next bytes."""
        self.at += count
        return self.data[self.at - count:self.at]

    def number(self, count: int) -> int:
        """The number that the next bytes spell."""
        return int.from_bytes(self.take(count), "big")


def number_at(data: bytes, at: int, count: int) -> int:
    """The number that some bytes spell."""
    return Fields(data, at).number(count)


def spelled(number: int, count: int) -> bytes:
    """A number in so many bytes."""
    return number.to_bytes(count, "big")


def kit_at(version: int) -> int:
    """Where the texts stand in a directory: from version 2 on the bank comes first."""
    return 0 if version == 1 else 8


def slots_for(length: int) -> int:
    """How many slots a record of so many bytes takes."""
    return (13 + length + PAGE - 1) // PAGE


def gate_of(half: int, slot: int) -> int:
    """The place of a slot's gate in the file."""
    return PAGE * (HALVES[half] + slot)


def root_at(data: bytes, side: int) -> Root | None:
    """The root in page 0 or 1, or None if its gate is closed."""
    fields = Fields(data, PAGE * side)
    is_open = fields.number(1) == OPEN
    return Root(side, *map(fields.number, ROOT_FIELDS)) if is_open else None


def root_of(data: bytes) -> Root:
    """The current root."""
    return max(filter(None, (root_at(data, 0), root_at(data, 1))), key=lambda it: it.number)


def records_from(data: bytes, half: int, number: int) -> Iterator[tuple[int, int]]:
    """The records of a half whose numbers go on from this one: each one's first slot and length."""
    slot = 0
    while slot < SLOTS:
        fields = Fields(data, gate_of(half, slot))
        if fields.number(1) != OPEN or fields.number(8) != number:
            break
        length = fields.number(4)
        yield slot, length
        slot, number = slot + slots_for(length), number + 1


def record_at(data: bytes, half: int, slot: int, length: int) -> bytes:
    """The bytes of a record."""
    return Fields(data, gate_of(half, slot) + 13).take(length)


def records_in(data: bytes, half: int, number: int) -> list[str]:
    """The records of a half whose numbers go on from this one."""
    return [record_at(data, half, *it).decode() for it in records_from(data, half, number)]


def chain_at(data: bytes, page: int) -> tuple[bytes, list[int]]:
    """The bytes of the chain that begins with a page, and its pages."""
    text, pages = b"", []
    while page:
        pages.append(page)
        fields = Fields(data, PAGE * page)
        page = fields.number(8)
        text += fields.take(fields.number(2))
    return text, pages


def read(data: bytes) -> Store:
    """What a file says, if it is of the right form."""
    root = root_of(data)
    text, reached = chain_at(data, root.directory)
    directory = Fields(text)

    def chain() -> tuple[bytes, list[int]]:
        """The chain that the directory names next, by its first page and its length."""
        page, _ = directory.number(8), directory.number(4)
        text, pages = chain_at(data, page)
        reached.extend(pages)
        return text, pages

    bank = directory.number(8) if kit_at(root.version) else None
    texts, tables = [chain()[0] for _ in range(4)], []
    for _ in range(directory.number(2)):
        name = directory.take(directory.number(1)).decode()
        stamp, floor, count = map(directory.number, (8, 4, 4))
        tables.append(Table(name, stamp, floor, commands_in(chain()[0], count)))
    snapshots = [Snapshot(directory.number(2), directory.number(4), *chain())
                 for _ in range(directory.number(2))]
    near = records_in(data, root.half, root.first)
    far = records_in(data, 1 - root.half, root.first + len(near))
    return Store(root, bank, texts, tables, snapshots, near, far, reached)


def commands_in(chain: bytes, count: int) -> list[str]:
    """So many commands from a table's chain."""
    fields = Fields(chain)
    return [fields.take(fields.number(2)).decode() for _ in range(count)]


class Pages:
    """Data pages that are laid one after another, from the first one on."""

    def __init__(self) -> None:
        self.laid = bytearray()

    def next(self) -> int:
        """The page that is laid next."""
        return FIRST_DATA + len(self.laid) // PAGE

    def chain(self, text: bytes) -> int:
        """Lays a chain, and returns its first page."""
        first = self.next()
        for at in range(0, max(1, len(text)), USED):
            piece = text[at:at + USED]
            following = self.next() + 1 if at + USED < len(text) else 0
            page = spelled(following, 8) + spelled(len(piece), 2) + piece
            self.laid += page.ljust(PAGE, b"\0")
        return first

    def named(self, text: bytes) -> bytes:
        """Lays a chain, and returns what a directory says of it."""
        return spelled(self.chain(text), 8) + spelled(len(text), 4)


def written(texts: Sequence[bytes], tables: Sequence[Table], first: int = 1,
            snapshots: Sequence[Snapshot] = (), version: int = NEWEST, bank: int = 12_000) -> bytes:
    """A file with these texts, tables and snapshots, whose first record is to have this number.
    The bank is that of the roster; version 1 doesn't say it."""
    pages = Pages()
    directory = spelled(bank, 8) if kit_at(version) else b""
    directory += b"".join(map(pages.named, texts)) + spelled(len(tables), 2)
    for it in tables:
        kept = b"".join(spelled(len(words), 2) + words.encode() for words in it.kept)
        numbers = spelled(it.stamp, 8) + spelled(it.floor, 4) + spelled(len(it.kept), 4)
        directory += spelled(len(it.name), 1) + it.name.encode() + numbers + pages.named(kept)
    directory += spelled(len(snapshots), 2) if snapshots else b""
    for it in snapshots:
        directory += spelled(it.table, 2) + spelled(it.kept, 4) + pages.named(it.bytes)
    numbers = (OPEN, 1, pages.chain(directory), 0, first, pages.next(), version)
    root = b"".join(map(spelled, numbers, (1, *ROOT_FIELDS)))
    return root.ljust(PAGE * FIRST_DATA, b"\0") + pages.laid
