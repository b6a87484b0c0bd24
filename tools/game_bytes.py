"""The bytes of a game, read by docs/FORMATS.md ("A game's bytes") without the program."""
import re
from dataclasses import dataclass

PLAYER, HEX = re.compile(rb"[a-z][a-z0-9]{0,11}"), re.compile(rb"[A-Z0-9]{1,4}")
RESERVED = {b"bank", b"offer", b"pool"}
# The most dollars that a payment moves, a seat bids, or trains earn in a turn.
MOST_DOLLARS = 10_000_000_000
MOST_ENTRIES, MOST_TILES, MOST_TOKENS = 400_000_000, 600, 48


class NoGame(Exception):
    """The bytes are no game's."""


def hold(bound):
    if not bound:
        raise NoGame


def is_player(name):
    """Whether a player may have this name."""
    return bool(PLAYER.fullmatch(name)) and name not in RESERVED


@dataclass
class Fields:
    """Bytes, and how many of them were read."""

    data: bytes
    at: int = 0

    def bytes(self, count):
        self.at += count
        hold(self.at <= len(self.data))
        return self.data[self.at - count:self.at]

    def number(self, size, most=None):
        number = int.from_bytes(self.bytes(size), "big")
        hold(most is None or number <= most)
        return number

    def signed(self):
        return int.from_bytes(self.bytes(8), "big", signed=True)

    def truths(self, count):
        hold(set(self.bytes(count)) <= {0, 1})

    def name(self):
        return self.bytes(self.number(1))

    def hex_name(self):
        hold(HEX.fullmatch(self.name()))

    def seat(self):
        return self.number(1)

    def corporation(self):
        self.number(1, 7)

    def place(self):
        kind = self.number(1, 4)
        if kind == 3:
            self.seat()
        if kind == 4:
            self.corporation()


def read_players(fields):
    names = [fields.name() for _ in range(fields.number(1, 6))]
    hold(2 <= len(names) == len(set(names)) and all(map(is_player, names)))


def read_books(fields):
    """Money, certificates and trains. Returns how many payments there were."""
    balances = [fields.signed() for _ in range(15)]
    payments = fields.number(4)
    hold(max(map(abs, balances)) <= MOST_DOLLARS * payments)
    hold(fields.number(1, 6) >= 2)
    for _ in range(78 + 120):
        fields.place()
    hold(max(fields.bytes(6)) <= 20)
    return payments


def read_auction(fields):
    """Returns how many bids, purchases and passes there were."""
    fields.seat()
    passes, falls = fields.number(4), fields.number(4)
    for _ in range(36):
        fields.number(8, MOST_DOLLARS)
    if fields.number(1, 1):
        fields.seat()
    fields.seat()
    commands = fields.number(4)
    hold(max(passes, falls) <= commands)
    return commands


def read_chart(fields):
    for _ in range(8):
        if fields.number(1, 1):
            fields.bytes(4)
    hold(sorted(fields.bytes(8)) == list(range(8)))


def read_stock_rounds(fields):
    """Returns how many have begun, and how many turns have ended in them."""
    seats, begun = fields.number(2, 256), fields.number(8)
    fields.truths(1)
    turn = fields.seat()
    fields.truths(1)
    if fields.number(1, 2) == 1:
        fields.corporation()
    passes, priority = fields.number(8), fields.seat()
    fields.truths(48)
    ended = fields.number(8)
    fields.truths(8)
    hold(max(turn, priority) < max(1, seats) and passes <= ended)
    return begun, ended


def read_operating_rounds(fields):
    """Returns how many sets have begun, and how many rounds of the last one."""
    fields.number(1, 2)
    sets, begun = fields.number(8), fields.number(8)
    fields.number(1)
    fields.truths(8)
    fields.number(1, 4)
    fields.truths(1)
    fields.signed()
    fields.truths(1)
    read_chart(fields)
    read_stock_rounds(fields)
    return sets, begun


def read_tiles(fields):
    for _ in range(fields.number(2, MOST_TILES)):
        fields.hex_name()
        fields.bytes(3)


def read_tokens(fields):
    for _ in range(fields.number(2, MOST_TOKENS)):
        fields.corporation()
        fields.hex_name()
        fields.bytes(8)


def read_game(fields):
    """Returns how many commands the game has played."""
    read_players(fields)
    counted = [read_books(fields), read_auction(fields)]
    read_chart(fields)
    counted += read_stock_rounds(fields)
    counted += read_operating_rounds(fields)
    read_tiles(fields)
    read_tokens(fields)
    hold(max(counted) <= fields.number(4, MOST_ENTRIES))
    hold(0 <= fields.signed() <= MOST_DOLLARS)
    count = fields.number(4)
    ends = sum(fields.number(8) << 64 * word for word in range(64))
    # The bit of the opening is the lowest, and the highest is that of the last turn's end.
    hold(ends & 1 and ends.bit_length() <= count)
    hold(fields.at == len(fields.data))
    return count


def played(data):
    """How many commands the game of these bytes has played, or None where they are no game's."""
    try:
        return read_game(Fields(data))
    except NoGame:
        return None
