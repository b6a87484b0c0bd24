"""What `moderate check` owes to a file, judged by docs/FORMATS.md and docs/OPERATING.md ("Damage") without the program.

Of the rules it knows an auction in which the first player buys the first private and then all pass in turn, for which there is
no end, and the take-back of its turns: each command but the opening is one. Of a snapshot it knows whether its bytes are a
game's, by game_bytes.py, and which commands play that game where it is told. Where a file asks for more, its answer is None.
"""
import re
import tomllib
from dataclasses import dataclass, field

import club_path
from club.kit import read_roster
from club.store_file import FIRST_DATA, MOST_SLOTS, PAGE, SLOTS, USED, VERSIONS, kit_at
from club.store_file import number_at, record_at, records_from, root_at, slots_for
import game_bytes
from game_bytes import is_player

NOT_A_STORE = "no 64 not a store"
LAST_NUMBER, LAST_STAMP = 2**63 - 1, 4_000_000_000
MOST_PAGES, MOST_TABLES, MOST_KEPT, MOST_TEXT = 65_536, 64, 4_096, 65_536
MOST_SNAPSHOTS, MOST_SNAPSHOT = 4_096, 16_384
TABLE_NAME, NUMBER = re.compile(rb"[a-z][a-z0-9]{0,15}"), re.compile(rb"0|[1-9][0-9]*")
CORPORATIONS = {b"PRR", b"NYC", b"CPR", b"B&O", b"C&O", b"ERIE", b"NYNH", b"B&M"}
# What the words of a request are known for: to be none, or to be one that no table takes.
NO_WORDS, REFUSED = "no words", "refused"


class Damaged(Exception):
    """The file breaks this clause, and none before it."""


class NotKnown(Exception):
    """What the file asks for is more than this judge knows."""


@dataclass
class Entry:
    """What a directory says of a table."""

    name: bytes
    stamp: int
    floor: int
    kept: int
    head: int
    length: int


@dataclass
class Snapshot:
    """What a directory says of a snapshot: the place of its table, and how many of that one's commands are played."""

    table: int
    kept: int
    head: int
    length: int


@dataclass
class Game:
    """A table that is played: who sits at it, and how many commands it keeps."""

    players: list = field(default_factory=list)
    kept: int = 0
    floor: int = 0
    stamp: int = 0

    def due(self):
        """The words that are lawful now, but for those that this judge doesn't know."""
        if self.kept == 1:
            return b"buy " + self.players[0]
        return b"pass " + self.players[(self.kept - 1) % len(self.players)]

    def play(self, words):
        """Takes a command behind the opening. Returns whether it is lawful."""
        if self.kept >= MOST_KEPT or self.stamp >= LAST_STAMP:
            return False
        if words != self.due():
            if self.due().endswith(b" " + words.split(b" ")[-1]) or words.startswith(b"bid "):
                raise NotKnown
            return False
        self.kept, self.stamp = self.kept + 1, self.stamp + 1
        return True

    def take_back(self, verb, turn):
        """Takes the table back, or lets it forget. Returns whether that is lawful."""
        if not self.floor <= turn <= self.kept - 1 or self.stamp >= LAST_STAMP:
            return False
        if verb == b"back":
            self.kept = turn + 1
        else:
            self.floor = turn
        self.stamp += 1
        return True


def players_of(words):
    """The players of an opening, or None where the words open no table."""
    verb, *players = words.split(b" ")
    own_names = 2 <= len(players) == len(set(players)) <= 6
    return players if verb == b"open" and all(map(is_player, players)) and own_names else None


def form_of(words):
    """What words behind a table's name are: `open`, `play`, `back` or `forget`; no words of a request; or one that no
    table takes. Other words that a request may have aren't known."""
    if not words or not re.fullmatch(rb"[!-~]+( [!-~]+)*", words):
        return NO_WORDS
    verb, *more = words.split(b" ")
    if verb == b"open":
        return "open" if players_of(words) else NO_WORDS
    if verb in (b"back", b"forget"):
        if len(more) != 1 or not NUMBER.fullmatch(more[0]):
            return NO_WORDS
        if len(more[0]) > 9:
            raise NotKnown
        return verb.decode()
    if verb == b"best" and len(more) == 1:
        return REFUSED if more[0] in CORPORATIONS else NO_WORDS
    if verb == b"pass" or verb == b"buy" and len(more) == 1:
        return "play" if len(more) == 1 and is_player(more[0]) else NO_WORDS
    if not verb.isalpha() or not verb.islower():
        return NO_WORDS
    raise NotKnown


class Chains:
    """The chains of a file, which reach each page once. The clauses that they break are kept."""

    def __init__(self, data, pages):
        self.data, self.pages, self.reached, self.broken = data, pages, set(), set()

    def read(self, head):
        """The bytes of a chain, or None where it breaks off. One with a page that is too full is followed to its end."""
        page, text, full = head, b"", False
        while True:
            if not FIRST_DATA <= page < self.pages:
                self.broken.add(2)
                return None
            if page in self.reached:
                self.broken.add(3)
                return None
            self.reached.add(page)
            at, used = PAGE * page, number_at(self.data, PAGE * page + 8, 2)
            if used > USED:
                self.broken.add(4)
                full = True
            text += self.data[at + 10:at + 10 + used]
            page = number_at(self.data, at, 8)
            if page == 0:
                return None if full else text


def directory_of(text, version):
    """What a directory of this version says of the bank, where it says that the kit's texts are, its tables and snapshots; or None
    if it isn't of its form."""
    kit = kit_at(version)
    if len(text) < kit + 50:
        return None
    bank = number_at(text, 0, 8) if kit else None
    texts = [(number_at(text, kit + 12 * place, 8), number_at(text, kit + 12 * place + 8, 4)) for place in range(4)]
    tables, at, count = [], kit + 50, number_at(text, kit + 48, 2)
    for _ in range(count):
        length = text[at] if at < len(text) else 0
        name, numbers = text[at + 1:at + 1 + length], at + 1 + length
        at = numbers + 28
        if at > len(text):
            return None
        fields = ((0, 8), (8, 4), (12, 4), (16, 8), (24, 4))
        tables.append(Entry(name, *(number_at(text, numbers + place, size) for place, size in fields)))
    lawful = all(TABLE_NAME.fullmatch(it.name) and it.stamp <= LAST_STAMP and 1 <= it.kept <= MOST_KEPT for it in tables)
    own_names = len({it.name for it in tables}) == count <= MOST_TABLES
    short = all(length <= MOST_TEXT for _, length in texts)
    snapshots = snapshots_of(text[at:], tables)
    return (bank, texts, tables, snapshots) if lawful and own_names and short and snapshots is not None else None


def snapshots_of(text, tables):
    """The snapshots that stand behind a directory's tables, none where it ends; or None where they aren't of their form."""
    if not text:
        return []
    count = number_at(text, 0, 2) if len(text) >= 2 else 0
    if not 1 <= count <= MOST_SNAPSHOTS or len(text) != 2 + 18 * count:
        return None
    fields = ((0, 2), (2, 4), (6, 8), (14, 4))
    found = [Snapshot(*(number_at(text, 2 + 18 * it + place, size) for place, size in fields)) for it in range(count)]
    lawful = all(it.table < len(tables) and 1 <= it.kept <= tables[it.table].kept and it.length <= MOST_SNAPSHOT for it in found)
    places = [(it.table, it.kept) for it in found]
    return found if lawful and places == sorted(set(places)) else None


def commands_of(text, count):
    """The kept commands of a chain, or None where it doesn't hold so many and no more."""
    commands, at = [], 0
    for _ in range(count):
        length = number_at(text, at, 2) if at + 2 <= len(text) else len(text)
        if at + 2 + length > len(text):
            return None
        commands.append(text[at + 2:at + 2 + length])
        at += 2 + length
    return commands if at == len(text) else None


def root_of(data):
    """The root that is taken. Clause 1 and the version are judged of each open one."""
    roots = [it for it in (root_at(data, 0), root_at(data, 1)) if it]
    if not roots or any(it.version not in VERSIONS for it in roots):
        return None
    for it in roots:
        numbers = it.number <= LAST_NUMBER and 1 <= it.first <= LAST_NUMBER
        if it.half > 1 or not numbers or not FIRST_DATA < it.pages <= min(MOST_PAGES, len(data) // PAGE):
            raise Damaged(1)
    if len({it.number for it in roots}) < len(roots):
        raise Damaged(1)
    return max(roots, key=lambda it: it.number)


def tables_of(data, root, texts, games):
    """The tables that the chains of the root's directory spell, played."""
    chains = Chains(data, root.pages)
    directory = chains.read(root.directory)
    named = directory_of(directory, root.version) if directory is not None else None
    if named is None:
        raise Damaged(min(chains.broken, default=5))
    bank, of_texts, entries, snapshots = named
    found = [(chains.read(head), length) for head, length in of_texts]
    found += [(chains.read(it.head), it.length) for it in (*entries, *snapshots)]
    kept = [text is not None and commands_of(text, it.kept) for (text, _), it in zip(found[4:], entries)]
    if any(text is not None and len(text) != length for text, length in found) or None in kept:
        chains.broken.add(5)
    if chains.broken:
        raise Damaged(min(chains.broken))
    # Whether bytes are a game's, and words a request's, is judged of all tables before the texts, and these before what the
    # rules say.
    shown = [(it, text) for it, (text, _) in zip(snapshots, found[4 + len(entries):])]
    if any(game_bytes.played(text) != it.kept for it, text in shown) or any(NO_WORDS in list(map(form_of, it)) for it in kept):
        raise Damaged(5)
    if [text for text, _ in found[:4]] != texts:
        raise NotKnown
    # A directory of version 2 says the roster's bank; for one of version 1 a roster that names a bank is wrong.
    if bank is not None and bank != read_roster(texts[1]).bank:
        raise Damaged(5)
    if bank is None and "bank" in tomllib.loads(texts[1].decode()):
        raise Damaged(6)
    # Whatever game a snapshot shows, no table keeps other words than a command's.
    if not all(form_of(it) in ("open", "play") for words in kept for it in words):
        raise Damaged(7)
    if any(games.get(text) != kept[it.table][:it.kept] for it, text in shown):
        raise NotKnown
    return {entry.name: played(entry, words) for entry, words in zip(entries, kept)}


def played(entry, commands):
    """A table whose kept commands are played from its opening."""
    if form_of(commands[0]) != "open":
        raise Damaged(7)
    game = Game(players_of(commands[0]), 1)
    for words in commands[1:]:
        if form_of(words) != "play" or not game.play(words):
            raise Damaged(7)
    if entry.floor > game.kept - 1:
        raise Damaged(7)
    game.floor, game.stamp = entry.floor, entry.stamp
    return game


def records_in(data, half, number):
    """The bytes of the records of a half from slot 0 on, of this number and one more each; the last is None if it has
    no bytes, takes too many slots, or runs on where no record may."""
    found = []
    for slot, length in records_from(data, half, number):
        if length == 0 or slots_for(length) > MOST_SLOTS or slot + slots_for(length) > SLOTS:
            return [*found, None]
        found.append(record_at(data, half, slot, length))
    return found


def take(tables, record):
    """Lets a record count. Returns whether it is lawful."""
    name, _, words = record.partition(b" ")
    form = form_of(words) if TABLE_NAME.fullmatch(name) else NO_WORDS
    if form in (NO_WORDS, REFUSED):
        return False
    if form == "open":
        if name in tables or len(tables) >= MOST_TABLES:
            return False
        tables[name] = Game(players_of(words), 1, 0, 1)
        return True
    game = tables.get(name)
    if game is None:
        return False
    if form == "play":
        return game.play(words)
    verb, turn = words.split(b" ")
    return game.take_back(verb, int(turn))


def judged(data, texts, games):
    """What `check` answers of a file that was made with these texts, or None where this judge doesn't know. The bytes of some
    games are known by the commands that play them."""
    try:
        root = root_of(data) if len(data) >= PAGE * (FIRST_DATA + 1) else None
        if root is None:
            return NOT_A_STORE
        tables = tables_of(data, root, texts, games)
        records = records_in(data, root.half, root.first)
        if None not in records:
            records += records_in(data, 1 - root.half, root.first + len(records))
        if not all(record is not None and take(tables, record) for record in records):
            raise Damaged(8)
        return f"ok {len(tables)} {root.first + len(records) - 1}"
    except Damaged as damaged:
        return f"no 63 damaged {damaged}"
    except NotKnown:
        return None
