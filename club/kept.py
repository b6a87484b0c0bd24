"""What a file keeps of its tables: the kit, and the commands of each table, from which follows what lies on its board."""
import re
from collections.abc import Sequence
from dataclasses import dataclass
from itertools import zip_longest

from club.kit import TEXTS, Kit, read_kit
from club.layout import Lay, Layout, Token
from club.store_file import read

# The B&O's par is set by the buyer of the B&O private and by nobody else, and the purchase ends no turn before it.
PRIVATE_PAR = re.compile(r"par \S+ B&O ")
ENDS_TURN = re.compile(r"(?:open|bid|pass|done|end|bankrupt|par \S+ B&O) .*|buy \S+")


@dataclass(frozen=True)
class Kept:
    """A file's kit, for each table the commands that it keeps, `open` first and neither `back` nor `forget`, and the kit's texts."""
    kit: Kit
    tables: dict[str, list[str]]
    texts: Sequence[bytes] = ()

    def layout(self, table: str, due: str) -> Layout:
        """The board as it lies. A corporation has its token at home from its first turn on, so also if it is `due`."""
        homes = {it.corporation: it for it in self.kit.board.homes}
        lays, tokens = [], []
        for verb, actor, *words in (it.split(" ") for it in [*self.tables[table][1:], f"due {due}"]):
            if home := homes.pop(actor, None):
                tokens.append(Token(actor, home.hex, home.centre))
            if verb == "lay":
                lays.append(Lay(words[0], int(words[1]), int(words[2])))
            elif verb == "station":
                tokens.append(Token(actor, words[0], int(words[1])))
        return Layout(self.kit, tuple(lays), tuple(tokens))


def read_kept(data: bytes) -> Kept:
    """What a file's bytes keep. They must be of one moment: read them between two replies of the program."""
    store = read(data)
    tables = {name: left_of(commands) for name, commands in store.accepted().items()}
    return Kept(read_kit(dict(zip(TEXTS, store.texts))), tables, store.texts)


def left_of(commands: Sequence[str]) -> list[str]:
    """The commands that each `back` among them left in play, without `back` and `forget`."""
    left: list[str] = []
    for command in commands:
        verb, _, turn = command.partition(" ")
        if verb == "back":
            left = sum(turns_of(left)[:int(turn) + 1], [])
        elif verb != "forget":
            left.append(command)
    return left


def turns_of(commands: Sequence[str]) -> list[list[str]]:
    """The commands by turns: the opening, each turn that ended, and what was played since then, which may be nothing.

    If the B&O's par is due, the purchase before it stands as a turn that ended.
    """
    turns: list[list[str]] = [[]]
    for command, after in zip_longest(commands, commands[1:], fillvalue=""):
        turns[-1].append(command)
        if ENDS_TURN.fullmatch(command) and not PRIVATE_PAR.match(after):
            turns.append([])
    return turns
