"""Lines whose records take one slot to eight: runs without trains, whose certificates deny one link after another."""
from pathlib import Path

import club_path
from club.store_file import PAGE

ROOT = Path(__file__).resolve().parent.parent
# The table of a recorded game in which PRR runs without trains: so many commands and turns come before that run.
GAME, COMMANDS, TURNS = ("best_runs", "g5"), 21, 15
# Each link that is denied has a number of five digits, so a record of eight slots is reached. A certificate has so many splits at
# most, and a hex of the board so many towns of six links each.
FIRST_LINK, MOST_SPLITS, TOWNS, LINKS = 10_000, 4095, 13, 6


def taken_in(game, table, count):
    """The first commands that a table of a recorded game takes: the words, and what its reply has after the stamp."""
    lines, replies = ((ROOT / "games" / game / it).read_text(encoding="latin-1").split("\n") for it in ("lines", "replies"))
    taken = []
    for line, reply in zip(lines, replies):
        if reply.startswith(f"ok {table} "):
            more = reply.split(" ", 3)[3:]
            taken.append((line.split(" ", 2)[2], " " + more[0] if more else ""))
    return taken[:count]


def beginning():
    """The words of the commands before such a run."""
    return [words for words, _ in taken_in(*GAME, COMMANDS)]


def run_of(slots):
    """The words of a run whose record takes so many slots. It wants the hexes of `board`."""
    count = min(MOST_SPLITS, (PAGE * slots - 60) // len(f"s{FIRST_LINK} "))
    denied = " ".join(f"s{link}" for link in range(FIRST_LINK, FIRST_LINK + count))
    return f"run PRR best {denied} b"


def board():
    """Hexes of many towns, none beside another, for a board that has none below row 9."""
    hexes = (FIRST_LINK + MOST_SPLITS) // (LINKS * TOWNS) + 1
    places = ((2 * (hex_ % 20) - 20, 10 + 2 * (hex_ // 20)) for hex_ in range(hexes))
    towns = " ".join(["t0:0,1,2,3,4,5"] * TOWNS)
    return "".join(f"hex L{number} {q},{r} grey {towns}\n" for number, (q, r) in enumerate(places))
