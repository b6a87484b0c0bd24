"""Why a line was refused, in a sentence for a person. What the sentence needs to know it asks the program."""
import difflib
import re
import sys
from collections.abc import Callable, Iterator
from dataclasses import dataclass
from pathlib import Path

from club.client import Ended, Held, Refused, Reply
from club.kit import CORPORATIONS, PRIVATES, TRAIN_LIMITS, KitError

# The words of each command after stamp and table, and those of each query. A last word with `..` may be repeated.
COMMANDS = [it.split(" ") for it in (
    "open PLAYER PLAYER..;buy PLAYER;buy PLAYER CORPORATION offer|pool;bid PLAYER PRIVATE DOLLARS;pass PLAYER;"
    "par PLAYER CORPORATION DOLLARS;sell PLAYER CORPORATION SHARES;swap PLAYER offer|pool;done PLAYER;back TURN;forget TURN;"
    "lay CORPORATION HEX TILE SIXTHS;station CORPORATION HEX CENTRE;run CORPORATION;run CORPORATION ROUTE..;best CORPORATION;"
    "pay CORPORATION;hold CORPORATION;train CORPORATION KIND bank|pool;"
    "train CORPORATION KIND CORPORATION DOLLARS PLAYER PLAYER;trade CORPORATION KIND;drop CORPORATION KIND;"
    "private CORPORATION PRIVATE DOLLARS;force CORPORATION;raise PLAYER CORPORATION SHARES;bankrupt PLAYER;"
    "end CORPORATION").split(";")]
QUERIES = [it.split(" ") for it in (
    "tables;stamp TABLE;turns TABLE;due TABLE;cash TABLE PLAYER|CORPORATION|bank;limit TABLE;asked TABLE;"
    "privates TABLE PLAYER|CORPORATION;holds TABLE PLAYER CORPORATION;price TABLE CORPORATION;phase TABLE;"
    "trains TABLE CORPORATION|pool;iou TABLE;worth TABLE PLAYER;order TABLE;book TABLE TURN").split(";")]
# The commands that each step takes, as `due` names them.
STEPS = {
    "auction": "buy bid pass", "raise": "bid pass", "par": "par", "stock": "buy par sell swap done",
    "lay": "lay station run best hold private", "station": "station run best hold private", "run": "run best hold private",
    "pay": "pay hold private", "train": "train trade private force raise bankrupt end", "over": ""}
PLAYER, NUMBER = "(?!(?:bank|offer|pool)$)[a-z][a-z0-9]{0,11}", "0|[1-9][0-9]{0,9}"
# How a word of a form is spelled, and what it is. Other words in capitals are numbers, those in small letters stand as they are.
WORDS = {
    "TABLE": ("[a-z][a-z0-9]{0,15}", "a table (a small letter, then up to 15 small letters and digits)"),
    "PLAYER": (PLAYER, "a player (a small letter, then up to 11 small letters and digits; not bank, offer or pool)"),
    "CORPORATION": ("|".join(CORPORATIONS), f"a corporation ({', '.join(CORPORATIONS)})"),
    "PRIVATE": ("|".join(PRIVATES), f"a private ({', '.join(PRIVATES)})"),
    "KIND": ("[2-6D]", "a kind of train (2 to 6, or D)"),
    "HEX": ("[A-Z0-9]{1,4}", "a hex (up to 4 capitals and digits)"),
    "TILE": ("[1-9][0-9]{0,2}", "a tile (1 to 999)"),
    "SIXTHS": ("[0-5]", "a number of sixths to turn by (0 to 5)"),
    "ROUTE": (f"[2-6D]=(?:-|(?:{NUMBER})(?:-(?:{NUMBER}))*)|best|b|f|[sx](?:{NUMBER})",
              "a train with its links, as 2=1-2-3, or 2=- for one that stays"),
}
REFERENCE = Path(__file__).resolve().parent.parent / "docs/REFERENCE.md"
Ask = Callable[[str], list[str]]


@dataclass(frozen=True)
class Case:
    """A line that was refused: its table, its own words (four at least, empty if they lack), and the reply's last word."""
    table: str
    words: list[str]
    last: str
    ask: Ask

    def answer(self, query: str, *words: str) -> list[str]:
        """The answer to a query about the table; no words if it is refused."""
        try:
            return self.ask(" ".join((query, self.table, *words)))
        except Refused:
            return []

    def no_such_name(self) -> str:
        if strangers := [it for it in self.words[1:] if re.fullmatch(PLAYER, it) and not self.answer("cash", it)]:
            return f"Nobody at the table is called {strangers[0]}."
        return f"The board has no hex {self.words[2]}" + (f", or the kit no tile {self.words[3]}." if self.words[0] == "lay" else ".")

    def too_little_cash(self) -> str:
        what = "and its president too little to add what lacks" if self.words[0] == "force" else "which is too little"
        return f"{self.words[1]} has {self.answer('cash', self.words[1])[0]}, {what}."

    def not_your_turn(self) -> str:
        who, step = self.answer("due")
        is_president_wrong = who == self.words[1] or self.words[0] in ("raise", "bankrupt")
        return f"{who} is due ({step})" + (", but a president is named wrongly." if is_president_wrong else ".")

    def wrong_step(self) -> str:
        (who, step), verb = self.answer("due"), self.words[0]
        if verb == "drop":
            return "No corporation has too many trains."
        if (verb, step) == ("force", "train"):
            return f"{who} needs no help: it has a train, no route, or the money, or no train is on sale."
        if (verb, step) == ("pay", "pay"):
            return f"Nothing was earned: `hold {who}`."
        if verb in ("bid", "pass") and verb in STEPS[step]:
            return f"The private costs nothing now: `buy {who}`."
        return f"{who} is due ({step}): {', '.join(choices([who, step]))}."

    def must_discard(self) -> str:
        most = TRAIN_LIMITS[self.answer("phase")[0]]
        over = [it for it in self.answer("order") if len(self.answer("trains", it)) > most]
        return f"{' and '.join(over)} may have {most} trains. First one is given up: `drop {over[0]} KIND`."

    def reasons(self) -> Iterator[str]:
        """Of the reasons for 22 those that hold, and at last the one that no query tells."""
        verb, actor, name, last, *_ = self.words
        asked, due, price = self.answer("asked"), self.answer("due"), self.answer("price", name)
        if verb == "bid":
            if due[1] == "raise":
                yield f"Only {asked[0]} is bid on now."
            yield f"{name} is the cheapest, which isn't bid on: `buy {actor}`." if asked[0] == name else f"{name} is sold."
        elif verb == "private":
            yield "A corporation can't buy the B&O private." if name == "B&O" else f"No player holds {name}."
        elif verb == "swap":
            yield f"The {name} has no 10% of NYC." if "M&H" in self.answer("privates", actor) else f"{actor} doesn't hold the M&H."
        elif verb == "par":
            yield "The B&O's par is due." if due[1] == "par" else f"The president's certificate of {name} isn't on offer."
        if not price:
            yield f"{name} has no par yet."
        if verb == "buy":
            yield f"The {last} has no 10% of {name}."
        held = int(self.answer("holds", actor, name)[0])
        if last == "0" or held < 10 * int(last):
            yield f"{actor} holds {held}% of {name}, and sells at least 10%."
        yield f"{actor} is president of {name}, and keeps 20% unless another player has 20%."

    def stale(self) -> str:
        if self.words[0] == "open":
            return "A table is opened with the stamp 0." if self.last == "0" else f"There is a table {self.table} already."
        return f"{self.table} has the stamp {self.last}: the line was taken before, or was written at another moment."

    def not_on_sale(self) -> str:
        _, actor, name, seller, *_ = self.words
        return {"private": "Corporations buy privates from the first 3 until the first 5.", "drop": f"{actor} has no train {name}.",
                "trade": f"{actor} hands in a 4, 5 or 6 that it has, once diesels are on sale.",
                "train": f"The {seller} has no train {name}, or it isn't sold yet."}[self.words[0]]


def status_of(name: str, work: Callable[[], int]) -> int:
    """The status of a command's work: 2 if it can't be done, which is said on the standard error."""
    try:
        return work()
    except Refused as why:
        print(f"{name}: {why}: {explain('tables', why.reply, lambda _: [])}", file=sys.stderr)
    except (Ended, Held, KitError, OSError) as why:
        print(f"{name}: {why}", file=sys.stderr)
    return 2


def explain(line: str, reply: Reply, ask: Ask) -> str:
    """A sentence about the refusal of a line. `ask` returns the words of an answer, or raises Refused."""
    if reply.number == 55:
        return misfit(line)
    first, table, *words = f"{line} ".split(" ")
    case = Case(table, [*(words if first.isdigit() else [first, *words]), "", "", "", ""], reply.words[-1], ask)
    if said := SENTENCES.get(reply.number):
        return said(case)
    when = [when for words, when in rows_under("## Refusals") if words.startswith(f"no {reply.number} ")]
    return sentence(when[0]) if when else "See docs/REFERENCE.md."


def sentence(cell: str) -> str:
    """A cell of the document as a sentence: without the targets of its links, and with a full stop."""
    text = re.sub(r"\[([^]]*)\]\([^)]*\)", r"\1", cell)
    return f"{text[0].upper()}{text[1:]}".rstrip(".") + "."


def rows_under(heading: str, document: Path = REFERENCE) -> list[tuple[str, str]]:
    """The rows of the tables under a heading of a document, two cells each, without those whose first cell is empty."""
    section = document.read_text().partition(f"\n{heading}\n")[2]
    rows = re.findall(r"(?m)^\| ([^|]*[^| ]) \| (.*) \|$", re.split(r"(?m)^## ", section)[0])
    return [(first.replace("`", ""), second) for first, second in rows]


def choices(due: list[str]) -> list[str]:
    """The lines that the step takes, by the answer to the query `due`."""
    who, step = due[0], due[-1]
    other_buy = ["buy", "PLAYER"] if step == "stock" else ["buy", "PLAYER", "CORPORATION", "offer|pool"]
    kind = "CORPORATION" if who in CORPORATIONS else "PLAYER"
    fit = [it for it in COMMANDS if it[0] in STEPS[step].split(" ") and it != other_buy]
    return [" ".join([verb, who if actor == kind else actor, *rest]) for verb, actor, *rest in fit]


def misfit(line: str) -> str:
    """Which word of a malformed line can't stand there."""
    words, verb = line.split(" "), 2 if line[:1].isdigit() else 0
    forms = [["STAMP", "TABLE", *it] for it in COMMANDS] if verb else QUERIES
    near = [it for it in forms if it[verb:verb + 1] == words[verb:verb + 1]]
    if not near:
        guess = difflib.get_close_matches("".join(words[verb:verb + 1]).lower(), {it[verb] for it in forms}, 1)
        return f"There is no line `{' '.join(words[:verb + 1])}`." + "".join(f" Is it `{it}`?" for it in guess)
    form = max(near, key=lambda it: (first_misfit(it, words)[0], -abs(len(it) - len(words))))
    place, part = first_misfit(form, words)
    spelled = f"Write `{' '.join(form[verb:])}`."
    if place == len(words):
        return f"A word is missing. {spelled}" if place < len(form) else "Each word may stand there: is a name there twice?"
    word = ascii(words[place])[1:-1]
    if not part:
        return f"`{word}` is a word too many. {spelled}"
    names = [name for spelling, _ in kinds(part) for name in spelling.split("|")]
    guess = "".join(f" Is it `{it}`?" for it in names if it.replace("&", "") == re.sub("[^A-Z0-9]", "", word.upper()))
    return f"`{word}` should be {' or '.join(it for _, it in kinds(part))}.{guess} {spelled}"


def first_misfit(form: list[str], words: list[str]) -> tuple[int, str | None]:
    """The place of the first word that doesn't fit a form, or after the last word; and the part of the form there, if any."""
    parts = form + (form[-1:] * (len(words) - len(form)) if form[-1].endswith("..") else [])
    fit = [any(re.fullmatch(it, word, re.ASCII) for it, _ in kinds(part)) for part, word in zip(parts, words)]
    place = [*fit, False].index(False)
    return place, parts[place] if place < len(parts) else None


def kinds(part: str) -> list[tuple[str, str]]:
    """The spelling and the meaning of each kind of word that may stand for a part of a form."""
    return [WORDS.get(it, (NUMBER, "a number") if it.isupper() else (it, it)) for it in part.removesuffix("..").split("|")]


# The refusals of which more is known than docs/REFERENCE.md says, by their number.
SENTENCES: dict[int | None, Callable[[Case], str]] = {
    1: Case.no_such_name, 2: Case.too_little_cash, 20: Case.not_your_turn, 42: Case.wrong_step, 44: Case.not_on_sale, 46: Case.must_discard, 52: Case.stale,
    21: lambda case: f"The bid must be at least {case.last}.",
    22: lambda case: next(case.reasons()),
    39: lambda case: f"At the first wrong word: {sentence(dict(rows_under('## Runs'))[case.last])}",
    41: lambda case: f"No run was found that is surely best. Declare one: `run {case.words[1]} 2=B3-B5`. `hold` gives it up.",
    53: lambda case: "The turns that can be named are {1} to {0}.".format(*case.answer("turns")),
    68: lambda case: f"The tables are: {', '.join(case.ask('tables')) or 'none yet'}.",
}
