"""The prompt of an evening: it fills in stamps and tables, logs lines and replies, and explains what is refused."""
import os
import re
import select
import sys
from collections.abc import Sequence
from contextlib import suppress
from pathlib import Path

from club.client import Ended, Program, Refused, Reply
from club.kept import Kept, read_kept, turns_of
from club.layout import Layout, described, hexes_of, links_of, routes_through
from club.looking import view_before, view_of
from club.pages import due_text, html_of, sheet_text
from club.refusals import COMMANDS, QUERIES, explain, rows_under

VERBS = {it[0] for it in COMMANDS}
QUERY_LENGTHS = {it[0]: len(it) for it in QUERIES}
QUOTED = re.compile(r"^[> \t]+| {2,}(?:ok|no|=) .*")  # what a mail puts before a line, and this prompt after it
PASTE_SECONDS = 0.1  # for a terminal to hand over the next line of a paste
SHOWN_LENGTH = 100  # of a line: the proof of a best run goes on for thousands
README = Path(__file__).with_name("README.md")


class Mistake(Exception):
    """Why a line isn't sent, or isn't taken."""


class Evening:
    """An evening at the tables of a file, which nobody else may serve meanwhile.

    The log has rows: the table's stamp, the line that was sent then, and the reply, which lacks if the program ended.
    """

    def __init__(self, file: Path, program: Program) -> None:
        self.file, self.program = file, program
        self.log = file.with_suffix(".log").open("a+", encoding="utf-8", errors="replace")
        self.table = "".join(program.ask("tables")[-1:])
        self.under_way: list[str] = []  # the line that is being taken, until it is known whether it was
        self.rest: list[str] = []
        self.shown: dict[str, tuple[Reply, int]] = {}  # how many turns had ended at a table, and its stamp, as its page was written
        self.own = {"who": self.who, "board": self.board, "links": self.board, "undo": self.undo, "rest": self.send_rest,
                    "table": self.choose, "help": self.help}
        self.settle()

    def note(self, text: str) -> None:
        """Adds to the log, also on the disk."""
        self.log.write(text)
        self.log.flush()
        os.fsync(self.log.fileno())

    def recover(self) -> None:
        """Serves the file again, after the program ended or to end what it does."""
        self.program.stop()
        self.program.serve()
        self.settle()

    def settle(self) -> None:
        """Finds out by the stamps whether a command without a reply was taken, and puts a line that wasn't before the rest.

        A row of the log that breaks off within its line was never sent.
        """
        self.log.seek(0)
        before, *sent = self.log.read().rpartition("\n")[2].split("\t")
        if len(sent) == 2:
            table, is_taken = sent[0].split(" ")[1], self.program.has_taken(sent[0], int(before))
            self.table, self.under_way = (table, []) if is_taken else (self.table, sent[:1])
            self.note(f"ok {table} {int(before) + 1}\n" if is_taken else "not taken\n")
            print(f"There was no reply to `{sent[0][:SHOWN_LENGTH]}`: it was {'' if is_taken else 'not '}taken.")
        elif before:
            self.note("\n")
        self.rest, self.under_way = [*self.under_way, *self.rest], []

    def run(self) -> bool:
        """Takes lines from a terminal until its input ends."""
        print("`help` lists what can be typed.")
        while True:
            try:
                if (text := input(self.prompt())).strip() == "quit":
                    return True
                self.take_all(text.split("\n"))
                if not is_waiting():
                    self.write_pages()
            except EOFError:
                return True
            except (KeyboardInterrupt, Ended):
                print()
                self.recover()

    def prompt(self) -> str:
        """The table with its stamp and who is due, and how many lines of a paste are left."""
        left = f" ({len(self.rest)} left)" if self.rest else ""
        return f"{self.table} {self.ask('stamp')[0]} {' '.join(self.ask('due'))}{left}> " if self.table else "no table yet> "

    def take_all(self, lines: Sequence[str]) -> bool:
        """Takes lines up to the first that is refused, and returns whether all were taken."""
        for place, line in enumerate(lines, 1):
            self.under_way = [line]
            try:
                self.take(QUOTED.sub("", line).split())
            except (Mistake, Refused, Ended, KeyboardInterrupt) as why:
                print(f"  {str(why) or 'Broken off.'}")
                self.rest = [it for it in [*lines[place:], *pasted()] if it.strip()] or self.rest
                if isinstance(why, (Mistake, Refused)):
                    self.under_way = []
                else:
                    self.recover()
                if self.rest:
                    print(f"Lines to send: {len(self.rest)}. Once this is put right, `rest` sends them.")
                return False
            self.under_way = []
        return True

    def take(self, words: list[str]) -> None:
        """Takes one line. Raises Mistake if it is refused."""
        if not words or words[0].startswith("#"):
            return
        if words[0] in self.own:
            return self.own[words[0]](words[1:])
        line = self.filled(words)
        if line[0].isdigit() and line.count(" ") > 1:
            return self.play(line)
        reply = self.program.line(line)
        print(f"{line[:SHOWN_LENGTH]:<30} {reply}")
        if reply.number:
            raise Mistake(explain(line, reply, self.program.ask))

    def filled(self, words: list[str]) -> str:
        """The line to send: with its table, a command with its stamp, and a sheet with the numbers of links."""
        if words == ["best"]:
            words = ["best", self.ask("due")[0]]
        if words[0] in VERBS:
            words = [self.chosen(), *words]
        elif len(words) == QUERY_LENGTHS.get(words[0], 0) - 1:
            words = [words[0], self.chosen(), *words[1:]]
        if len(words) > 1 and words[1] in VERBS and not words[0].isdigit():
            words = [str(self.program.stamp(words[0])), *words]
        if words[2:3] == ["run"]:
            words[4:] = [self.numbered(words[1], it) for it in words[4:]]
        return " ".join(words)

    def numbered(self, table: str, word: str) -> str:
        """A word of a sheet, with the numbers of links for the names of hexes."""
        kind, _, way = word.partition("=")
        hexes = way.upper().split("-")
        if all(it.isdigit() or not it for it in hexes):
            return word
        routes = [f"{kind}={'-'.join(map(str, it))}" for it in routes_through(links_of(self.layout(table)), hexes)]
        if len(routes) == 1:
            return routes[0]
        raise Mistake(f"{way} has several routes; write one of: {', '.join(routes)}." if routes
                      else f"No way leads so from a centre to a centre: see `links {' '.join(hexes)}`.")

    def play(self, command: str) -> None:
        """Sends a command, and shows what comes of it. Raises Mistake if it is refused."""
        _, table, verb, *_ = command.split(" ")
        turns, stamp = self.program.line(f"turns {table}"), self.program.stamp(table)
        self.shown.setdefault(table, (turns, stamp))
        self.note(f"{stamp}\t{command}\t")
        reply = self.program.line(command)
        self.note(f"{reply}\n")
        self.under_way = []
        self.table = self.table if reply.number and turns.number else table  # a paste goes on with it, also if this is refused
        print(f"{command[:SHOWN_LENGTH]:<30} {reply}")
        if reply.number:
            raise Mistake(explain(command, reply, self.program.ask))
        if verb in ("run", "best"):
            self.show_run()

    def write_pages(self) -> None:
        """Writes the pages of the tables at which turns ended, with the changes since their last pages or the evening's start."""
        for table, (turns, stamp) in self.shown.items():
            if (now := self.program.line(f"turns {table}")) != turns:
                self.shown[table] = now, self.program.stamp(table)
                try:
                    views = view_of(self.program, self.kept(), table), view_before(self.program, self.kept(), table, stamp)
                    self.file.with_name(f"{table}.html").write_text(html_of(*views), encoding="utf-8")
                except (Refused, OSError) as why:
                    print(f"  The page of {table} isn't written: {why}")

    def show_run(self) -> None:
        """The routes of the run that was taken last, by the names of their hexes."""
        links = links_of(self.layout(self.table))
        for kind, is_train, way in (it.partition("=") for it in self.kept().tables[self.table][-1].split(" ")):
            if is_train:
                print(f"  train {kind}:", "-".join(hexes_of(links, [int(it) for it in way.split("-")])) if way != "-" else "stays")

    def chosen(self) -> str:
        """The table that is played on."""
        if not self.table:
            raise Mistake("There is no table yet: `g1 open ann bob` opens one.")
        return self.table

    def ask(self, query: str, *words: str) -> list[str]:
        """The answer to a query about the table."""
        return self.program.ask(" ".join((query, self.chosen(), *words)))

    def kept(self) -> Kept:
        """What the file keeps. It is read between two replies, so it is of one moment."""
        return read_kept(self.file.read_bytes())

    def layout(self, table: str) -> Layout:
        return self.kept().layout(table, self.program.ask(f"due {table}")[0])

    def who(self, _: Sequence[str]) -> None:
        """What everybody has, who is due, and the lines that the step takes."""
        view = view_of(self.program, self.kept(), self.chosen())
        print(*(line for it in view.sheets for line in sheet_text(it, it)), *due_text(view), sep="\n")

    def board(self, names: Sequence[str]) -> None:
        """What lies on hexes, and the numbers of the links there with what each one joins."""
        layout, names = self.layout(self.chosen()), [it.upper() for it in names]
        if strangers := set(names) - set(layout.kit.board.hexes):
            raise Mistake(f"The board has no hex {', '.join(sorted(strangers))}.")
        print(*described(layout, names), sep="\n")

    def undo(self, _: Sequence[str]) -> None:
        """Takes back what was played since the last turn ended, or else that turn, if the person says so."""
        target = int(self.ask("turns")[0])
        turns = turns_of(self.kept().tables[self.table])
        going = sum(turns[target + 1:], [])
        if not going:
            going, target = turns[target], target - 1
        if target < 0:
            raise Mistake("Nothing was played yet.")
        print("This goes:", *(it[:SHOWN_LENGTH] for it in going), sep="\n  ")
        if not sys.stdin.isatty() or input("Take it back? [y/n] ").strip() not in ("y", "yes"):
            raise Mistake("Nothing was taken back.")
        self.take(["back", str(target)])

    def help(self, _: Sequence[str]) -> None:
        """What can be typed."""
        for words, what in rows_under("## Play", README)[1:]:
            print(f"  {words:<22} {what.replace('`', '')}")

    def send_rest(self, words: Sequence[str]) -> None:
        """Sends the lines of a paste that are left, or forgets them."""
        lines, self.rest = self.rest, []
        self.take_all(lines if words != ["off"] else [])

    def choose(self, words: Sequence[str]) -> None:
        """Goes on with another table."""
        tables = self.program.ask("tables")
        if len(words) != 1 or words[0] not in tables:
            raise Mistake(f"The tables are: {', '.join(tables) or 'none yet'}.")
        self.table = words[0]


def is_waiting() -> bool:
    """Whether the terminal has more of a paste."""
    return sys.stdin.isatty() and bool(select.select([sys.stdin], [], [], PASTE_SECONDS)[0])


def pasted() -> list[str]:
    """The lines of a paste that the terminal hasn't handed over yet."""
    lines: list[str] = []
    with suppress(EOFError):
        while is_waiting():
            lines += input().split("\n")
    return lines
