"""The prompt of an evening, at a pseudo-terminal, from a pipe, and under crashes of the program and of itself."""
from __future__ import annotations

import contextlib
import io
import os
import random
import re
import subprocess
import sys
import threading
import time
import unittest
from pathlib import Path
from unittest import mock

sys.path.insert(0, str(Path(__file__).resolve().parent))
from desk import ROOT, SECONDS, StoreTest, Terminal, recorded

from club.client import Ended, Program, Reply, take_lock
from club.layout import hexes_of, links_of
from club.evening import Evening, Mistake
from club.kept import read_kept

sys.path.append(str(ROOT / "tools"))
import long_records

PLAY = str(ROOT / "club/play")
LARGE = "operating_rounds_of_four"
# Two players buy the privates, one floats the PRR, and it gets a train and ends its turn: the evening of docs/PLAYING.md.
DIVIDEND = """\
0 g4 open a b
1 g4 buy a
2 g4 buy b
3 g4 buy a
4 g4 buy b
5 g4 buy a
6 g4 buy b
7 g4 par b B&O 67
8 g4 par a PRR 67
9 g4 done a
10 g4 done b
11 g4 buy a PRR offer
12 g4 done a
13 g4 done b
14 g4 buy a PRR offer
15 g4 done a
16 g4 done b
17 g4 buy a PRR offer
18 g4 done a
19 g4 done b
20 g4 done a
21 g4 hold PRR
22 g4 train PRR 2 bank
23 g4 end PRR
24 g4 done b
25 g4 done a
"""
# A program that ends under a line: before it is taken, or after, so that its reply is lost. It does so once.
FRAIL = """\
#!{python}
import subprocess, sys
from pathlib import Path
spent = Path({spent!r})
serving = subprocess.Popen([{program!r}, *sys.argv[1:]], stdin=subprocess.PIPE, stdout=subprocess.PIPE, text=True)
for line in sys.stdin:
    if not spent.exists() and {before!r} in line:
        spent.touch()
        serving.kill()
        sys.exit(9)
    serving.stdin.write(line)
    serving.stdin.flush()
    reply = serving.stdout.readline()
    if not spent.exists() and {after!r} in line:
        spent.touch()
        serving.kill()
        sys.exit(9)
    print(reply, end="", flush=True)
"""


class EveningTest(StoreTest):
    def kept(self, store: Path, table: str) -> list[str]:
        return read_kept(store.read_bytes()).tables[table]

    def log(self, store: Path) -> list[list[str]]:
        return [it.split("\t") for it in store.with_suffix(".log").read_text().splitlines()]

    def play(self, store: Path, text: str, program: str | None = None) -> subprocess.CompletedProcess:
        """Plays lines that don't come from a terminal."""
        words = [PLAY, str(store), "--program", program or self.program]
        return subprocess.run(words, input=text, text=True, capture_output=True, check=False)


class PipeTest(EveningTest):
    def frail(self, before: str = "never", after: str = "never") -> str:
        script = self.folder / "frail"
        spent = str(self.folder / "spent")
        script.write_text(FRAIL.format(python=sys.executable, spent=spent, program=self.program, before=before, after=after))
        script.chmod(0o755)
        return str(script)

    def test_an_evening_with_stamps_is_played_and_logged(self) -> None:
        store = self.store()
        played = self.play(store, DIVIDEND)
        self.assertEqual((played.returncode, played.stderr), (0, ""))
        self.assertEqual(played.stdout.splitlines()[1], "1 g4 buy a                     ok g4 2")
        rows = self.log(store)
        self.assertEqual([it[1] for it in rows], DIVIDEND.splitlines())
        self.assertEqual(rows[-1], ["25", "25 g4 done a", "ok g4 26"])
        # Once more: it was all taken, and the first line says so.
        again = self.play(store, DIVIDEND)
        self.assertEqual(again.returncode, 1)
        self.assertIn("There is a table g4 already.", again.stdout)
        self.assertIn("Lines to send: 25.", again.stdout)

    def test_an_evening_without_stamps_as_a_mail_quotes_it(self) -> None:
        store = self.store()
        lines = [it.split(" ", 2)[2] for it in DIVIDEND.splitlines()]
        text = "".join(f"> {it}  \r\n" for it in ["# an evening", "", f"g4 {lines[0]}", *lines[1:]])
        self.assertEqual(self.play(store, text).returncode, 0)
        self.assertEqual(self.kept(store, "g4"), lines)

    def test_an_evening_with_the_replies_that_a_prompt_showed(self) -> None:
        first, second = self.store(name="first.store"), self.store(name="second.store")
        shown = self.play(first, DIVIDEND).stdout
        self.assertEqual(self.play(second, f"{shown}cash g4 a   = 653\n").returncode, 0)
        self.assertEqual(self.kept(second, "g4"), self.kept(first, "g4"))

    def test_a_page_for_each_table_of_an_evening(self) -> None:
        store = self.store()
        self.assertEqual(self.play(store, "g1 open ann bob\nbuy ann\ng2 open cat dan\nbuy cat\n").returncode, 0)
        self.assertEqual(sorted(it.name for it in self.folder.glob("*.html")), ["g1.html", "g2.html"])
        self.assertIn("<h2>bob is due: auction</h2>", (self.folder / "g1.html").read_text())

    def test_the_first_refusal_stops_an_evening(self) -> None:
        store = self.store()
        played = self.play(store, "g1 open ann bob\nbuy ann\nbuy ann\nbuy bob\npass ann\n")
        self.assertEqual(played.returncode, 1)
        self.assertIn("2 g1 buy ann                   no 20 not your turn\n  bob is due (auction).\n", played.stdout)
        self.assertIn("Lines to send: 2.", played.stdout)
        self.assertEqual(self.kept(store, "g1"), ["open ann bob", "buy ann"])

    def test_a_line_whose_reply_is_lost_is_not_sent_again(self) -> None:
        store = self.store()
        played = self.play(store, "g1 open ann bob\nbuy ann\nbuy bob\n", self.frail(after="buy ann"))
        self.assertIn("There was no reply to `1 g1 buy ann`: it was taken.\nLines to send: 1.", played.stdout)
        self.assertEqual(self.kept(store, "g1"), ["open ann bob", "buy ann"])
        self.assertEqual(self.log(store)[-1], ["1", "1 g1 buy ann", "ok g1 2"])

    def test_a_line_that_was_not_taken_is_among_the_rest(self) -> None:
        store = self.store()
        played = self.play(store, "g1 open ann bob\nbuy ann\nbuy bob\n", self.frail(before="buy ann"))
        self.assertIn("There was no reply to `1 g1 buy ann`: it was not taken.\nLines to send: 2.", played.stdout)
        self.assertEqual(self.kept(store, "g1"), ["open ann bob"])
        self.assertEqual(self.log(store)[-1], ["1", "1 g1 buy ann", "not taken"])

    def test_a_stale_line_is_never_said_to_be_taken(self) -> None:
        store = self.store()
        self.play(store, "g1 open ann bob\n")
        played = self.play(store, "0 g1 open ann bob\n", self.frail(before="open"))
        self.assertIn("it was not taken", played.stdout)

    def test_what_a_killed_prompt_left_is_settled(self) -> None:
        store = self.store()
        self.play(store, "g1 open ann bob\nbuy ann\n")
        for line, what in (("1 g1 buy ann", "taken"), ("2 g1 buy bob", "not taken")):
            with store.with_suffix(".log").open("a") as log:
                log.write(f"{line[0]}\t{line}\t")
            self.assertIn(f"There was no reply to `{line}`: it was {what}.", self.play(store, "").stdout)
        with store.with_suffix(".log").open("a") as log:
            log.write("2\t2 g1 bu")  # it broke off before it was sent
        self.assertEqual(self.play(store, "buy bob\n").returncode, 0)
        self.assertEqual([it[-1] for it in self.log(store)], ["ok g1 1", "ok g1 2", "ok g1 2", "not taken", "2 g1 bu", "ok g1 3"])

    def test_the_longest_line(self) -> None:
        store = self.store()
        self.play(store, "g1 open a b\n")
        longest = "1 g1 run PRR best " + 2665 * "s1000000000 " + "x1"
        self.assertEqual(len(longest), 32_000)
        shown = self.play(store, longest + "\n").stdout
        self.assertIn(" no 42 wrong step\n  a is due (auction): ", shown)
        shown = self.play(store, longest + "0\n").stdout
        self.assertIn(" no 67 line too long\n", shown)
        self.assertIn("  The line has more than 32,000 bytes.\n", shown)

    def test_what_asks_a_person_does_nothing_without_one(self) -> None:
        store = self.store()
        played = self.play(store, "g1 open a b\nbuy a\nundo\nbuy b\n")
        self.assertIn("This goes:\n  buy a\n  Nothing was taken back.\nLines to send: 1.", played.stdout)
        self.assertEqual(self.play(store, "buy \xff\n").returncode, 1)
        self.assertEqual(self.kept(store, "g1"), ["open a b", "buy a"])

    def test_files_that_cannot_be_served(self) -> None:
        store = self.store()
        lock = take_lock(store)
        for file, said in ((store, "is in use"), (self.folder / "nothing", "No such file")):
            played = self.play(file, "")
            self.assertEqual((played.returncode, played.stdout), (2, ""))
            self.assertIn(said, played.stderr)
        os.close(lock)
        (self.folder / "text").write_text("no store")
        self.assertIn("no 64 not a store: ", self.play(self.folder / "text", "").stderr)

    def test_a_recorded_evening_without_stamps(self) -> None:
        store = self.store(ROOT / "games" / LARGE)
        taken = [line.split(" ", 2)[1:] for line, reply in recorded(LARGE) if reply.startswith("ok ")]
        self.assertEqual({table for table, _ in taken}, {"h0"})
        played = self.play(store, "".join(f"{words}\n" for _, words in [["", f"h0 {taken[0][1]}"], *taken[1:]]))
        self.assertEqual(played.returncode, 0, played.stdout[-300:])
        self.assertEqual([it.split(" ")[0].replace("run", "best") for it in self.kept(store, "h0")],
                         [words.split(" ")[0].replace("run", "best") for _, words in taken])


class TerminalTest(EveningTest):
    def begin(self, store: Path, kind: str = "dumb", program: str | None = None) -> Terminal:
        terminal = Terminal([PLAY, str(store), "--program", program or self.program], kind)
        self.addCleanup(terminal.kill)
        terminal.wait_for("> $")
        return terminal

    def say(self, terminal: Terminal, line: str, until: str = "> $") -> str:
        """Types a line, and returns what is written up to the next prompt."""
        terminal.type(line + "\r")
        return terminal.wait_for(until)

    def test_an_evening_by_hand(self) -> None:
        store = self.store()
        terminal = self.begin(store)
        self.assertIn("There is no table yet", self.say(terminal, "buy ann"))
        self.assertIn("0 g1 open ann bob              ok g1 1\ng1 1 ann auction> ", self.say(terminal, "g1 open ann bob"))
        self.assertIn("1 g1 buy ann                   ok g1 2\ng1 2 bob auction> ", self.say(terminal, "buy ann"))
        self.assertIn("<h2>bob is due: auction</h2>", store.with_name("g1.html").read_text())
        self.assertIn("bob is due (auction).", self.say(terminal, "buy ann"))
        self.assertIn("Is it `D&H`?", self.say(terminal, "bid bob dh 75"))
        self.assertIn("The bid must be at least 75.", self.say(terminal, "bid bob D&H 70"))
        self.assertIn("2 g1 bid bob D&H 75            ok g1 3", self.say(terminal, "  bid  bob D&H 75 "))
        self.assertIn("cash g1 ann                    = 1180", self.say(terminal, "cash ann"))
        who = self.say(terminal, "who")
        self.assertRegex(who, r"(?m)^ann +\$1180 +\$1200 +1 of 28 +SV$")
        self.assertRegex(who, r"(?m)^D&H +\$70 +\$15 +offering +bob \$75$")
        self.assertIn("2 turns have ended. It's phase 2. The bank has $9620, and owes $0.\nann is due: auction.\n  buy ann\n  bid ann", who)
        self.assertIn("The turns that can be named are 0 to 2.", self.say(terminal, "back 3"))
        self.assertIn("The tables are: g1.", self.say(terminal, "table g2"))
        self.assertIn("g2 1 cat auction> ", self.say(terminal, "g2 open cat dan"))
        self.assertIn("g1 3 ann auction> ", self.say(terminal, "table g1"))
        self.assertIn("who                    what everybody has, who is due, and what can be played\n", self.say(terminal, "help"))
        self.assertIn("is in use", subprocess.run([PLAY, store], input="", text=True, capture_output=True, check=False).stderr)
        terminal.type("quit\r")
        self.assertEqual(terminal.end(), 0)
        self.assertEqual(self.kept(store, "g1"), ["open ann bob", "buy ann", "bid bob D&H 75"])

    def test_undo_shows_what_goes_and_asks(self) -> None:
        store = self.store()
        self.play(store, "g1 open a b")
        terminal = self.begin(store)
        self.assertIn("Nothing was played yet.", self.say(terminal, "undo"))
        terminal.type("\r".join(it.split(" ", 2)[2] for it in DIVIDEND.splitlines()[1:9]) + "\r")
        terminal.wait_for("g1 9 a stock> $")
        # `par a PRR 67` stands within a's turn, so it alone goes first, and then the turn that ended with the B&O's par.
        for answer, gone in (("n", ["par a PRR 67"]), ("y", ["par a PRR 67"]), ("y", ["buy b", "par b B&O 67"])):
            asked = self.say(terminal, "undo", r"\[y/n\] $")
            self.assertIn("This goes:\n" + "".join(f"  {it}\n" for it in gone) + "Take it back? [y/n] ", asked)
            self.say(terminal, answer)
        self.assertEqual(self.kept(store, "g1"), [it.split(" ", 2)[2] for it in ["0 g1 open a b", *DIVIDEND.splitlines()[1:6]]])
        self.say(terminal, "buy b")
        self.assertIn("This goes:\n  buy b\nTake it back?", self.say(terminal, "undo", r"\[y/n\] $"))  # its par is due
        self.assertIn("12 g1 back 5                   ok g1 13", self.say(terminal, "y"))

    def test_routes_by_the_names_of_hexes(self) -> None:
        store = self.store()
        self.play(store, DIVIDEND)
        terminal = self.begin(store)
        self.assertIn("A     grey              1: B-city 1, PRR on city 1\n", self.say(terminal, "links A"))
        self.assertIn("C     grey              3: B-town 1, 4: D-town 1\n", self.say(terminal, "board"))
        self.assertIn("No way leads so from a centre to a centre: see `links A D`.", self.say(terminal, "run PRR 2=a-d"))
        self.assertIn("The board has no hex Z.", self.say(terminal, "links z a"))
        said = self.say(terminal, "run PRR 2=C-B-A")
        self.assertIn("26 g4 run PRR 2=1-2-3          ok g4 27 30\n  train 2: A-B-C\ng4 27 PRR pay> ", said)
        self.say(terminal, "back 18")
        self.assertIn("28 g4 best PRR                 ok g4 29 30 2=1-2-3\n  train 2: A-B-C\n", self.say(terminal, "best"))
        self.say(terminal, "back 18")
        self.assertIn("  train 2: stays\n", self.say(terminal, "run PRR 2=-"))

    def test_a_paste_stops_and_the_rest_is_sent_later(self) -> None:
        lines = [it.split(" ", 2)[2] for it in DIVIDEND.splitlines()[1:]]
        pasted = [*lines[:4], "buy c", *lines[5:]]  # one name is wrong
        for kind, begin, end in (("dumb", "", ""), ("xterm", "", ""), ("xterm", "\x1b[200~", "\x1b[201~")):
            store = self.store(name=f"{kind}{len(begin)}.store")
            terminal = self.begin(store, kind)
            self.say(terminal, "g4 open a b")
            terminal.type(begin + "\r".join(pasted) + end + "\r")
            said = terminal.wait_for(r"\(\d+ left\)> $")
            self.assertIn("Nobody at the table is called c.", said)
            self.assertIn(f"Lines to send: {len(lines) - 5}.", said)
            self.assertIn("ok g4 6\n", self.say(terminal, lines[4]))
            self.assertIn("no 55 malformed line", self.say(terminal, "bye", rf"\({len(lines) - 5} left\)> $"))
            self.say(terminal, "rest", rf"g4 {len(lines) + 1} PRR lay> $")
            self.assertEqual(self.kept(store, "g4"), ["open a b", *lines], kind)
            terminal.type(begin + "buy c\rbuy a" + end + "\r")
            terminal.wait_for(r"\(1 left\)> $")
            self.assertIn("PRR lay> ", self.say(terminal, "rest off", "lay> $"))

    def test_ctrl_c_breaks_a_search_off(self) -> None:
        store, spent = self.store(), self.folder / "spent"
        slow = self.folder / "slow"
        slow.write_text(f"#!/bin/sh\nif [ -e {spent} ]; then exec {self.program} \"$@\"; fi\n"
                        "while read line; do case $line in stamp*) echo '= 1';; due*) echo '= PRR run';; turns*) echo '= 0 0';;"
                        f" *best*) touch {spent}; exec sleep 60;; *) echo '= g1';; esac; done\n")
        slow.chmod(0o755)
        words = [PLAY, store, "--program", self.program]
        subprocess.run(words, input="g1 open a b\n", text=True, stdout=subprocess.DEVNULL, check=True)
        terminal = self.begin(store, program=str(slow))
        terminal.type("best\r")
        terminal.wait_for("best")
        deadline = time.monotonic() + SECONDS
        while not spent.exists():
            self.assertLess(time.monotonic(), deadline)
            time.sleep(0.01)
        terminal.type("\x03")
        self.assertIn("There was no reply to `1 g1 best PRR`: it was not taken.\nLines to send: 1.", terminal.wait_for("> $"))


class InsideTest(EveningTest):
    def evening(self, store: Path) -> Evening:
        with contextlib.redirect_stdout(io.StringIO()):
            made = Evening(store, Program(store, self.program))
        self.addCleanup(lambda: (made.program.stop(), made.log.close()))
        return made

    def test_recorded_runs_by_the_names_of_their_hexes(self) -> None:
        made = self.evening(self.store(ROOT / "games" / LARGE))
        found = several = 0
        for line, reply in recorded(LARGE):
            words = line.split(" ")
            if reply.startswith("ok ") and words[2] == "run":
                links = links_of(made.layout("h0"))
                for word in [it for it in words[4:] if "=" in it and "-" in it[3:]]:
                    kind, _, way = word.partition("=")
                    names = "-".join(hexes_of(links, [int(it) for it in way.split("-")]))
                    try:
                        self.assertEqual(made.numbered("h0", f"{kind}={names}"), word)
                        found += 1
                    except Mistake as why:
                        self.assertIn(f" {word}", str(why).replace(",", ""))
                        several += 1
            made.program.line(line)
        self.assertGreater(found, 50)
        self.assertLess(several, found / 5)

    def test_records_of_one_slot_to_eight(self) -> None:
        """Runs with proof trees of up to 4,096 words are taken, logged whole, and shown in short."""
        board = (ROOT / "kit/board.txt").read_text() + long_records.board()
        (self.folder / "board.txt").write_text(board)
        store = self.store(self.folder)
        made, runs = self.evening(store), [long_records.run_of(slots) for slots in range(1, 9)]
        self.assertEqual(len(runs[-1].partition(" best ")[2].split(" ")), 4096)
        back = f"back {long_records.TURNS}"
        first, *others = long_records.beginning()
        again = [words for run in runs for words in (run, back)][:-1]
        with contextlib.redirect_stdout(io.StringIO()) as shown:
            self.assertTrue(made.take_all([f"g5 {first}", *others, *again]))
            self.assertFalse(made.take_all(["undo"]))
        self.assertEqual(self.kept(store, "g5")[-1], runs[-1])
        self.assertEqual([it[1].split(" ", 2)[2] for it in self.log(store)][-15::2], runs)
        self.assertIn(f"This goes:\n  {runs[-1][:100]}\n", shown.getvalue())

    def test_an_evening_goes_on_however_often_the_program_is_killed(self) -> None:
        store = self.store(ROOT / "games" / LARGE)
        made = self.evening(store)
        random.seed(85)
        taken = [line.split(" ", 2)[1:] for line, reply in recorded(LARGE) if reply.startswith("ok ")]
        made.rest = [f"h0 {taken[0][1]}", *(words for _, words in taken[1:])]

        def line(words: str) -> Reply:
            """Kills the program under some commands: before it reads the line, about when it takes it, or before its reply is read."""
            fate = random.random() if words[0].isdigit() else 1
            if fate < 0.1:
                made.program.serving.kill()
            elif fate < 0.2:
                threading.Timer(random.uniform(0, 0.0005), made.program.serving.kill).start()
            reply = Program.line(made.program, words)
            if 0.2 < fate < 0.3:
                made.program.stop()
                raise Ended("killed")
            return reply

        with contextlib.redirect_stdout(io.StringIO()) as said, mock.patch.object(made.program, "line", line):
            while made.rest:
                made.send_rest([])
        for what in ("was taken.", "was not taken."):
            self.assertGreater(said.getvalue().count(what), 20, what)
        refused = [it for it in said.getvalue().splitlines() if " no " in it and not it.startswith("There was no reply")]
        self.assertEqual(refused[:1], [])
        self.assertEqual([it.split(" ")[0].replace("run", "best") for it in self.kept(store, "h0")],
                         [words.split(" ")[0].replace("run", "best") for _, words in taken])

    def test_a_paste_goes_on_with_the_table_that_it_named(self) -> None:
        store = self.store()
        made = self.evening(store)
        with contextlib.redirect_stdout(io.StringIO()) as said:
            made.take_all(["g1 open a b", "g2 open a b", "nosuch buy a"])
            self.assertEqual((made.table, made.rest), ("g2", []))
            made.take_all(["g1 buy b", "buy a"])
            made.send_rest([])
        self.assertIn("1 g1 buy a                     ok g1 2\n", said.getvalue())

    def test_the_page_is_written_after_each_turn(self) -> None:
        """Each page has the changes since the stamp of the page before. `forget` ends no turn."""
        store = self.store()
        made, page = self.evening(store), store.with_name("g1.html")
        lines = ("g1 open a b", "buy a", "buy b", "cash a", "buy x", "buy a", "back 0", "forget 0")
        for line, since in zip(lines, (0, 1, 2, None, None, 3, 4, None)):
            page.unlink(missing_ok=True)
            with contextlib.redirect_stdout(io.StringIO()):
                made.take_all([line])
                made.write_pages()
            shown = re.findall("Changes since the stamp ([0-9]+) are marked", page.read_text()) if page.exists() else []
            self.assertEqual(shown, [] if since is None else [str(since)], line)

    def test_an_evening_goes_on_without_its_page(self) -> None:
        store = self.store()
        made = self.evening(store)
        store.with_name("g1.html").mkdir()
        with contextlib.redirect_stdout(io.StringIO()) as said:
            made.take_all(["g1 open a b"])
            made.write_pages()
        self.assertIn("The page of g1 isn't written: [Errno 21]", said.getvalue())


if __name__ == "__main__":
    unittest.main()
