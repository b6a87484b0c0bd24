"""The mail bot of examples/: whenever bot or program is killed, each order is played once, and answered as a recorded game says."""
from __future__ import annotations

import os
import random
import re
import signal
import subprocess
import sys
import time
import traceback
import types
import unittest
from collections.abc import Sequence
from dataclasses import dataclass
from enum import Enum
from pathlib import Path

sys.path.insert(0, str(Path(__file__).resolve().parent))
from desk import ROOT, StoreTest, recorded

from club.kept import read_kept

SOURCE = ROOT / "examples/mail_bot.py"
GAME = "operating_rounds_of_four"
COMMAND = re.compile(r"(0|[1-9][0-9]{0,9}) ([a-z][a-z0-9]{0,15}) (\S+(?: \S+)*)")
# Mistakes that a bot could make: texts of the bot, and those in their place.
MISTAKES = {
    "it forgets what it sent": [("if note.exists() and int", "if False and int")],
    "it takes another's stamp for its own": [("int(note.read_text()) == order.stamp and ", "")],
    "it sends the stamp of now": [('f"{order.stamp} {order.table} ', 'f"{now} {order.table} ')],
    "it takes the order away before it is played": [
        ("                write_durably(answer", "                mail = order.read_bytes()\n                order.unlink()\n"
         "                write_durably(answer"), ("self.answer(order.read_bytes()", "self.answer(mail"),
        ("            order.unlink()\n            sync", "            order.unlink(missing_ok=True)\n            sync")],
}

# How often it is tried again to kill a program that hasn't been started yet.
TICK = 0.002


class Victim(Enum):
    BOT = "bot"
    PROGRAM = "program"


@dataclass(frozen=True)
class Moment:
    """When somebody is killed: before a line that the bot runs, counted from its start, or after some seconds."""

    victim: Victim
    lines: int = 0
    seconds: float = 0.0


@dataclass(frozen=True)
class Order:
    """A mail, its line, and the reply that is right."""

    name: str
    line: str
    reply: str

    def mail(self) -> str:
        stamp, table, words = self.line.split(" ", 2)
        return f"From: {table}@example.org\nSubject: Re: [{table} {stamp}] your turn\n\n\n{words}\n> quoted\n"


def orders_of(game: str, count: int, step: int) -> list[Order]:
    """The first commands of a recorded game. Each of every `step` comes twice, and is stale then if it was taken."""
    orders: list[Order] = []
    for place, (line, reply) in enumerate([it for it in recorded(game) if COMMAND.fullmatch(it[0])][:count]):
        orders.append(Order(f"{len(orders):04}", line, reply))
        if place % step == 0:
            again = f"no 52 stale stamp {reply.split(' ')[2]}" if reply.startswith("ok ") else reply
            orders.append(Order(f"{len(orders):04}", line, again))
    return orders


def bot_of(source: str) -> types.ModuleType:
    """The bot that a text spells."""
    module = types.ModuleType("mail_bot")
    sys.modules["mail_bot"] = module
    exec(compile(source, str(SOURCE), "exec"), module.__dict__)
    return module


class Desk:
    """A store with a queue of mails, and a bot that answers them until somebody is killed."""

    def __init__(self, program: str, store: Path, bot: types.ModuleType, orders: Sequence[Order]) -> None:
        self.words, self.bot, self.orders = [program, store, store.with_name("queue")], bot, orders
        (self.words[2] / "orders").mkdir(parents=True)
        for order in orders:
            (self.words[2] / "orders" / order.name).write_text(order.mail())

    def left(self) -> int:
        return len(list((self.words[2] / "orders").iterdir()))

    def run(self, moment: Moment | None = None) -> bool:
        """Runs the bot in a process of its own, and returns whether it got to the end of its queue."""
        child = os.fork()
        if not child:
            self.run_here(moment)
        if moment and moment.victim is Victim.BOT and moment.seconds:
            time.sleep(moment.seconds)
            os.kill(child, signal.SIGKILL)
        return os.waitpid(child, 0)[1] == 0

    def run_here(self, moment: Moment | None) -> None:
        """Runs the bot, and ends the process with the status 0 if it got to its end."""
        try:
            os.dup2(os.open(os.devnull, os.O_WRONLY), 2)
            if moment:
                self.prepare(moment)
            self.bot.Bot(*self.words).run()
            os._exit(0)
        except SystemExit:
            os._exit(1)
        except BaseException:
            (self.words[2] / "failure").write_text(traceback.format_exc())
            os._exit(2)

    def prepare(self, moment: Moment) -> None:
        """Sees to it that the victim is killed at the moment."""
        programs: list[subprocess.Popen] = []

        class Recorded(subprocess.Popen):
            def __init__(self, *words: object, **options: object) -> None:
                super().__init__(*words, **options)
                programs.append(self)

        self.bot.subprocess = types.SimpleNamespace(Popen=Recorded, PIPE=subprocess.PIPE)
        count = 0

        def strike(*_: object) -> None:
            for victim in [os.getpid()] if moment.victim is Victim.BOT else [it.pid for it in programs]:
                os.kill(victim, signal.SIGKILL)

        def trace(frame: types.FrameType, event: str, _: object) -> object:
            nonlocal count
            if frame.f_code.co_filename != str(SOURCE) or frame.f_code.co_name == "<genexpr>":
                return None
            count += event == "line"
            if event == "line" and count == moment.lines:
                with (self.words[2] / "struck").open("a") as struck:
                    print(moment.victim.value, frame.f_code.co_name, frame.f_lineno, file=struck)
                strike()
            return trace

        if moment.lines:
            sys.settrace(trace)
        elif moment.victim is Victim.PROGRAM:
            signal.signal(signal.SIGALRM, strike)
            signal.setitimer(signal.ITIMER_REAL, moment.seconds, TICK)

    def wrong_answers(self) -> list[str]:
        """The orders whose answer isn't the right one. What was taken as the program ended may lack what follows the stamp."""
        wrong = []
        for order in self.orders:
            file = self.words[2] / "answers" / order.name
            *_, words, reply = file.read_text().splitlines() if file.exists() else ["", "no answer"]
            short = " ".join(order.reply.split(" ")[:3]) if order.reply.startswith("ok ") else order.reply
            if reply not in (order.reply, short) or words != order.line.split(" ", 2)[2]:
                wrong.append(f"{order.name}: {order.line} is answered {reply}, not {order.reply}")
        return wrong


class MailBotTest(StoreTest):
    def desk(self, source: str, orders: Sequence[Order]) -> Desk:
        """A new store with a queue and a bot."""
        place = self.folder / str(len(list(self.folder.iterdir())))
        place.mkdir()
        return Desk(self.program, self.store(ROOT / "games" / GAME, f"{place.name}/club.store"), bot_of(source), orders)

    def test_whoever_is_killed_each_order_is_played_once(self) -> None:
        orders = orders_of(GAME, 600, 4)
        desk = self.desk(SOURCE.read_text(), orders)
        random.seed(1830)
        moments = [Moment(Victim.BOT, lines=it) for it in range(1, 121)]
        moments += [Moment(Victim.PROGRAM, lines=it) for it in range(40, 110)]
        moments += [Moment(victim, seconds=random.uniform(0.001, 0.02)) for victim in Victim for _ in range(20)]
        random.shuffle(moments)
        killed = sum(not desk.run(it) for it in moments)
        self.assertGreaterEqual(killed, 200)
        self.assertGreater(desk.left(), 0, "some were killed when nothing was left to do")
        struck = {tuple(it.split(" ")[:2]) for it in (desk.words[2] / "struck").read_text().splitlines()}
        for name in ("lock", "write_durably", "sync_folder", "__init__", "reply_to", "play", "answer", "run"):
            self.assertIn((Victim.BOT.value, name), struck, "nobody was killed there")
        self.assertTrue(desk.run(), "the bot fails although nobody is killed")
        self.assertEqual((desk.left(), desk.wrong_answers()), (0, []))
        self.assertFalse((desk.words[2] / "failure").exists(), "the bot raised an exception")
        accepted = [order.line.split(" ", 2)[2] for order in orders if order.reply.startswith("ok ")]
        kept = read_kept(desk.words[1].read_bytes()).tables["h0"]
        self.assertEqual(len(kept), len(accepted))
        for mine, right in zip(kept, accepted):  # `best` is kept as the run that was found
            self.assertTrue(mine == right or mine.startswith(right.replace("best", "run") + " "), (mine, right))

    def test_a_mistaken_bot_is_found_out(self) -> None:
        orders = orders_of(GAME, 60, 1)
        for what, edits in MISTAKES.items():
            source = SOURCE.read_text()
            for old, new in edits:
                self.assertEqual(source.count(old), 1, old)
                source = source.replace(old, new)
            desk = self.desk(source, orders)
            for lines in range(60, 121):
                desk.run(Moment(Victim.BOT, lines=lines))
            self.assertTrue(desk.run(), what)
            self.assertTrue(desk.wrong_answers(), what)

    def test_a_mail_without_table_and_stamp_is_answered_so(self) -> None:
        desk = self.desk(SOURCE.read_text(), [])
        mails = {"a": "Subject: hello\n\nbuy ann\n", "b": "Subject: [g1 0]\n\n", "c": "Subject: [g1 0]\n\nopen ann bob\n"}
        for name, mail in mails.items():
            (desk.words[2] / "orders" / name).write_text(mail)
        self.assertTrue(desk.run())
        answers = [(desk.words[2] / "answers" / name).read_text() for name in mails]
        self.assertEqual(answers[0], answers[1])
        self.assertTrue(answers[0].startswith("Subject: no order\n"))
        self.assertEqual(answers[2], "Subject: [g1 1]\n\nopen ann bob\nok g1 1\n")


if __name__ == "__main__":
    unittest.main()
