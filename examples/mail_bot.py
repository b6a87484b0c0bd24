#!/usr/bin/env python3
"""A mail bot over `moderate`, to copy: it plays each order of a queue once, and a crash at any moment loses and doubles none.

usage: mail_bot.py PROGRAM FILE QUEUE

QUEUE is a folder with these folders:

- orders: mails, each a file, which are played in the order of their names. The subject has the table and the stamp that
  the mail answers; the first line of its text that isn't empty is what to play. Move a mail there when it is whole, under a
  name that no mail had before.
- answers: for each order a mail with the stamp that the table has now, and the reply. Send it, and take it away. A file
  whose name begins with a dot isn't whole yet.
- sent: the bot's own. For the order under way the stamp that its table had before.

An order:                         Its answer:

    From: ann@example.org             Subject: [g1 13]
    Subject: Re: [g1 12]
                                      buy ann PRR offer
    buy ann PRR offer                 ok g1 13

The bot answers what is there, and ends. If it is killed, or `moderate` ends under it, start it again before anybody else plays
on the file: it goes on with the order that was under way. The program believes each line: let `order_of` check whether the
sender may play it.
"""
import fcntl
import os
import re
import subprocess
import sys
import time
from contextlib import suppress
from dataclasses import dataclass
from email import message_from_bytes, policy
from pathlib import Path

SUBJECT = re.compile(r"\[([a-z][a-z0-9]{0,15}) (0|[1-9][0-9]{0,9})\]")
# After this reply the program ends, and may have taken the command: it answers no order.
DEVICE_FAILED = "no 60 "
# The program may go on for a moment after its bot was killed.
LOCK_SECONDS = 20


@dataclass(frozen=True)
class Order:
    """What a mail asks: the table, the stamp that it was written against, and the words to play."""

    table: str
    stamp: int
    words: str


def order_of(mail: bytes) -> Order | None:
    """The order that a mail gives, if its subject has a table and a stamp."""
    message = message_from_bytes(mail, policy=policy.default)
    found = SUBJECT.search(message["Subject"] or "")
    body = message.get_body(("plain",))
    text = body.get_payload(decode=True).decode("ascii", "replace") if body else ""
    lines = [it for it in text.splitlines() if it.strip()]
    return Order(found[1], int(found[2]), " ".join(lines[0].split())) if found and lines else None


def lock(file: Path) -> int:
    """Locks `club.lock` beside `club.store`, and returns what keeps it locked until bot and program have ended."""
    descriptor = os.open(file.resolve().with_suffix(".lock"), os.O_RDWR | os.O_CREAT, 0o666)
    deadline = time.monotonic() + LOCK_SECONDS
    while True:
        try:
            fcntl.flock(descriptor, fcntl.LOCK_EX | fcntl.LOCK_NB)
            return descriptor
        except BlockingIOError:
            if time.monotonic() > deadline:
                sys.exit(f"mail_bot: somebody else serves {file}")
            time.sleep(0.02)


def write_durably(file: Path, text: str) -> None:
    """Writes a file whole or not at all, and returns when it is on the disk with its name."""
    draft = file.with_name(f".{file.name}")
    with draft.open("w", encoding="utf-8") as written:
        written.write(text)
        written.flush()
        os.fsync(written.fileno())
    draft.replace(file)
    sync_folder(file.parent)


def sync_folder(folder: Path) -> None:
    """Returns when the names in a folder are on the disk."""
    descriptor = os.open(folder, os.O_RDONLY)
    os.fsync(descriptor)
    os.close(descriptor)


class Bot:
    """The queue, and a running `moderate serve` that nobody else may serve beside."""

    def __init__(self, program: str, file: Path, queue: Path) -> None:
        self.orders, self.answers, self.sent = (queue / name for name in ("orders", "answers", "sent"))
        self.serving = subprocess.Popen([program, "serve", str(file)], stdin=subprocess.PIPE, stdout=subprocess.PIPE,
                                        encoding="utf-8", pass_fds=[lock(file)])
        first = self.reply_to("tables")
        if not first.startswith("="):
            sys.exit(f"mail_bot: {file} isn't served: {first}")

    def reply_to(self, line: str) -> str:
        """Sends a line, and returns its reply. Ends the bot if there is none that answers it."""
        with suppress(BrokenPipeError):
            self.serving.stdin.write(line + "\n")
            self.serving.stdin.flush()
        reply = self.serving.stdout.readline()
        if not reply.endswith("\n") or reply.startswith(DEVICE_FAILED):
            sys.exit(f"mail_bot: start me again, and look for the cause if this comes again: {reply or 'moderate ended'}")
        return reply[:-1]

    def stamp(self, table: str) -> int:
        """The table's stamp, and 0 if there is no such table."""
        reply = self.reply_to(f"stamp {table}")
        return int(reply[2:]) if reply.startswith("= ") else 0

    def play(self, order: Order, note: Path) -> str:
        """Plays an order, unless it was taken before a crash, and returns the reply."""
        now = self.stamp(order.table)
        if note.exists() and int(note.read_text()) == order.stamp and now == order.stamp + 1:
            return f"ok {order.table} {now}"  # the reply is lost, and with it the revenue of a run
        write_durably(note, str(now))
        return self.reply_to(f"{order.stamp} {order.table} {order.words}")

    def answer(self, mail: bytes, note: Path) -> str:
        """Plays the order in a mail, and returns its answer."""
        order = order_of(mail)
        if not order:
            return "Subject: no order\n\nThe subject has no table and stamp, as [g1 12], or the mail has no text.\n"
        reply = self.play(order, note)
        return f"Subject: [{order.table} {self.stamp(order.table)}]\n\n{order.words}\n{reply}\n"

    def run(self) -> None:
        """Answers all orders in the queue. A note without its order was left after the answer."""
        for folder in (self.orders, self.answers, self.sent):
            folder.mkdir(exist_ok=True)
        sync_folder(self.orders.parent)
        for note in self.sent.iterdir():
            if not (self.orders / note.name).exists():
                note.unlink()
        for order in sorted(it for it in self.orders.iterdir() if not it.name.startswith(".")):
            note, answer = self.sent / order.name, self.answers / order.name
            if not (note.exists() and answer.exists()):
                write_durably(answer, self.answer(order.read_bytes(), note))
            order.unlink()
            sync_folder(self.orders)
            note.unlink(missing_ok=True)
        self.serving.stdin.close()
        self.serving.wait()


if __name__ == "__main__":
    if len(sys.argv) != 4:
        sys.exit(__doc__)
    Bot(sys.argv[1], Path(sys.argv[2]), Path(sys.argv[3])).run()
