#!/usr/bin/env python3
"""A small client of `moderate`: it serves a file, sends commands with the right stamps, and reads each reply.

usage: client.py PROGRAM FILE

FILE is a new store that `moderate format` made. The client opens a table for three players, lets each buy a private
company, and prints what everybody has then, and what the last turn added to the table's book. It shows what a program
that sends lines needs: one line out, one line back; a command sent only with the stamp that its table has; and a
command whose reply was lost, which is neither forgotten nor played twice.
"""
import subprocess
import sys
from contextlib import suppress

STALE_STAMP = 52
NO_SUCH_TABLE = 68


class Refused(Exception):
    """A refused line: the words of the reply after `no`, and the number that begins them."""

    def __init__(self, words):
        super().__init__(words)
        self.number = int(words.split(" ")[0])


class Unclear(Exception):
    """Nobody can say whether a command was taken: its table has been played on by others, or a copy was put back."""


class Moderator:
    """A running `moderate serve`, and for each table the stamp that it had when this client last looked or played."""

    def __init__(self, program, file):
        self.command = [program, "serve", file]
        self.stamps = {}
        self.start()

    def start(self):
        """Serves the file. If that is refused, the refusal is the only reply, and `tables` meets it."""
        self.serving = subprocess.Popen(self.command, stdin=subprocess.PIPE, stdout=subprocess.PIPE, text=True)
        self.ask("tables")

    def line(self, words):
        """Sends one line and returns its reply, which comes before the next line need be sent.

        Words with a line feed would be two lines with two replies: they are a ValueError, and nothing is sent. An
        EOFError means that the program has ended, and that the line may have been taken.
        """
        if "\n" in words:
            raise ValueError(f"more than one line: {words!r}")
        with suppress(BrokenPipeError):  # it has ended; why may still be there to read
            self.serving.stdin.write(words + "\n")
            self.serving.stdin.flush()
        reply = self.serving.stdout.readline()
        if not reply.endswith("\n"):
            raise EOFError("moderate has ended: serve the file again, and ask for the table's stamp")
        return reply.rstrip("\n")

    def ask(self, query):
        """Returns the words of the answer to a query, none for `-`."""
        kind, _, answer = self.line(query).partition(" ")
        if kind != "=":
            raise Refused(answer)
        return [] if answer == "-" else answer.split(" ")

    def book(self, table, turn):
        """The entries that the commands of a turn added to the table's book, each as a list of words."""
        words = " ".join(self.ask(f"book {table} {turn}"))
        return [entry.split(" ") for entry in words.split(" ; ")] if words else []

    def stamp(self, table):
        """Returns the table's stamp, 0 if there is no such table: an `open` bears that one."""
        try:
            return int(self.ask(f"stamp {table}")[0])
        except Refused as refusal:
            if refusal.number != NO_SUCH_TABLE:
                raise
            return 0

    def play(self, table, words):
        """Plays a command. Returns the words after the new stamp: the revenue of a `run`, and the sheet of a `best`.

        It is meant for the table as this client knows it. If the table has another stamp, something was played that
        the client didn't see: nothing is sent, and the command is refused as stale. The stamp is noted, so look at
        the table, and play the command again if it still holds. So a line that is sent always bears its table's stamp,
        on which `play_again` rests.
        """
        now = self.stamp(table)
        if self.stamps.setdefault(table, now) != now:
            self.stamps[table] = now
            raise Refused(f"{STALE_STAMP} stale stamp {now}")
        kind, _, answer = self.line(f"{now} {table} {words}").partition(" ")
        if kind != "ok":
            raise Refused(answer)
        _, stamp, *more = answer.split(" ")
        self.stamps[table] = int(stamp)
        return more

    def play_again(self, table, words, stamp):
        """Plays a command if it wasn't taken when `play` met an EOFError or a 60, which left that open.

        The file is served again first. `stamp` is the table's stamp from right before the command was played. A program
        that may be killed asks for it, writes table, stamp and words to the disk, and only then plays; when it is started
        anew and finds no reply beside them, it calls this.

        The command was taken if the table has exactly one more now; the words of its reply are lost then. It wasn't if
        the table has the same stamp. Any other stamp is Unclear, and nothing is played.
        """
        self.close()
        self.start()
        now = self.stamps[table] = self.stamp(table)
        if now == stamp:
            return self.play(table, words)
        if now != stamp + 1:
            raise Unclear(f"{table} has the stamp {now}, and had {stamp}: {words}")
        return []

    def close(self):
        """Ends the program, and returns its status."""
        with suppress(BrokenPipeError):
            self.serving.stdin.close()
        self.serving.stdout.close()
        return self.serving.wait()


def main(program, file):
    moderator = Moderator(program, file)
    players = ["ann", "bob", "cat"]
    moderator.play("t1", "open " + " ".join(players))
    for player in players:
        stamp = moderator.stamp("t1")
        try:
            moderator.play("t1", f"buy {player}")
        except EOFError:
            moderator.play_again("t1", f"buy {player}", stamp)
    try:
        moderator.play("t1", "buy bob")
    except Refused as refusal:
        print(f"bob must wait: {refusal}")
    for player in players:
        print(player, *moderator.ask(f"cash t1 {player}"), *moderator.ask(f"privates t1 {player}"))
    print("due:", *moderator.ask("due t1"))
    turns, _ = moderator.ask("turns t1")
    print(f"turn {turns}:")
    for entry in moderator.book("t1", turns):
        print(" ", *entry)
    return moderator.close()


if __name__ == "__main__":
    sys.exit(main(*sys.argv[1:]))
