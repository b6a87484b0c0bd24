"""Looks at the tables of a file, and shows them: the work of `club/page` and `club/mail`."""
import argparse
import os
import shutil
import tempfile
from collections.abc import Callable, Iterator, Sequence
from contextlib import contextmanager
from dataclasses import replace
from pathlib import Path

from club.books import Books, read_books
from club.client import Program, take_lock
from club.kept import Kept, read_kept, turns_of
from club.refusals import status_of
from club.store_file import Table, written
from club.views import Observer, View

# Files that are only looked at stand in memory, if there is such a folder.
MEMORY = "/dev/shm" if os.path.isdir("/dev/shm") else None


def main(description: str, show: Callable[[View, View | None], str], ending: str) -> int:
    """Prints what is to be shown of each table, or writes it into a folder. Returns the status."""
    parser = argparse.ArgumentParser(description=description, formatter_class=argparse.RawDescriptionHelpFormatter)
    parser.add_argument("tables", metavar="TABLE", nargs="*", help="a table; all if none is named")
    parser.add_argument("--file", type=Path, required=True, help="a store, or a copy of one that club/play has locked; it's copied first")
    parser.add_argument("--since", metavar="STAMP", type=int, help="mark what changed since the table had this stamp")
    parser.add_argument("-o", "--output", metavar="OUT", type=Path, help=f"the folder for TABLE{ending}; else all is printed")
    parser.add_argument("--program", help="`moderate`; else $MODERATE, the one built here, or the one on the PATH")
    options = parser.parse_args()

    def work() -> int:
        for view, before in look(options.file, options.tables, options.since, options.program):
            if options.output:
                options.output.mkdir(parents=True, exist_ok=True)
                (options.output / f"{view.table}{ending}").write_text(show(view, before), encoding="utf-8")
            else:
                print(show(view, before))
        return 0
    return status_of(parser.prog, work)


def look(file: Path, tables: Sequence[str], since: int | None, named: str | None) -> Iterator[tuple[View, View | None]]:
    """Some tables of a file, or all: each as it is, and as it was at an earlier stamp. The file is locked while it's copied."""
    file.open("rb").close()
    with tempfile.TemporaryDirectory(dir=MEMORY) as folder:
        lock = take_lock(file)
        copy = Path(shutil.copy(file, folder))
        os.close(lock)
        program = Program(copy, named)
        try:
            kept = read_kept(copy.read_bytes())
            if strangers := set(tables) - set(kept.tables):
                raise FileNotFoundError(f"{file} has no table {', '.join(sorted(strangers))}")
            for table in tables or kept.tables:
                yield view_of(program, kept, table), None if since is None else view_before(program, kept, table, since)
        finally:
            program.stop()


def view_of(program: Program, kept: Kept, table: str) -> View:
    """A table as it is."""
    return Observer(program, table, kept.kit, turns_of(kept.tables[table]), books_of(program, kept, table)).view()


def books_of(program: Program, kept: Kept, table: str) -> Books:
    """The books of all turns of a table. If it has forgotten some, its commands are played anew for them."""
    if program.ask(f"turns {table}")[1] == "0":
        return read_books(program, table)
    with played_anew(program.words[0], kept, table) as anew:
        return read_books(anew, table)


def view_before(program: Program, kept: Kept, table: str, stamp: int) -> View:
    """A table as it was when it had a stamp, or still earlier if it was taken back or forgot turns since then.

    It has taken as many commands since then as its stamp has risen, so those that it keeps before that many are older.
    """
    commands = kept.tables[table]
    count = max(1, len(commands) - max(0, program.stamp(table) - stamp))
    older = replace(kept, tables={table: commands[:count]})
    with played_anew(program.words[0], older, table) as anew:
        return replace(view_of(anew, older, table), stamp=stamp)


@contextmanager
def played_anew(named: str, kept: Kept, table: str) -> Iterator[Program]:
    """Serves a new file with the commands of a table, which the program plays as it opens."""
    count, bank = len(kept.tables[table]), kept.kit.roster.bank
    with tempfile.TemporaryDirectory(dir=MEMORY) as folder:
        file, anew = Path(folder, "anew"), Table(table, count, 0, kept.tables[table])
        file.write_bytes(written(kept.texts, [anew], count + 1, bank=bank))
        program = Program(file, named)
        try:
            yield program
        finally:
            program.stop()
