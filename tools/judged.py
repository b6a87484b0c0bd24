"""The rows of docs/measured/judged.md: when each crate's wrong bodies were judged, of which text, and by which kits."""
import collections
import re
import time

FILE = "docs/measured/judged.md"
# A crate's row: the day, the commit, how many edits there were and were refused, the seconds of processor, the names of the kits
# with which this text was judged, and the sum of what the crate said.
Row = collections.namedtuple("Row", "crate date commit edits refused seconds kits said")
LINE = re.compile(r"(?m)^\| `(\w+)` \|(.*)\|\n?")


def rows_in(text):
    """Returns the rows of the document's table, by their crates."""
    found = {}
    for crate, cells in LINE.findall(text):
        words = [it.strip() for it in cells.split("|")]
        if len(words) == len(Row._fields) - 1:
            found[crate] = Row(crate, *words)
    return found


def is_current(row, total, kit):
    """Whether a row was written of what the crate says now, with this kit."""
    return row is not None and row.said == total and kit in row.kits.split()


def line_of(row):
    return f"| `{row.crate}` | {' | '.join(row[1:])} |\n"


def new_row(judged, commit, kit, before):
    """Returns the row of a crate that was judged whole. If the row before is of the same text, its kits stay, and if part of the
    edits were judged earlier, its seconds do: those of the last run that judged all."""
    same = before is not None and before.said == judged.said
    kits = " ".join(sorted({kit, *(before.kits.split() if same else [])}))
    seconds = (before.seconds if before else "") if judged.kept else f"{judged.seconds:.0f}"
    return Row(judged.crate, time.strftime("%Y-%m-%d"), commit, str(judged.edits), str(judged.refused), seconds, kits, judged.said)


def with_rows(text, rows, crates):
    """Returns the document with these rows in the place of those of the same crates, and without rows of crates that are gone."""
    kept = {name: it for name, it in {**rows_in(text), **rows}.items() if name in crates}
    return LINE.sub("", text) + "".join(line_of(kept[name]) for name in sorted(kept))
