"""What docs/measured/ says of the time that proofs, tests and the gate take."""
import os
import re
from pathlib import Path

ROOT = Path(__file__).resolve().parent.parent
# The part that the longest chain of proofs takes of all, when large crates get more than one processor.
LONGEST_CHAIN = 0.25
KINDS = ("proof", "tests", "must-fail", "wrong bodies")


def tables():
    """Returns the texts of docs/measured/gate-*.md, the newest last."""
    texts = [it.read_text(encoding="utf-8") for it in sorted(ROOT.glob("docs/measured/gate-*.md"))]
    return sorted(texts, key=lambda text: max(re.findall(r"\d{4}-\d\d-\d\d", text), default=""))


def seconds_by_crate():
    """Returns the processor seconds of each kind of each crate's work in the newest run that was measured."""
    rows = re.findall(r"^\| `(\w+)` \|(.*)\|$", (tables() or [""])[-1], re.M)
    return {name: {kind: float(cell.strip() or 0) for kind, cell in zip(KINDS, cells.split("|"))} for name, cells in rows}


def wall_minutes(file, processors=None):
    """Returns about how many minutes the run that this file tells of takes here, or None if there is no such file."""
    path = ROOT / "docs" / "measured" / file
    found = path.is_file() and re.search(r"on (\d+) processors.*?: ([\d.]+) minutes of wall time", path.read_text(encoding="utf-8"), re.S)
    return float(found[2]) * int(found[1]) / (processors or len(os.sched_getaffinity(0))) if found else None


def gate_minutes():
    """Returns about how many minutes the gate takes here, by the measured run with as many processors or the nearest number."""
    here = len(os.sched_getaffinity(0))
    files = sorted(("gate-2.md", "gate-4.md"), key=lambda it: abs(int(it[5]) - here))
    return next((it for it in map(wall_minutes, files) if it is not None), None)


def build_minutes():
    """Returns about how many minutes all proofs take here, side by side: no less than the longest chain of them."""
    whole = sum(it["proof"] for it in seconds_by_crate().values()) / 60
    return max(whole / len(os.sched_getaffinity(0)), LONGEST_CHAIN * whole)
