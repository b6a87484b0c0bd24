"""The kit's own `rt` as a module that remembers what it works out again and again: same words, same verdicts.

The kit lists what lies below a crate once for each way down to it, and sums sources anew for each question. Here each
crate is listed once, and a crate's own files are summed again only when one of them has changed. Everything is kept in
this process alone.
"""
import functools
import hashlib
import importlib.machinery
import importlib.util
import inspect
import os
import sys
import time

HERE = os.path.dirname(os.path.realpath(__file__))
# The sum of the text of the kit's functions that are replaced here, and of the one that they share, by the kit.
KNOWN = {
    "38f0ae622bb47bcb536f7c0d580d67c4035aa1245c68a930d77e809dcb0d2d46": "rattle-kit-13b",
    "81d0859b3b0bc1e42d0f8c0b7c9dcb27e97f8fd08632b4e1ac0f0eeb2b32cffa": "rattle-kit-13f",
}
# A file that changed so lately could change once more within one tick of its clock.
YOUNG = 1_000_000_000


class Unknown(Exception):
    """The kit's rt isn't one that this file knows."""


def find():
    """Returns the path of the kit's rt: the first on the PATH that isn't the one beside this file."""
    for folder in os.get_exec_path():
        path = os.path.realpath(os.path.join(folder, "rt"))
        if os.path.isfile(path) and os.access(path, os.X_OK) and os.path.dirname(path) != HERE:
            return path
    sys.exit("tools/rt: the command rt of the Rattle kit is not on the PATH")


def name():
    """Returns the kit's short name, as `13b` of rattle-kit-13b."""
    with open(os.path.join(os.path.dirname(os.path.dirname(find())), "KIT-ID"), encoding="utf-8") as it:
        return it.read().split()[0].removeprefix("rattle-kit-")


def read(path):
    """Returns the kit's rt as a module, as it is."""
    loader = importlib.machinery.SourceFileLoader("rt_of_the_kit", path)
    kit = importlib.util.module_from_spec(importlib.util.spec_from_loader(loader.name, loader))
    loader.exec_module(kit)
    return kit


def load(path):
    """Returns the kit's rt as a module that remembers, or raises Unknown."""
    try:
        kit = read(path)
        crate = kit.rtlib.Crate
        # (a kit that remembers sums within a call has the function that makes them as its default)
        made = crate.stamp.__defaults__ or ()
        text = "".join(map(inspect.getsource, (crate.below, crate.stamp, *made, kit.rtlib.files_of)))
        inherits = kit.Crate.below is crate.below and kit.Crate.stamp is crate.stamp
    except (Exception, SystemExit) as why:
        raise Unknown(f"it can't be read ({why!r})") from why
    total = hashlib.sha256(text.encode()).hexdigest()
    if total not in KNOWN or not inherits:
        raise Unknown(f"it lists and sums crates in another way ({total})")
    kit.own = {"below": crate.below, "stamp": crate.stamp}
    crate.below, crate.stamp = remembered(kit.rtlib)
    return kit


def library():
    """Returns the kit's rtlib. It remembers, unless RT is set, so that the kit is to go as it is, or isn't known here."""
    path = find()
    try:
        return (read if os.environ.get("RT") else load)(path).rtlib
    except Unknown:
        return read(path).rtlib


def remembered(rtlib):
    """Returns `Crate.below` and `Crate.stamp` as methods that remember."""
    own_sum = OwnSums(rtlib)

    @functools.lru_cache(maxsize=None)
    def listed(crate):
        # (in the order in which the kit finds them)
        return tuple(dict.fromkeys(it for dep in crate.deps for it in [*listed(dep), dep]))

    def stamp(crate, found):
        if crate not in found:
            total = own_sum(crate)
            total.update(repr([stamp(dep, found) for dep in crate.deps]).encode())
            found[crate] = total.hexdigest()
        return found[crate]

    return lambda crate: [*listed(crate)], lambda crate: stamp(crate, {})


class OwnSums:
    """The sum of a crate's own files and of what its line of crates.txt says, begun as the kit begins its stamp."""

    def __init__(self, rtlib):
        self.rtlib, self.kept = rtlib, {}

    def __call__(self, crate):
        head = repr((crate.said, crate.has_c)).encode()
        state, newest = self.state(crate.folder)
        kept = self.kept.get((crate.folder, head))
        if kept and kept[0] == state:
            return kept[1].copy()
        total = self.read(crate.folder, head)
        # What is written while it is read, or just before, is summed and not kept.
        if newest < time.time_ns() - YOUNG and self.state(crate.folder)[0] == state:
            self.kept[crate.folder, head] = state, total.copy()
        return total

    def files(self, folder):
        return [f"{self.rtlib.KIT}/WHAT", *self.rtlib.files_of(folder)]

    def state(self, folder):
        """Returns what changes with the files, and the time of the last change."""
        found = [(file, os.stat(file)) for file in self.files(folder)]
        state = [(file, it.st_size, it.st_mtime_ns, it.st_ctime_ns, it.st_ino) for file, it in found]
        return state, max(it.st_ctime_ns for _, it in found)

    def read(self, folder, head):
        what, *files = self.files(folder)
        total = hashlib.sha256(head)
        with open(what, "rb") as it:
            total.update(it.read())
        for file in files:
            with open(file, "rb") as it:
                total.update(repr((file.replace(folder, ""), it.read())).encode())
        return total
