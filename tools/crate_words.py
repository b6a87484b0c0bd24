"""What a crate says: the words of its files, in which comments, imports, layout and documents count for nothing."""
import collections
import hashlib
import re
from pathlib import Path

from rattle_source import without_bodies

# The parts of a crate that a check reads.
CHECKED = ("src", "specs", "proofs")
# What is read of a file, by its ending: words and signs one by one, so that layout counts for nothing. What is 'passed'
# counts for nothing either: comments and imports, but not those that stand within a literal.
READ = {
    ".rt": re.compile(
        r"""(?P<passed> //[^\n]* | /\*.*?\*/
                | ^[ \t]* (?: pub (?:\([^)]*\))? \s+ )? (?: (?:ghost\s+)? use\s[^;]* | mod\s+\w+\s* ) ; )
            | b?r(?P<hashes>\#*)".*?"(?P=hashes) | b?"(?:[^"\\]|\\.)*" | b?'(?:[^'\\\n]|\\[^\n][^'\n]*)'
            | \w+ | \S""",
        re.M | re.S | re.X,
    ),
    # An import goes on over the lines that are set in.
    ".antt": re.compile(
        r"""(?P<passed> (?<!\S)--[^\n]*
                | ^ (?:(?:pub|unfoldable)\s+)* (?:use|mod)\s[^\n]* (?:\n[ \t}][^\n]*)* )
            | \S+""",
        re.M | re.X,
    ),
}


def said(file, text):
    """What a file says: its words without comments, imports and layout, a document none, and its whole text where it is neither."""
    if Path(file).suffix == ".md":
        return ()
    form = READ.get(Path(file).suffix)
    return tuple(it.group() for it in form.finditer(text) if it.lastgroup != "passed") if form else (text,)


def stated(file, text):
    """What a file says that another crate can rest on: definitions, and sources without the bodies of their functions."""
    part = part_of(file)
    if part == "specs":
        return said(file, text)
    return said(file, without_bodies(file, text)) if part == "src" else ()


def checked(file, text):
    """What a file says that a check of its crate reads."""
    return said(file, text) if part_of(file) in CHECKED else ()


def part_of(file):
    """The part of a crate in which a file lies, by its path within the crate: `src`, or the file's own name."""
    return Path(file).parts[0]


def sum_of(files, words=said):
    """A sum of what a crate says, of its files' paths within it and their texts. It doesn't tell which file says what."""
    counts = collections.Counter((part_of(file), words(file, text)) for file, text in files)
    return hashlib.sha256(repr(sorted((it, count) for it, count in counts.items() if it[1])).encode()).hexdigest()[:12]
