"""Reads Rattle sources: the functions of a file, and the places of their bodies."""
import collections
import functools
import re
from pathlib import Path

Function = collections.namedtuple("Function", "file owner name number start end")

# What a comment or a literal says is no code; a lifetime is no literal.
NO_CODE = re.compile(
    r"""//[^\n]*|/\*.*?\*/|b?r(#*)".*?"\1|b?"(?:[^"\\]|\\.)*"|b?'(?:[^'\\\n]|\\[^\n][^'\n]*)'""", re.S
)
CLAUSES = ("requires", "ensures", "ghost", "decreases")
TOKEN = re.compile(rf"\b(?:fn|mod|trait)\s+(\w+)|\bimpl\b|\b(?:{'|'.join(CLAUSES)})\b|[{{}}()\[\];]")


def blanked(text):
    """Returns the text with spaces in the place of comments and literals."""
    return NO_CODE.sub(lambda it: re.sub(r"[^\n]", " ", it.group()), text)


Scope = collections.namedtuple("Scope", "heading start outer")
Awaited = collections.namedtuple("Awaited", "heading nesting is_clause")
NOTHING = Awaited(None, 0, False)


class Reader:
    """Reads a source's tokens, and finds what each brace opens: a body, a clause of a contract, or a block."""

    def __init__(self, file, text):
        self.file, self.text = file, blanked(text)
        self.scopes, self.awaited, self.found = [], NOTHING, []

    def functions(self):
        for token in TOKEN.finditer(self.text):
            self.take(token)
        return self.found

    def take(self, token):
        word, (heading, nesting, _) = token.group(), self.awaited
        if word == "{":
            self.open(token.start())
        elif word == "}":
            self.close(token.end())
        elif word in "()[]":
            self.awaited = self.awaited._replace(nesting=nesting + (1 if word in "([" else -1))
        elif word == ";":
            self.awaited = self.awaited if heading and nesting else NOTHING
        elif word in CLAUSES:
            self.awaited = self.awaited._replace(is_clause=heading is not None and nesting == 0)
        elif heading is None:
            self.awaited = Awaited(token, 0, False)

    def open(self, start):
        is_body = self.awaited.nesting == 0 and not self.awaited.is_clause
        self.scopes.append(Scope(self.awaited.heading if is_body else None, start, self.awaited))
        self.awaited = NOTHING

    def close(self, end):
        if not self.scopes:
            return
        heading, start, outer = self.scopes.pop()
        # Behind a clause the heading goes on.
        self.awaited = NOTHING if heading else outer._replace(is_clause=False)
        if heading and heading.group().startswith("fn"):
            owners = [owner_of(it.heading, self.text[it.heading.end() : it.start]) for it in self.scopes if it.heading]
            owner, name = "::".join(filter(None, owners)), heading.group(1)
            number = sum((it.owner, it.name) == (owner, name) for it in self.found)
            self.found.append(Function(self.file, owner, name, number, start, end))


@functools.lru_cache(maxsize=1024)
def functions_in(file, text):
    """Returns the functions of a source file with the places of their bodies."""
    return Reader(file, text).functions() if re.fullmatch(r"src/.*\.rt", file) else []


def without_bodies(file, text):
    """Returns a source with `{}` in the place of each function's body, and any other text as it is."""
    ends, kept = 0, []
    for it in sorted(functions_in(file, text), key=lambda it: it.start):
        if it.start >= ends:
            kept += [text[ends : it.start], "{}"]
            ends = it.end
    return "".join([*kept, text[ends:]])


def owner_of(heading, words):
    """Returns the name that check lines have for a module, a trait, a function or an impl with these words behind it."""
    if heading.group() != "impl":
        return heading.group(1)
    words = without_parameters(re.split(r"\bwhere\b", words)[0])
    trait, _, of = words.rpartition(" for ")
    return base_name(of) + implemented(trait)


def without_parameters(words):
    """Drops an impl's own parameters, `<'a, T: Drop>`, from its head."""
    words, depth = words.strip(), 0
    if not words.startswith("<"):
        return words
    for at, letter in enumerate(words):
        depth += (letter == "<") - (letter == ">" and words[at - 1] != "-")
        if depth == 0:
            return words[at + 1 :].strip()
    return words


def base_name(words):
    """`Torn` of `a::Torn<'_>`; `U16` of `u16`, `Tuple2` of `(A, B)`, `Array` of `[T; N]`, as the check names them."""
    words = words.strip()
    if words[:1] in ("(", "["):
        return f"Tuple{words.count(',') + 1}" if words[0] == "(" else "Array"
    name = (re.findall(r"\w+", words.partition("<")[0].replace("dyn ", "")) or [""])[-1]
    return name[:1].upper() + name[1:] if re.fullmatch(r"[iu](\d+|size)|bool|char|str", name) else name


def implemented(trait):
    """`FromFault` of `From<Fault>`, `FromRr_diskFault` of `From<rr_disk::Fault>`."""
    _, _, arguments = trait.partition("<")
    names = re.findall(r"\w+", re.sub(r"'\w+", "", arguments.partition("<")[0]))
    return base_name(trait) + "".join(it[:1].upper() + it[1:] for it in names)


def function_at(file, text, start, end):
    """Returns the innermost function in whose body the whole stretch lies, or None."""
    around = [it for it in functions_in(file, text) if it.start < start and end < it.end]
    return min(around, key=lambda it: it.end - it.start, default=None)


def module_of(function):
    """Returns the module of the function's file, as `book::line::` or nothing for the crate's root."""
    modules = Path(function.file).with_suffix("").parts[1:]
    return "".join(f"{it}::" for it in modules if it not in ("lib", "main", "mod"))


def path_of(function):
    """Returns the function's path below the module of its type, or below its own."""
    return f"{function.owner}::{function.name}" if function.owner else function.name


def asked_for(function):
    """Returns what `--only` takes for the function: the end of its name is enough where that is one function's."""
    return path_of(function) if function.owner else module_of(function) + function.name
