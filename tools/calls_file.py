"""The calls that a program makes of its device, as tools/record_calls.c records them in a file."""
import os
import shutil
import struct
import subprocess
from dataclasses import dataclass
from pathlib import Path

WRITE, SYNC, READ, REPLY, OPENING = b"W", b"S", b"G", b"R", b"O"
HEAD = struct.Struct("<c?QQ")


@dataclass
class Call:
    """A call that the program made: its kind, whether it was made to fail, its place and length, and its bytes. The place of an
    opening is 1 where it empties the file, and else 0."""

    kind: bytes
    failed: bool
    at: int
    length: int
    data: bytes


def compiler():
    """A C compiler, or None where none is here."""
    return next(filter(None, map(shutil.which, ("cc", "gcc", "clang"))), None)


def recorder(command, place):
    """The library that records, made in a folder by this compiler."""
    library, source = place / "record.so", Path(__file__).resolve().parent / "record_calls.c"
    subprocess.run([command, "-O1", "-shared", "-fPIC", "-o", library, source, "-ldl"], check=True)
    return library


def recording(library, file, **settings):
    """The environment in which a program's calls are appended to a file; the settings are those of tools/record_calls.c."""
    told = {name: str(value) for name, value in settings.items()}
    return {**os.environ, "LD_PRELOAD": str(library), "CALLS_RECORDED": str(file), **told}


def recorded(data):
    """The calls in these bytes of such a file."""
    at, calls = 0, []
    while at < len(data):
        kind, failed, place, length = HEAD.unpack_from(data, at)
        at += HEAD.size
        body = data[at:at + length] if kind in (WRITE, REPLY) else b""
        at += len(body)
        calls.append(Call(kind, failed, place, length, body))
    return calls
