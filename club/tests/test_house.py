"""How the sources of the desk are written: each function has annotations, and all of it stays small."""
from __future__ import annotations

import ast
import unittest
from collections.abc import Iterator
from pathlib import Path

ROOT = Path(__file__).resolve().parent.parent.parent
MOST_LINES = 2500


def is_python(file: Path) -> bool:
    """Whether a file is Python: a module, or an executable without an ending whose first line says so."""
    return file.suffix == ".py" or (not file.suffix and file.is_file() and file.read_bytes().split(b"\n")[0].endswith(b"python3"))


def sources() -> list[Path]:
    """The Python files of the desk, in all its folders but that of the tests."""
    files = (it for it in (ROOT / "club").rglob("*") if ROOT / "club/tests" not in it.parents)
    return sorted(filter(is_python, files))


def bare_functions(text: str) -> Iterator[str]:
    """The functions of a text that lack the annotation of an argument or of what they return, each with its line."""
    for function in ast.walk(ast.parse(text)):
        if isinstance(function, (ast.FunctionDef, ast.AsyncFunctionDef)):
            words = function.args
            named = [*words.posonlyargs, *words.args, *words.kwonlyargs, *filter(None, (words.vararg, words.kwarg))]
            if function.returns is None or any(it.annotation is None and it.arg not in ("self", "cls") for it in named):
                yield f"{function.lineno}: {function.name}"


class HouseTest(unittest.TestCase):
    def test_each_function_has_annotations(self) -> None:
        files = [*sources(), *(ROOT / "club/tests").glob("*.py"), ROOT / "examples/mail_bot.py"]
        self.assertIn(ROOT / "club/play", files)
        self.assertIn(ROOT / "club/client.py", files)
        self.assertEqual([f"{file.name}:{it}" for file in files for it in bare_functions(file.read_text())], [])

    def test_a_function_without_annotations_is_found(self) -> None:
        for text in ("def f(a) -> int: pass", "def f(a: int): pass", "class A:\n  def f(self, *a) -> None: pass",
                     "def f() -> None:\n  def g(*, a) -> None: pass", "async def f(**a) -> None: pass", "def f(a, /) -> None: pass"):
            self.assertEqual(len(list(bare_functions(text))), 1, text)
        self.assertEqual(list(bare_functions("class A:\n  def f(self, a: int, *, b: int = 1) -> None: pass")), [])

    def test_the_desk_stays_small(self) -> None:
        """Each line of `sources` counts, comments and empty ones as well; no line of a test does."""
        self.assertIn(ROOT / "club/store_file.py", sources())
        self.assertLessEqual(sum(len(it.read_text().splitlines()) for it in sources()), MOST_LINES)

    def test_nothing_but_the_standard_library_is_imported(self) -> None:
        import sys
        known = {*sys.stdlib_module_names, "club"}
        for file in sources():
            for node in ast.walk(ast.parse(file.read_text())):
                names = [it.name for it in node.names] if isinstance(node, ast.Import) else (
                    [node.module or ""] if isinstance(node, ast.ImportFrom) else [])
                self.assertLessEqual({it.split(".")[0] for it in names}, known, file)


if __name__ == "__main__":
    unittest.main()
