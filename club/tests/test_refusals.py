"""The sentences about refusals: which numbers have one, and what they say of lines of recorded games."""
from __future__ import annotations

import re
import sys
import unittest
from pathlib import Path

sys.path.insert(0, str(Path(__file__).resolve().parent))
from desk import ROOT, StoreTest, recorded

from club.client import Program, Refused, Reply
from club.refusals import COMMANDS, QUERIES, STEPS, choices, explain, misfit, rows_under

# A game that takes long, and two whose last line lacks its LF, which a client always writes.
LEFT_OUT = ("as_many_commands_as_a_table_keeps", "lines_of_every_length", "unended_line")
# Of recorded games lines that are refused, and what is said of them.
SAID = {
    "first_game": {"1 g1 buy a": "g1 has the stamp 2: the line was taken before, or was written at another moment."},
    "a_bankruptcy": {
        "7 w1 pass cyd": "bob is due (raise).",
        "7 w1 bid bob C&A 174": "The bid must be at least 175.",
        "74 w1 raise ann CPR 1": "ann holds 0% of CPR, and sells at least 10%.",
        "74 w1 raise ann C&O 1": "ann is president of C&O, and keeps 20% unless another player has 20%.",
        "74 w1 raise bob CPR 1": "PRR is due (train), but a president is named wrongly.",
        "74 w1 force PRR": "PRR has 146, and its president too little to add what lacks.",
        "74 w1 train PRR 5 bank": "PRR has 146, which is too little."},
    "trains_of_every_kind": {
        "60 kinds lay PRR ZZ 7 0": "The board has no hex ZZ, or the kit no tile 7.",
        "60 kinds done a": "PRR may have 3 trains. First one is given up: `drop PRR KIND`."},
    "filled_city": {
        "81 city best NYC": "CPR and NYC may have 2 trains. First one is given up: `drop CPR KIND`.",
        "84 city run PRR 3=1-2-3-4": "At the first wrong word: The route goes on through a centre where it has to end."},
    "tokens_to_the_dollar": {"49 exact station NYC Q 1": "The board has no hex Q."},
    "tiles_and_trains_by_phase": {"70 t1 drop CPR 2": "CPR has no train 2."},
    "forced_from_the_pool": {"76 pool train CPR 4 bank": "The bank has no train 4, or it isn't sold yet."},
    "diesels_to_the_dollar": {"46 exact trade NYC 3": "NYC hands in a 4, 5 or 6 that it has, once diesels are on sale."},
    "first_train_is_a_five": {"52 five swap b offer": "b doesn't hold the M&H."},
    "shares_and_the_pool": {
        "54 p1 swap d pool": "The pool has no 10% of NYC.",
        "44 p1 sell b PRR 3": "b holds 20% of PRR, and sells at least 10%."},
    "rounds_in_turn": {"8 s1 pass a": "a is due (stock): buy a CORPORATION offer|pool, par a CORPORATION DOLLARS,"
                       " sell a CORPORATION SHARES, swap a offer|pool, done a."},
    "falling_price": {"9 h1 bid a D&H 75": "The private costs nothing now: `buy a`."},
    "best_runs": {"22 g5 pay PRR": "Nothing was earned: `hold PRR`."},
}


# Some refusals of which the document's row is quoted, and the document.
QUOTED = (24, 30, 34, 36, 48)
REFERENCE = (ROOT / "docs/REFERENCE.md").read_text()


class ExplainTest(StoreTest):
    def test_each_refusal_of_the_recorded_games_has_its_sentence(self) -> None:
        seen = set()
        wanted = {name: dict(said) for name, said in SAID.items()}
        for place, game in enumerate(sorted(it for it in (ROOT / "games").iterdir() if it.name not in LEFT_OUT)):
            program = Program(self.store(game, f"{place}.store"), self.program)
            for line, right in recorded(game.name):
                reply = program.line(line)
                self.assertEqual(str(reply), right, f"{game.name}: {line[:80]!r}")
                if reply.number:
                    sentence = explain(line, reply, program.ask)
                    seen.add(reply.number)
                    self.assertRegex(sentence, r"^[\w`].*(\.|\?)$", line)
                    if line in wanted.get(game.name, {}):
                        self.assertEqual(sentence, wanted[game.name].pop(line))
                    elif reply.number in QUOTED:
                        self.assertIn(sentence[1:-1], REFERENCE)
            program.close()
        self.assertEqual([it for it in wanted.values() if it], [], "these lines aren't refused in their games")
        # Those of `format`, a long search, a long table, a file or a disk that fails or is full, and want of memory.
        listed = {int(it.split(" ")[1]) for it in listed_refusals()}
        self.assertLessEqual(listed - seen, {3, 4, 5, 6, 7, 41, 54, 60, 62, 63, 64, 65, 69, 70})

    def test_each_number_of_the_document_has_a_sentence(self) -> None:
        listed = listed_refusals()
        self.assertGreater(len(listed), 50)
        said = {it: explain("1 g1 train PRR 2 bank", Reply.read(it.replace(" N", " 1")), self.ask) for it in listed}
        self.assertEqual(said["no 62 file full"], "The file has no room for this command, and no checkpoint makes any.")
        self.assertNotIn("", said.values())

    def ask(self, query: str) -> list[str]:
        """The answer of a table at which PRR is due to lay a tile and nobody has anything."""
        answers = {"due": "PRR lay", "turns": "9 3", "phase": "2", "order": "PRR", "cash": "5", "asked": "SV 20", "tables": "g1",
                   "trains": "2 2 2 2 2", "holds": "0"}
        if query.split(" ")[0] not in answers:
            raise Refused(Reply.read("no 55 malformed line"))
        return answers[query.split(" ")[0]].split(" ")

    def test_turns_that_can_be_named(self) -> None:
        said = explain("7 g1 back 1", Reply.read("no 53 turn not kept"), self.ask)
        self.assertEqual(said, "The turns that can be named are 3 to 9.")

    def test_a_search_without_a_find(self) -> None:
        self.assertEqual(
            explain("9 g1 best PRR", Reply.read("no 41 no certificate found"), self.ask),
            "No run was found that is surely best. Declare one: `run PRR 2=B3-B5`. `hold` gives it up.")

    def test_a_table_that_is_there_already_and_one_that_lacks(self) -> None:
        for line, reply, said in (
                ("0 g1 open a b", "no 52 stale stamp 4", "There is a table g1 already."),
                ("3 g2 open a b", "no 52 stale stamp 0", "A table is opened with the stamp 0."),
                ("cash g2 a", "no 68 no such table", "The tables are: g1.")):
            self.assertEqual(explain(line, Reply.read(reply), self.ask), said)

    def test_why_something_is_not_for_sale(self) -> None:
        program = Program(self.store(), self.program)
        lines = ["0 g open a b", "buy a", "bid b D&H 75", "bid a D&H 80", "buy b", "pass b", "bid a C&A 165", "bid b B&O 225",
                 "buy a", "par b B&O 67", "done a"]
        said = {
            "bid b SV 100": "SV is sold.", "bid a M&H 115": "M&H is the cheapest, which isn't bid on: `buy a`.",
            "bid b M&H 120": "Only D&H is bid on now.", "par b PRR 67": "The B&O's par is due.",
            "buy a NYC offer": "NYC has no par yet.", "buy a B&O pool": "The pool has no 10% of B&O.",
            "swap a pool": "The pool has no 10% of NYC.", "swap b offer": "b doesn't hold the M&H.",
            "par a B&O 67": "The president's certificate of B&O isn't on offer."}
        for line in lines:
            reply = program.line(line if line[0] == "0" else f"{program.stamp('g')} g {line}")
            self.assertIsNone(reply.number, f"{line}: {reply}")
            for refused in [it for it in said if explain_at(program, it, 22) == said[it]]:
                del said[refused]
        program.close()
        self.assertEqual(said, {})


def listed_refusals() -> list[str]:
    """The refusals that docs/REFERENCE.md lists."""
    return [words for words, _ in rows_under("## Refusals") if words.startswith("no ")]


def explain_at(program: Program, words: str, number: int) -> str:
    """What is said of a line if it is refused with this number; nothing if it isn't. A line that is taken is taken back."""
    line = f"{program.stamp('g')} g {words}"
    turn = program.ask("turns g")[0]
    reply = program.line(line)
    if reply.number is None:
        program.line(f"{program.stamp('g')} g back {turn}")
    return explain(line, reply, program.ask) if reply.number == number else ""


class MisfitTest(unittest.TestCase):
    def test_the_word_that_does_not_fit_is_named(self) -> None:
        player = "should be a player (a small letter, then up to 11 small letters and digits; not bank, offer or pool)."
        corporation = "should be a corporation (PRR, NYC, CPR, B&O, C&O, ERIE, NYNH, B&M)"
        for line, said in (
                ("1 g1 bid bob dh 75", "`dh` should be a private (SV, C&SL, D&H, M&H, C&A, B&O). Is it `D&H`?"
                 " Write `bid PLAYER PRIVATE DOLLARS`."),
                ("1 g1 buy bob prr offer", f"`prr` {corporation}. Is it `PRR`? Write `buy PLAYER CORPORATION offer|pool`."),
                ("1 g1 buy bob PRR bank", "`bank` should be offer or pool. Write `buy PLAYER CORPORATION offer|pool`."),
                ("1 g1 by bob", "There is no line `1 g1 by`. Is it `buy`?"),
                ("1 g1 pass", "A word is missing. Write `pass PLAYER`."),
                ("1 g1 pass bob now", "`now` is a word too many. Write `pass PLAYER`."),
                ("1 g1 back 01", "`01` should be a number. Write `back TURN`."),
                ("1 G1 back 1", "`G1` should be a table (a small letter, then up to 15 small letters and digits)."
                 " Write `back TURN`."),
                ("01 g1 back 1", "`01` should be a number. Write `back TURN`."),
                ("1 g1 lay PRR B 7 6", "`6` should be a number of sixths to turn by (0 to 5)."
                 " Write `lay CORPORATION HEX TILE SIXTHS`."),
                ("1 g1 train PRR 2 offer", "`offer` should be bank or pool. Write `train CORPORATION KIND bank|pool`."),
                ("1 g1 train PRR 2 NYC 10 ann", "A word is missing."
                 " Write `train CORPORATION KIND CORPORATION DOLLARS PLAYER PLAYER`."),
                ("1 g1 run PRR 2=1-2 3=1;2", "`3=1;2` should be a train with its links, as 2=1-2-3, or 2=- for one that stays."
                 " Write `run CORPORATION ROUTE..`."),
                ("1 g1 run PRR 2=01-2", "`2=01-2` should be a train with its links, as 2=1-2-3, or 2=- for one that stays."
                 " Write `run CORPORATION ROUTE..`."),
                ("1 g1 pass bob\r", f"`bob\\r` {player} Write `pass PLAYER`."),
                ("0 g1 open ann bank", f"`bank` {player} Write `open PLAYER PLAYER..`."),
                ("0 g1 open ann", "A word is missing. Write `open PLAYER PLAYER..`."),
                ("0 g1 open ann ann", "Each word may stand there: is a name there twice?"),
                ("1 g1", "There is no line `1 g1`."),
                ("cash g1", "A word is missing. Write `cash TABLE PLAYER|CORPORATION|bank`."),
                ("csh g1 ann", "There is no line `csh`. Is it `cash`?"),
                ("trains g1 ann", f"`ann` {corporation} or pool. Write `trains TABLE CORPORATION|pool`.")):
            self.assertEqual(misfit(line), said)

    def test_the_forms_are_those_of_the_document(self) -> None:
        text = (ROOT / "docs/REFERENCE.md").read_text()
        commands, queries = (re.split(r"\n## ", text.partition(f"\n## {it}\n")[2])[0] for it in ("Commands", "Queries"))
        forms = [it.split(" ") for cell in re.findall(r"(?m)^\| (`.*?) \| ", commands) for it in re.findall("`([^`]+)`", cell)]
        mine = {(it[0], len(it)) for it in COMMANDS if not it[-1].endswith("..") and it[0] != "run"}
        self.assertEqual(mine, {(it[0], len(it)) for it in forms if ".." not in it[-1]})
        self.assertEqual({it[0] for it in COMMANDS}, {it[0] for it in forms})
        examples = re.findall(r"(?m)^\| `([^`]+)` \| ", queries.partition("\n### ")[0])
        self.assertEqual({(it[0], len(it)) for it in QUERIES}, {(it.split(" ")[0], len(it.split(" "))) for it in examples})

    def test_what_a_step_takes(self) -> None:
        self.assertEqual(choices(["ann", "auction"]), ["buy ann", "bid ann PRIVATE DOLLARS", "pass ann"])
        self.assertEqual(choices(["ann", "stock"])[0], "buy ann CORPORATION offer|pool")
        self.assertEqual(choices(["PRR", "pay"]), ["pay PRR", "hold PRR", "private PRR PRIVATE DOLLARS"])
        self.assertIn("raise PLAYER CORPORATION SHARES", choices(["PRR", "train"]))
        self.assertEqual(choices(["over"]), [])
        self.assertLessEqual({verb for verbs in STEPS.values() for verb in verbs.split()}, {it[0] for it in COMMANDS})


if __name__ == "__main__":
    unittest.main()
