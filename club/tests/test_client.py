"""The client and the lock: replies, crashes of the program, and who holds a file."""
from __future__ import annotations

import os
import signal
import subprocess
import sys
import unittest
from pathlib import Path
from unittest import mock

sys.path.insert(0, str(Path(__file__).resolve().parent))
from desk import StoreTest

from club import client
from club.client import Ended, Held, Kind, Program, Refused, Reply, find_program, take_lock


class ReplyTest(unittest.TestCase):
    def test_replies_are_read_and_spelled(self) -> None:
        for text, kind, words, number in (
                ("ok g1 2", Kind.TAKEN, ("g1", "2"), None),
                ("= -", Kind.ANSWER, (), None),
                ("= 2 2 3", Kind.ANSWER, ("2", "2", "3"), None),
                ("= -30", Kind.ANSWER, ("-30",), None),
                ("no 52 stale stamp 2", Kind.REFUSED, ("52", "stale", "stamp", "2"), 52)):
            reply = Reply.read(text)
            self.assertEqual((reply.kind, reply.words, reply.number, str(reply)), (kind, words, number, text))

    def test_something_else_is_no_reply(self) -> None:
        with self.assertRaises(ValueError):
            Reply.read("yes")


class FindTest(StoreTest):
    def executable(self, name: str) -> str:
        file = self.folder / name
        file.parent.mkdir(exist_ok=True)
        file.write_text("#!/bin/sh\n")
        file.chmod(0o755)
        return str(file)

    def test_the_first_that_is_there_is_found(self) -> None:
        named, meant, built, last = (self.executable(it) for it in ("named", "meant", "built", "path/moderate"))
        with mock.patch.dict(os.environ, {"MODERATE": meant, "PATH": str(self.folder / "path")}), \
                mock.patch.object(client, "BUILT", Path(built)):
            self.assertEqual(find_program(named), named)
            self.assertEqual(find_program(), meant)
            del os.environ["MODERATE"]
            self.assertEqual(find_program(), built)
            os.remove(built)
            self.assertEqual(find_program(), last)
            os.remove(last)
            for words in ((), (str(self.folder / "nothing"),)):
                with self.assertRaises(FileNotFoundError):
                    find_program(*words)


class ProgramTest(StoreTest):
    def serve(self) -> Program:
        program = Program(self.store(), self.program)
        self.addCleanup(program.stop)
        return program

    def test_lines_queries_and_stamps(self) -> None:
        program = self.serve()
        self.assertEqual(str(program.line("0 g1 open ann bob")), "ok g1 1")
        self.assertEqual(program.ask("cash g1 ann"), ["1200"])
        self.assertEqual(program.ask("privates g1 ann"), [])
        self.assertEqual([program.stamp(it) for it in ("g1", "g2", "G")], [1, 0, 0])
        with self.assertRaises(Refused) as refused:
            program.ask("cash g1 cat")
        self.assertEqual(refused.exception.reply.number, 1)
        with self.assertRaises(ValueError):
            program.line("1 g1 buy ann\n2 g1 buy bob")
        self.assertEqual(program.stamp("g1"), 1)
        self.assertEqual(program.close(), 0)

    def test_a_file_that_is_refused(self) -> None:
        text = self.folder / "text"
        text.write_text("no store")
        for file, number in ((text, 64), (self.folder / "nothing", 60)):
            with self.assertRaises(Refused) as refused:
                Program(file, self.program)
            self.assertEqual(refused.exception.reply.number, number)

    def test_what_a_crash_leaves_open_the_stamps_answer(self) -> None:
        program = self.serve()
        program.line("0 g1 open ann bob")
        program.line("1 g1 buy ann")
        os.kill(program.serving.pid, signal.SIGKILL)
        for _ in range(2):
            with self.assertRaises(Ended):
                program.line("2 g1 buy bob")
        program.serve()
        self.assertTrue(program.has_taken("1 g1 buy ann", 1))
        self.assertFalse(program.has_taken("2 g1 buy bob", 2), "it was not taken")
        self.assertFalse(program.has_taken("0 g1 open ann bob", 1), "it was stale when it was sent")
        self.assertFalse(program.has_taken("0 g1 open ann bob", 0), "the stamp is two more")
        self.assertFalse(program.has_taken("0 g2 open ann bob", 0))

    def test_a_failed_device_leaves_a_command_open_but_answers_an_opening(self) -> None:
        script = self.folder / "failing"
        script.write_text("#!/bin/sh\nread a; echo '= -'; read a; echo 'no 60 device failed'\n")
        script.chmod(0o755)
        program = Program(self.folder / "store", str(script))
        with self.assertRaisesRegex(Ended, "no 60 device failed"):
            program.line("0 g1 open ann bob")
        program.stop()

    def test_ctrl_c_at_the_terminal_does_not_reach_the_program(self) -> None:
        self.assertNotEqual(os.getpgid(self.serve().serving.pid), os.getpgid(0))


class LockTest(StoreTest):
    def test_one_at_a_time(self) -> None:
        store = self.store()
        (self.folder / "link.store").symlink_to(store)
        lock = take_lock(store)
        self.assertTrue((self.folder / "club.lock").exists())
        for name in (store, self.folder / "link.store"):
            with self.assertRaises(Held):
                take_lock(name, 0.05)
        os.close(take_lock(self.folder / "other.store"))
        os.close(lock)
        os.close(take_lock(store))

    def test_the_lock_that_flock_knows_is_the_same(self) -> None:
        lock = take_lock(self.store())
        words = ["flock", "-n", str(self.folder / "club.lock"), "true"]
        self.assertEqual(subprocess.run(words, check=False).returncode, 1)
        os.close(lock)
        self.assertEqual(subprocess.run(words, check=False).returncode, 0)

    def test_a_killed_client_leaves_the_lock_to_its_program(self) -> None:
        store, script = self.store(), self.folder / "slow"
        script.write_text(f"#!/bin/sh\nread a; touch {self.folder}/served; echo '= -'\n"
                          f"cat >/dev/null; sleep 0.3; touch {self.folder}/ended\n")
        script.chmod(0o755)
        child = os.fork()
        if not child:
            _program = Program(store, str(script), [take_lock(store)])
            os.kill(os.getpid(), signal.SIGKILL)
        os.waitpid(child, 0)
        self.assertTrue((self.folder / "served").exists())
        with self.assertRaises(Held):
            take_lock(store, 0.05)
        os.close(take_lock(store, 20))
        self.assertTrue((self.folder / "ended").exists())


if __name__ == "__main__":
    unittest.main()
