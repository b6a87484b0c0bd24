"""Steps of a check: what is run, two or more at a time, what each took, and what failed or was left."""
import subprocess
import threading
import time
from concurrent.futures import ThreadPoolExecutor

# Of a step that failed, so many of its last lines are shown.
LAST_LINES = 40


class Failed(Exception):
    """A step's own words why it failed."""


class Steps:
    """Runs steps, says when each begins and how it ended, and keeps the names of those that failed and of those that were left."""

    def __init__(self, minutes=None):
        self.began, self.printing = time.monotonic(), threading.Lock()
        self.ends = None if minutes is None else self.began + 60 * minutes
        self.passed, self.failed, self.left = 0, [], []

    def minutes(self):
        """Returns how many minutes have gone."""
        return (time.monotonic() - self.began) / 60

    def minutes_left(self):
        """Returns how many minutes are left in which steps may begin, or None if there is no limit."""
        return None if self.ends is None else max(0.0, (self.ends - time.monotonic()) / 60)

    def say(self, text):
        with self.printing:
            print(text, flush=True)

    def run(self, name, call):
        """Runs a step unless the time is over, and returns the text that its call returns, or None if it failed or was left. The call
        raises Failed if the step fails."""
        if self.ends is not None and time.monotonic() >= self.ends:
            self.left.append(name)
            self.say(f"left    {name}: the time is over")
            return None
        self.say(f"begins  {name}")
        began = time.monotonic()
        try:
            found = call()
        except (Failed, OSError) as why:
            self.failed.append(name)
            self.say(f"{why}\nFAILED  {name}: {time.monotonic() - began:.0f} s")
            return None
        self.passed += 1
        self.say(f"ok      {name}: {time.monotonic() - began:.0f} s{f' ({found})' if found else ''}")
        return found

    def side_by_side(self, steps, lanes):
        """Runs steps, pairs of a name and a call, so many at a time, in their order."""
        with ThreadPoolExecutor(max(1, lanes)) as pool:
            for it in [pool.submit(self.run, name, call) for name, call in steps]:
                it.result()


def command(*words, **how):
    """Returns a call that runs a command: it returns the command's last line, or raises Failed with its last lines."""

    def run():
        ran = subprocess.run(
            list(map(str, words)), stdin=subprocess.DEVNULL, stdout=subprocess.PIPE, stderr=subprocess.STDOUT, text=True, errors="replace", **how
        )
        lines = ran.stdout.rstrip("\n").split("\n")
        if ran.returncode:
            raise Failed("\n".join(lines[-LAST_LINES:]))
        return lines[-1]

    return run


def shown(*words, **how):
    """Returns a call that runs a command whose lines are shown as they come, or raises Failed if its status isn't 0."""

    def run():
        ran = subprocess.run(list(map(str, words)), stdin=subprocess.DEVNULL, **how)
        if ran.returncode:
            raise Failed(f"its status is {ran.returncode}")
        return ""

    return run
