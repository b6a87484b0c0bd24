"""What a repository's last commit says, and what changed since the commit that landed last. Only what is committed is looked at."""
import collections
import functools
import io
import re
import subprocess

from crate_words import said, sum_of

# The file that holds the whole name of the commit that landed last. The first commit of a piece of work writes it.
LANDED = ".ci/landed"
# If nothing tells what landed last, this many commits count as new.
LAST_COMMITS = 3
# How far back it is looked for a landing at which a crate was judged.
MOST_LANDINGS = 40
TEST = re.compile(r"#\[test\]")


class Repository:
    """A repository's commits, and the crates of the last one."""

    def __init__(self, folder):
        self.folder = folder

    def git(self, *words, given=None):
        """Returns what git prints, and nothing if it fails."""
        ran = subprocess.run(["git", *words], cwd=self.folder, input=given, capture_output=True)
        return ran.stdout if ran.returncode == 0 else b""

    def lines(self, *words):
        return self.git(*words).decode().splitlines()

    def name(self, *words):
        return self.git(*words).decode().strip()

    def texts(self, blobs):
        """Returns the texts that git keeps under these names."""
        found, out = {}, io.BytesIO(self.git("cat-file", "--batch", given="\n".join(blobs).encode()))
        for head in out:
            words = head.decode().split()
            if len(words) == 3:
                found[words[0]] = out.read(int(words[2]) + 1)[:-1].decode(errors="surrogateescape")
        return found

    def is_below_the_last(self, commit):
        """Whether the last commit stands on this one, and isn't this one."""
        base = self.name("merge-base", commit, "HEAD") if commit else ""
        return bool(base) and base == self.name("rev-parse", commit) != self.name("rev-parse", "HEAD")

    @functools.cached_property
    def landed(self):
        """The commit that landed last: the merge base with the remote's main if there is such a branch. A fresh clone has its own
        last commit there, which says nothing; then the commit that .ci/landed names counts, and without one the commit before
        the last three. None if there is only one commit."""
        remote = next(iter(self.lines("for-each-ref", "--format=%(refname)", "refs/remotes/*/main")), "")
        base = self.name("merge-base", remote, "HEAD") if remote else ""
        for commit in (base, self.name("show", f"HEAD:{LANDED}")):
            if self.is_below_the_last(commit):
                return commit
        count = int(self.name("rev-list", "--count", "--first-parent", "HEAD"))
        return f"HEAD~{min(LAST_COMMITS, count - 1)}" if count > 1 else None

    @functools.cached_property
    def landings(self):
        """The commits that have landed, the last one first, as .ci/landed named them one after another."""
        commits = self.lines("log", "--first-parent", "--format=%H", "HEAD", "--", LANDED)
        named = [self.name("show", f"{it}:{LANDED}") for it in commits[:MOST_LANDINGS]]
        return [it for it in dict.fromkeys(named) if self.is_below_the_last(it)]

    @functools.cached_property
    def turn(self):
        """A number that is one more with each landing."""
        return len(self.lines("log", "--first-parent", "--format=%H", "HEAD", "--", LANDED))

    @functools.cached_property
    def needs(self):
        """What each crate names in crates.txt, of the repository's own crates."""
        lines = [it.partition("#")[0].partition(":") for it in self.lines("show", "HEAD:crates.txt")]
        found = {name.split()[0]: words.split() for name, _, words in lines if name.strip()}
        return {name: [it for it in words if it in found] for name, words in found.items()}

    def above(self, crates):
        """Returns those crates, and all that stand on one of them."""
        found, grew = set(crates), True
        while grew:
            more = {name for name, words in self.needs.items() if found & set(words)} - found
            found, grew = found | more, bool(more)
        return found

    def crates(self, commit="HEAD", only=()):
        """Returns the files of each crate in a commit, as pairs of a path within the crate and a text."""
        rows = [it.split(maxsplit=3) for it in self.lines("ls-tree", "-r", commit, "--", *([f"crates/{it}/" for it in only] or ["crates/"]))]
        texts, files = self.texts({blob for _, _, blob, _ in rows}), collections.defaultdict(list)
        for _, _, blob, path in rows:
            _, crate, file = path.split("/", 2)
            files[crate].append((file, texts[blob]))
        return files

    @functools.cached_property
    def files(self):
        """The files of each crate in the last commit."""
        return self.crates()

    def changed(self, words=said):
        """Returns the crates that say something else than when the last commit landed, of what these words take of a file.
        A crate whose line of crates.txt says something else has changed too."""
        if self.landed is None:
            return set(self.files)
        diff = ("diff", "--raw", "--no-abbrev", "--no-renames", self.landed, "HEAD", "--", "crates")
        files = [it.split(maxsplit=5) for it in self.lines(*diff)]
        texts = self.texts({blob for _, _, old, new, _, _ in files for blob in (old, new)})
        balance = collections.Counter()
        for _, _, old, new, _, path in files:
            crate, _, file = path.partition("/")[2].partition("/")
            for blob, sign in ((old, -1), (new, 1)):
                if blob in texts and file:
                    balance[crate, file.partition("/")[0], words(file, texts[blob])] += sign
        return {crate for (crate, _, found), count in balance.items() if count and found} | self.listed_otherwise()

    def listed_otherwise(self):
        """Returns the crates whose line of crates.txt isn't what it was."""
        old, new = ({tuple(it.partition("#")[0].split()) for it in self.lines("show", f"{commit}:crates.txt")} for commit in (self.landed, "HEAD"))
        return {words[0].rstrip(":") for words in new - old if words}

    def with_tests(self):
        """Returns the crates that have tests."""
        return {crate for crate, files in self.files.items() if any(file.startswith("src/") and TEST.search(text) for file, text in files)}

    def with_folder(self, folder):
        """Returns the crates that have files in this folder."""
        return {crate for crate, files in self.files.items() if any(file.startswith(f"{folder}/") for file, _ in files)}

    def edits(self, crate, folder="wrong-bodies"):
        """Returns how many edits a crate has in this folder."""
        return sum(file.startswith(f"{folder}/") and file.endswith(".edit") for file, _ in self.files[crate])

    def sum(self, crate):
        """Returns the sum of what a crate says in the last commit."""
        return sum_of(self.files[crate])

    def landings_since(self, crate, total):
        """Returns at how many landings, the last one first, the crate said something else than this sum."""
        count = 0
        for commit in self.landings:
            files = self.crates(commit, [crate])[crate]
            if not files or sum_of(files) == total:
                return count
            count += 1
        return count
