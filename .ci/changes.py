"""Says what changed since the last landing: functions and definitions, and what cites them."""
import collections
import contextlib
import dataclasses
import functools
import os
import re
import subprocess
import sys

import edits
import sources

ROOT = sources.ROOT
LANDINGS = ROOT / ".ci" / "landings"


def git(*words):
    return subprocess.run(["git", *words], check=True, capture_output=True, text=True, cwd=ROOT).stdout


def landings():
    """Returns the commits of .ci/landings, the newest last."""
    found = [it for it in LANDINGS.read_text(encoding="utf-8").splitlines() if it and not it.startswith("#")]
    if not found or not all(re.fullmatch(r"[0-9a-f]{40}", it) for it in found):
        sys.exit(".ci/landings has to have a commit's whole name on each line")
    return found


def has_commit(commit):
    return not subprocess.run(["git", "cat-file", "-e", f"{commit}^{{commit}}"], cwd=ROOT, stderr=subprocess.DEVNULL).returncode


def landed():
    """Returns what landed last, as .ci/landings says, or None if this commit does not stand on it as far as the clone tells. A shallow clone
    asks for it where it came from."""
    commit = landings()[-1]
    if not has_commit(commit) and is_shallow():
        with contextlib.suppress(subprocess.TimeoutExpired):
            how = {"cwd": ROOT, "stdout": subprocess.DEVNULL, "stderr": subprocess.DEVNULL, "stdin": subprocess.DEVNULL, "timeout": 30}
            subprocess.run(["git", "fetch", "--quiet", "--depth=1", "origin", commit], env={**os.environ, "GIT_TERMINAL_PROMPT": "0"}, **how)
    return commit if has_commit(commit) and (is_shallow() or is_below(commit)) else None


def is_below(commit):
    return not subprocess.run(["git", "merge-base", "--is-ancestor", commit, "HEAD"], cwd=ROOT).returncode


def commits_since(commit):
    """Returns how many commits stand on this one, of those that the clone has."""
    return int(git("rev-list", "--count", f"{commit}..HEAD"))


def is_shallow():
    return git("rev-parse", "--is-shallow-repository").strip() == "true"


@dataclasses.dataclass
class Source:
    """A file of src/ or specs/ as it stands or stood: its functions, each with all of its text and its place; what it defines, by name; and the
    words of its code, or of the imports of specs/."""

    functions: list
    definitions: dict
    words: set

    def at(self, place):
        """Returns the function that stands at a place of the file, the innermost, or None."""
        around = [it for it in self.functions if it[1].start <= place < it[1].end]
        return max(around, key=lambda it: it[1].start, default=None)

    def texts(self):
        return {name: it.text for name, it in self.functions}

    def contracts(self):
        return {name.rpartition("::")[2]: " ".join([it.head, *it.clauses]) for name, it in self.functions}


def source(path, text):
    """Reads the text of a file."""
    if path.endswith(".antt"):
        found, imports = sources.definitions(text)
        return Source([], {name: " ".join(it) for name, it in found.items()}, sources.words(" ".join(imports)))
    given = sources.tokens(text)
    items = sources.items_of(given)
    found = {it.name: it.text for it in items if it.kind not in ("use", "ghost use", "impl", "mod", "fn")}
    return Source(sources.functions(items), found, sources.words(sources.line(given)))


class Change:
    """What changed since a commit, or everything if that is None."""

    def __init__(self, since):
        files = [*sorted(ROOT.glob("crates/*/src/**/*.rt")), *sorted(ROOT.glob("crates/*/specs/**/*.antt"))]
        self.sources = {(path := str(it.relative_to(ROOT))): source(path, it.read_text(encoding="utf-8")) for it in files}
        self.is_all, self.since = since is None, since
        self.files = set() if self.is_all else {*git("diff", "--name-only", since, "--", "crates").split("\n")} - {""}
        # the functions that changed, by file and name
        self.functions = set()
        # the names of definitions that changed, and of functions whose clauses did, each with the crates where
        self.defined, self.called = collections.defaultdict(set), collections.defaultdict(set)
        for path in sorted(self.files):
            if re.fullmatch(r"crates/\w+/(src/.*\.rt|specs/.*\.antt)", path):
                self.compare(path)
        self.pass_on()

    def was(self, path):
        """Returns the text that a file had."""
        return subprocess.run(["git", "show", f"{self.since}:{path}"], capture_output=True, cwd=ROOT).stdout.decode(errors="replace")

    @functools.cache
    def parts_of(self, crate):
        """Returns the parts that a crate's file wrong-bodies had, by name."""
        return dict(edits.parts(self.was(f"crates/{crate}/wrong-bodies")))

    def has_changed(self, edit):
        """Returns whether an edit of wrong-bodies has another text than it had."""
        return self.parts_of(edit.crate()).get(edit.name) != edit.text

    def compare(self, path):
        """Notes what changed in a file."""
        old, new = source(path, self.was(path)), self.sources.get(path) or source(path, "")
        self.functions |= {(path, name) for name in differ(old.texts(), new.texts())}
        for table, names in (self.defined, differ(old.definitions, new.definitions)), (self.called, differ(old.contracts(), new.contracts())):
            for name in names:
                table[name].add(crate_of(path))

    def names(self, table, path, words):
        """Returns whether one of these words of a file names something of a table: of its own crate, or of one that the file names."""
        near = {crate_of(path), *self.sources[path].words}
        return any(table[it] & near for it in words & table.keys())

    def cites(self, path, item):
        """Returns whether the clauses of a function cite a definition that changed."""
        return self.names(self.defined, path, sources.words(" ".join(item.clauses)))

    def is_beside(self, path):
        """Returns whether a file changed, or names a definition that did, or a function whose clauses did."""
        words = self.sources[path].words
        return path in self.files or self.names(self.defined, path, words) or self.names(self.called, path, words)

    def pass_on(self):
        """Takes what cites a changed definition as changed, until nothing more does."""
        left = {(path, name): sources.words(text) for path, it in self.sources.items() if path.endswith(".antt") for name, text in it.definitions.items()}
        while found := [it for it, words in left.items() if self.names(self.defined, it[0], words)]:
            for path, name in found:
                self.defined[name].add(crate_of(path))
                del left[path, name]


def differ(old, new):
    """Returns the names of which two tables do not say the same."""
    return {it for it in old.keys() | new.keys() if old.get(it) != new.get(it)}


def crate_of(path):
    return path.split("/")[1]
