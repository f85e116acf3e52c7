"""The wrong bodies: a file each in must-fail/ of a crate, and all others of it one behind another in its file wrong-bodies."""
import dataclasses
import pathlib
import re

import sources

ROOT = sources.ROOT


@dataclasses.dataclass(frozen=True)
class Edit:
    """An edit of a crate, in the form of rt must-fail, and where it stands."""

    folder: pathlib.Path
    name: str
    text: str
    is_kept: bool

    def __str__(self):
        folder = self.folder.relative_to(ROOT) if self.folder.is_relative_to(ROOT) else self.folder
        return f"{folder}/wrong-bodies: {self.name}" if self.is_kept else f"{folder}/must-fail/{self.name}"

    def crate(self):
        return self.folder.name

    def rows(self):
        """Returns its lines, each as a word and what follows it."""
        return [(word, text) for word, _, text in (line.partition(": ") for line in self.text.split("\n"))]

    def path(self):
        """Returns the file that it changes first."""
        return next((self.folder / text for word, text in self.rows() if word == "file"), None)


def parts(text):
    """Returns the parts of a file wrong-bodies, each with its name and text. A part begins with '# ' and its name, and ends with an empty line."""
    _, *found = re.split(r"^# (.*)\n", text, flags=re.MULTILINE)
    return [(f"{name}.edit", text.rstrip("\n") + "\n") for name, text in zip(found[::2], found[1::2])]


def kept(folder):
    """Returns the edits of a crate's file wrong-bodies."""
    file = folder / "wrong-bodies"
    return [Edit(folder, name, text, True) for name, text in parts(file.read_text(encoding="utf-8"))] if file.is_file() else []


def in_must_fail(folder):
    """Returns the edits of a crate's must-fail/, and whatever else stands there."""
    return [Edit(folder, it.name, it.read_text(encoding="utf-8"), False) for it in sorted((folder / "must-fail").glob("*"))]
