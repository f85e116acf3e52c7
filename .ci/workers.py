"""What the journal of `ghost threads` has to tell. Which worker is served next is free, and all else is not.

`differences` says what a journal tells otherwise. Each worker's threads are created in their order, under rising tids, and each once. The
agent is on CPU 0 from the first entry on, and goes on to CPU 1 at some one place. There are no other entries.
"""
import re

CREATED = re.compile(r"posted created (\d+) seq 1 r mask 3 class 0 name w(\d+)\.(\d+)")
FIRST_AGENT, SECOND_AGENT = "role cpu 0 generation 1", "role cpu 1 generation 2"


def counts_of(words):
    """How many workers there are by the words of a command, and how many threads each creates."""
    return tuple(int(words[words.index(option) + 1]) for option in ("--workers", "--each"))


def places_differ(lines):
    """The first entry that does not say at which place it stands."""
    for place, line in enumerate(lines):
        if not line.startswith(f"{place} "):
            return [f"entry {place} is {line!r}"]
    return []


def creations_differ(entries, workers, each):
    """In what the creations are not those of so many workers, each in its order."""
    turns = [0] * workers
    for tid, entry in enumerate(entries, start=1):
        found = CREATED.fullmatch(entry)
        if not found or int(found[1]) != tid:
            return [f"in place of the creation of thread {tid} there is {entry!r}"]
        worker, turn = int(found[2]), int(found[3])
        if worker >= workers or turn != turns[worker]:
            return [f"thread {tid} has the name of turn {turn} of worker {worker}"]
        turns[worker] += 1
    return [] if turns == [each] * workers else [f"the workers created {turns}"]


def differences(journal, words):
    """In what a journal is not one of workers as these words have them."""
    workers, each = counts_of(words)
    lines = journal.decode(errors="replace").split("\n")
    if lines.pop():
        return ["the journal ends within a line"]
    entries = [line.partition(" ")[2] for line in lines]
    if entries[:1] != [FIRST_AGENT] or entries.count(SECOND_AGENT) != 1:
        return ["the agent does not go on from CPU 0 to CPU 1 once"]
    entries.remove(SECOND_AGENT)
    return places_differ(lines) + creations_differ(entries[1:], workers, each)
