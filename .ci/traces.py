"""What a trace has to be by the rules of the Chrome trace event format, and what it has to show: by the journal and by what
explains the script it is told here once more, in another language.
"""
import json
from collections import Counter

import pictures

# The fields that an event of each kind has to have, beside its kind.
NEEDED = {
    "M": {"name", "pid", "args"},
    "X": {"name", "pid", "tid", "ts", "dur", "args"},
    "B": {"name", "pid", "tid", "ts", "args"},
    "E": {"pid", "tid", "ts"},
    "i": {"name", "pid", "tid", "ts", "args"},
    "C": {"name", "pid", "ts", "args"},
    "s": {"name", "cat", "id", "pid", "tid", "ts"},
    "f": {"name", "cat", "id", "pid", "tid", "ts", "bp"},
}
NUMBERS = ("pid", "tid", "ts", "dur", "id")
CPUS, AGENTS, SLOTS, QUEUES = 1, 2, 3, 4
FIRST_CPU, FIRST_SLOT, ACTIVE, ATTACHING, COUNTED = 1, 201, 401, 402, 501


class Track:
    """The slices that go on on a track: the end of each, or None until an event ends it."""

    def __init__(self):
        self.ends = []

    def leave(self, time):
        """Those that ended by a time are over."""
        while self.ends and self.ends[-1] is not None and self.ends[-1] <= time:
            self.ends.pop()

    def hear(self, event):
        """What is wrong with an event of the track, or None."""
        kind, time = event["ph"], event["ts"]
        if kind in "sf":
            return None if any(end is None or end >= time for end in self.ends) else "no slice goes on there"
        if kind == "i":
            return None
        self.leave(time)
        if kind == "X":
            end = time + event["dur"]
            if end < time:
                return "it ends before it begins"
            if self.ends and self.ends[-1] is not None and self.ends[-1] < end:
                return "it overlaps another one"
            self.ends.append(end)
        elif kind == "B":
            self.ends.append(None)
        elif kind == "E":
            if not self.ends or self.ends.pop() is not None:
                return "nothing began that it ends"
        return None


def broken_rules(events):
    """Which rules of the format events break."""
    tracks, flows, last, named, used = {}, {}, 0, set(), set()
    for event in events:
        kind = event.get("ph")
        if kind not in NEEDED:
            yield f"no kind: {event}"
            continue
        missing = NEEDED[kind] - event.keys()
        if missing:
            yield f"no {sorted(missing)[0]}: {event}"
            continue
        if any(not isinstance(event[key], int) or event[key] < 0 for key in NUMBERS if key in event and key != "dur"):
            yield f"no number: {event}"
            continue
        if kind == "M":
            named.add((event["name"], event["pid"], event["tid"] if event["name"] == "thread_name" else None))
            continue
        if event["ts"] < last:
            yield f"before an event that stands in front of it: {event}"
        last = event["ts"]
        used.add(("process_name", event["pid"], None))
        if kind == "C":
            if not all(isinstance(value, int) for value in event["args"].values()):
                yield f"no number is counted: {event}"
            continue
        used.add(("thread_name", event["pid"], event["tid"]))
        wrong = tracks.setdefault((event["pid"], event["tid"]), Track()).hear(event)
        if wrong:
            yield f"{wrong}: {event}"
        if kind == "s" and flows.setdefault(event["id"], event) is not event:
            yield f"it began before: {event}"
        if kind == "f" and flows.pop(event["id"], event)["ph"] != "s":
            yield f"it did not begin: {event}"
    for track, there in tracks.items():
        if None in there.ends:
            yield f"a slice does not end on track {track}"
    for flow in flows.values():
        yield f"it does not end: {flow}"
    for fact in used - named:
        yield f"no {fact[0]} of {fact[1:]}"


def waiting(entries):
    """How many threads may run and are on no CPU, behind each entry that changes it."""
    ready, seats, shown = set(), {}, 0
    for entry in entries:
        tid, what = entry.get("tid"), entry.get("message", entry["kind"])
        if what == "placed":
            seats[tid] = entry["cpu"]
        if what in ("blocked", "preempted", "yielded", "dead") or what == "affinity" and entry["off"]:
            seats.pop(tid, None)
        if what == "woken" or what == "created" and entry["runnable"]:
            ready.add(tid)
        if what in ("blocked", "dead"):
            ready.discard(tid)
        if what == "torn":
            ready, seats = set(), {}
        if len(ready - seats.keys()) != shown:
            shown = len(ready - seats.keys())
            yield entry["entry"], shown


class Wanted:
    """What a trace has to have, as it is found in one by `found`."""

    def __init__(self, script, lines, entries, explained):
        self.history = pictures.History(lines)
        self.notes = pictures.Notes(script, lines, explained)
        self.entries = entries
        self.end = len(lines)
        self.cpus = int(next(line for line in script.split("\n") if line.split()[:1] == ["cpus"]).split()[1])

    def names(self):
        for process, track, name in ((CPUS, None, "CPUs"), (AGENTS, ACTIVE, "agents"), (SLOTS, FIRST_SLOT, "slots"), (QUEUES, COUNTED, "queues")):
            yield "named", "process_name", process, track, ("name", name)
        tracks = [(AGENTS, ACTIVE, "active"), (AGENTS, ATTACHING, "attaching")]
        for cpu in range(self.cpus):
            tracks += (CPUS, FIRST_CPU + cpu, f"CPU {cpu}"), (SLOTS, FIRST_SLOT + cpu, f"slot of CPU {cpu}")
        for process, track, name in tracks:
            yield "named", "thread_name", process, track, ("name", name)
            yield "named", "thread_sort_index", process, track, ("sort_index", track)

    def name(self, tid):
        return self.history.names.get(tid) or f"thread {tid}"

    def line(self, place):
        return self.notes.lines[place]

    def stays(self):
        for cpu, start, end, tid, _ in self.history.stays:
            yield "stay", cpu, start, end, tid, self.name(tid), self.line(start), start

    def holds(self):
        for cpu, start, end in self.history.holds:
            yield "slice", CPUS, FIRST_CPU + cpu, start, end, "other class", (("entry", start), ("line", self.line(start)))

    def agents(self):
        for generation, cpu, start, end in self.history.agents:
            args = {"entry": start, "generation": generation, "line": self.line(start)}
            if cpu is None:
                yield "slice", AGENTS, ATTACHING, start, end, f"generation {generation}", tuple(sorted(args.items()))
            else:
                args["cpu"] = cpu
                yield "slice", AGENTS, ACTIVE, start, end, f"generation {generation} on CPU {cpu}", tuple(sorted(args.items()))

    def turns(self):
        for line, place, count, words in self.notes.pages:
            following = None if words == "the last one" else int(words.split()[-1])
            args = {"entry": place, "line": line, "next": following, "threads": count}
            yield "instant", AGENTS, ATTACHING, place, "page", "t", tuple(sorted(args.items()))
        for place in self.notes.crashes:
            track = next(ATTACHING if cpu is None else ACTIVE for _, cpu, _, end in self.history.agents if end == place)
            yield "instant", AGENTS, track, place, "crash", "t", (("entry", place), ("line", self.line(place)))
        for place in self.history.torn:
            yield "instant", CPUS, FIRST_CPU, place, "torn", "g", (("entry", place), ("line", self.line(place)))

    def slots(self):
        """Stamps, each to its landing or to where its slot was cleared, and landings."""
        number, slots = 0, {}

        def stamped(cpu, end):
            start, name, args = slots.pop(cpu)
            end = min([place for place in self.history.cleared if place >= start] + [end])
            return "slice", SLOTS, FIRST_SLOT + cpu, start, end, name, tuple(sorted(args.items()))

        for line, place, cpu, tid, what, outcome, group in self.notes.marks:
            args = {"entry": place, "line": line, "tid": tid}
            if outcome is None:
                if cpu in slots:
                    yield stamped(cpu, self.end)
                number += 1
                args |= {"transaction": number} | {key: True for key, so in (("preempt", "preempt" in what), ("group", group)) if so}
                slots[cpu] = place, self.name(tid), args
                continue
            args["outcome"] = outcome
            if group is None:
                args |= {"transaction": int(what.split()[1]), "late": True}
            else:
                args["transaction"] = slots[cpu][2]["transaction"]
                begun = slots[cpu][2]
                yield "flow", args["transaction"], AGENTS, ACTIVE, begun["entry"]
                yield "flow", args["transaction"], SLOTS, FIRST_SLOT + cpu, place
                yield stamped(cpu, place)
            yield "instant", SLOTS, FIRST_SLOT + cpu, place, outcome, "t", tuple(sorted(args.items()))
        for cpu in list(slots):
            yield stamped(cpu, self.end)

    def counters(self):
        yield "ring", QUEUES, 0, 0
        for place, used in self.notes.fills:
            yield "ring", QUEUES, place, used
        yield "run queue", QUEUES, 0, 0
        for place, threads in waiting(self.entries):
            yield "run queue", QUEUES, place, threads

    def all(self):
        for part in (self.names, self.stays, self.holds, self.agents, self.turns, self.slots):
            yield from part()


def found(events):
    """All that a trace has but what is counted."""
    begun = {}
    for event in events:
        kind, time = event["ph"], event.get("ts")
        track = event.get("pid"), event.get("tid")
        args = tuple(sorted(event.get("args", {}).items()))
        if kind == "M":
            yield "named", event["name"], *track, *args
        elif kind == "X" and event["pid"] == SLOTS:
            yield "slice", *track, time, time + event["dur"], event["name"], args
        elif kind == "X":
            told = event["args"]
            yield "stay", event["tid"] - FIRST_CPU, time, time + event["dur"], told.get("tid"), event["name"], told.get("line"), told.get("entry")
        elif kind == "B":
            begun.setdefault(track, []).append((time, event["name"], args))
        elif kind == "E":
            start, name, more = begun[track].pop()
            yield "slice", *track, start, time, name, more
        elif kind == "i":
            yield "instant", *track, time, event["name"], event.get("s", "t"), args
        elif kind in "sf":
            yield "flow", event["id"], *track, time


def counted(events, name):
    return [(name, event["pid"], event["ts"], *event["args"].values()) for event in events if event["ph"] == "C" and event["name"] == name]


def differences(trace, script, journal, entries, explained, report):
    """In what a trace is not as the format wants it, or not as the script, its journal, what explains it and the report tell: a few
    of these."""
    try:
        events = json.loads(trace)["traceEvents"]
    except (ValueError, KeyError, TypeError) as fault:
        return [f"the trace cannot be read: {fault!r}"]
    broken = list(broken_rules(events))
    if broken:
        return broken[:6]
    wanted = Wanted(
        script.decode(),
        journal.decode().splitlines(),
        [json.loads(line) for line in entries.splitlines()],
        [json.loads(line) for line in explained.splitlines()],
    )
    shown, told = Counter(found(events)), Counter(wanted.all())
    wrong = [f"shown, and not told of: {piece}" for piece in list(shown - told)[:3]] + [f"not shown: {piece}" for piece in list(told - shown)[:3]]
    counts = list(wanted.counters())
    for name in ("ring", "run queue"):
        if counted(events, name) != [count for count in counts if count[0] == name]:
            wrong.append(f"another {name} is counted")
    counts = json.loads(report)
    outcomes = Counter(event["args"].get("outcome") == "placed" for event in events if event["ph"] == "i" and "outcome" in event["args"])
    if (outcomes[True], outcomes[False]) != (counts["placed"], counts["unplaced"]):
        wrong.append("the report counts other landings")
    return wrong
