"""What the tables of a script have to show, by its journal and by the lines that explaining it names: they are made here once more, in
another language.

`differences` compares all that `ghost timehist` or `ghost latency` writes with that, line by line.
"""
import collections
import json
import math
import re

OFF = {"blocked": "blocked", "preempted": "preempted", "yielded": "yielded", "dead": "died", "affinity": "affinity"}
READY = {"woken", "preempted", "yielded"}
WIDTHS = (8, 7, 4, 6, 5, 8, 6, 8, 6)
NAMES = ("entry", "line", "cpu", "tid", "class", "waited", "ticks", "ran", "ticks")


def objects(data):
    return [json.loads(line) for line in data.decode().splitlines()]


def lines_of(explained, count):
    """The line of the script that added each entry: the header's added the first."""
    lines = {}
    for event in explained:
        first = event["entries"]["first"]
        for place in range(first, first + event["entries"]["count"]):
            lines[place] = event["line"]
    return lines


class History:
    """The stays of threads on CPUs, each with the wait before it, in order of the entries that began them."""

    def __init__(self, entries):
        self.entries = entries
        self.classes, self.since, self.seats, self.ticks, self.turns = {}, {}, {}, {}, []
        for place, entry in enumerate(entries):
            self.hear(place, entry)
        for cpu in list(self.seats):
            self.off(cpu, len(entries), "still there")
        self.turns.sort(key=lambda turn: turn["entry"])

    def off(self, cpu, place, why):
        turn = self.seats.pop(cpu)
        self.turns.append({**turn, "ended": why, "ran": self.time(cpu, turn["entry"], place)})

    def time(self, cpu, start, end):
        """How many entries, and how many ticks of a CPU among them."""
        return {"entries": end - start, "ticks": sum(1 for place in self.ticks.get(cpu, ()) if start <= place < end)}

    def hear(self, place, entry):
        kind = entry["kind"]
        if kind == "torn":
            self.since.clear()
            for cpu in sorted(self.seats):
                self.off(cpu, place, "torn")
        elif kind == "placed":
            tid, cpu = entry["tid"], entry["cpu"]
            since = self.since.pop(tid, place)
            self.seats[cpu] = {"class": self.classes.get(tid), "cpu": cpu, "entry": place, "tid": tid, "waited": self.time(cpu, since, place)}
        elif kind == "posted":
            self.tell(place, entry)

    def tell(self, place, entry):
        message = entry["message"]
        if message == "tick":
            self.ticks.setdefault(entry["cpu"], []).append(place)
            return
        tid = entry["tid"]
        if message == "created":
            self.classes[tid] = entry["class"]
        taken_off = message in OFF and (message != "affinity" or entry["off"])
        if taken_off:
            for cpu in [cpu for cpu, turn in self.seats.items() if turn["tid"] == tid]:
                self.off(cpu, place, OFF[message])
        if message in READY or message == "affinity" and taken_off or message == "created" and entry["runnable"]:
            self.since.setdefault(tid, place)
        elif message in ("blocked", "dead", "created"):
            self.since.pop(tid, None)


class Uses:
    """What each CPU was used for: how many entries, and how many of its ticks, each use lasted."""

    NAMES = ("busy", "agent", "other", "wanted", "idle")

    def __init__(self, entries, cpus):
        self.taken, self.agent, self.on, self.ready, self.masks = set(), None, {}, set(), {}
        self.spent = [{name: {"entries": 0, "ticks": 0} for name in self.NAMES} for _ in range(cpus)]
        for entry in entries:
            self.hear(entry)
            for cpu, spent in enumerate(self.spent):
                spent[self.use(cpu)]["entries"] += 1
                spent[self.use(cpu)]["ticks"] += entry.get("message") == "tick" and entry["cpu"] == cpu

    def use(self, cpu):
        if cpu in self.taken:
            return "other"
        if cpu == self.agent:
            return "agent"
        if cpu in self.on:
            return "busy"
        return "wanted" if any(self.masks[tid] >> cpu & 1 for tid in self.ready) else "idle"

    def hear(self, entry):
        kind = entry["kind"]
        if kind in ("taken", "given"):
            (self.taken.add if kind == "taken" else self.taken.discard)(entry["cpu"])
        elif kind in ("role", "begin", "left", "torn"):
            self.agent = entry["cpu"] if kind == "role" else None
        elif kind == "placed":
            self.on[entry["cpu"]] = entry["tid"]
            self.ready.discard(entry["tid"])
        elif kind == "posted" and entry["message"] != "tick":
            self.tell(entry["message"], entry["tid"], entry)
        if kind == "torn":
            self.on, self.ready = {}, set()

    def tell(self, message, tid, entry):
        if message in ("created", "affinity"):
            self.masks[tid] = int(entry["mask"])
        off = message in OFF and (message != "affinity" or entry["off"])
        if off:
            self.on = {cpu: other for cpu, other in self.on.items() if other != tid}
        if message in READY or message == "affinity" and off or message == "created" and entry["runnable"]:
            self.ready.add(tid)
        elif message in ("blocked", "dead"):
            self.ready.discard(tid)


def landings_in(explained):
    """The outcome and the thread of each landing, by the replies."""
    for event in explained:
        for reply in event["replies"]:
            found = re.match(r"(?:cpu|late) \d+ (\w+)(?: (\d+) seq)?", reply)
            if found:
                yield found[1], int(found[2] or 0)


def percentile(numbers, percent):
    """By the nearest rank."""
    return sorted(numbers)[math.ceil(percent * len(numbers) / 100) - 1]


def spread(numbers):
    """Percentiles, or None of no numbers."""
    if not numbers:
        return None
    return {"most": max(numbers), "p50": percentile(numbers, 50), "p90": percentile(numbers, 90), "p99": percentile(numbers, 99)}


def account(kind, tid, turns):
    """What the turns of a class, or of a thread of it, come to."""
    sums = {key: {unit: sum(turn[key][unit] for turn in turns) for unit in ("entries", "ticks")} for key in ("ran", "waited")}
    return {
        "class": kind,
        "migrated": sum(turn["migrated"] for turn in turns),
        "preempted": sum(turn["ended"] == "preempted" for turn in turns),
        "ran": sums["ran"],
        "stays": len(turns),
        "tid": tid,
        "waited": sums["waited"],
        "waits": {unit: spread([turn["waited"][unit] for turn in turns]) for unit in ("entries", "ticks")},
    }


def with_migrations(turns):
    """The turns, each with whether it is on another CPU than the thread's stay before."""
    last = {}
    for turn in turns:
        yield {**turn, "migrated": last.get(turn["tid"], turn["cpu"]) != turn["cpu"]}
        last[turn["tid"]] = turn["cpu"]


# The outcomes, in order of their numbers.
OUTCOMES = "placed gone displaced nothread stale notrunnable alreadyplaced notallowed cpuisagent cputaken cpubusy seqspent historyfull malformed groupfailed"


def word(value, none):
    return none if value is None else value


def who(row):
    return f" {word(row['class'], '-'):>5} {word(row['tid'], 'all'):>6}"


def account_rows(row):
    """The two lines of an account."""
    for unit in ("entries", "ticks"):
        found = row["waits"][unit] or dict.fromkeys(("p50", "p90", "p99", "most"), "-")
        yield (
            f"{who(row)} {row['stays']:>7} {row['preempted']:>9} {row['migrated']:>8} {unit:>7} {row['ran'][unit]:>9} {row['waited'][unit]:>9}"
            f" {found['p50']:>8} {found['p90']:>8} {found['p99']:>8} {found['most']:>8}"
        )


def latency(journal, explained, cpus, words):
    """The lines that are wanted."""
    entries, explained = objects(journal), objects(explained)
    history = History(entries)
    turns = list(with_migrations(history.turns))
    threads = sorted(history.classes) if "--threads" in words else []
    whose = [(kind, None) for kind in (0, 1, None)] + [(history.classes[tid], tid) for tid in threads]
    own = lambda kind, tid, thread: history.classes.get(thread) == kind if tid is None else thread == tid
    accounts = [account(kind, tid, [turn for turn in turns if own(kind, tid, turn["tid"])]) for kind, tid in whose]
    accounts = [row for row in accounts if row["class"] is not None or row["stays"]]
    landed = [(kind, tid, collections.Counter(outcome for outcome, thread in landings_in(explained) if own(kind, tid, thread))) for kind, tid in whose]
    landings = [{"class": kind, "landings": counts[name], "outcome": name, "tid": tid} for kind, tid, counts in landed for name in OUTCOMES.split() if counts[name]]
    uses = [{**spent, "cpu": cpu} for cpu, spent in enumerate(Uses(entries, cpus).spent)]
    if "--json" in words:
        return [json.dumps(row, sort_keys=True, separators=(",", ":")) for row in accounts + landings + uses]
    return [
        " class    tid   stays preempted migrated      in       ran    waited      p50      p90      p99     most",
        *(line for row in accounts for line in account_rows(row)),
        " class    tid landings  outcome",
        *(f"{who(row)} {row['landings']:>8}  {row['outcome']}" for row in landings),
        "   cpu      in      busy     agent     other    wanted      idle",
        *(f" {row['cpu']:>5} {unit:>7}" + "".join(f" {row[name][unit]:>9}" for name in Uses.NAMES) for row in uses for unit in ("entries", "ticks")),
    ]


def cpus_of(script):
    """How many CPUs a script's header has."""
    return int(re.search(rb"^\s*cpus\s+(\d+)", script, re.M)[1])


def row_of(turn):
    """A turn as a line of columns."""
    words = [turn["entry"], turn["line"], turn["cpu"], turn["tid"], "-" if turn["class"] is None else turn["class"]]
    words += [turn["waited"]["entries"], turn["waited"]["ticks"], turn["ran"]["entries"], turn["ran"]["ticks"]]
    return columns(words, turn["ended"])


def columns(words, last):
    return "".join(f" {str(word):>{width}}" for word, width in zip(words, WIDTHS)) + "  " + last


def timehist(journal, explained, as_json):
    """The lines that are wanted."""
    entries = objects(journal)
    lines = lines_of(objects(explained), len(entries))
    turns = [{**turn, "line": lines.get(turn["entry"], 1)} for turn in History(entries).turns]
    if as_json:
        return [json.dumps(turn, sort_keys=True, separators=(",", ":")) for turn in turns]
    return [columns(NAMES, "ended")] + [row_of(turn) for turn in turns]


def wanted_lines(script, journal, explained, words):
    """The lines that a command has to write."""
    if words[0] == "latency":
        return latency(journal, explained, cpus_of(script), words)
    return timehist(journal, explained, "--json" in words)


def differences(written, script, journal, explained, words):
    """In what a table is not what the journal tells."""
    wanted, shown = wanted_lines(script, journal, explained, words), written.decode().splitlines()
    found = [f"line {number}: wrote {have!r}, wanted {want!r}" for number, (have, want) in enumerate(zip(shown, wanted), 1) if have != want]
    if len(wanted) != len(shown):
        found.append(f"wrote {len(shown)} lines, wanted {len(wanted)}")
    return found
