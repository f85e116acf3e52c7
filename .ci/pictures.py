"""What a picture has to show, by the lines of the journal and by what explains the script: it is drawn here once more, in
another language.

`differences` compares all that a picture has below its legend with that, piece by piece, whatever the order: place, size,
style and words of each. Its style sheets are read too: what stands on what has to differ enough from it.
"""
import colorsys
import json
import re
from collections import Counter
from xml.etree import ElementTree

LEFT, TOP, ROW, BAR, LINE, ABOVE, EDGE, LEAST_WIDTH = 150, 164, 52, 26, 18, 8, 230, 910
RING = TOP + ROW
AGAIN = 1_000
MOST_SINGLE, FEW_IDLE, FEW = 100_000, 3, 40
OFF = {"blocked": "blocked", "preempted": "preempted", "yielded": "yielded", "dead": "died", "affinity": "affinity"}

# The words and the shape of each outcome, in the order of their numbers.
OUTCOMES = {
    "placed": ("placed", "m-4 0h8"),
    "gone": ("gone", "m-5-5h10l-10 10h10z"),
    "displaced": ("displaced", "m0-6l6 6l-6 6l-6-6z"),
    "nothread": ("no thread", "m0-5l5 9h-10z"),
    "stale": ("stale", "m-5-5l10 10m0-10l-10 10"),
    "notrunnable": ("not runnable", "m0 5l5-9h-10z"),
    "alreadyplaced": ("already placed", "m5 0l-9 5v-10z"),
    "notallowed": ("not allowed", "m-5-5h10v10h-10zl10 10"),
    "cpuisagent": ("CPU is agent", "m-5-5h10v10h-10zm5 0v10"),
    "cputaken": ("CPU taken", "m-5-5h10v10h-10zm0 5h10"),
    "cpubusy": ("CPU busy", "m-5-5h10v10h-10z"),
    "seqspent": ("seq spent", "m-5 5h10m-10-10h10"),
    "historyfull": ("history full", "m-3-5v10m6-10v10"),
    "malformed": ("malformed", "m-5-5l10 10m0-10l-10 10m5-11v12"),
    "groupfailed": ("group failed", "m5-5h-10v10h10m-3-5h-3"),
}
STAMP, MIXED = "m-4 0a4 4 0 1 0 8 0a4 4 0 1 0-8 0", "m-6 0h12m-6-6v12"
NEAR, MOST_TOLD = 11, 8

# What is said of the lines of threads.
ABOUT = (
    "Threads, those that never ran first, and then by how long they waited. "
    "Thick: it ran; thin: it could run, and waited; nothing: it could not run."
)


def row_of(cpu):
    return RING + ROW * (cpu + 1)


def digits(number):
    return len(str(number)) if number < 100_000 else 10


def room_for(letters):
    return 7 * letters + 4


class Part:
    """The entries that are shown, where each begins, and the line that added it."""

    def __init__(self, entries, lines, first, last):
        self.lines = lines
        self.first, self.behind = first, max(first, min(entries, last + 1))
        self.count = self.behind - first
        self.unit = min(60, max(1, 1600 // max(1, self.count)))
        self.sharing = max(0, self.count - 1) // MOST_SINGLE + 1

    def x(self, place):
        return LEFT + min(max(place - self.first, 0), self.count) // self.sharing * self.unit

    def width(self, start, end):
        return self.x(end) - self.x(start)

    def shown(self, start, end):
        return max(0, min(end, self.behind) - max(start, self.first))

    def has(self, place):
        return self.first <= place < self.behind

    def meets(self, place):
        return self.first <= place <= self.behind

    def entry(self, place):
        """An entry in words."""
        return f"{place} (line {self.lines[place]})" if place < len(self.lines) else str(place)

    def time(self, start, end):
        return f"from entry {self.entry(start)} to {self.entry(end)}"


class Notes:
    """What a script and what explains it tell beside the journal: lines, decisions and what came of them, pages, crashes, and
    how full the ring is."""

    def __init__(self, script, journal, explained):
        said = [(number, line.split()) for number, line in enumerate(script.split("\n"), 1)]
        header, words = next((number, words) for number, words in said if words and not words[0].startswith("#"))
        self.lines, self.marks, self.pages, self.crashes, self.cpus = [header], [], [], set(), {}
        self.ring, self.ends, self.consumed, self.fills = int(words[words.index("ring") + 1]), [0], 0, []
        for event in explained:
            first, count = event["entries"]["first"], event["entries"]["count"]
            self.lines += [event["line"]] * count
            self.hear(event["line"], first, event["text"].split(), [reply.split() for reply in event["replies"]])
            self.post([line.split()[2:] for line in journal[first : first + count] if line.split()[1] == "posted"])
            used = self.ends[-1] - self.ends[self.consumed]
            if used != (self.fills[-1][1] if self.fills else 0):
                self.fills.append((first, used))

    def stamp(self, line, place, cpu, tid, preempt, group):
        self.cpus[len(self.cpus) + 1] = cpu
        what = "stamped" + " to preempt" * preempt + " as one of a group" * group
        self.marks.append((line, place, cpu, tid, what, None, group))

    def land(self, line, place, cpu, tid, outcome, front="landed: ", late=False):
        self.marks.append((line, place, cpu, tid, front + OUTCOMES[outcome][0], outcome, None if late else False))

    def hear(self, line, place, words, replies):
        first = replies[0] if replies else [""]
        if first[0] == "stamped":
            flags = words[3] if len(words) > 3 else ""
            self.stamp(line, place, int(words[1]), int(words[2]), "p" in flags, "g" in flags)
        elif first[0] == "decided":
            for choice in replies[1:]:
                self.stamp(line, place, int(choice[3]), int(choice[5]), "preempt" in choice, False)
        elif first[0] == "cpu":
            for reply in replies:
                if reply[0] == "cpu":
                    self.land(line, place, int(reply[1]), int(reply[3]), reply[2])
        elif first[0] == "late":
            front = f"transaction {first[1]} landed late: "
            self.land(line, place, self.cpus[int(first[1])], int(first[3]), first[2], front, late=True)
        elif first[0] == "page":
            self.pages.append((line, place, int(first[1]), "the last one" if first[2] == "end" else f"the next from thread {first[3]}"))
        elif first[0] == "crashed":
            self.crashes.add(place)
        elif first[0] == "drained":
            self.consumed += int(first[1])

    def post(self, messages):
        """Messages go into the ring, each behind a pad if the block's end is too near."""
        for words in messages:
            long = 16
            if words[0] == "created":
                long = 8 * -(-(34 + (0 if words[-1] == "-" else len(words[-1]))) // 8)
            if words[0] == "affinity":
                long = 32
            rest = self.ring - self.ends[-1] % self.ring
            self.ends.append(self.ends[-1] + long + (rest if rest < long else 0))


class History:
    """What the journal tells: stays, agents, times of the other class, ticks and threads, each from one entry to another."""

    def __init__(self, lines):
        self.entries = len(lines)
        self.stays, self.agents, self.holds, self.ticks, self.torn = [], [], [], [], []
        self.steps, self.cleared = [], []
        self.names, self.classes, self.ready = {}, {}, {}
        self.seats, self.since, self.taken, self.agent = {}, {}, {}, None
        for place, line in enumerate(lines):
            self.hear(place, line.split()[1:])
        for cpu in list(self.seats):
            self.off(cpu, self.entries, "still there")
        for tid in list(self.since):
            self.rest(tid, self.entries)
        for cpu in list(self.taken):
            self.holds.append((cpu, self.taken.pop(cpu), self.entries))
        self.reign(self.entries, None)
        self.stays.sort()

    def off(self, cpu, place, why):
        tid, since = self.seats.pop(cpu)
        self.stays.append((cpu, since, place, tid, why))

    def rest(self, tid, place):
        self.ready[tid].append((self.since.pop(tid), place))

    def reign(self, place, agent):
        if self.agent:
            self.agents.append((*self.agent, place))
        self.agent = agent and (*agent, place)

    def hear(self, place, words):
        match words:
            case ["role", _, cpu, _, generation]:
                attached = self.agent and self.agent[1] is not None
                self.steps.append((place, "handoff" if attached else "activate" if place else ""))
                self.reign(place, (int(generation), int(cpu)))
            case ["begin", _, generation]:
                self.steps.append((place, "begin"))
                self.cleared.append(place)
                self.reign(place, (int(generation), None))
            case ["left"]:
                self.steps.append((place, "left"))
                self.reign(place, None)
            case ["placed", tid, _, _, _, cpu, *_]:
                self.seats[int(cpu)] = int(tid), place
            case ["taken", cpu]:
                self.taken[int(cpu)] = place
            case ["given", cpu]:
                self.holds.append((int(cpu), self.taken.pop(int(cpu)), place))
            case ["posted", "tick", _, cpu]:
                self.ticks.append((place, int(cpu)))
            case ["torn"]:
                self.torn.append(place)
                self.cleared.append(place)
                self.reign(place, None)
                for cpu in list(self.seats):
                    self.off(cpu, place, "torn")
                for tid in list(self.since):
                    self.rest(tid, place)
            case ["posted", kind, tid, *more]:
                self.told(place, kind, int(tid), more)

    def told(self, place, kind, tid, more):
        """A message about a thread."""
        if kind == "created":
            self.names[tid] = "" if more[8] == "-" else more[8]
            self.classes[tid], self.ready[tid] = int(more[6]), []
        if kind == "woken" or kind == "created" and more[2] == "r":
            self.since.setdefault(tid, place)
        if kind in OFF and (kind != "affinity" or more[-1] == "off"):
            for cpu in [cpu for cpu, (there, _) in self.seats.items() if there == tid]:
                self.off(cpu, place, OFF[kind])
        if kind in ("blocked", "dead") and tid in self.since:
            self.rest(tid, place)


def rect(x, y, width, height, title=None, **more):
    return "rect", title, {"x": x, "y": y, "width": width, "height": height, **more}


def text(words, x, y, style=None, **more):
    return "text", words, {"x": x, "y": y, **({"class": style} if style else {}), **more}


def path(data, title=None, **more):
    return "path", title, {"d": data, **more}


class Drawing:
    """All that a picture has below its legend."""

    def __init__(self, history, notes, part, cpus, listed):
        self.history, self.notes, self.part, self.cpus = history, notes, part, cpus
        self.foot = row_of(cpus) + 16
        self.ran = {tid: [] for tid in history.names}
        for _, start, end, tid, _ in history.stays:
            self.ran[tid].append((start, end))
        shown = lambda times: sum(part.shown(*time) for time in times)
        self.counts = {tid: (shown(self.ran[tid]), max(0, shown(history.ready[tid]) - shown(self.ran[tid]))) for tid in self.ran}
        self.lines = self.listing(listed)
        self.end = self.foot + (5 + len(self.lines)) * LINE
        self.edge = part.x(part.behind) + EDGE
        self.width = max(self.edge, LEAST_WIDTH)

    def thread(self, tid):
        name = self.history.names.get(tid)
        return f"thread {tid}{' ' + name if name else ''}, class {self.history.classes.get(tid, '?')}"

    def called(self, tid):
        return self.history.names.get(tid) or str(tid)

    def shade(self, tid):
        return f"{'zo'[self.history.classes[tid]]}{tid % 4}"

    def back(self, y):
        return rect(LEFT, y, self.part.width(self.part.first, self.part.behind), BAR, **{"class": "row"})

    def pieces(self):
        yield from self.head()
        yield from self.decisions()
        yield from self.axis()
        yield from self.strip_of_ring()
        for cpu in range(self.cpus):
            yield text(f"CPU {cpu}", 10, row_of(cpu) + 17, "label")
            yield self.back(row_of(cpu))
            for place in range(1, self.part.width(self.part.first, self.part.behind) // AGAIN):
                yield text(f"CPU {cpu}", LEFT + AGAIN * place, row_of(cpu) + BAR + 10, "again")
            yield from self.bars([stay for stay in self.history.stays if stay[0] == cpu])
            yield from self.decided(cpu, [mark for mark in self.notes.marks if mark[2] == cpu])
        yield from self.groups()
        yield from self.marks()
        for agent in self.history.agents:
            yield from self.reign(*agent)
        yield from self.steps()
        yield from self.pages()
        yield from self.lives()

    def decisions(self):
        """How many decisions are shown, and the shapes of what came of them."""
        shown = [mark for mark in self.notes.marks if self.part.meets(mark[1])]
        came = Counter(mark[5] for mark in shown if mark[5])
        stamped, placed = sum(not mark[5] for mark in shown), came["placed"]
        failed = sum(came.values()) - placed
        yield text(f"Decisions: stamped {stamped}, placed {placed}, not placed {failed}", 10, 92, "count")
        x, y = room_for(44 + digits(stamped) + digits(placed) + digits(failed)), 92
        for name, (words, shape) in OUTCOMES.items():
            if name != "placed" and came[name]:
                width = 16 + room_for(len(words) + digits(came[name]) + 3)
                x, y = (10, y + 18) if x + width > 900 else (x, y)
                yield path(f"M{x + 6} {y - 4}{shape}", **{"class": "failed"})
                yield text(f"{words} {came[name]}", x + 16, y, "lost")
                x += width

    def told(self, mark):
        line, place, cpu, tid, what, _, _ = mark
        return f"line {line}, before entry {place}: {what}, {self.thread(tid)}, on CPU {cpu}"

    def title(self, marks):
        return "\n".join([self.told(mark) for mark in marks[:MOST_TOLD]] + [f"and more: {len(marks) - MOST_TOLD}"] * (len(marks) > MOST_TOLD))

    def decided(self, cpu, marks):
        """What is decided of a CPU: when something was stamped, and the marks, of which those that are near are one."""
        if lengths := self.stamped(cpu, marks):
            yield path(lengths, **{"class": "slot"})
        near = []
        for mark in marks:
            if mark[5] == "placed" or not self.part.meets(mark[1]):
                continue
            if near and self.part.x(mark[1]) - self.part.x(near[0][1]) >= NEAR:
                yield from self.cluster(cpu, near, self.part.x(mark[1]))
                near = []
            near.append(mark)
        if near:
            yield from self.cluster(cpu, near, self.edge)

    def cluster(self, cpu, marks, limit):
        x, y = self.part.x(marks[0][1]), row_of(cpu) - ABOVE
        failed = [mark for mark in marks if mark[5]]
        mixed = len({mark[5] for mark in failed}) > 1
        shapes = [STAMP] * (len(failed) < len(marks)) + [MIXED if mixed else OUTCOMES[mark[5]][1] for mark in failed[:1]]
        yield path("".join(f"M{x} {y}{shape}" for shape in shapes), self.title(marks), **{"class": "failed" if failed else "stamp"})
        if failed:
            words, called = "not placed" if mixed else OUTCOMES[failed[0][5]][0], self.called(failed[0][3])
            called_len = len(called) if self.history.names.get(failed[0][3]) else digits(failed[0][3])
            more = f" {called if len(failed) == 1 else len(failed)}" if room_for(len(words) + called_len + 1) <= limit - x - 8 else ""
            if room_for(len(words)) <= limit - x - 8:
                yield text(words + more, x + 8, y + 4, "lost")

    def stamped(self, cpu, marks):
        """The times in which something is stamped in the slot of a CPU."""
        lengths, since = "", None
        for _, place, _, _, _, outcome, late in [*marks, (None, None, None, None, None, None, False)]:
            if late is None:
                continue
            end = place
            if outcome is None and since is not None:
                end = next((cleared for cleared in self.history.cleared if cleared >= since), self.history.entries)
            if since is not None and self.part.width(since, end):
                lengths += f"M{self.part.x(since)} {row_of(cpu) - ABOVE}h{self.part.width(since, end)}"
            since = place if outcome is None else None
        return lengths

    def groups(self):
        """A bracket for each group that landed."""
        grouped, landed = {}, {}
        for mark in self.notes.marks:
            line, place, cpu, _, _, outcome, group = mark
            if not outcome:
                grouped[cpu] = group
            elif group is not None and grouped.pop(cpu, False):
                landed.setdefault((line, place), []).append(mark)
        for (_, place), marks in landed.items():
            if self.part.meets(place):
                x, y = self.part.x(place) - 8, [row_of(mark[2]) - ABOVE for mark in marks]
                failed = any(mark[5] != "placed" for mark in marks)
                title = f"group of {len(marks)}: {'none' if failed else 'all'} placed\n{self.title(marks)}"
                yield path(f"M{x} {y[0]}V{y[-1]}" + "".join(f"M{x} {at}h4" for at in y), title, **{"class": "group" + " lost-group" * failed})

    def strip_of_ring(self):
        """How full the ring is. Where several events share a pixel, the most is shown there."""
        part, ring, base = self.part, self.notes.ring, RING + BAR
        yield text("ring", 10, RING + 11, "label")
        yield text(f"{ring} bytes", 10, RING + 24, "small")
        yield self.back(RING)
        pixels = {}
        for place, used in self.notes.fills:
            if place <= part.behind:
                at = pixels.setdefault(part.x(place), [])
                if place < part.first:
                    at.clear()
                at.append(-(-used * BAR // ring))
        data, last, x = f"M{LEFT} {base}", 0, LEFT
        for at, heights in [*sorted(pixels.items()), (part.x(part.behind), None)]:
            if at > x:
                data += f"V{base - most}" if x in pixels else f"V{base - last}"
                data += f"H{x + 1}V{base - last}" if x in pixels and most != last else ""
                data += f"H{at}"
            if heights is not None and (at > x or x == LEFT):
                most, last, x = max([last if at > LEFT else 0, *heights]) if part.sharing > 1 else heights[-1], heights[-1], at
        most = max((used for _, used in self.notes.fills), default=0)
        yield path(f"{data}V{base}z", f"bytes of the ring in use, at most: {most} of {ring}", **{"class": "ring"})

    def steps(self):
        """The words of what happened to the agents, each where the next one leaves room."""
        limit = self.edge
        for place, word in reversed(self.history.steps):
            if self.part.has(place):
                x = self.part.x(place)
                if word == "left":
                    word = "crash" if place in self.notes.crashes else "leave"
                if word and x + room_for(len(word)) <= limit:
                    yield text(word, x + 2, TOP - ABOVE + 4, "step")
                limit = x

    def pages(self):
        """A tick for each page, those of one place before one another."""
        before = Counter()
        for line, place, count, then in reversed(self.notes.pages):
            x = self.part.x(place)
            before[x] += 1
            if self.part.meets(place):
                title = f"line {line}, before entry {place}: page of threads: {count}, {then}"
                yield path(f"M{x - min(4 * before[x], self.part.unit)} {TOP + BAR - 8}v8", title, **{"class": "page"})

    def head(self):
        part, history = self.part, self.history
        shared = f", entries a pixel: {part.sharing}; grey: several stays" if part.sharing > 1 else ""
        torn = "".join(f"; torn down at entry {part.entry(place)}: a message did not fit into the ring" for place in history.torn)
        words = f"Who ran where: {part.count} of {history.entries} entries, from entry {part.first}{shared}{torn}"
        yield "rect", None, {"width": self.width, "height": self.end, "class": "page-back"}
        yield text(words, 10, 22, **{"font-size": 14, "font-weight": "bold"})
        yield text("agent", 10, TOP + 17, "label")
        yield self.back(TOP)

    def axis(self):
        part = self.part
        step = 1 if part.unit >= 30 else 5 if part.unit >= 12 else 10 if part.unit >= 6 else 50 if part.unit >= 2 else 100 * part.sharing
        for y in (TOP - 34, self.foot - 16):
            yield text("entry", 10, y, "small")
            yield text("line", 10, y + 12, "small")
        for place in range(part.first, part.behind):
            if place % step == 0 or part.count < step and place == part.first:
                yield path(f"M{part.x(place)} {TOP - 19}V{self.end}", **{"class": "grid"})
                for y in (TOP - 34, self.foot - 16):
                    yield text(str(place), part.x(place), y, "axis")
                    yield text(str(part.lines[place]), part.x(place), y + 12, "axis")

    def bars(self, stays):
        """The bars of a CPU. Stays that are narrower than a pixel, in pixels that touch, are one."""
        blur, part = [], self.part
        for stay in stays:
            _, start, end, _, _ = stay
            wide = part.width(start, end) > 0
            if not wide and not part.shown(start, end):
                continue
            if blur and (wide or part.width(blur[-1][2], start) > 1):
                yield self.blurred(blur)
                blur = []
            if wide:
                yield from self.bar(*stay)
            else:
                blur.append(stay)
        if blur:
            yield self.blurred(blur)

    def blurred(self, stays):
        cpu, start, end = stays[0][0], stays[0][1], stays[-1][2]
        title = f"stays: {len(stays)}, on CPU {cpu} {self.part.time(start, end)}"
        return rect(self.part.x(start), row_of(cpu), self.part.width(start, end) + 1, BAR, title, **{"class": "blur"})

    def bar(self, cpu, start, end, tid, why):
        x, width, lower = self.part.x(start), self.part.width(start, end), 8 * self.history.classes[tid]
        y, height = row_of(cpu) + lower, BAR - lower
        title = f"{self.thread(tid)}, on CPU {cpu} {self.part.time(start, end)}: {why}"
        border = {"rx": 3, "class": f"wide {self.shade(tid)}"} if width >= 6 else {"class": f"bar {self.shade(tid)}"}
        yield rect(x, y, width, height, title, **border)
        name = self.history.names[tid]
        name = name if name and room_for(len(name)) <= width else None
        if name or room_for(digits(tid)) <= width:
            yield text(name or str(tid), x + width // 2, y + height // 2 + 4, **{"class": "name"})
        if width >= 8 and self.part.has(end):
            yield text(why[0].upper(), self.part.x(end), row_of(cpu) + BAR + 9, **{"class": "end"})

    def marks(self):
        part = self.part
        for cpu, start, end in self.history.holds:
            if part.shown(start, end):
                title = f"CPU {cpu} is held by the other class {part.time(start, end)}"
                yield rect(part.x(start), row_of(cpu), max(1, part.width(start, end)), BAR, title, **{"class": "held"})
        for place, cpu in self.history.ticks:
            if part.has(place):
                yield path(f"M{part.x(place)} {row_of(cpu) - 3}v6", f"tick of CPU {cpu}, entry {part.entry(place)}" if part.unit >= 4 else None)
        for place in self.history.torn:
            if part.has(place):
                title = f"torn down at entry {part.entry(place)}: a message did not fit into the ring"
                yield path(f"M{part.x(place)} {TOP - 4}V{self.foot}", title, **{"class": "torn"})
                yield text("torn down", part.x(place) + 5, self.foot - 26, "on-torn")

    def reign(self, generation, cpu, start, end):
        x, width = self.part.x(start), self.part.width(start, end)
        style = "attaching" if cpu is None else "active"
        for y in [TOP] if cpu is None else [TOP, row_of(cpu)]:
            if width:
                yield rect(x, y, width, BAR, f"agent of generation {generation}, {style}, {self.part.time(start, end)}", **{"class": style})
            if width and room_for(digits(generation)) <= width:
                whole = "agent " if room_for(digits(generation) + 6) <= width else ""
                yield text(f"{whole}{generation}", x + width // 2, y + 17, **{"class": f"name on-{style}"})

    def listing(self, listed):
        """The lines of threads: those that never ran, then the others, each by how long it waited; and how many more there are."""
        order = sorted(self.counts, key=lambda tid: (self.counts[tid][0] > 0, -self.counts[tid][1], tid))
        only, every, most = listed.get("--thread"), "--all-threads" in listed, listed.get("--threads")
        lines, left = [], len(order) if every or only else FEW if most is None else int(most)
        for ran in (False, True):
            more, idle = Counter(), Counter()
            for tid in (tid for tid in order if (self.counts[tid][0] > 0) == ran):
                kind = self.history.classes[tid]
                few = not (every or only or most or ran)
                if tid == int(only) if only and not every else idle[kind] < FEW_IDLE if few else left > 0:
                    left -= not few
                    idle[kind] += 1
                    lines.append(tid)
                else:
                    more[kind] += 1
            lines += [f"{more[kind]} more, of class {kind}, {'ran' if ran else 'never ran'}" for kind in (0, 1) if more[kind]]
        return lines

    def lives(self):
        """What is below the rows."""
        said = lambda ran, waited: f": {f'ran {ran} entries' if ran else 'never ran'}, waited {waited}"
        for kind in (0, 1):
            these = [self.counts[tid] for tid in self.counts if self.history.classes[tid] == kind]
            sums = (sum(ran for ran, _ in these), sum(waited for _, waited in these))
            yield text(f"class {kind}, threads {len(these)}{said(*sums)}", 10, self.foot + LINE * (1 + kind), "count")
        yield text(ABOUT, 10, self.foot + 3 * LINE, "small")
        for y, line in enumerate(self.lines, 4):
            y = self.foot + y * LINE
            if isinstance(line, str):
                yield text(line, 10, y, "thread")
                continue
            name, counts = self.history.names[line], said(*self.counts[line])
            yield text(f"{line} {name}" if name else str(line), 10, y, "thread")
            yield text(f"class {self.history.classes[line]}{counts}", self.part.x(self.part.behind) + 8, y, "thread")
            where = {"transform": f"translate(0 {y - 4})"}
            for kind, times in (("ready", self.history.ready[line]), ("ran", self.ran[line])):
                yield path(self.strip(times), self.thread(line) + counts, **{"class": f"{kind} {self.shade(line)}"}, **where)

    def strip(self, times):
        """Lengths on the axis, those that touch as one."""
        lengths = []
        for start, end in times:
            if self.part.shown(start, end):
                start, end = self.part.x(start), self.part.x(end)
                end = max(end, start + 1)
                if lengths and lengths[-1][0] <= start <= lengths[-1][1]:
                    lengths[-1][1] = max(end, lengths[-1][1])
                else:
                    lengths.append([start, end])
        return "".join(f"M{start} 0h{end - start}" for start, end in lengths)


def is_legend(words):
    return (words or "").startswith("Letters tell why")


def found_pieces(parent):
    """All that a picture has below its legend, in the form of `Drawing`."""
    for piece in parent:
        kind = piece.tag.split("}")[1]
        if kind in ("style", "defs", "title", "desc") or piece.get("class") == "small" and kind == "g" or is_legend(piece.text):
            continue
        if kind == "g":
            yield from found_pieces(piece)
        else:
            yield kind, piece.text if kind == "text" else next((title.text for title in piece), None), piece.attrib


def counted(pieces):
    return Counter((kind, words, tuple(sorted((key, str(value)) for key, value in more.items()))) for kind, words, more in pieces)


def luminance(colour):
    parts = [int(part * 2 if len(part) == 1 else part, 16) / 255 for part in re.findall(".." if len(colour) > 4 else ".", colour[1:])]
    linear = [part / 12.92 if part <= 0.03928 else ((part + 0.055) / 1.055) ** 2.4 for part in parts]
    return sum(share * part for share, part in zip((0.2126, 0.7152, 0.0722), linear))


def contrast(one, other):
    dark, light = sorted((luminance(one), luminance(other)))
    return (light + 0.05) / (dark + 0.05)


def hue(colour):
    """The hue of a colour, in degrees."""
    return round(360 * colorsys.rgb_to_hsv(*(int(colour[at : at + 2], 16) / 255 for at in (1, 3, 5)))[0])


def rules_of(sheet):
    """The colours that a style sheet gives: by the class, or by what is not a class, and by what has the colour."""
    rules = {}
    for names, body in re.findall(r"([^{}]+)\{([^}]*)\}", sheet):
        for name in names.split(","):
            for key, value in re.findall(r"([\w-]+):(#\w+)", body):
                rules[name.strip("."), key] = value
    return rules


SHADES = [f"{letter}{number}" for letter in "zo" for number in range(4)]
LEAST_TEXT, LEAST_LINE = 4.5, 3


def style_faults(picture):
    """What of a picture cannot be told from what it stands on, in a light scheme and in a dark one."""
    light, dark = re.findall(r"<style[^>]*>(.*?)</style>", picture)
    found = [] if picture.count('media="(prefers-color-scheme:dark)"') == 1 else ["no style sheet for a dark scheme"]
    if "<script" in picture or re.search(r'(href|src)="(?!#)|url\((?!#)|@import', picture):
        found.append("a script, or something from elsewhere")
    if 'role="img" aria-labelledby="title desc"' not in picture:
        found.append("no role")
    for sheet in (light, dark):
        rules = rules_of(sheet)
        page, row = rules["page-back", "fill"], rules["row", "fill"]
        texts = [(rules["text", "fill"], page), (rules["small", "fill"], page), (rules["axis", "fill"], page), (rules["again", "fill"], page)]
        texts += [(rules[name, "fill"], page) for name in ("end", "step", "on-torn", "lost")]
        texts += [(rules["on-active", "fill"], rules["active", "fill"]), (rules["on-attaching", "fill"], rules["attaching", "fill"])]
        texts += [(rules["name", "fill"], rules[shade, "color"]) for shade in SHADES]
        lines = [(rules[shade, "color"], at) for shade in [*SHADES, "unknown"] for at in (page, row)]
        lines += [(rules[name, "stroke"], at) for name in ("held", "hatch", "tick", "torn", "grid", "group", "lost-group") for at in (page, row)]
        lines += [(rules[name, "stroke"], page) for name in ("slot", "stamp", "failed", "attaching")]
        lines += [(rules[name, "fill"], row) for name in ("active", "blur", "ring")]
        lines += [(rules["page", "stroke"], rules["attaching", "fill"])]
        found += [f"{one} on {other}: {contrast(one, other):.2f}" for one, other in texts if contrast(one, other) < LEAST_TEXT]
        found += [f"{one} on {other}: {contrast(one, other):.2f}" for one, other in lines if contrast(one, other) < LEAST_LINE]
        for letter in "zo":
            hues = [hue(rules[shade, "color"]) for shade in SHADES if shade[0] == letter]
            found += [f"hues of one class: {hues}"] if max(hues) - min(hues) > 4 else []
    return found


def differences(picture, script, journal, explained, words):
    """In what a picture, made with these words behind its command, is not as the script, its journal and what explains it tell: a
    few pieces of it."""
    try:
        root = ElementTree.fromstring(picture)
    except ElementTree.ParseError as fault:
        return [f"the picture cannot be read: {fault}"]
    asked = {word: value for word, value in zip(words, [*words[1:], None]) if word.startswith("--")}
    lines = journal.decode().splitlines()
    history = History(lines)
    notes = Notes(script.decode(), lines, [json.loads(line) for line in explained.splitlines()])
    part = Part(history.entries, notes.lines, int(asked.get("--from", 0)), int(asked.get("--to", 2**64)))
    drawing = Drawing(history, notes, part, len(re.findall(rb'"label">CPU \d+<', picture)), asked)
    found, wanted = counted(found_pieces(root)), counted(drawing.pieces())
    more, less = list((found - wanted).items()), list((wanted - found).items())
    told = style_faults(picture.decode())
    told += [f"drawn, and not told of: {piece}" for piece in more[:3]] + [f"not drawn: {piece}" for piece in less[:3]]
    if (root.get("width"), root.get("height")) != (str(drawing.width), str(drawing.end)):
        told.append(f"the size is not {drawing.width} and {drawing.end}")
    return told
