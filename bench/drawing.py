"""Random scripts for bench/agree, with all events in them, and drawn so that there is something to reply."""

# Lines that are passed over or have a bad byte, words that no event has, and a header in an event's place.
STRANGE = (
    "", " ", "#", "  # tick", "\r", "# \x7f", "cpus 2 ring 128", "handoff", "page", "activate", "begin two", "begin third",
    "stamp 1 1 gp", "stamp 1 1 g g", "stamp 1 1 pgp", "begin two 0", "begin two 65536", "begin two 01", "begin first 2", "begin two 2 2", "begin x y", "begin x y z", "crash 1", "leave 1",
    "page 65536", "activate 65536", "page 01", "activate two", "  begin  two  7  ", "begin 2",
)
MOST_TSEQ = 4_294_967_295
MOST_CPUS = 128
# Events that mostly append an entry.
ENTRIES = "create affinity block wake yield die take give tick handoff crash leave begin activate".split()
# What may stand behind a stamp: nothing, preempting, of a group, or both.
FLAGS = "", "", "", " p", " p", " g", " pg"
MOST_MASK = (1 << MOST_CPUS) - 1
# CPUs on both sides of where a word of 64 bits ends.
EDGES = (62, 63, 64, 65, 126, 127)
NAMES = r'a web - -- # " \ ~! sixlet sevenle fourteenletter fifteen-letters sixteen-letters.'.split()
WORDS = (
    "create block wake yield die affinity take give tick handoff drain decide commit late stamp view state unread cpus"
    " crash leave begin page activate"
    " ring policy two first first-tseq first-gen history p g pg gp r b Create bloc tickk 0 1 2 01 -1 +1 1x 64 65 127 128 129 65535 65536"
    " 4294967295 4294967296 9223372036854775808 9999999999999999999 18446744073709551615 18446744073709551616"
    " 99999999999999999999999 10000000000000000000000000000000000000 99999999999999999999999999999999999999"
    " 170141183460469231731687303715884105728 340282366920938463463374607431768211455"
    " 340282366920938463463374607431768211456 340282366920938463463374607431768211460 999999999999999999999999999999999999999"
    " 0340282366920938463463374607431768211455 3402823669209384634633746074317682114550 1048576 1048584 16777216"
    " 16777217 # #tick seventeen-letters."
).split()


class Script:
    """What the next lines are drawn from: the header, and a guess at what the lines before have led to."""

    def __init__(self, chance, cpus=None):
        self.chance = chance
        self.cpus = cpus or chance.choice((2, 2, 3, 3, 4, 5, 8, 63, 64, 65, 66, 100, 127, 128, 128, chance.randint(2, MOST_CPUS)))
        self.edges = [cpu for cpu in EDGES if cpu < self.cpus]
        # If the number of CPUs is asked for, threads run on all of them, and else mostly on the first few.
        self.spread = bool(cpus)
        self.ring = chance.choice((128, 128, 136, 160, 192, 256, 256, 512, 1024, 4096, 1_048_576))
        self.classes = chance.random() < 0.5
        # How often each event comes differs from script to script.
        self.weights = [weight * chance.choice((0.2, 1, 1, 3)) for _, weight in self.EVENTS]
        self.threads = 0
        self.living = []
        self.running = []
        self.blocked = []
        self.stamps = 0
        self.most_threads = chance.choice((4, 30, 100, 200) if self.spread else (2, 4, 4, 8, 30))
        # Whether an agent is active, attaches, or there is none.
        self.agent = "active"
        # About how many bytes of messages wait, and about how many entries there are.
        self.bytes = 0
        self.entries = 1
        self.history = chance.choice((2, 3, 20, 30, 40, 50, 50, 100, 200)) if chance.random() < 0.15 else 16_777_216

    def header(self):
        chance = self.chance
        words = ["cpus", str(self.cpus), "ring", str(self.ring)]
        if chance.random() < 0.2:
            words += ["first-tseq", str(chance.choice((0, 1, 99, 4_294_967_280, 4_294_967_290, 4_294_967_294)))]
        if chance.random() < 0.1:
            words += ["first-gen", str(chance.choice((1, 7, MOST_TSEQ - 2, MOST_TSEQ - 1, MOST_TSEQ)))]
        if self.history < 16_777_216 or chance.random() < 0.02:
            words += ["history", str(self.history)]
        if self.classes:
            words += ["policy", "two", str(chance.choice((1, 1, 2, 3, 65_535)))]
        elif chance.random() < 0.3:
            words += ["policy", "first"]
        return " ".join(words)

    def tid(self, likely=()):
        draw = self.chance.random()
        if draw < 0.01:
            return self.chance.choice((0, self.threads + 1, 65_536, 65_537, MOST_TSEQ))
        for among in (likely, self.living):
            if among and self.chance.random() < 0.85:
                return self.chance.choice(among)
        return self.chance.randint(1, max(1, self.threads))

    def cpu(self):
        if self.chance.random() < 0.02:
            return self.chance.choice((self.cpus, 64, 128, 255, 65_535))
        if self.edges and self.chance.random() < 0.4:
            return self.chance.choice(self.edges)
        if self.chance.random() < 0.1:
            return self.chance.randrange(self.cpus)
        return 1 + self.chance.randrange(self.cpus - 1 if self.spread else min(self.cpus - 1, 3))

    def mask(self):
        draw = self.chance.random()
        if draw < 0.02:
            return self.chance.choice((0, (1 << self.cpus) & MOST_MASK, MOST_MASK, 1 << 63, 1 << 64, 1 << 127, MOST_MASK - (1 << 64) + 1))
        if draw < 0.4:
            return (1 << self.cpus) - 1
        if self.spread:
            return sum(1 << cpu for cpu in self.chance.sample(range(self.cpus), self.chance.randint(1, min(self.cpus, 9))))
        if self.edges and draw < 0.7:
            return sum(1 << cpu for cpu in self.chance.sample(self.edges, self.chance.randint(1, len(self.edges))))
        return self.chance.randrange(1, 1 << min(self.cpus, 4)) | (self.chance.randrange(2) << (self.cpus - 1))

    def forget(self, tid, *lists):
        for known in lists:
            if tid in known:
                known.remove(tid)

    def create(self):
        if len(self.living) >= self.most_threads and self.chance.random() < 0.8:
            return self.drain()
        self.threads += 1
        self.living.append(self.threads)
        kind = int(self.classes and self.chance.random() < 0.6 or self.chance.random() < 0.1)
        return [f"create {self.mask()} {kind} {self.chance.choice('rrrrb')} {self.chance.choice(NAMES)}"]

    def block(self):
        tid = self.tid(self.running)
        self.forget(tid, self.running, self.blocked)
        self.blocked.append(tid)
        return [f"block {tid}"]

    def wake(self):
        tid = self.tid(self.blocked)
        self.forget(tid, self.blocked)
        return [f"wake {tid}"]

    def yielding(self):
        tid = self.tid(self.running)
        self.forget(tid, self.running)
        return [f"yield {tid}"]

    def die(self):
        tid = self.tid()
        self.forget(tid, self.living, self.running, self.blocked)
        return [f"die {tid}"]

    def affinity(self):
        return [f"affinity {self.tid(self.running)} {self.mask()}"]

    def take(self):
        return [f"take {self.cpu()}"]

    def give(self):
        return [f"give {self.cpu()}"]

    def exchange(self):
        cpu = self.cpu()
        return [f"take {cpu}", *self.some(), f"give {cpu}"]

    def tick(self):
        return [f"tick {self.cpu()}"]

    def hand_off(self):
        return [f"handoff {self.cpu()}"]

    def moving(self):
        """The agent moves while what it stamped has not landed."""
        self.stamps += 1
        cpu, everywhere = self.cpu(), (1 << self.cpus) - 1
        stamp = self.chance.choice(("decide", f"stamp {cpu} {self.tid()}{self.chance.choice(('', ' p', ' g', ' pg'))}"))
        land = f"late {self.stamps}" if self.chance.random() < 0.3 else f"commit {everywhere}"
        return ["drain 99", *self.some(), stamp, *self.some(), *self.hand_off(), *self.some(), land, "decide", f"commit {everywhere}"]

    def drain(self):
        return [f"drain {self.chance.choice((0, 1, 1, 2, 3, 9, 99, MOST_TSEQ))}"]

    def decide(self):
        self.stamps += 1
        return ["decide"]

    def commit(self):
        draw = self.chance.random()
        if draw < 0.5:
            return [f"commit {(1 << self.cpus) - 1}"]
        return [f"commit {0 if draw < 0.55 else self.mask()}"]

    def stamp(self):
        self.stamps += 1
        return [f"stamp {self.cpu()} {self.tid()}{self.chance.choice(FLAGS)}"]

    def late(self):
        if self.chance.random() < 0.03:
            return [f"late {self.chance.choice((0, self.stamps + 5, MOST_TSEQ))}"]
        last = max(1, self.stamps)
        return [f"late {self.chance.randint(max(1, last - self.chance.choice((1, 3, 30))), last)}"]

    def view(self):
        return ["view"]

    def state(self):
        return ["state"]

    def unread(self):
        return ["unread"]

    def some(self):
        """Nothing, or an event of a thread or CPU, or ticks that fill a small ring."""
        draw = self.chance.random()
        if draw < 0.6:
            return []
        if draw < 0.7:
            return [f"tick {self.cpu()}"] * self.chance.randint(1, self.ring // 16 % 20 + 1)
        events = self.tick, self.affinity, self.yielding, self.block, self.wake, self.late, self.give
        return self.chance.choice(events)()

    def placing(self):
        """A thread is placed, if nothing comes between, or lands late."""
        tid, cpu = self.tid(), self.cpu()
        self.forget(tid, self.running)
        self.running.append(tid)
        self.stamps += 1
        stamp = f"stamp {cpu} {tid}{self.chance.choice(('', '', '', ' p', ' p', ' g', ' pg'))}"
        land = f"late {self.stamps}" if self.chance.random() < 0.2 else f"commit {1 << min(cpu, MOST_CPUS - 1)}"
        return ["drain 99", *self.some(), stamp, *self.some(), land]

    def deciding(self):
        """What the policy plans is landed."""
        self.stamps += 1
        self.running += self.living[:2]
        return ["drain 99", *self.some(), "decide", *self.some(), f"commit {(1 << self.cpus) - 1}"]

    def crowding(self):
        """The ring is about full when a thread is to be taken off its CPU by a landing."""
        if self.ring > 512 or self.chance.random() < 0.3:
            return self.decide()
        self.stamps += 4
        cpu, other = self.chance.sample(range(1, self.cpus), 2) if self.cpus > 2 else (1, 0)
        lines = ["drain 99", f"stamp {cpu} {self.tid()}", f"commit {1 << cpu}", "drain 99"]
        lines += ["tick 1"] * (self.ring // 16 - self.chance.choice((0, 0, 0, 1)))
        for at in self.chance.choice(((cpu,), (cpu, other), (other, cpu))):
            lines.append(f"stamp {at} {self.tid()} {self.chance.choice(('p', 'p', 'pg'))}")
        return [*lines, *self.some(), *(self.late() if self.chance.random() < 0.3 else self.commit())]

    def fresh(self, count):
        """The lines by which so many threads are created that may run anywhere, and their numbers."""
        tids = [*range(self.threads + 1, self.threads + 1 + count)]
        self.threads += count
        self.living += tids
        return [f"create {(1 << self.cpus) - 1} {self.chance.randrange(2)} r a" for _ in tids] + ["drain 99"], tids

    def grouping(self):
        """Up to six slots land together, in place of threads that they name at times. Ring or journal may be about full."""
        chance = self.chance
        near = sorted({*range(1, self.cpus)} if self.spread else {*range(1, min(self.cpus, 5)), *self.edges})
        cpus = chance.sample(near, min(len(near), chance.choice((1, 2, 2, 3, 3, 4, 5, 6))))
        lines, everywhere = ["drain 99"], f"commit {(1 << self.cpus) - 1}"
        created, tids = self.fresh(len(cpus)) if chance.random() < 0.7 else ([], [self.tid() for _ in cpus])
        lines += created
        victims = [cpu for cpu in cpus if chance.random() < 0.6] if chance.random() < 0.6 else []
        if victims:
            created, those = self.fresh(len(victims)) if chance.random() < 0.7 else ([], [self.tid() for _ in victims])
            lines += [*created, *(f"stamp {cpu} {tid}" for cpu, tid in zip(victims, those)), everywhere, "drain 99"]
            if chance.random() < 0.1:
                tids[0] = chance.choice(those)
            self.stamps += len(victims)
        if chance.random() < 0.1:
            tids[0] = chance.choice(tids)
        if self.ring <= 512 and chance.random() < 0.3:
            lines += ["tick 1"] * max(0, self.ring // 16 - chance.randrange(len(cpus) + 1))
        elif self.history <= 200 and chance.random() < 0.5:
            # About as many entries as there are by now are taken for as many as there are.
            left = self.history - self.entries - sum(line.split()[0] in ENTRIES for line in lines) - len(victims)
            lines += ["tick 1", "drain 1"] * max(0, min(left, 60) - chance.randrange(2 * len(cpus)))
        usual = (" pg",) * 9 if victims or chance.random() < 0.3 else (" g",) * 6 + (" pg",) * 3
        for cpu, tid in zip(cpus, tids):
            self.stamps += 1
            lines.append(f"stamp {cpu} {tid}{chance.choice((*usual, ' g', ' p', ''))}")
        draw = chance.random()
        land = [everywhere] if draw < 0.85 else self.late() if draw < 0.92 else self.commit()
        return [*lines, *(self.some() if chance.random() < 0.3 else []), *land, *(self.late() if chance.random() < 0.1 else [])]

    def crash(self):
        return ["crash"]

    def leave(self):
        return ["leave"] if self.chance.random() < 0.5 else [f"commit {(1 << self.cpus) - 1}", "leave"]

    def begin(self):
        slice_ = self.chance.choice((1, 2, 3, 65_535))
        return [self.chance.choice(("begin", "begin", "begin first", f"begin two {slice_}"))]

    def page(self):
        return [f"page {self.chance.choice((0, 1, 1, 2, 2, 3, 10, 65_535))}"]

    def activate(self):
        """The CPU may have a thread, be another class's, or not be there."""
        draw = self.chance.random()
        if draw < 0.06:
            return [f"activate {self.chance.choice((self.cpus, 63, 64, 127, 128, 129, 255, 65_535))}", "activate 0"]
        cpu = self.chance.choice((0, self.cpu()))
        if draw < 0.12:
            return [f"take {cpu}", f"activate {cpu}", f"give {cpu}", f"activate {cpu}"]
        return [f"activate {cpu}"]

    def between(self):
        """What may come between the steps of an upgrade, in place or not."""
        draw = self.chance.random()
        if draw < 0.4:
            return []
        if draw < 0.43:
            return self.chance.choice(self.MISPLACED)(self)
        lines = []
        for _ in range(self.chance.randint(1, 3)):
            lines += self.chance.choice(self.MEANWHILE)(self)
        return lines

    def paging(self):
        """Pages, mostly up to the last one."""
        size = self.chance.choice((1, 1, 2, 3, 10, 65_535))
        lines = []
        for _ in range(min(len(self.living) // size, 12) + self.chance.choice((0, 1, 1, 1, 2))):
            lines += [f"page {size}" if self.chance.random() < 0.9 else "page 0", *self.between()]
        return lines if self.chance.random() < 0.1 else [*lines, "page 65535"]

    def mending(self):
        """An agent is made active again if there is none."""
        first = [] if self.agent == "attaching" else self.begin()
        return [*first, *self.paging(), *self.activate()]

    def upgrading(self):
        """The agent is replaced, and goes on with what its pages told it."""
        everywhere = f"commit {(1 << self.cpus) - 1}"
        before = self.chance.choice((self.placing, self.deciding, self.stamp, self.some))()
        end = self.crash() if self.chance.random() < 0.6 else self.leave()
        lines = [*before, *end, *self.between(), *self.begin(), *self.between(), *self.paging(), *self.activate(), *self.between()]
        after = self.chance.choice((["decide", everywhere], ["drain 99", "decide", everywhere], ["drain 99", "view"], []))
        return [*lines, *self.chance.choice((self.some, self.hand_off, self.late))(), *after]

    def changes(self, tids):
        """Events of some of these threads."""
        forms = "affinity {} {}", "affinity {} {}", "wake {}", "yield {}"
        return [self.chance.choice(forms).format(self.chance.choice(tids), self.mask()) for _ in range(self.chance.randint(0, 3))]

    def overtaking(self):
        """A page tells of threads, some of them new, whose messages the agent had in part; then it decides."""
        lines = []
        for _ in range(self.chance.randint(1, 3)):
            lines += self.create()
        last = max(1, self.threads - 1), max(1, self.threads)
        lines += [*self.crash(), *self.begin()]
        if self.chance.random() < 0.7:
            lines += [f"drain {self.chance.choice((1, 2, 3, 9))}", *self.changes(last)]
        lines += [*self.paging(), "page 65535", "activate 0"]
        return [*lines, *self.some(), "decide", *self.some(), f"commit {(1 << self.cpus) - 1}", *self.view()]

    MEANWHILE = (
        create, create, die, affinity, affinity, block, wake, wake, yielding, yielding, tick, take, give, drain, drain, view, view,
        state, unread, late, late,
    )
    MISPLACED = (crash, leave, begin, page, activate, hand_off, decide, stamp, commit, crash, begin)
    EVENTS = (
        (create, 5), (block, 2), (wake, 3), (yielding, 2), (die, 0.5), (affinity, 3), (take, 0.5), (give, 1),
        (exchange, 1), (tick, 2), (drain, 9), (decide, 3), (commit, 5), (stamp, 4), (late, 3), (view, 1), (state, 1),
        (unread, 1), (placing, 4), (deciding, 3), (crowding, 0.7), (grouping, 3), (hand_off, 0.5), (moving, 1),
        (crash, 0.2), (leave, 0.2), (begin, 0.2), (page, 0.2), (activate, 0.2), (upgrading, 1.2), (overtaking, 0.7),
    )

    def events(self):
        """The next lines. The agent is mostly in time to drain a ring before it is full."""
        lost = self.agent != "active" and self.chance.random() < 0.3
        lines = self.mending() if lost else self.chance.choices(self.EVENTS, self.weights)[0][0](self)
        if self.bytes + 40 * len(lines) > self.ring and self.chance.random() < 0.95:
            lines = ["drain 99", *lines]
        for line in lines:
            word = line.split()[0]
            if word in ("crash", "leave"):
                self.agent = "none"
            elif word == "begin" and self.agent == "none":
                self.agent = "attaching"
            elif word == "activate" and self.agent == "attaching":
                self.agent = "active"
            self.entries += word in ENTRIES or word == "commit"
            if line in ("drain 99", f"drain {MOST_TSEQ}") and self.agent != "none":
                self.bytes = 0
            elif word in ("create", "affinity", "block", "wake", "yield", "die", "take", "tick", "handoff", "commit", "activate"):
                self.bytes += {"create": 48, "affinity": 32}.get(word, 16)
        return lines


def with_spaces(chance, line):
    """The same words with more spaces."""
    line = line.replace(" ", " " * chance.randint(1, 3))
    return " " * chance.randrange(3) + line + " " * chance.randrange(3)


def with_fault(chance, line):
    """A line that may be at fault."""
    words = line.split()
    at = chance.randrange(len(words) + 1)
    draw = chance.random()
    if draw < 0.2:
        del words[at : at + chance.choice((1, 1, 2))]
    elif draw < 0.4:
        words.insert(at, chance.choice(WORDS))
    elif draw < 0.7:
        words[at : at + 1] = [chance.choice(WORDS)]
    elif draw < 0.75:
        name = chance.choice("ab") * chance.choice((16, 17, 18, 99))
        words = ["create", "3", chance.choice("01"), chance.choice("rbR"), name]
    elif draw < 0.79:
        words = ["begin", *(chance.choice(("first", "two", "two", "third", "0", "2", "65536")) for _ in range(chance.randint(1, 3)))]
    elif draw < 0.82:
        words = [chance.choice(WORDS) for _ in range(chance.randint(1, 6))]
    elif draw < 0.9:
        place = chance.randrange(len(line) + 1)
        byte = chance.choice(("\0", "\t", "\r", "\x1f", "\x7f", "\x80", "\xff", "!", "0", "9", "#"))
        return line[:place] + byte + line[place + chance.randrange(2) :]
    else:
        return chance.choice(STRANGE)
    return " ".join(words)


def tight_group(chance, cpus):
    """A script whose events are all accepted, up to a group for which the journal or the ring has about the room that it takes."""
    cpus = cpus or chance.choice((2, 3, 4, 5, 7, 66, 128))
    chosen = chance.sample(range(1, cpus), min(cpus - 1, chance.randint(1, 6)))
    victims = [cpu for cpu in chosen if chance.random() < 0.5]
    mask, ring = (1 << cpus) - 1, 64 * chance.randint(8, 16)
    count = len(chosen) + len(victims)
    lines = [f"create {mask} {chance.randrange(2)} r a"] * count + ["drain 99"]
    lines += [*(f"stamp {cpu} {number}" for number, cpu in enumerate(victims, 1)), f"commit {mask}"]
    # Creations have 40 bytes. Behind them 16 bytes are left for each message, and those at the end of the block if they are fewer.
    ticks, entries = 0, 1 + count + len(victims)
    if chance.random() < 0.5:
        ticks = ring // 16 - (40 * count % 16 > 0) - chance.randrange(len(victims) + 2)
        history = 16_777_216
    else:
        history = max(2, entries + chance.randrange(count + 2))
    entries += ticks
    lines += ["tick 1"] * ticks
    tids = [*range(len(victims) + 1, count + 1)]
    if chance.random() < 0.1:
        tids[0] = chance.randint(1, count)
    first = len(victims) + 1
    for cpu, tid in zip(chosen, tids):
        flags = (" pg", " pg", " pg", " pg", " pg", " p") if cpu in victims else (" g", " g", " g", " pg", "")
        lines.append(f"stamp {cpu} {tid}{chance.choice(flags)}")
    lines += [f"commit {mask}", *(f"late {chance.randint(first, first + len(chosen))}" for _ in range(chance.randrange(3)))]
    after = ["unread", "state", "drain 99", "view", "decide", f"commit {mask}", "tick 1"]
    return [f"cpus {cpus} ring {ring} history {history}", *lines, *after]


def random_script(chance, cpus=None):
    """A script as bytes, of so many CPUs if that is asked for."""
    if chance.random() < 0.1:
        return "".join(line + "\n" for line in tight_group(chance, cpus)).encode()
    drawn = Script(chance, cpus)
    lines = [drawn.header()]
    if chance.random() < 0.8:
        for _ in range(chance.randint(1, drawn.most_threads if cpus else 4)):
            lines += [*drawn.create(), "drain 99"]
    for _ in range(chance.choice((3, 10, 30, 60, 60, 120, 300))):
        lines += drawn.events()
    if chance.random() < 0.1:
        lines = [with_spaces(chance, line) if chance.random() < 0.5 else line for line in lines]
    if chance.random() < 0.05:
        for _ in range(chance.randint(1, 4)):
            lines.insert(chance.randrange(len(lines) + 1), chance.choice(("", "   ", "# a comment", "  #tick 1")))
    draw = chance.random()
    if draw < 0.2:
        lines = lines[: chance.randint(1, 12)]
    if draw < 0.1:
        # In the header, which has the most that can be wrong.
        lines[0] = with_fault(chance, lines[0])
    if draw < 0.02 or 0.1 <= draw < 0.2:
        at = chance.randrange(len(lines))
        lines[at] = with_fault(chance, lines[at])
    if 0.2 <= draw < 0.202:
        lines = lines[: chance.randrange(2)]
    text = "".join(line + "\n" for line in lines)
    return (text[:-1] if chance.random() < 0.1 else text).encode("latin-1")
