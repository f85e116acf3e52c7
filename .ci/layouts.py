"""The layouts of messages, pages, slots and status words, read once more: what crates/layout_driver has to write of any bytes.

It is written apart from the crates, so that each is a test of the other. Each reader returns a line: the value's fields, or the first
fault in the layout's order. All numbers have their lowest byte first, and each bit and byte that no field names is zero.

VECTORS has the bytes of values of each layout, and `changes` is what is tried of each.
"""
import functools
import struct
from typing import NamedTuple

MOST_CPUS, MOST_TIDS, MOST_NAME = 128, 65_536, 16
NONE = 65_535

CREATED, BLOCKED, WAKEUP, PREEMPTED, YIELD, DEAD, AFFINITY, TICK, PAD = range(1, 10)
KINDS = [None, "Created", "Blocked", "Wakeup", "Preempted", "Yield", "Dead", "Affinity", "TimerTick", "Pad"]
# By kind the lengths that it may have.
LENGTHS = {
    **dict.fromkeys((BLOCKED, WAKEUP, PREEMPTED, YIELD, DEAD, TICK), (16,)),
    CREATED: (40, 48, 56),
    AFFINITY: (32,),
    PAD: (8, 16, 24, 32, 40, 48),
}
# By kind whether there is a CPU: always, never, or maybe.
ON_A_CPU = {BLOCKED: "always", PREEMPTED: "always", YIELD: "always", TICK: "always", DEAD: "maybe", AFFINITY: "maybe"}

# length, kind, tid, tseq, cpu, flags; in a creation and a new mask then the lower and the upper half of the mask; in a creation then
# class, length of the name, and the name.
HEADER = struct.Struct("<HHIIHH")
MASK = struct.Struct("<QQ")
CLASS = struct.Struct("<BB")
CLASS_AT = HEADER.size + MASK.size
NAME_AT = CLASS_AT + CLASS.size

# count, whether it is the last page, the next thread; then the records: version, class, length of the name, tid, tseq, cpu, flags,
# mask and name. By version of a record its mask, and how many CPUs there are.
PAGE = struct.Struct("<HHI")
RECORD = struct.Struct("<HBBIIHH")
VERSIONS = {1: (8, 64), 2: (16, 128)}

# state, flags, cpu, generation, tid, tseq, outcome, at, seen, zeros
SLOT = struct.Struct("<BBHIIIHHIQ")
IDLE, STAMPED, DONE = range(3)
OUTCOMES = [
    *"Placed Gone Displaced NoThread Stale NotRunnable AlreadyPlaced NotAllowed".split(),
    *"CpuIsAgent CpuTaken CpuBusy SeqSpent HistoryFull Malformed GroupFailed".split(),
]
MALFORMED = OUTCOMES.index("Malformed")

# Flags and options as layout_driver writes them.
BOOLS = ("false", "true")


def some(value):
    return "None" if value is None else f"Some({value})"


def cpu_of(number):
    """A CPU, or None: as the number that stands in two bytes says."""
    return None if number == NONE else number


def is_name(name):
    return len(name) <= MOST_NAME and all(33 <= byte <= 126 for byte in name)


def read_message(data):
    """What data begins with: the fields of a message and its length, or the first fault."""
    if len(data) < 4:
        return "Short"
    length, kind = struct.unpack_from("<HH", data)
    if not CREATED <= kind <= PAD:
        return "BadKind"
    if length not in LENGTHS[kind]:
        return "BadLength"
    if len(data) < length:
        return "Short"
    if kind == PAD:
        return "BadField" if any(data[4:length]) else f"Pad {length}"
    return read_fields(kind, data[:length]) or "BadField"


def read_fields(kind, data):
    """The fields of a message of just these bytes, or None."""
    length, _, tid, tseq, cpu, flags = HEADER.unpack_from(data)
    mask = class_ = name = None
    body = b""
    if kind in (CREATED, AFFINITY):
        low, high = MASK.unpack_from(data, HEADER.size)
        mask = low + (high << 64)
        body = MASK.pack(low, high)
    if kind == CREATED:
        class_, size = CLASS.unpack_from(data, CLASS_AT)
        name = data[NAME_AT : NAME_AT + size]
        body += CLASS.pack(class_, size) + name
        if class_ > 1 or size != len(name) or not is_name(name):
            return None
    if not (is_subject(kind, tid, tseq) and is_cpu(kind, cpu) and is_flags(kind, flags, cpu)) or mask == 0:
        return None
    spelled = HEADER.pack(length, kind, tid, tseq, cpu, flags) + body
    # The length is the least multiple of 8 that there is room in, and what is left of it is zero.
    if spelled + bytes(-len(spelled) % 8) != data:
        return None
    shown_name = some(None if name is None else list(name))
    return f"{KINDS[kind]} {tid} {tseq} {some(cpu_of(cpu))} {flags} {some(mask)} {some(class_)} {shown_name} {length}"


def is_subject(kind, tid, tseq):
    return tid == tseq == 0 if kind == TICK else 1 <= tid <= MOST_TIDS and tseq >= 1


def is_cpu(kind, cpu):
    there = ON_A_CPU.get(kind, "never")
    return there != "always" if cpu == NONE else there != "never" and cpu < MOST_CPUS


def is_flags(kind, flags, cpu):
    """A creation has one flag, and so has a new mask of a thread on a CPU."""
    return flags == 0 or flags == 1 and (kind == CREATED or kind == AFFINITY and cpu != NONE)


def read_page(data):
    """The records of a page and where the next one begins, or the first fault over the whole of it."""
    if len(data) < PAGE.size:
        return "Short"
    count, end, following = PAGE.unpack_from(data)
    if count and len(data) < PAGE.size + 2:
        return "Short"
    version = struct.unpack_from("<H", data, PAGE.size)[0] if count else 2
    if version not in VERSIONS:
        return "BadVersion"
    size = RECORD.size + VERSIONS[version][0] + MOST_NAME
    if len(data) != PAGE.size + size * count:
        return "Short" if len(data) < PAGE.size + size * count else "Trailing"
    parts = [data[at : at + size] for at in range(PAGE.size, len(data), size)]
    if any(RECORD.unpack_from(part)[0] != version for part in parts):
        return "BadVersion"
    records = [read_record(part) for part in parts]
    if None in records or not is_end(end, following):
        return "BadField"
    tids = [record.tid for record in records] + [following] * (not end)
    if any(below >= above for below, above in zip(tids, tids[1:])):
        return "BadOrder"
    return "".join(record.shown for record in records) + some(None if end else following)


def is_end(end, following):
    return following == 0 if end == 1 else end == 0 and 1 <= following <= MOST_TIDS


class Record(NamedTuple):
    tid: int
    shown: str


def read_record(data):
    """A record of a version that there is, or None."""
    version, class_, size, tid, tseq, cpu, flags = RECORD.unpack_from(data)
    mask_size, cpus = VERSIONS[version]
    name_at = RECORD.size + mask_size
    mask = int.from_bytes(data[RECORD.size : name_at], "little")
    name = data[name_at : name_at + size]
    if class_ > 1 or size > MOST_NAME or not is_name(name) or any(data[name_at + size :]):
        return None
    if not (1 <= tid <= MOST_TIDS and tseq >= 1 and mask and flags <= 1):
        return None
    # A thread on a CPU is runnable, and has it in its mask.
    if cpu != NONE and not (cpu < cpus and flags and mask >> cpu & 1):
        return None
    return Record(tid, f"{tid} {tseq} {some(cpu_of(cpu))} {BOOLS[flags]} {mask} {class_} {list(name)} ")


def read_slot(data):
    """What is in the slot of the CPU that stands before its 32 bytes, or Malformed."""
    own, slot = int.from_bytes(data[:2], "little"), data[2:]
    state, flags, cpu, generation, tid, tseq, outcome, at, seen, zeros = SLOT.unpack(slot)
    if not any(slot):
        return "Idle"
    asked = f"Flags {{ preempt: {BOOLS[flags & 1]}, group: {BOOLS[flags >> 1 & 1]} }}"
    stamp = f"Stamp {{ generation: {generation}, tid: {tid}, tseq: {tseq}, flags: {asked} }}"
    if cpu != own or flags > 3 or zeros:
        return "Malformed"
    if state == STAMPED and not (outcome or at or seen):
        return f"Stamped {{ stamp: {stamp} }}"
    if state != DONE or outcome >= len(OUTCOMES) or at != NONE and at >= MOST_CPUS:
        return "Malformed"
    if outcome == MALFORMED and (flags, generation, tid, tseq, at, seen) != (0, 0, 0, 0, NONE, 0):
        return "Malformed"
    return f"Done {{ stamp: {stamp}, outcome: {OUTCOMES[outcome]}, at: {some(cpu_of(at))}, seen: {seen} }}"


def read_status(data):
    """What a status word shows, or None. Its bits are told from the highest on."""
    word = int.from_bytes(data, "little")
    zeros, on, alive, runnable = word >> 43, word >> 42 & 1, word >> 41 & 1, word >> 40 & 1
    cpu, tseq = word >> 32 & 255, word & 0xFFFFFFFF
    if zeros or runnable > alive or on > runnable or on != (cpu != 255) or on and cpu >= MOST_CPUS:
        return "None"
    shown = f"tseq: {tseq}, cpu: {some(cpu if on else None)}, runnable: {BOOLS[runnable]}, alive: {BOOLS[alive]}"
    return f"Some(StatusWord {{ {shown} }})"


# By the letter of a layout, as layout_driver has it.
READERS = {"m": read_message, "p": read_page, "s": read_slot, "w": read_status}


def of(text):
    """Bytes, from their hexadecimal digits: `3x00` is three times 00."""
    words = (word.rpartition("x") for word in text.split())
    return b"".join(bytes.fromhex(byte) * int(times or 1) for times, _, byte in words)


def done_slot(outcome):
    """A slot that is done, with the CPU before it: of another CPU for each outcome, and with each of the flags by turns."""
    cpu, at = outcome * 9, NONE if outcome % 2 else outcome * 8
    fields = (DONE, outcome % 4, cpu, outcome + 1, 7 << outcome, 2**32 - 1 - outcome, outcome, at, 3 << outcome, 0)
    return cpu.to_bytes(2, "little") + SLOT.pack(*fields)


# By the letter of a layout the bytes of values, with the least and the greatest that a field may be.
VECTORS = {
    "m": [
        # Creations with names of 3, 0, 6, 7, 14, 15 and 16 bytes, and with masks of some of 64 and of 128 CPUs.
        of("28 00 01 00 01 00 00 00 01 00 00 00 ff ff 01 00 03 15x00 00 03 77 65 62 3x00"),
        of("28 00 01 00 00 00 01 00 ff ff ff ff ff ff 00 00 8x00 01 6x00 80 01 00 6x00"),
        of("28 00 01 00 02 00 00 00 fe ff ff ff ff ff 01 00 16xff 00 06 21 7e 61 62 63 64"),
        of("30 00 01 00 03 00 00 00 01 00 00 00 ff ff 01 00 8xff 8x00 00 07 67 68 6f 73 74 2d 31 7x00"),
        of("30 00 01 00 ff ff 00 00 01 00 00 00 ff ff 00 00 7x00 80 8x00 01 0e 14x61"),
        of("38 00 01 00 04 00 00 00 00 00 00 80 ff ff 01 00 01 15x00 00 0f 15x7a 7x00"),
        of("38 00 01 00 05 00 00 00 02 00 00 00 ff ff 01 00 15x00 80 01 10 16x5f 6x00"),
        # Blocked on CPU 2 and on the last CPU, woken, preempted on CPU 64, and yielded on the first.
        of("10 00 02 00 07 00 00 00 03 00 00 00 02 00 00 00"),
        of("10 00 02 00 00 00 01 00 ff ff ff ff 7f 00 00 00"),
        of("10 00 03 00 01 00 00 00 02 00 00 00 ff ff 00 00"),
        of("10 00 04 00 ff 00 00 00 00 01 00 00 40 00 00 00"),
        of("10 00 05 00 ff ff 00 00 01 00 00 00 00 00 00 00"),
        # Dead, on CPU 63 and on none.
        of("10 00 06 00 02 00 00 00 04 00 00 00 3f 00 00 00"),
        of("10 00 06 00 02 00 00 00 04 00 00 00 ff ff 00 00"),
        # New masks: off CPU 1, off a CPU of the mask, still on the last CPU, and on no CPU.
        of("20 00 07 00 01 00 00 00 02 00 00 00 01 00 01 00 01 15x00"),
        of("20 00 07 00 01 00 00 00 02 00 00 00 40 00 01 00 16xff"),
        of("20 00 07 00 01 00 00 00 02 00 00 00 7f 00 00 00 15x00 80"),
        of("20 00 07 00 01 00 00 00 fe ff ff ff ff ff 00 00 7x00 80 8x00"),
        # Ticks of CPU 1 and of the last CPU.
        of("10 00 08 00 8x00 01 00 00 00"),
        of("10 00 08 00 8x00 7f 00 00 00"),
        *(of(f"{length:02x} 00 09 00") + bytes(length - 4) for length in LENGTHS[PAD]),
    ],
    "p": [
        # Without a record, the last page and not. A record in the first version and in the second.
        of("00 00 01 00 4x00"),
        of("4x00 00 00 01 00"),
        of("01 00 01 00 4x00 01 00 00 03 01 00 00 00 01 00 00 00 ff ff 01 00 03 7x00 77 65 62 13x00"),
        of("01 00 01 00 4x00 02 00 00 03 01 00 00 00 01 00 00 00 ff ff 01 00 03 15x00 77 65 62 13x00"),
        # Two records in each version, of which one is on the last CPU, and more threads follow.
        of("02 00 00 00 09 00 00 00 01 00 01 10 07 00 00 00 02 00 00 00 3f 00 01 00 7x00 80 16x21")
        + of("01 00 00 01 08 00 00 00 ff ff ff ff 00 00 01 00 8xff 61 15x00"),
        of("02 00 00 00 00 00 01 00 02 00 01 10 07 00 00 00 ff ff ff ff 7f 00 01 00 15x00 80 16x7e")
        + of("02 00 00 00 ff ff 00 00 01 00 00 00 ff ff 00 00 16xff 16x00"),
        # Three records on the last page.
        of("03 00 01 00 4x00 02 00 00 01 01 00 00 00 02 00 00 00 00 00 01 00 03 15x00 61 15x00")
        + of("02 00 01 02 02 00 00 00 01 00 00 00 ff ff 00 00 8x00 01 7x00 62 63 14x00")
        + of("02 00 00 00 00 01 00 00 01 00 00 00 40 00 01 00 8x00 ff 7x00 16x00"),
    ],
    # Before each slot its CPU.
    "s": [
        of("00 00 32x00"),
        of("05 00 32x00"),
        # Stamped without a flag, with each one and with both, and for a CPU that there is not.
        of("01 00 01 00 01 00 01 00 00 00 01 00 00 00 01 00 00 00 16x00"),
        of("7f 00 01 01 7f 00 ff ff ff ff 00 00 01 00 ff ff ff ff 16x00"),
        of("40 00 01 02 40 00 02 00 00 00 03 00 00 00 04 00 00 00 16x00"),
        of("00 00 01 03 00 00 02 00 00 00 03 00 00 00 04 00 00 00 16x00"),
        of("2c 01 01 00 2c 01 12x00 16x00"),
        # Done: placed, with each outcome, and malformed when it landed.
        of("01 00 02 00 01 00 01 00 00 00 01 00 00 00 01 00 00 00 00 00 01 00 01 00 00 00 8x00"),
        *(done_slot(outcome) for outcome in range(len(OUTCOMES)) if outcome != MALFORMED),
        of("07 00 02 00 07 00 12x00 0d 00 ff ff 12x00"),
    ],
    # On CPU 1, on the first and the last one, runnable, blocked, and dead.
    "w": [
        of("01 00 00 00 01 07 00 00"),
        of("00 00 00 00 00 07 00 00"),
        of("ff ff ff ff 7f 07 00 00"),
        of("01 00 00 00 ff 03 00 00"),
        of("02 00 00 00 ff 02 00 00"),
        of("02 00 00 00 ff 00 00 00"),
    ],
}

# Layouts of which each beginning is tried: the others have bytes of just one length.
BEGUN = "mp"
# What follows a message while its length and kind, four bytes, change once more: as much as the longest has.
BEHIND, FRONT = bytes(56), 4


def one_byte_other(data, count):
    """Each change of one of the first bytes, of which there are so many, to each other byte."""
    for at in range(count):
        for byte in range(256):
            if byte != data[at]:
                yield f"byte {at} as {byte}", data[:at] + bytes([byte]) + data[at + 1 :]


def changes(layout, data):
    """What is tried of a value: itself, each beginning, a byte more, and each change of one byte, as far as its layout has these."""
    yield "as it is", data
    if layout in BEGUN:
        yield from ((f"the first {length} bytes", data[:length]) for length in range(len(data)))
    yield from one_byte_other(data, len(data))
    if layout == "p":
        yield "and a byte more", data + bytes(1)
    if layout == "m":
        yield from ((f"{about}, and zeros behind", changed) for about, changed in one_byte_other(data + BEHIND, FRONT))


def values():
    """Each value with the letter of its layout and its number there."""
    return ((layout, number, data) for layout, listed in VECTORS.items() for number, data in enumerate(listed))


def places():
    """All that is tried, of all values."""
    return (place for layout, _, data in values() for place in changes(layout, data))


@functools.cache
def wanted(layout, data):
    """The lines that are wanted of what is tried of a value."""
    return [READERS[layout](item) for _, item in changes(layout, data)]


def given(layout, items):
    """What layout_driver is given for items of one layout."""
    return b"".join(layout.encode() + len(item).to_bytes(2, "little") + item for item in items)
