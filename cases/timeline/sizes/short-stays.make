#!/usr/bin/env python3
"""More entries than have a pixel each, and stays of one entry: one to six of them follow each other, and none to five ticks are
between those and the next ones. Those in one pixel are narrower than it, those in two are not. The last one goes on.
ANOTHER.make gives another number of entries."""
import sys

ENTRIES = int(sys.argv[1]) if sys.argv[1:] else 100_001
# A ring has room for so many ticks, and for what threads do beside them.
MOST_TICKS = 30_000

print(f"cpus 4 ring 1048576 history {ENTRIES}")
print("create 15 0 r a\ncreate 15 1 r -\ndrain 9")
entries = 3


def ticks(count):
    global entries
    print("tick 1\n" * count + "drain 65535")
    entries += count


def stay(cpu, tid):
    """Places the thread."""
    global entries
    print(f"stamp {cpu} {tid}\ncommit {1 << cpu}")
    entries += 1


for cpu in (1, 2, 3):
    for stays in range(1, 7):
        for gap in range(6):
            for turn in range(stays):
                tid = 1 + turn % 2
                stay(cpu, tid)
                print(f"yield {tid}\ndrain 9")
                entries += 1
            ticks(gap)
    ticks(MOST_TICKS)
ticks((ENTRIES - 1 - entries) // 2)
ticks(ENTRIES - 1 - entries)
stay(3, 1)
