#!/usr/bin/env python3
"""A journal of 140,000 entries: ticks, a thread that comes and goes, and the other class on a CPU by turns."""
print("cpus 3 ring 1048576\ncreate 7 0 r a\ndrain 9")
entries, turn = 2, 0
while entries < 140_000 - 5:
    turn += 1
    print("tick 1\ntick 2\ntick 0\ntake 1\ngive 1\ntick 1\ntick 2")
    entries += 7
    if turn % 2_000 == 0:
        print("drain 65535\nstamp 2 1\ncommit 4\nyield 1")
        entries += 2
print("tick 1\n" * (140_000 - entries), end="")
