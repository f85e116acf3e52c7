#!/usr/bin/env python3
"""More than 90,000 transactions: the agent plans for 63 CPUs again and again, all of it stale. Some land late."""
MASK = (1 << 64) - 1
print("cpus 64 ring 65536")
print(f"create {MASK} 0 r a\n" * 63 + "drain 99")
print("".join(f"affinity {tid} {MASK}\n" for tid in range(1, 64)), end="")
print(f"decide\ncommit {MASK}\n" * 1_430 + "drain 99\nstamp 63 63\nlate 90091")
for number in (1, 64, 39_999, 40_000, 40_001, 79_999, 80_000, 80_001, 90_090, 90_091, 90_092):
    print(f"late {number}")
