#!/usr/bin/env python3
"""As many CPUs as there may be, and threads on all but the agent's: by one plan and one commit, by one of which each thread
takes a CPU from another, by slots stamped one by one, and by a plan behind more than 100 transactions."""
CPUS = 128
MASK = (1 << CPUS) - 1
print(f"cpus {CPUS} ring 65536 policy two 1")
for tid in range(1, CPUS):
    print(f"create {MASK} 1 r lo")
print(f"drain 65535\ndecide\ncommit {MASK}\ndecide\nstate")
for tid in range(CPUS, 2 * CPUS - 1):
    print(f"create {MASK} 0 r hi")
print(f"drain 65535\ndecide\nunread\ncommit {MASK}\nunread\ndrain 65535\nview\nstate")
for tid in range(CPUS, 2 * CPUS - 1):
    print(f"block {tid}")
print("drain 65535")
for cpu in range(1, CPUS):
    print(f"stamp {cpu} {CPUS - cpu}")
print(f"commit {MASK}\nstate\nhandoff {CPUS - 1}\ntake 0\ntake {CPUS - 2}\ngive 0\ndrain 65535\ndecide\ncommit {MASK}\nstate")
for number in (1, CPUS, 2 * CPUS, 3 * CPUS):
    print(f"late {number}")
