#!/usr/bin/env python3
"""As many threads as there may be: one more is refused, whatever else would refuse it but its mask. All are shown; the next
agent is told of all but one in a page and of the last in another; the last one runs, and is the last of the living."""
MOST, BATCH = 65_536, 16_384
print(f"cpus 2 ring 1048576 history {MOST + 14}")
for tid in range(1, MOST + 1):
    print("create 3 0 r a")
    if tid % BATCH == 0:
        print(f"drain {BATCH}")
print("create 3 0 r a\ncreate 0 0 r a\nview\nstate")
print(f"stamp 1 {MOST + 1}\nstamp 1 {MOST}\ncommit 2\nblock {MOST}\nwake {MOST}\ndrain 9")
print("crash\nbegin\npage 65535\npage 1\npage 1\nactivate 0\nview")
print(f"decide\ncommit 2\nyield 1\ndrain 9\naffinity {MOST} 2\ndie {MOST - 1}\ndrain 9\ndecide\ncommit 2")
# The journal is full: that it has no room comes after all tids are spent.
print("tick 1\ntick 1\ntick 1\ntick 1\ntick 1\ncreate 3 0 r a\ncreate 4 0 r a\nstate")
