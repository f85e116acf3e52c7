#!/usr/bin/env python3
"""As many threads as there may be, and one more."""
MOST, BATCH = 65_536, 16_384
print("cpus 2 ring 1048576")
for tid in range(1, MOST + 1):
    print("create 3 0 r a")
    if tid % BATCH == 0:
        print(f"drain {BATCH}")
print("create 3 0 r a")
