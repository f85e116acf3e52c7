#!/usr/bin/env python3
"""More than 10,000 messages wait: they are shown, taken in in parts and at once, and then none is left."""
print("cpus 3 ring 1048576")
for turn in range(3_000):
    print(f"create 7 {turn % 2} r a\naffinity {turn + 1} 3\ntick 1\ntick 2")
print("unread\ndrain 999\ndrain 1\nunread\ndrain 65535\nunread\nview")
