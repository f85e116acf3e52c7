#!/usr/bin/env python3
"""An output of 45 million bytes, in long lines."""
MASK = (1 << 128) - 1
print("cpus 128 ring 1048576\n" + f"create {MASK} 0 r sixteen-letters.\n" * 5_000 + "drain 65535\n" + "state\nview\n" * 46 + "tick 1\nunread")
