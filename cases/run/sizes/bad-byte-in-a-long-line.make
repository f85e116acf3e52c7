#!/usr/bin/env python3
"""A byte that no line may have, far from both ends of a line of 20,000 bytes."""
print("cpus 2 ring 4096\ntick 0\n# " + "a" * 10_000 + "\x01" + "a" * 10_000 + "\nblok")
