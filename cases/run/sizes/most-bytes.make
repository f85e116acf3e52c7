#!/usr/bin/env python3
"""A script of as many bytes as there may be."""
script = "cpus 2 ring 4096\ntick 1\n# "
print(script + "a" * (1_048_576 - len(script) - 8) + "\ntick 0\n", end="")
