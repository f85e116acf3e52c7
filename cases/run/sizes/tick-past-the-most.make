#!/usr/bin/env python3
"""Ticks are counted up to 65,535: a thread whose CPU ticked more often still makes way."""
print("cpus 2 ring 1048576 policy two 65535\ncreate 3 1 r a\ncreate 3 1 r b\ndrain 9\ndecide\ncommit 2")
print("tick 1\n" * 40_000 + "drain 65535\n" + "tick 1\n" * 25_537 + "drain 65535\ndecide\ncommit 2")
