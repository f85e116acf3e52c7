#!/usr/bin/env python3
"""A thread of class 1 makes way once its CPU ticked 65,535 times, as the slice says, and no sooner; more ticks change nothing."""
print("cpus 2 ring 1048576 policy two 65535\ncreate 3 1 r a\ncreate 3 1 r b\ndrain 9\ndecide\ncommit 2\ntick 0\ntick 0")
print("tick 1\n" * 65_533 + "drain 65535\ndrain 1\ndecide\ntick 1\ndrain 9\ndecide\nleave\ncommit 0\ntick 1\ntick 1\ndrain 9")
print("crash\nbegin\npage 9\nactivate 0\ndecide")
