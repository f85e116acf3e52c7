#!/usr/bin/env python3
"""Drives `ghost serve`: three threads take turns on one CPU, and the policy says whose turn it is.

usage: examples/client.py [GHOST]     the program, ./ghost if it is not named
"""
import subprocess
import sys


class Ghost:
    """A machine that answers each line of a script before the next is said."""

    def __init__(self, program):
        self.machine = subprocess.Popen([program, "serve"], stdin=subprocess.PIPE, stdout=subprocess.PIPE, text=True)

    def say(self, line):
        """Returns the lines that answer this one. An empty line ends them."""
        print(line, file=self.machine.stdin, flush=True)
        return list(iter(lambda: self.machine.stdout.readline().strip(), ""))


def main():
    ghost = Ghost(sys.argv[1] if len(sys.argv) > 1 else "./ghost")
    ghost.say("cpus 2 ring 4096")
    for name in ("build", "index", "backup"):
        print(*ghost.say(f"create 2 0 r {name}"))
    for turn in range(6):
        ghost.say("drain 9")
        ghost.say("decide")
        (landed,) = ghost.say("commit 2")
        print(f"turn {turn}: {landed}")
        tid = landed.split()[3]
        ghost.say(f"yield {tid}")


if __name__ == "__main__":
    main()
