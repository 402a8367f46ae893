#!/usr/bin/env python3
"""Drives a simulated sign by its standard streams, with no library: a line is written, and its reply is read.

    hosts/python/drive.py PROGRAM SIGN
"""
import contextlib
import subprocess
import sys


class Pipe:
    def __init__(self, program, sign):
        words = [program, "serve", "--sign", sign]
        self.process = subprocess.Popen(words, stdin=subprocess.PIPE, stdout=subprocess.PIPE, bufsize=0)

    def ask(self, line):
        """The reply to a line. It ends the program if the sign has ended: it reads nothing then, and nothing is a reply."""
        with contextlib.suppress(BrokenPipeError):
            self.process.stdin.write(f"{line}\n".encode())
        reply = self.process.stdout.readline()
        if not reply.endswith(b"\n"):
            sys.exit("drive: the sign has ended")
        return reply.decode().rstrip("\n")


def main():
    sign = Pipe(*sys.argv[1:])
    for line in ("verdict CONGESTION", "request 3 1 6", "multi 3 1 LANE[np]CLOSED", "request 3 1 7", "work"):
        print(line, "->", sign.ask(line))
    code = sign.ask("code 3 1 30 200").removeprefix("code ")
    print("activate", code, "->", sign.ask(f"activate {code}"))
    changes = 0
    while changes < 4:
        # Sleeps until the page changes, which a simulation does by a tick.
        left = sign.ask("next").removeprefix("next ")
        changes += 1
        print("next", left, "->", sign.ask(f"tick {left}"))


if __name__ == "__main__":
    main()
