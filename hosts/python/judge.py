#!/usr/bin/env python3
"""Judges messages on a sign, or shows their pages: a host in Python, by the package `latsefur`.

  judge.py SIGN_FILE                the verdict on each line of standard input, as `signctl check` writes it
  judge.py --draw CLOCK SIGN_FILE   the page at a clock, in tenths of a second, as `signctl show --clock CLOCK --colour 1` draws it
  judge.py --colours SIGN_FILE      the page at clock 0, with the digit of its colour for each pixel

A message is a line. It ends with a line feed, and a carriage return before that is dropped. Verdicts alone come from one call.
"""
import argparse
import re
import sys

from latsefur import LatsefurError, Sign

# As many octets of a message are judged as signctl judges.
MAX_TEXT = 4096


def answer(sign, text, verdict, words):
    """The answer to a message with this verdict."""
    if len(text) > MAX_TEXT:
        return "too long"
    if not verdict or not words.draws:
        return verdict
    clock = words.draw or 0
    picture = sign.colours(text, clock) if words.colours else sign.plane(text, 1, clock)
    return f"{sign.shown(text, clock) or 'off'}\n{picture}"


def clock_of(word):
    """A clock in decimal."""
    if not re.fullmatch("[0-9]+", word) or int(word) >= 2**64:
        raise ValueError
    return int(word)


def main():
    parser = argparse.ArgumentParser()
    mode = parser.add_mutually_exclusive_group()
    mode.add_argument("--draw", type=clock_of, metavar="CLOCK")
    mode.add_argument("--colours", action="store_true")
    parser.add_argument("sign_file")
    words = parser.parse_args()
    words.draws = words.colours or words.draw is not None
    try:
        sign = Sign.from_file(words.sign_file)
        *lines, rest = sys.stdin.buffer.read().split(b"\n")
        if rest:
            sys.exit("judge.py: the last line has no line feed")
        texts = [line.removesuffix(b"\r") for line in lines]
        verdicts = map(sign.check, texts) if words.draws else sign.check_all(texts)
        for text, verdict in zip(texts, verdicts):
            print(answer(sign, text, verdict, words))
    except (LatsefurError, OSError) as fault:
        sys.exit(f"judge.py: {fault}")


main()
