#!/usr/bin/env python3
"""A trace on standard input, its answers on standard output."""

import os
import sys

sys.dont_write_bytecode = True
sys.path.insert(0, os.path.dirname(os.path.dirname(os.path.realpath(__file__))))
from book.replay import replay  # noqa: E402


def main():
    trace = sys.stdin.buffer.read()
    for piece in replay(trace):
        sys.stdout.buffer.write(piece)
    sys.stdout.buffer.flush()


if __name__ == "__main__":
    main()
