#!/usr/bin/env python3
"""Writes the gate's case of `list`: a file of some hundred records, and what document 01 says that the program writes of it.

    python3 tests/list_case.py

Writes crates/list/stdin and crates/list/stdout. Among the records are lines that end in `\\r\\n`, empty lines, lines that nearly fill the window,
a last line without `\\n`, and heads of every kind. The answers come from tests/compare/meaning.py, which reads an input as a whole.
"""
import os
import random
import sys

sys.dont_write_bytecode = True
ROOT = os.path.dirname(os.path.dirname(os.path.abspath(__file__)))
sys.path.insert(0, os.path.join(ROOT, "tests", "compare"))
import meaning  # noqa: E402

# "start and window 65,536, StdPolicy, 4,096 slots"
SETUP = (65536, 0, 0, 0, 65536, 4096)


def trimmed(line):
    """ "One trailing `\\r` is trimmed from a line shown, never two." """
    return line.removesuffix(b"\r")


def listing(data):
    """What the program writes: a row for each record, then `end` or `refused N`."""
    out = []
    for said, lines in meaning.from_start(SETUP, data):
        words = said.split()
        if words[0] != "record":
            return b"".join(out) + " ".join(words[:2]).encode() + b"\n"
        name = trimmed(lines[0][1:]).split(b" ")[0]
        length = sum(len(trimmed(line)) for line in lines[1:])
        out.append(b"\t".join([words[1].encode(), words[2].encode(), name, b"%d" % length]) + b"\n")


def records(chance):
    """Some hundred records; every twentieth has long lines, and the last has no `\\n`."""
    for i in range(320):
        end = chance.choice([b"\n", b"\r\n"])
        yield b">" + chance.choice([b"", b"r%d" % i, b"r%d a description" % i, b" behind", b"r>%d  x" % i, b"\xc3\xa9%d\t.\r" % i]) + end
        for _ in range(chance.choice([0, 1, 1, 2, 5])):
            yield chance.choice([b"", b"\r", b"ACGT" * chance.randrange(16), b"AC>GT N-*"]) + end
        if i % 20 == 19:
            yield b"ACGTN" * chance.randrange(4000, 13000) + end
    yield b">longest\n" + b"A" * (65535 - 10) + b"\n"
    yield b">last\r\nACGT\r\nTGCA"


def main():
    data = b"\n\r\n" + b"".join(records(random.Random(2026)))
    text = listing(data)
    assert text.endswith(b"end\n") and text.count(b"\n") == 323, text[-200:]
    for name, content in (("stdin", data), ("stdout", text)):
        with open(os.path.join(ROOT, "crates", "list", name), "wb") as f:
            f.write(content)


if __name__ == "__main__":
    main()
