"""The stored vectors: the form of their files, and the scripts for the port that are made from them.

A vector is a script for the Rust with the Rust's answers:

    vector 7: random
    setup 5 2 8 20 64 4          the setup numbers of docs/DRIVE.md, in its order
    input >A\\sC\\nGT\\r\\n          `\\n`, `\\r`, `\\s` (a space); an empty one is `-`
    cuts 1 4                     where a refill of the port stops (the Rust pulls its input itself); `-`: nowhere but at the room's end
    1 -> record 1 0 1            a call, by its byte and its operands, and what the Rust answers
"""
import bisect
import collections
import sys

import model

Vector = collections.namedtuple("Vector", "kind setup input cuts calls answers")

ESCAPES = {b"\\": b"\\\\", b"\n": b"\\n", b"\r": b"\\r", b" ": b"\\s"}


# ---------------------------------------------------------------------------------------------------------------------------------------
# The files

def escaped(data):
    return b"".join(ESCAPES.get(data[at:at + 1], data[at:at + 1]) for at in range(len(data))).decode("ascii") or "-"


def plain(text):
    if text == "-":
        return b""
    out, signs = bytearray(), iter(text.encode("ascii"))
    for sign in signs:
        out += {110: b"\n", 114: b"\r", 115: b" ", 92: b"\\"}[next(signs)] if sign == 92 else bytes([sign])
    return bytes(out)


def told(numbers):
    return " ".join(map(str, numbers)) or "-"


def text_of(vectors, note):
    """The text of a file: the note as its comment, then the vectors."""
    out = ["# " + line for line in note]
    for number, vector in enumerate(vectors, 1):
        out += ["", "vector %d: %s" % (number, vector.kind), "setup " + told(vector.setup), "input " + escaped(vector.input), "cuts " + told(vector.cuts)]
        out += ["%s -> %s" % (" ".join(escaped(part) if isinstance(part, bytes) else str(part) for part in call), answer)
                for call, answer in zip(vector.calls, vector.answers)]
    return "".join(line + "\n" for line in out)


def read(path):
    """The vectors of a file."""
    vectors = []
    with open(path) as file:
        for line in file.read().split("\n"):
            call, arrow, answer = line.partition(" -> ")
            word, _, rest = line.partition(" ")
            if arrow:
                vectors[-1].calls.append(call_of(call.split(" ")))
                vectors[-1].answers.append(answer)
            elif word == "vector":
                vectors.append(Vector(rest.partition(": ")[2], None, None, None, [], []))
            elif word in ("setup", "cuts"):
                vectors[-1] = vectors[-1]._replace(**{word: () if rest == "-" else tuple(map(int, rest.split(" ")))})
            elif word == "input":
                vectors[-1] = vectors[-1]._replace(input=plain(rest))
    return vectors


def call_of(words):
    """A call; the bytes of a free writer are its last word."""
    tail = (plain(words.pop()),) if words[0] == "13" else ()
    return (*map(int, words), *tail)


# ---------------------------------------------------------------------------------------------------------------------------------------
# The scripts

def for_rust(vector):
    return model.script(vector.setup, vector.input, vector.calls)


def for_port(vector):
    """The port's script, and the lines that it is due: the Rust's answers, and before that of a read or set the asks with their reports, which
    the model knows. The Rust's refusal 3 names no place; that is what its `position` says next."""
    session = model.Session(vector.setup, vector.input)
    calls, lines = [], ["made"]
    for call, answer, behind in zip(vector.calls, vector.answers, (*vector.answers[1:], "")):
        line = session.call(*call)
        while line.startswith("ask"):
            _, _, room, offset = map(int, ("0" + line[3:]).split())
            stop = min(vector.cuts[bisect.bisect_right(vector.cuts, offset):][:1] + (len(vector.input),))
            report = 2, max(0, min(room, stop - offset))
            calls += [call, report]
            lines += [line, session.call(*report)]
            line = session.call(*call)
        calls.append(call)
        lines.append(answer + behind.removeprefix("at") if answer == "refused 3" else answer)
        if lines[-1] != line:
            sys.exit("vectors: %r, %s, call %s: the Rust says `%s`, the model says `%s`" % (vector.input, vector.setup, call, lines[-1], line))
    return model.script(vector.setup, vector.input, calls), [*lines, "done"]
