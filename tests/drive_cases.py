#!/usr/bin/env python3
"""Writes the gate's cases of `drive`: document 01's bench list at three capacities, its setups, T = 2, readers altered by hand, the
writers, sets, and behind these the stored vectors.

    python3 tests/drive_cases.py

Writes crates/drive/stdin and crates/drive/stdout. The answers come from tests/compare/model.py, which is written from 01; each line that the
bench list itself states is checked here besides, and so are the texts of a record's writers, and every answer about sets (01, module 6 and
refusal 12) that is written out below. The answers to the vectors are the Rust's, from tests/vectors/answers.txt.
"""
import os
import sys

sys.dont_write_bytecode = True
ROOT = os.path.dirname(os.path.dirname(os.path.abspath(__file__)))
sys.path[:0] = [os.path.join(ROOT, "tests", "compare"), os.path.join(ROOT, "tests", "vectors")]
import model  # noqa: E402
import stored  # noqa: E402

VIEWS = [(6, what, 0, 64) for what in (0, 1, 2, 3, 5)]
WINDOW = 65536
PLENTY = 64

# The bench list: the input, and what it says of it: a record's head and lines, "end", or a refusal.
BENCH = [
    (b"", ["end"]),
    (b"\r", ["end"]),
    (b"\n\rX", ["refused 2 2 13"]),
    (b">", [(1, 0, b"", [])]),
    (b">id\r", [(1, 0, b"id", [])]),
    (b">id\nACGT", [(1, 0, b"id", [b"ACGT"])]),
    (b">id\nACGT\n", [(1, 0, b"id", [b"ACGT"])]),
    (b">id\nAC\n\n", [(1, 0, b"id", [b"AC", b""])]),
    (b">id\nAC\r\r\n", [(1, 0, b"id", [b"AC\r"])]),
    (b">a>b\n>c", [(1, 0, b"a>b", []), (2, 5, b"c", [])]),
    (b">id1\nACGT\n>id2\nTGCA\n", [(1, 0, b"id1", [b"ACGT"]), (3, 10, b"id2", [b"TGCA"])]),
]

# A script with an unknown call, which ends the run: what follows is not read.
UNKNOWN = model.script((3, 0, 0, 0, 3, 1), b"", [])[:-4] + b"\2\0\0\0" + b"\x63\1" + model.script((3, 0, 0, 0, 3, 1), b"", [(4,)])


class Script:
    """A script that is written while the model answers it."""

    def __init__(self, setup, data, step=None):
        self.setup, self.data, self.step = setup, data, step
        self.session = model.Session(setup, data)
        self.calls, self.lines = [], [self.session.first]

    def call(self, *call):
        self.calls.append(call)
        if self.session.reader is not None:
            self.lines.append(self.session.call(*call))
        return self.lines[-1]

    def read(self):
        return self.serve(1)

    def serve(self, *call):
        """Calls until the answer is no ask. Each report brings `step` bytes, or all that there is room for."""
        line = self.call(*call)
        while line.startswith("ask"):
            _, _, room, offset = line.split()
            left = max(0, len(self.data) - int(offset))
            self.call(2, min(int(room), left, self.step or left))
            line = self.call(*call)
        return line

    def set(self, wanted, room=PLENTY, records=8, ends=16):
        """A set with that much room: its answer, and that it has no record if it is none."""
        self.serve(5, room, records, ends)
        self.say(wanted)
        if not wanted.startswith(("set", "refused 11")):
            self.held()

    def held(self, *places):
        """The positions of the last set's records, and that there is none behind them: 7, before 10, 9 and 8."""
        for number, (line, byte) in enumerate(places):
            self.told("at %d %d" % (line, byte), 12, number)
        for number in (len(places), (1 << 32) - 1):
            self.told("refused 7", 12, number)
            for what in range(6):
                self.told("refused 7", 8, number, what, 99, 0)
            for what in range(3):
                self.told("refused 7", 9, number, what, 0, 0)

    def told(self, wanted, *call):
        self.call(*call)
        self.say(wanted)

    def say(self, wanted):
        """The last line must be this one of the bench list."""
        if self.lines[-1] != wanted:
            sys.exit("%r, %s: the model says `%s`, 01 says `%s`" % (self.data, self.setup, self.lines[-1], wanted))

    def bytes(self):
        return model.script(self.setup, self.data, self.calls)


def bench(capacity, step):
    """Each input of the bench list, with all views of every record, and one read behind the last answer."""
    for data, wanted in BENCH:
        window = max(capacity, PLENTY)
        case = Script((capacity, 0, 0, 0, window, 8), data, step)
        for record in wanted:
            case.read()
            if isinstance(record, str):
                case.say(record)
                break
            line, byte, head, lines = record
            case.say("record %d %d %d" % (line, byte, len(lines)))
            case.call(4)
            case.say("at %d %d" % (line, byte))
            for view in VIEWS:
                case.call(*view)
                if view[1] == 0:
                    case.say("part " + model.hexed(head))
            for number, text in enumerate(lines):
                case.call(6, 4, number, 0)
                case.say("part " + model.hexed(text))
            case.call(6, 4, len(lines), 0)
            case.say("refused 8")
        case.read()
        case.say("end")
        case.call(10)
        yield case


def growth():
    """Start 3, `StdPolicy`, window 20: L = 11 is read, L = 12 refused with 3. `DoubleUntilLimited` 8 and 20 from 3: 3, 6, 12, 20."""
    for length, wanted in ((11, "record 1 0 1"), (12, "refused 3 1 0")):
        case = Script((3, 0, 0, 0, 20, 8), (b">id\n" + b"A" * 20)[:length - 1] + b"\n")
        case.read()
        case.say(wanted)
        case.call(10)
        case.say("capacity 12")
        case.call(4)
        yield case
    case = Script((3, 2, 8, 20, 64, 8), b"")
    for size, wanted in ((3, "grow 6"), (6, "grow 12"), (12, "grow 20"), (20, "none")):
        case.call(11, size)
        case.say(wanted)
    yield case


def setups():
    """Setup 2 is refused, 3 taken; so are a capacity above the window and a table without slots."""
    for setup, wanted in (((2, 0, 0, 0, 64, 8), "refused 1"), ((3, 0, 0, 0, 64, 8), "made"), ((65, 0, 0, 0, 64, 8), "refused 1"),
                          ((3, 0, 0, 0, 64, 0), "refused 1")):
        case = Script(setup, b">id\nACGT\n")
        case.say(wanted)
        case.call(1)
        case.call(4)
        yield case


def tables():
    """T = 2: a head and one line are read; two lines are refused with 4, and that lasts."""
    for data, wanted in ((b">id\nACGT\n", "record 1 0 1"), (b">id\nAC\nGT\n", "refused 4 1 0")):
        for step in (None, 1):
            case = Script((3, 0, 0, 0, PLENTY, 2), data, step)
            case.read()
            case.say(wanted)
            case.call(4)
            case.say("at 1 0")
            case.read()
            case.say("end" if wanted.startswith("record") else wanted)
            yield case


def seeks():
    """Back to the first record and on to the second; places that are refused; a place without a `>`."""
    case = Script((4, 0, 0, 0, PLENTY, 8), b">id1\nACGT\n>id2\nTGCA\n")
    case.read()
    for line, byte, sought, read in ((3, 10, "ok", "record 3 10 1"), (1, 0, "ok", "record 1 0 1"), (2, 5, "ok", "refused 5"),
                                     (0, 0, "refused 5", "refused 5"), (7, 5, "refused 5", "refused 5"), (1, 99, "ok", "refused 5")):
        case.call(3, line, byte)
        case.say(sought)
        case.read()
        case.say(read)
    yield case


# Alterations that 11 must refuse in a reader that has given `>id\nAC\nGT\n` and then `>b\nT\n`, filled whole: field, value.
ALTERED = [(0, 2), (0, 65), (1, 65), (1, 0), (2, 14), (2, 16), (3, 0), (3, 65), (4, 0), (4, 9), (4, 6), (5, 0), (5, 99), (6, (1 << 62) + 1), (1, 1 << 63)]


def altered():
    """Each call but the capacity is refused with 11, until a value that fits stands there again."""
    for field, value in ALTERED:
        case = given()
        before = (case.session.reader.capacity, case.session.reader.filled, case.session.reader.start, case.session.reader.search,
                  case.session.reader.count, case.session.reader.line, case.session.reader.offset)[field]
        case.call(14, field, value)
        for call in ((1,), (2, 0), (3, 1, 0), (4,), *VIEWS):
            case.call(*call)
            case.say("refused 11")
        case.call(10)
        case.call(14, field, before)
        case.call(6, 0, 0, 0)
        case.say("part 62")
        yield case
    case = given()
    case.call(14, 8, 1)  # an open ask without room
    case.call(14, 1, case.session.reader.capacity)
    case.call(1)
    case.say("refused 11")
    yield case
    for slot, value in ((0, 0), (0, 99), (1, 1), (1, (1 << 64) - 1)):
        case = given()
        case.call(15, slot, value)
        case.call(6, 5, 0, 64)
        case.say("refused 11")
        for view in VIEWS:
            case.call(*view)
        yield case


def given():
    case = Script((64, 0, 0, 0, PLENTY, 8), b">id\nAC\nGT\n>b\nT\n")
    case.read()
    case.read()
    case.say("record 4 10 1")
    return case


def writers():
    """Each free writer, with room to spare, with just too little, and with a width 0."""
    a, b, c = b"id", b"text", b"ACGTA"
    case = Script((3, 0, 0, 0, 3, 1), b"")
    for what in range(10):
        for width, room in ((2, 24), (2, 4), (0, 24)):
            case.call(13, what, len(a), len(b), len(c), width, room, a + b + c)
    case.call(13, 4, 0, 0, 0, 2, 4, b"")
    case.say("wrote - 23232323")
    yield case


# What 01 says of a record's writers, by hand: an input, the number of the record to be written, its texts by `write`, by `write_wrap` at
# width 3, and by `write_unchanged`.
WRITTEN = [
    (b">id d\r\nACG\r\nTACG\r\n", 1, b">id d\nACGTACG\n", b">id d\nACG\nTAC\nG\n", b">id d\r\nACG\r\nTACG\r\n"),  # CRLF
    (b">id\nAC\nGTA\nC\n", 1, b">id\nACGTAC\n", b">id\nACG\nTAC\n", b">id\nAC\nGTA\nC\n"),  # ends with a full line
    (b">id\nAC\nG", 1, b">id\nACG\n", b">id\nACG\n", b">id\nAC\nG\n"),  # the last line without `\n`
    (b">id\nAC\n\n", 1, b">id\nAC\n", b">id\nAC\n", b">id\nAC\n"),  # the bench list's, for `write_unchanged`
    (b">id\nAC\n\nGT\n", 1, b">id\nACGT\n", b">id\nACG\nT\n", b">id\nAC\n\nGT\n"),  # an empty line inside
    (b">", 1, b">\n\n", b">\n\n", b">\n"),
    (b">id", 1, b">id\n\n", b">id\n\n", b">id\n"),
    (b">id\n", 1, b">id\n\n", b">id\n\n", b">id\n"),  # no line
    (b">id\n\n", 1, b">id\n\n", b">id\n\n", b">id\n"),  # one line, empty: the copy ends behind the head's `\n`
    (b">id\n\r\n\n", 1, b">id\n\n", b">id\n\n", b">id\n\r\n"),  # two lines, empty
    (b"\n>a\nAC\n>b\r\nGT\r\r\nA\n>c", 2, b">b\nGT\rA\n", b">b\nGT\r\nA\n", b">b\r\nGT\r\r\nA\n"),  # among others; one `\r` goes
]


def record_writers():
    """Each writer of the current record, at the exact room and one byte short of it, before and behind other calls."""
    for data, number, *texts in WRITTEN:
        for capacity, step in ((3, 1), (WINDOW, None)):
            case = Script((capacity, 0, 0, 0, max(capacity, PLENTY), 8), data, step)
            for _ in range(number):
                case.read()
            for what, text in enumerate(texts):
                for room, wanted in ((len(text), "wrote " + model.hexed(text)), (len(text) - 1, "refused 9 %d" % len(text)),
                                     (0, "refused 9 %d" % len(text)), (WINDOW, "wrote " + model.hexed(text))):
                    case.call(7, what, 3, room)
                    case.say(wanted)
            # the width is `write_wrap`'s alone, and 10 comes before 9
            for what, room, wanted in ((0, WINDOW, "wrote " + model.hexed(texts[0])), (1, WINDOW, "refused 10"), (1, 0, "refused 10"),
                                       (2, WINDOW, "wrote " + model.hexed(texts[2]))):
                case.call(7, what, 0, room)
                case.say(wanted)
            case.call(7, 1, (1 << 64) - 1, WINDOW)
            case.say("wrote " + model.hexed(texts[0]))
            yield case
    yield from (no_record(), bad_state(), *bad_ends())


def each_writer(case, wanted, width=3, room=WINDOW):
    for what in range(3):
        case.call(7, what, width, room)
        case.say(wanted)


def no_record():
    """Before the first record, at an ask, behind a seek and at the end there is no record to write: 7, before 10 and 9."""
    case = Script((3, 0, 0, 0, PLENTY, 8), b">id\nACGT\n")
    each_writer(case, "refused 7")
    case.call(1)
    each_writer(case, "refused 7", 0, 0)
    case.call(2, 3)
    case.read()
    case.say("record 1 0 1")
    case.call(2, 1)
    case.say("refused 6")
    case.call(3, 0, 0)
    case.say("refused 5")
    case.call(7, 0, 0, WINDOW)  # these two refusals changed nothing
    case.say("wrote 3e69640a414347540a")
    case.call(3, 1, 0)
    each_writer(case, "refused 7")
    case.read()
    case.say("record 1 0 1")
    case.read()
    case.say("end")
    each_writer(case, "refused 7", 0, 0)
    return case


def bad_state():
    """An altered reader: 11, before 7, 10 and 9."""
    case = given()
    for field, value, before in ((0, 2, 64), (4, 0, 2), (4, 9, 2), (2, 16, 10), (5, 0, 4)):
        case.call(14, field, value)
        each_writer(case, "refused 11")
        each_writer(case, "refused 11", 0, 0)
        case.call(14, field, before)
        case.call(7, 0, 0, WINDOW)
        case.say("wrote 3e620a540a")
    case.read()
    case.say("end")
    case.call(14, 5, 0)
    each_writer(case, "refused 11", 0, 0)  # no record either
    return case


def bad_ends():
    """Ends that do not rise: `write` and `write_wrap` use all of them, `write_unchanged` the last alone. `>b\\nT\\n` starts at 10, its ends are 12, 14."""
    for slot, value, unchanged in ((0, 10, "wrote 3e620a540a"), (0, 14, "wrote 3e620a540a"), (0, 99, "wrote 3e620a540a"), (1, 12, "wrote 3e620a"),
                                   (1, 10, "refused 11"), (1, 16, "refused 11"), (1, (1 << 64) - 1, "refused 11")):
        case = given()
        case.call(15, slot, value)
        for width, room in ((3, WINDOW), (0, 0)):
            for what in range(2):
                case.call(7, what, width, room)
                case.say("refused 11")
        case.call(7, 2, 0, WINDOW)
        case.say(unchanged)
        case.call(15, slot, (12, 14)[slot])
        case.call(7, 1, 1, WINDOW)
        case.say("wrote 3e620a540a")
        yield case


# Three records, by hand: line and byte; the number of ends; head, id, description, raw sequence; lines; joined sequence; the texts by `write`,
# by `write_wrap` at width 3, and by `write_unchanged`. The input has 24 bytes.
THREE = b">id1 d\nACG\nT\n>b\r\nGG\r\n>c\n"
RECORDS = [
    (1, 0, 3, (b"id1 d", b"id1", b"d", b"ACG\nT"), [b"ACG", b"T"], b"ACGT", (b">id1 d\nACGT\n", b">id1 d\nACG\nT\n", b">id1 d\nACG\nT\n")),
    (4, 13, 2, (b"b", b"b", None, b"GG"), [b"GG"], b"GG", (b">b\nGG\n", b">b\nGG\n", b">b\r\nGG\r\n")),
    (6, 21, 1, (b"c", b"c", None, b""), [], b"", (b">c\n\n", b">c\n\n", b">c\n")),
]
PLACES = [record[:2] for record in RECORDS]


def three(capacity=PLENTY, window=PLENTY, slots=8, step=None):
    return Script((capacity, 0, 0, 0, window, slots), THREE, step)


def show(case, number, record):
    """Each view and writer of a set's record, by its number in the set."""
    _, _, _, parts, lines, joined, texts = record
    for what, part in enumerate(parts):
        case.told("none" if part is None else "part " + model.hexed(part), 8, number, what, 0, 0)
    for at, line in enumerate(lines):
        case.told("part " + model.hexed(line), 8, number, 4, at, 0)
    case.told("refused 8", 8, number, 4, len(lines), 0)
    case.told(("window " if len(lines) == 1 else "scratch ") + model.hexed(joined), 8, number, 5, 0, len(joined))
    if len(lines) > 1:
        case.told("refused 9 %d" % len(joined), 8, number, 5, 0, len(joined) - 1)
    for what, text in enumerate(texts):
        case.told("wrote " + model.hexed(text), 9, number, what, 3, len(text))
        case.told("refused 9 %d" % len(text), 9, number, what, 3, len(text) - 1)
    case.told("refused 10", 9, number, 1, 0, 0)  # before 9


def sets():
    """What 01 says of sets, by hand."""
    for step in (None, 1):
        yield from (all_records(step), one_by_one(step), few_ends(step), short_bytes(step), no_room(step), refilled(step))
    yield from (long_record(), many_lines(), *others(), set_state(), most_room())


def all_records(step):
    """Room for all: no set yet, an ask, three records, then none; nothing is current then, and `position` is none."""
    case = three(step=step)
    case.held()
    case.told("ask 0 64 0", 5, 64, 8, 16)
    case.held()
    case.told("none", 4)
    case.set("set 3 24")
    case.held(*PLACES)
    for number, record in enumerate(RECORDS):
        show(case, number, record)
    case.told("none", 4)
    case.told("refused 7", 6, 0, 0, 0)
    each_writer(case, "refused 7")
    case.set("end")
    case.told("none", 4)
    case.set("end", PLENTY, 0, 0)  # the end comes before the tables
    case.read()
    case.say("end")
    return case


def one_by_one(step):
    """Room for one record: the next one is read next, and `position` names it. Its number in the set is 0."""
    case = three(step=step)
    for number, record in enumerate(RECORDS):
        case.set("set 1 24", PLENTY, 1, 3)
        case.held(PLACES[number])
        show(case, 0, record)
        case.told("at %d %d" % PLACES[number + 1] if number < 2 else "none", 4)
    case.set("end", PLENTY, 1, 3)
    return case


def few_ends(step):
    """Room for three ends: the first record's, then those of the other two."""
    case = three(step=step)
    case.set("set 1 24", PLENTY, 8, 3)
    case.held(PLACES[0])
    case.told("at 4 13", 4)
    case.set("set 2 24", PLENTY, 8, 3)
    case.held(*PLACES[1:])
    for number in range(2):
        show(case, number, RECORDS[1 + number])
    case.set("end", PLENTY, 8, 3)
    return case


def short_bytes(step):
    """12 by bytes shorter than the window: before an ask, beside one, beside a current record, behind a set and at the end. The reader stays."""
    case = three(step=step)
    case.told("refused 12", 5, 63, 8, 16)
    case.told("none", 4)
    case.told("ask 0 64 0", 1)
    case.told("refused 12", 5, 0, 8, 16)
    case.told("ask 0 64 0", 1)
    case.read()
    case.say("record 1 0 2")
    case.set("refused 12", 63)
    case.told("part 6964312064", 6, 0, 0, 0)  # it is current still
    case.told("at 1 0", 4)
    case.set("set 2 24", 65)
    case.held(*PLACES[1:])
    case.set("refused 12", 63)
    case.told("none", 4)
    case.set("refused 12", 63, 0, 0)
    case.read()
    case.say("end")
    case.set("refused 12", 63)
    return case


def no_room(step):
    """12 by its tables, once the record is whole: the next read, or a set with more room, gives that record. None is current."""
    case = three(step=step)
    case.set("refused 12", PLENTY, 0, 16)
    case.told("at 1 0", 4)
    case.set("refused 12", PLENTY, 8, 2)
    case.told("at 1 0", 4)
    case.told("refused 7", 6, 0, 0, 0)
    case.read()
    case.say("record 1 0 2")
    case.set("refused 12", PLENTY, 8, 1)
    case.told("at 4 13", 4)
    case.told("refused 7", 6, 0, 0, 0)
    case.set("refused 12", PLENTY, 8, 0)
    case.read()
    case.say("record 4 13 1")
    case.told("part 62", 6, 0, 0, 0)
    case.set("set 1 24", PLENTY, 1, 1)
    case.held(PLACES[2])
    show(case, 0, RECORDS[2])
    case.set("end")
    return case


def refilled(step):
    """A window of 16 bytes: the first record is whole in it, the second not. Behind the move the window begins at byte 13."""
    case = three(16, 16, step=step)
    case.set("set 1 16", 16)
    case.held(PLACES[0])
    show(case, 0, RECORDS[0])
    case.told("at 4 13", 4)
    case.told("ask 3 13 16", 5, 16, 8, 16)
    case.held()
    case.told("none", 4)
    case.set("set 2 11", 16)
    case.held(*PLACES[1:])
    for number in range(2):
        show(case, number, RECORDS[1 + number])
    case.told("none", 4)
    case.set("end", 16)
    return case


def long_record():
    """3 in a set call: the record at byte 5 has 12 bytes, the window too. It lasts, and comes before the tables."""
    case = Script((12, 0, 0, 0, 12, 8), b">a\nC\n>id\nAAAAAAA\n")
    case.set("set 1 12", 12)
    case.held((1, 0))
    case.told("at 3 5", 4)
    for _ in range(2):
        case.set("refused 3 3 5", 12)
        case.told("at 3 5", 4)
    case.set("refused 3 3 5", 12, 0, 0)
    case.set("refused 12", 11)
    case.read()
    case.say("refused 3 3 5")
    return case


def many_lines():
    """4 in a set call: two slots, and a second record with three lines. The set before it ends there; the refusal lasts."""
    case = Script((64, 0, 0, 0, PLENTY, 2), b">a\nC\n>b\nA\nC\n>c\n")
    case.set("set 1 15")
    case.held((1, 0))
    case.told("at 3 5", 4)
    for _ in range(2):
        case.set("refused 4 3 5")
        case.told("at 3 5", 4)
    case.set("refused 4 3 5", PLENTY, 0, 0)
    case.set("refused 12", 63)
    case.read()
    case.say("refused 4 3 5")
    case.told("ok", 3, 6, 12)  # a seek behind it
    case.set("set 1 15")
    case.held((6, 12))
    return case


def others():
    """A blank lead; 2, once; sets behind a seek, and 5."""
    case = Script((64, 0, 0, 0, PLENTY, 8), b"\n\r\n>a\nA")
    case.set("set 1 7")
    case.held((3, 3))
    case.told("wrote 3e610a410a", 9, 0, 2, 0, 5)
    case.told("ok", 3, 3, 3)
    case.told("at 3 3", 12, 0)  # a seek leaves the set
    case.set("set 1 7")
    case.held((3, 3))
    case.told("ok", 3, 2, 1)
    case.set("refused 5")
    case.set("refused 5", PLENTY, 0, 0)
    yield case
    case = Script((64, 0, 0, 0, PLENTY, 8), b"\n\rX")
    case.set("refused 2 2 13")
    case.set("end")
    yield case


def set_state():
    """An altered reader: 11, which leaves the set as it is too, and comes before 12. A set read with less room than the last is another set."""
    case = three()
    case.set("set 3 24")
    case.told("altered", 14, 0, 2)
    for room, records, ends in ((64, 8, 16), (63, 8, 16), (64, 0, 0), (0, 0, 0)):
        case.told("refused 11", 5, room, records, ends)
        case.held(*PLACES)
    for number, record in enumerate(RECORDS):
        show(case, number, record)
    case.told("altered", 14, 0, 64)
    case.told("ok", 3, 1, 0)
    case.set("set 1 24", PLENTY, 1, 3)
    case.held(PLACES[0])
    case.set("set 2 24")
    case.set("refused 12", 10, 1, 1)
    case.set("end", PLENTY, 0, 0)
    return case


def most_room():
    """The most room that a script may name."""
    case = three(WINDOW, WINDOW, 4096)
    case.set("set 3 24", WINDOW, 1024, 4096)
    case.held(*PLACES)
    show(case, 2, RECORDS[2])
    case.told("scratch 41434754", 8, 0, 5, 0, WINDOW)
    case.told("wrote 3e630a0a", 9, 2, 0, 0, WINDOW)
    return case


def written(vectors):
    """The bytes of stdin and of stdout: the scripts below, those of the vectors, and last the one that ends the run."""
    cases = [case for capacity in (3, 4, WINDOW) for step in (None, 1) for case in bench(capacity, step)]
    for more in (growth, setups, tables, seeks, altered, writers, record_writers, sets):
        cases += more()
    scripts = [(case.bytes(), [*case.lines, "done"]) for case in cases] + [stored.for_port(vector) for vector in vectors]
    lines = [line for _, lines in scripts for line in lines]
    return b"".join(script for script, _ in scripts) + UNKNOWN, "".join(line + "\n" for line in (*lines, "made", "bad script")).encode()


def main():
    vectors = stored.read(os.path.join(ROOT, "tests", "vectors", "answers.txt"))
    folder = os.path.join(ROOT, "crates", "drive")
    for name, data in zip(("stdin", "stdout"), written(vectors)):
        with open(os.path.join(folder, name), "wb") as file:
            file.write(data)
        print("%s: %d bytes" % (name, len(data)))


if __name__ == "__main__":
    main()
