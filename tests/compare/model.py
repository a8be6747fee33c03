#!/usr/bin/env python3
"""A third opinion on document 01: its reader, sets, views and writers, run call by call.

Written from 01 and the readings of it in docs/DECISIONS.md alone; no code of the port or of the Rust was copied. Quoted comments are 01's
sentences. It answers the lines that the program `drive` prints, so that the port, the Rust and this file can be compared line by line; and it
tells the generator which reads ask and for how much, without which a script cannot be written in advance.

As a program it runs scripts from standard input as `drive` does. `plant` names a bug put in on purpose (see PLANTS), for the test of the
comparison itself.
"""
import struct
import sys

FARTHEST = 1 << 62
MIN_CAPACITY = 3
LONGEST_WINDOW = 1 << 31
NEWLINE, MARK = 10, 62
PLANTS = ("search", "trim", "growth")

# The operands of each call, behind its byte.
OPERANDS = {1: "", 2: "Q", 3: "QQ", 4: "", 5: "III", 6: "BQI", 7: "BQI", 8: "IBQI", 9: "IBQI", 10: "", 11: "Q", 12: "I", 13: "BIIIQI",
            14: "BQ", 15: "IQ"}


class Refused(Exception):
    """A refusal: its number and the values it gives."""

    def line(self):
        return " ".join(["refused"] + [str(value) for value in self.args])


def hexed(data):
    return bytes(data).hex() or "-"


# ---------------------------------------------------------------------------------------------------------------------------------------
# Growth

def grown(policy, window, size, plant=None):
    """`size` grown once, or None. "Sums are exact; a size above the window's length, or not above the present one, is no growth." """
    kind, n, limit = policy
    if kind == 0:
        n = 8388608
    larger = size * 2 if size < n or plant == "growth" else size + n
    if kind == 2 and larger > limit:
        return None
    return larger if size < larger <= window else None


# ---------------------------------------------------------------------------------------------------------------------------------------
# Parts of a record, from the bytes that hold it, its start and its line ends

def trimmed(line, plant=None):
    """ "One trailing `\\r` (13) is trimmed from a line shown, never two." """
    if plant == "trim":
        return line.rstrip(b"\r")
    return line[:-1] if line.endswith(b"\r") else line


class Record:
    """A record as bytes, start and ends. `sound` says whether the ends that a call uses rise strictly between start and filled."""

    def __init__(self, data, start, ends, filled, plant=None):
        self.data, self.start, self.ends, self.filled, self.plant = data, start, ends, filled, plant

    def uses(self, *ends):
        places = [self.start, *ends]
        if any(a >= b for a, b in zip(places, places[1:])) or places[-1] > self.filled:
            raise Refused(11)

    def part(self, a, b):
        return bytes(self.data[a:b])

    def head(self):
        self.uses(self.ends[0])
        return trimmed(self.part(self.start + 1, self.ends[0]), self.plant)

    def raw(self):
        """ "raw `seq` (from behind the first end to the last, one final `\\r` trimmed; empty without lines)" """
        self.uses(self.ends[0], *self.ends[1:][-1:])
        return trimmed(self.part(self.ends[0] + 1, self.ends[-1]), self.plant) if len(self.ends) > 1 else b""

    def line(self, number):
        if number >= len(self.ends) - 1:
            raise Refused(8)
        a, b = self.ends[number:number + 2]
        self.uses(a, b)
        return trimmed(self.part(a + 1, b), self.plant)

    def lines(self):
        self.uses(*self.ends)
        return [self.line(number) for number in range(len(self.ends) - 1)]

    def unchanged(self):
        """ "copies from `>` to the last recorded end and adds `\\n` unless the copy ends in `\\n`" """
        self.uses(self.ends[-1])
        copy = self.part(self.start, self.ends[-1])
        return copy if copy.endswith(b"\n") else copy + b"\n"


def view(record, what, number, scratch):
    """The line of one view. "The id is the head up to its first space; the description is all after that space, or none without a space." """
    if what == 0:
        return "part " + hexed(record.head())
    if what == 1:
        return "part " + hexed(record.head().split(b" ", 1)[0])
    if what == 2:
        parts = record.head().split(b" ", 1)
        return "part " + hexed(parts[1]) if len(parts) == 2 else "none"
    if what == 3:
        return "part " + hexed(record.raw())
    if what == 4:
        return "part " + hexed(record.line(number))
    # "The full sequence is the window's own part when the record has exactly one line, else the front of the caller's scratch."
    lines = record.lines()
    if len(lines) == 1:
        return "window " + hexed(lines[0])
    joined = b"".join(lines)
    if len(joined) > scratch:
        raise Refused(9, len(joined))
    return "scratch " + hexed(joined)


# ---------------------------------------------------------------------------------------------------------------------------------------
# Writers: each one's text

def wrapped(sequence, width):
    if width == 0:
        raise Refused(10)
    return b"".join(sequence[at:at + width] + b"\n" for at in range(0, len(sequence), width))


def record_text(record, what, width):
    """`write`, `write_wrap`, `write_unchanged` of a record."""
    if what == 2:
        return record.unchanged()
    if what == 1 and width == 0:
        record.lines()  # 11 comes before 10
        raise Refused(10)
    head, joined = record.head(), b"".join(record.lines())
    # `write_wrap_seq_iter` "joins lines, cuts every `wrap` bytes, and writes one `\n` for an empty sequence".
    return b">" + head + b"\n" + (joined + b"\n" if what == 0 else wrapped(joined, width) or b"\n")


def free_text(what, a, b, c, width):
    """The writers that need no reader, by DRIVE's numbers."""
    head = b">" + a + b"\n"  # `write_head` "is `>`, head, `\n`"
    described = b">" + a + b" " + b + b"\n"  # `write_id_desc` "puts one space before a description"
    return {0: lambda: head, 1: lambda: described, 2: lambda: head,
            3: lambda: c + b"\n",  # `write_seq` "adds one `\n`"
            4: lambda: wrapped(c, width),  # `write_wrap_seq` "of an empty sequence writes nothing"
            5: lambda: head + c + b"\n", 6: lambda: described + c + b"\n", 7: lambda: head + c + b"\n",
            8: lambda: described + wrapped(c, width), 9: lambda: head + wrapped(c, width)}[what]()


def put(text, room):
    """ "9: output or scratch shorter than the need [..]; gives the need" """
    if len(text) > room:
        raise Refused(9, len(text))
    return text


# ---------------------------------------------------------------------------------------------------------------------------------------
# The reader

# What a reader is about to do. LEAD: nothing read yet. SOUGHT: a `>` must stand at start. NEXT: the record at start is to be found, or found
# further. GIVEN: it is current. LASTING: each read repeats the refusal of that number. FINISHED: the end.
LEAD, SOUGHT, NEXT, GIVEN, LASTING, FINISHED = range(6)


class Asks(Exception):
    """An ask: place, room and input offset."""

    def line(self):
        return "ask %d %d %d" % self.args


class Ends(Exception):
    """The end of the input."""

    def line(self):
        return "end"


class Set:
    """A record set: the copied bytes, and start, ends and position of each record."""

    def __init__(self):
        self.filled, self.records = 0, []


class Reader:
    def __init__(self, capacity, kind, n, limit, window, slots, plant=None):
        """ "1 setup: capacity under 3 or above window, window too long, table empty: nothing made" """
        if capacity < MIN_CAPACITY or capacity > window or window > LONGEST_WINDOW or slots < 1:
            raise Refused(1)
        self.policy, self.plant = (kind, n, limit), plant
        self.window, self.table = bytearray(window), [0] * slots
        self.capacity = capacity
        self.filled = 0  # bytes of the window that hold input
        self.offset = 0  # input offset of window[0]
        self.told = False  # the end was told
        self.ask_open = False
        self.start = 0  # the record's `>`, in the window
        self.search = 0  # where its search goes on
        self.count = 0  # its ends recorded so far
        self.line = 1  # its line number
        self.phase, self.refusal = LEAD, None
        self.shown = False  # whether `position` gives line and byte
        # What the generator wants to know besides the answers.
        self.lead_dropped = False  # blank lead was dropped before the first record
        self.cut_short = False  # the last set ended at a table's limit
        self.corner = False  # an altered state in which a closing end would not rise: 01 leaves it open what follows

    # Refusal 11 -----------------------------------------------------------------------------------------------------------------------

    def check(self):
        """ "11 state", all but the ends that a call uses."""
        byte = self.offset + self.start
        ok = (MIN_CAPACITY <= self.capacity
              and self.filled <= self.capacity <= len(self.window)
              and self.start <= self.search <= self.filled
              and self.count <= len(self.table)
              and self.count <= self.search - self.start
              and not (self.phase == GIVEN and self.count == 0)
              and not (self.ask_open and self.filled == self.capacity)
              and 1 <= self.line <= byte + 1 and byte <= FARTHEST
              and self.offset + self.filled <= FARTHEST)
        if not ok:
            raise Refused(11)

    def check_read(self):
        """11 for a read or set: one that searches an unfinished record further uses all the ends recorded so far."""
        self.check()
        if self.phase == NEXT and not self.ask_open and self.ready():
            self.record().uses(*self.table[:self.count])

    def record(self):
        return Record(self.window, self.start, self.table[:self.count], self.filled, self.plant)

    # Reading --------------------------------------------------------------------------------------------------------------------------

    def next(self):
        """A read: the line of its answer."""
        self.check_read()
        self.find()
        self.phase, self.shown = GIVEN, True
        return "record %d %d %d" % (self.line, self.offset + self.start, self.count - 1)

    def find(self):
        """Comes back with the next record whole at start, or raises what is due instead."""
        if self.phase == LASTING and self.refusal in (3, 4):
            raise self.refuse_record(self.refusal)
        # "A read call without a report repeats the same ask and changes nothing."
        if self.ask_open:
            raise self.ask()
        if self.phase == LASTING:
            raise Refused(self.refusal)
        if self.phase == FINISHED:
            raise Ends()
        if self.phase == GIVEN:
            # Search less start is the record's L, so "this was the last one" is: the end told, and search at the last filled byte.
            if self.told and self.search == self.filled:
                self.phase = FINISHED
                raise Ends()
            self.pass_record()
        # "A record is searched only when the window is filled to its capacity or the end was told. Otherwise the call answers an ask."
        if not self.ready():
            raise self.new_ask()
        if self.phase == LEAD:
            self.skip_lead()
        if self.phase == SOUGHT:
            # "Read after a seek: no `>` there, or the end (lasting)"
            if self.start >= self.filled or self.window[self.start] != MARK:
                self.phase, self.refusal, self.shown = LASTING, 5, False
                raise Refused(5)
        self.phase = NEXT
        if not self.look():
            self.make_room()
            raise self.new_ask()

    def ready(self):
        return self.told or self.filled == self.capacity

    def ask(self):
        """ "place (the filled length), room (capacity less filled, at least 1), input offset" """
        return Asks(self.filled, self.capacity - self.filled, self.offset + self.filled)

    def new_ask(self):
        """`position` is none "from an ask until a read or set answers otherwise and changes something"."""
        self.ask_open, self.shown = True, False
        return self.ask()

    def refuse_record(self, number):
        """3 or 4, of the record at start. "Lasting: each read repeats it and changes nothing." """
        self.phase, self.refusal, self.shown = LASTING, number, True
        return Refused(number, self.line, self.offset + self.start)

    def pass_record(self):
        """The next record starts where the search of this one ended, one line on for each end."""
        self.line += self.count
        self.start, self.count, self.phase = self.search, 0, NEXT

    def skip_lead(self):
        """ "Leading lines that are empty or exactly `\\r` are skipped." Puts start on the first other line, which must begin with `>`."""
        at, line = self.start, self.line
        while at < self.filled:
            end = self.window.find(NEWLINE, at, self.filled)
            text = self.window[at:end if end >= 0 else self.filled]
            if end < 0 and text == b"\r" and not self.told:
                break  # it may still become `\r\n`, or something else
            if text not in (b"", b"\r"):
                if self.window[at] != MARK:
                    # "2 start [..] once, then `end`: reader finished"
                    self.phase, self.shown = FINISHED, False
                    raise Refused(2, line, self.window[at])
                self.start = self.search = at
                self.line = line
                return
            if end < 0:
                at = self.filled
                break
            at, line = end + 1, line + 1
        if self.told:
            self.phase, self.shown = FINISHED, False
            raise Ends()
        # "Window full of blank lead: all is dropped but an unfinished last `\r`, moved to 0."
        self.line = line
        self.drop(at)
        self.start = self.search = 0
        self.lead_dropped = True
        raise self.new_ask()

    def look(self):
        """Records ends until the record is closed: True. False where it is unfinished. Refusal 4 where an end finds no slot."""
        at = max(self.search, self.start + 1)
        while True:
            end = self.window.find(NEWLINE, at, self.filled)
            last = end < 0 or end + 1 == self.filled
            if self.plant == "search" and end >= 0 and not self.told:
                last = False
            if last and not self.told:
                # "A `\n` that is the last filled byte is not recorded until a byte or the end follows."
                self.search = end if end >= 0 else self.filled
                return False
            self.search = end if end >= 0 else self.filled
            if self.count == len(self.table):
                raise self.refuse_record(4)
            self.corner = self.corner or self.search <= max([self.start, *self.table[:self.count]])
            # "A final `\n` adds no line": the end of input and a final `\n` give one end between them.
            self.table[self.count] = self.search
            self.count += 1
            if last:
                self.search = self.filled
                return True
            # "Every other one is recorded, and search goes on behind it." "It ends at the next such `>`"
            at = self.search = end + 1
            if at < self.filled and self.window[at] == MARK:
                return True

    def make_room(self):
        """ "Window full, record unfinished: if it starts at offset above 0, it is moved to 0; bytes behind the moved part stay. If it starts
        at 0, the policy names a larger capacity." """
        if self.start > 0:
            by = self.start
            self.drop(by)
            self.start, self.search = 0, self.search - by
            for slot in range(self.count):
                self.table[slot] -= by
            return
        larger = grown(self.policy, len(self.window), self.capacity, self.plant)
        if larger is None:
            raise self.refuse_record(3)
        self.capacity = larger

    def drop(self, by):
        """Moves the filled bytes from `by` on to the front."""
        self.window[:self.filled - by] = self.window[by:self.filled]
        self.offset += by
        self.filled -= by

    # Reports, seeks, position ---------------------------------------------------------------------------------------------------------

    def report(self, count):
        self.check()
        # "6 report: no ask open, count above the room, or input past 2^62"
        if not self.ask_open or count > self.capacity - self.filled or self.offset + self.filled + count > FARTHEST:
            raise Refused(6)
        self.ask_open = False
        if count == 0:
            self.told = True
        self.filled += count
        return "ok"

    def seek(self, line, byte):
        self.check()
        # "5 position: seek: line 0, line above byte + 1, byte above 2^62 (nothing changed)"
        if line == 0 or line > byte + 1 or byte > FARTHEST:
            raise Refused(5)
        # "Seek cancels an ask and any lasting refusal."
        self.ask_open, self.shown = False, False
        # "Inside the filled window it keeps the bytes; otherwise it empties the window, forgets the end and asks from that offset."
        if not self.offset <= byte < self.offset + self.filled:
            self.offset, self.filled, self.told = byte, 0, False
        self.start = self.search = byte - self.offset
        self.count, self.line, self.phase = 0, line, SOUGHT
        return "ok"

    def position(self):
        self.check()
        return "at %d %d" % (self.line, self.offset + self.start) if self.shown else "none"

    # Sets -----------------------------------------------------------------------------------------------------------------------------

    def next_set(self, into, room, records, ends):
        """Fills `into`: "every record from the current place that is whole in the window, fits the set's tables and meets no refusal; at
        least one". An ask, the end and every refusal but 11 leave it with count 0."""
        self.check_read()
        into.records = []
        self.cut_short = False
        # "in a set call its byte length, then 2 to 5, then its tables"
        if room < len(self.window):
            raise Refused(12)
        self.find()
        found, free = [], ends
        while True:
            # Here a record stands whole at start, with its ends recorded.
            if len(found) == records or self.count > free:
                self.cut_short = True
                break
            found.append((self.start, self.table[:self.count], self.line, self.offset + self.start))
            free -= self.count
            if self.told and self.search == self.filled:
                self.phase = FINISHED
                break
            self.pass_record()
            try:
                if not self.look():
                    break
            except Refused:
                self.cut_short = True
                break
        # "The rest is read next." What the search of the next record found is found again.
        self.refusal = None
        if self.phase != FINISHED:
            self.phase, self.search, self.count = NEXT, self.start, 0
        # `position` gives "after a set, the next record, none at the end", and the record refused "by [..] 12's tables".
        self.shown = self.phase != FINISHED
        if not found:
            raise Refused(12)
        into.data, into.filled = bytes(self.window[:self.filled]), self.filled
        into.records = found
        return "set %d %d" % (len(found), self.filled)


# ---------------------------------------------------------------------------------------------------------------------------------------
# Scripts

class Session:
    """One script: a reader, the last set, and the input that reports bring."""

    def __init__(self, setup, data, plant=None):
        self.setup, self.input, self.plant = setup, data, plant
        self.set = Set()
        self.last_ask = (0, 0, 0)
        self.reader = None
        try:
            self.reader = Reader(*setup, plant=plant)
            self.first = "made"
        except Refused as refusal:
            self.first = refusal.line()

    def call(self, code, *operands):
        """Runs one call, and gives its line."""
        try:
            return getattr(self, "call%d" % code)(*operands)
        except Asks as ask:
            self.last_ask = ask.args
            return ask.line()
        except (Refused, Ends) as answer:
            return answer.line()

    def call1(self):
        return self.reader.next()

    def call2(self, count):
        place, room, offset = self.last_ask
        size = min(count, room)
        brought = self.input[offset:offset + size].ljust(size, b"\0")
        self.reader.window[place:place + size] = brought
        return self.reader.report(count)

    def call3(self, line, byte):
        return self.reader.seek(line, byte)

    def call4(self):
        return self.reader.position()

    def call5(self, room, records, ends):
        return self.reader.next_set(self.set, room, records, ends)

    def current(self):
        """ "7 no record: a view or writer of a record without a current one" """
        self.reader.check()
        if self.reader.phase != GIVEN:
            raise Refused(7)
        return self.reader.record()

    def of_set(self, number):
        """ "7 no record: [..] a set's record number not below its count" """
        if number >= len(self.set.records):
            raise Refused(7)
        start, ends, _, _ = self.set.records[number]
        return Record(self.set.data, start, ends, self.set.filled, self.plant)

    def call6(self, what, number, scratch):
        return view(self.current(), what, number, scratch)

    def call7(self, what, width, room):
        return "wrote " + hexed(put(record_text(self.current(), what, width), room))

    def call8(self, record, what, number, scratch):
        return view(self.of_set(record), what, number, scratch)

    def call9(self, record, what, width, room):
        return "wrote " + hexed(put(record_text(self.of_set(record), what, width), room))

    def call10(self):
        return "capacity %d" % self.reader.capacity

    def call11(self, size):
        _, kind, n, limit, window, _ = self.setup
        larger = grown((kind, n, limit), window, size, self.plant)
        return "none" if larger is None else "grow %d" % larger

    def call12(self, record):
        self.of_set(record)
        return "at %d %d" % self.set.records[record][2:]

    def call13(self, what, a, b, c, width, room, data):
        text = put(free_text(what, data[:a], data[a:a + b], data[a + b:a + b + c], width), room)
        return "wrote %s %s" % (hexed(text), hexed(b"#" * (room - len(text))))

    def call14(self, field, value):
        name = ("capacity", "filled", "start", "search", "count", "line", "offset", "told", "ask_open")[field]
        setattr(self.reader, name, value != 0 if field >= 7 else value)
        return "altered"

    def call15(self, slot, value):
        if slot < len(self.reader.table):
            self.reader.table[slot] = value
        return "altered"


def encoded(calls):
    """The bytes of a list of calls."""
    out = [struct.pack("<I", len(calls))]
    for code, *operands in calls:
        tail = operands.pop() if code == 13 else b""
        out.append(bytes([code]) + struct.pack("<" + OPERANDS[code], *operands) + tail)
    return b"".join(out)


def script(setup, data, calls):
    """The bytes of one script."""
    return struct.pack("<I6Q", 6, *setup) + struct.pack("<I", len(data)) + data + encoded(calls)


def scripts(data):
    """Takes the scripts of a run apart: (setup, input, calls) of each."""
    at = 0

    def take(form):
        nonlocal at
        got = struct.unpack_from("<" + form, data, at)
        at += struct.calcsize("<" + form)
        return got

    while at < len(data):
        _, *setup = take("I6Q")
        (length,) = take("I")
        given = data[at:at + length]
        at += length
        calls = []
        for _ in range(take("I")[0]):
            (code,) = take("B")
            call = [code, *take(OPERANDS[code])]
            if code == 13:
                size = sum(call[2:5])
                call.append(data[at:at + size])
                at += size
            calls.append(tuple(call))
        yield tuple(setup), given, calls


def main():
    for setup, data, calls in scripts(sys.stdin.buffer.read()):
        session = Session(setup, data)
        print(session.first)
        if session.reader is not None:
            for call in calls:
                print(session.call(*call))
        print("done")


if __name__ == "__main__":
    main()
