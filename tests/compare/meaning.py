"""What a whole input means, as a person reads it: no window, no search place, no asks.

The model's answers are held against these, so that the model is not the only judge of what the Rust has not: refusals 4, 5 and the second
half of 3's rule, a set's tables, and `position` where the two differ.
"""
import model


def largest(setup):
    """ "The largest reachable capacity is the last of this chain." """
    capacity, kind, n, limit, window, _ = setup
    while True:
        larger = model.grown((kind, n, limit), window, capacity)
        if larger is None:
            return capacity
        capacity = larger


def from_start(setup, data):
    """The answers due to single reads of a whole input, lead and all: (line of the answer, lines of the record)."""
    byte = 0
    for number, line in enumerate(data.split(b"\n"), 1):
        if line not in (b"", b"\r"):
            if line[:1] != b">":
                yield "refused 2 %d %d" % (number, line[0]), None
                break
            yield from from_mark(setup, data, number, byte)
            return
        byte += len(line) + 1
    while True:
        yield "end", None


def from_mark(setup, data, line, byte):
    """The answers due from the `>` at `byte` on, which stands on line `line`. Refusal 5 where none stands there."""
    room, slots = largest(setup), setup[5]
    while byte < len(data):
        if data[byte] != model.MARK:
            break
        behind = data.find(b"\n>", byte)
        record = data[byte:behind + 1 if behind >= 0 else len(data)]
        lines = record.removesuffix(b"\n").split(b"\n")
        fits = len(record) + 1 <= room
        # "lines (head counted) above the table's slots T, and: L + 1 <= C, or over T `\n` among the record's first C - 1 bytes"
        if len(lines) > slots and (fits or record[:room - 1].count(b"\n") > slots):
            while True:
                yield "refused 4 %d %d" % (line, byte), None
        # "L + 1 above the largest reachable capacity C, and 4 is not due"
        if not fits:
            while True:
                yield "refused 3 %d %d" % (line, byte), None
        yield "record %d %d %d" % (line, byte, len(lines) - 1), lines
        line, byte = line + len(lines), byte + len(record)
        if byte == len(data):
            while True:
                yield "end", None
    while True:
        yield "refused 5", None


def shown(line):
    """A line as a view shows it."""
    return line[:-1] if line[-1:] == b"\r" else line


class History:
    """What reads, sets and `position` must answer, from the input and from what was called and heard before. Of the reader only this is looked
    at: how far into the input its window reaches when it gives a set, and whether it was told the end."""

    def __init__(self, setup, data):
        self.setup, self.data = setup, data
        self.coming, self.ahead = from_start(setup, data), []
        self.place = None  # what `position` gives
        self.lines = None  # of the current record

    def peek(self):
        if not self.ahead:
            self.ahead.append(next(self.coming))
        return self.ahead[0]

    def next(self):
        due = self.peek()
        self.ahead.clear()
        return due

    def asked(self):
        """`position` is none "from an ask until a read or set answers otherwise"."""
        self.place = self.lines = None

    def read(self):
        """The line due to a read that asks no more."""
        due, self.lines = self.next()
        self.stand(due)
        return due

    def stand(self, due):
        """ "`position` gives the current or refused record (by 3, 4 or 12's tables); after the end, the last record given [..]; none [..] after
        refusal 2 or a read's 5" """
        words = due.split()
        if words[0] == "record":
            self.place = tuple(words[1:3])
        elif words[0] == "refused":
            self.place = tuple(words[2:4]) if words[1] in "34" else None

    def set(self, records, ends, reach, told):
        """The records due to a set call with room for so many records and ends, as (line, byte, number of ends) each, and the line due instead
        if there is none: "every record from the current place that is whole in the window, fits the set's tables and meets no refusal"."""
        first = self.peek()[0]
        if not first.startswith("record"):
            return [], self.read()
        self.lines, due = None, []
        while True:
            line, lines = self.peek()
            if lines is None or len(due) == records or len(lines) > ends:
                break
            _, at, byte, _ = line.split()
            behind = self.data.find(b"\n>", int(byte)) + 1 or len(self.data)
            # Whole: the `>` behind it is in the window, or the end was told there. The first one is, or the call would have asked.
            if due and not (behind < reach or told and behind == reach):
                break
            due.append((int(at), int(byte), len(lines)))
            ends -= len(lines)
            self.next()
        # "after a set, the next record, none at the end"
        if self.peek()[0] == "end":
            self.place = None
        else:
            self.stand(self.peek()[0])
        return due, "set" if due else "refused 12"

    def seek(self, line, byte):
        self.coming, self.ahead = from_mark(self.setup, self.data, line, byte), []
        self.place = self.lines = None

    def position(self):
        return "at %s %s" % self.place if self.place else "none"
