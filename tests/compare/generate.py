"""Plans of cases, and their expansion into scripts.

A plan is data: a setup, an input, the offsets at which a refill stops, and a list of high-level calls. `Case` runs a plan on the model, which
knows the asks, and so writes two scripts from it: the full one for `drive`, with every ask, report and repeated call, and one for the Rust,
which pulls its input itself and so gets each read once. It keeps the model's line for every call of both.

The Rust's script ends where 01's domain ends ("Known differences"); the rules are in `Case` and are told in docs/DIFFERENCES.md.
"""
import bisect
import collections
import itertools
import random

import meaning
import model

PLENTY = 400  # more room than any record of a plan needs
ALPHABET = b">\n\r A"

Plan = collections.namedtuple("Plan", "kind setup input cuts calls")


class Corner(Exception):
    """An altered reader came to a state of which 01 does not say what follows: the script ends before that call."""


class Case:
    """A plan run on the model. `calls` and `lines`: the full script and its answers. `rust_calls` and `rust_lines`: the Rust's; a line there
    is a tuple of words, None for one that is not compared."""

    def __init__(self, plan, plant=None):
        self.plan = plan
        self.session = model.Session(plan.setup, plan.input, plant)
        self.reader = self.session.reader
        self.calls, self.lines = [], []
        self.rust_calls, self.rust_lines = [], []
        self.rust_at = []  # the place of each of the Rust's calls among `calls`
        self.inside = self.reader is not None  # still inside the domain
        self.places = []  # positions that the reader gave
        self.position_known = True  # the Rust's `position` is not one of the known differences here
        self.set_known = False  # the last set call gave a set that the Rust has too
        self.empty_seek = False  # a seek emptied the window, and nothing was read since
        self.same_window = True  # the Rust's window holds the same bytes: no two such seeks together
        self.asks = 0
        # What the input means, while nobody altered the reader; `faults` are the model's answers that disagree.
        self.history = None if plant else meaning.History(plan.setup, plan.input)
        self.faults = []
        if self.reader is not None:
            try:
                for name, *operands in plan.calls:
                    getattr(self, name)(*operands)
            except Corner:
                pass
        else:
            self.calls = [(1,), (4,)]  # passed over

    # One call of the script

    def call(self, *call):
        line = self.session.call(*call)
        if self.reader.corner:
            raise Corner
        self.calls.append(call)
        self.lines.append(line)
        return line

    def rust(self, call, *words):
        if self.inside:
            self.rust_calls.append(call)
            self.rust_lines.append(words)
            self.rust_at.append(len(self.calls) - 1)

    def both(self, call, compared=True):
        """A call that changes nothing: compared with the Rust where the domain allows it."""
        line = self.call(*call)
        if compared:
            self.rust(call, *line.split())
        return line

    # Reads and sets, with the refills they ask for

    def serve(self, call, pester=0):
        """Calls until the answer is no ask, bringing input up to the next cut each time. With `pester`, every so many asks are met by
        repeated calls, a position and reports that are refused."""
        line = self.call(*call)
        reports, left = 0, None
        while line.startswith("ask"):
            _, _, room, offset = map(int, ("0" + line[3:]).split())
            self.asks += 1
            if self.history:
                self.history.asked()
            if pester and self.asks % pester == 0:
                self.call(*call)
                self.position(compared=False)
                self.call(2, room + 1 + self.asks % 3)
                self.call(6, 0, 0, 0)
            cuts = self.plan.cuts
            after = bisect.bisect_right(cuts, offset)
            stop = min(cuts[after:after + 1] + (len(self.plan.input),))
            self.call(2, max(0, min(room, stop - offset)))
            # "hears something other than an ask within (input bytes left) + 1 reports"
            reports, left = reports + 1, max(0, len(self.plan.input) - offset) if left is None else left
            self.expect(reports <= left + 1, "ask")
            line = self.call(*call)
        return line

    def expect(self, fine, what):
        if not fine:
            self.faults.append((self.calls[-1], what, self.lines[-1]))

    def expect_set(self, line, records, ends):
        if self.history:
            reach = self.reader.offset + self.reader.filled
            due, instead = self.history.set(records, ends, reach, self.reader.told)
            given = [(at, byte, len(found)) for _, found, at, byte in self.session.set.records]
            self.expect(given == due, "set %s" % due)
            self.expect(line == instead or line.startswith("set") and instead == "set", instead)

    def answered(self, call, line):
        """What an answer of a read or set says of the comparison with the Rust."""
        words = line.split()
        number = words[1] if words[0] == "refused" else ""
        moved_lead = self.reader.lead_dropped
        if words[0] == "record" and moved_lead:
            words[1:3] = None, None  # `first_byte` counts otherwise
        if number == "2" and moved_lead:
            words[2] = None
        if number == "3":
            words = words[:2]  # the Rust's error names no place
        if number and number not in ("2", "3"):
            self.inside = False
        self.rust(call, *words)
        self.empty_seek = False
        if words[0] == "record":
            self.places.append(tuple(map(int, line.split()[1:3])))
            self.position_known = not moved_lead
        elif number:
            self.position_known = number == "2"

    def read(self, pester=0):
        line = self.serve((1,), pester)
        if self.history:
            due = self.history.read()
            self.expect(line == due, due)
        self.answered((1,), line)
        return line

    def set(self, room=None, records=64, ends=1024, pester=0):
        room = self.plan.setup[4] if room is None else room
        call = (5, room, records, ends)
        self.set_known = False
        if room < self.plan.setup[4]:
            self.call(*call)
            return
        line = self.serve(call, pester)
        self.expect_set(line, records, ends)
        if not self.same_window or self.reader.cut_short:
            self.inside = False
        self.answered(call, line)
        if line.startswith("set"):
            self.set_known = True
            self.places += [place[2:] for place in self.session.set.records]
            self.position_known = self.reader.phase == model.FINISHED and not self.reader.lead_dropped

    def seek(self, line, byte):
        answer = self.call(3, line, byte)
        if answer != "ok":
            return
        if self.history:
            self.history.seek(line, byte)
        if self.empty_seek:
            self.same_window = False
        if self.reader.lead_dropped or self.plan.input[byte:byte + 1] != b">":
            self.inside = False
        self.empty_seek = self.reader.filled == 0
        self.position_known = True
        self.rust((3, line, byte), answer)

    def seek_back(self, which):
        """Seek to a position that the reader gave."""
        if self.places:
            self.seek(*self.places[which % len(self.places)])

    def seek_edge(self, behind, by):
        """Seek to about the first filled byte or, `behind`, the first one not filled."""
        reader = self.reader
        self.seek(1, max(0, reader.offset + behind * reader.filled + by))

    # Looking

    def position(self, compared=True):
        line = self.both((4,), compared and self.position_known)
        if self.history:
            self.expect(line == self.history.position(), self.history.position())
        if not compared:
            return
        if not self.position_known and not self.reader.lead_dropped:
            # After a set or a buffer refusal the Rust may say none; what else it says must be right.
            self.rust((4,), "none or", *line.split())

    def current(self):
        return self.reader.phase == model.GIVEN

    def view(self, what, number=0, scratch=PLENTY):
        self.both((6, what, number, scratch), self.current())

    def views(self):
        """Every view of the current record, one line number past the last too."""
        if self.current():
            lines = self.history and self.history.lines
            for what in (0, 1, 2, 3, 5):
                self.view(what)
                if lines and what == 0:
                    self.expect(self.lines[-1] == "part " + model.hexed(meaning.shown(lines[0][1:])), "head")
            for number in range(self.reader.count):
                self.view(4, number)
                if lines and number + 1 < len(lines):
                    self.expect(self.lines[-1] == "part " + model.hexed(meaning.shown(lines[number + 1])), "line")

    def writer(self, what, width=1, room=PLENTY):
        self.both((7, what, width, room), self.current() and not (what == 1 and width == 0))

    def set_view(self, record, what, number=0, scratch=PLENTY):
        self.both((8, record, what, number, scratch), self.set_known and record < len(self.session.set.records))

    def set_writer(self, record, what, width=1, room=PLENTY):
        compared = self.set_known and record < len(self.session.set.records) and not (what == 1 and width == 0)
        self.both((9, record, what, width, room), compared)

    def set_views(self):
        for record in range(len(self.session.set.records)):
            self.call(12, record)
            for what in range(6):
                self.set_view(record, what)
            self.set_writer(record, 0)

    def set_place(self, record):
        self.call(12, record)

    def capacity(self):
        self.both((10,))

    def grow(self, size):
        self.both((11, size), size + self.plan.setup[2] < 1 << 60)

    def free(self, what, a, b, c, width, room):
        compared = width > 0 or what not in (4, 8, 9)
        self.both((13, what, len(a), len(b), len(c), width, room, a + b + c), compared)

    def all(self, pester=0):
        """Reads to the end or a refusal, with the position and all views after each record, and once more behind it."""
        while True:
            line = self.read(pester)
            self.position()
            self.views()
            if not line.startswith("record"):
                break
        self.read()

    def all_sets(self, pester=0):
        while True:
            self.set(pester=pester)
            self.position()
            self.set_views()
            if not self.lines or not self.session.set.records:
                break
        self.set()

    # Only the port's and the model's

    def raw(self, *call):
        """One call as it stands, with no refill: the Rust cannot stop inside a read."""
        line = self.call(*call)
        if call[0] in (1, 2, 3, 5, 14, 15):
            self.inside, self.history = False, None
        return line

    def report(self, count):
        """A report out of turn."""
        if not self.reader.ask_open:
            self.call(2, count)

    # Scripts

    def full(self):
        return model.script(self.plan.setup, self.plan.input, self.calls)

    def full_lines(self):
        return [self.session.first, *self.lines, "done"]

    def for_rust(self):
        return model.script(self.plan.setup, self.plan.input, self.rust_calls)


# ---------------------------------------------------------------------------------------------------------------------------------------
# Exhaustive short inputs

def compositions(length):
    """Every way to cut `length` bytes into refills."""
    inner = range(1, length)
    for size in range(max(1, length)):
        yield from itertools.combinations(inner, size)


def exhaustive(longest=6):
    """Every input of up to `longest` bytes: up to 4 bytes with every cutting, then with one cutting in turn; and read by sets."""
    turn = 0
    for length in range(longest + 1):
        # The window is the capacity, one byte short of a growth, one growth, or two growths.
        sizes = (1, 2, 4) if length > 4 else (1, 2, 4, None)
        setups = [(capacity, 0, 0, 0, capacity * size if size else 2 * capacity - 1, slots)
                  for capacity in (3, 4, 5) for size in sizes for slots in (1, 2, 3, 4)]
        for letters in itertools.product(ALPHABET, repeat=length):
            data = bytes(letters)
            turn += 1
            for setup in setups:
                if length > 4:
                    turn += 1
                    cuts = tuple(range(1 + turn % 4, length, 1 + turn % 3))
                    yield Plan("5 and 6 bytes, one cutting", setup, data, cuts, [("all",), ("capacity",)])
                    continue
                for cuts in compositions(length):
                    yield Plan("up to 4 bytes, every cutting", setup, data, cuts, [("all",)])
            capacity = 3 + turn % 3
            yield Plan("up to 6 bytes, by sets", (capacity, 0, 0, 0, 4 * capacity, 1 + turn % 6), data, (1 + turn % 4,), [("all_sets",)])


# ---------------------------------------------------------------------------------------------------------------------------------------
# Random longer inputs

def random_line(rng, length):
    return bytes(rng.choices(b"ACGT> \r", (8, 8, 8, 8, 1, 2, 1), k=length))


def random_input(rng, capacity):
    """Records with lengths about the sizes that the window can have, blank lead, empty lines, `\\r\\n`, and perhaps no last newline."""
    sizes = [capacity, 2 * capacity, 4 * capacity, capacity // 2 + 1, 3, 1]
    ending = rng.choice((b"\n", b"\n", b"\r\n"))
    out = bytearray()
    for _ in range(rng.choice((0, 0, 0, 1, 2, 5))):
        out += rng.choice((b"\n", b"\r\n", b"\n"))
    if rng.random() < 0.04:
        out += rng.choice((b"x", b"\rx", b"\r\r", b" ", b"A\n"))
    longest = rng.choice((20, 60, 200))
    while len(out) < longest and rng.random() < 0.93:
        need = max(1, rng.choice(sizes) + rng.randint(-3, 2))
        if rng.random() < 0.1:
            out += b">" * rng.randint(1, 9)
        record = bytearray(b">" + random_line(rng, rng.choice((0, 1, 2, 4, 7))) + ending)
        while len(record) < need:
            left = need - len(record)
            record += random_line(rng, min(left, rng.choice((0, 1, 3, 8, left)))).lstrip(b">") + ending
        out += record[:need] if rng.random() < 0.2 else record
    if out and rng.random() < 0.4:
        del out[len(out) - rng.randint(1, len(ending)):]
    return bytes(out[:longest])


def random_setup(rng):
    capacity = rng.choice((3, 4, 5, 6, 7, 8, 9, 12, 16, 20, 31, 32, 33, 64, 100, 210))
    kind = rng.randrange(3)
    n = rng.choice((0, 1, 2, 3, capacity, capacity + 1, 2 * capacity, 8, 50))
    limit = rng.choice((capacity, 2 * capacity, 4 * capacity, 20, 100, 300))
    window = rng.choice((capacity, capacity + 1, 2 * capacity, 2 * capacity + 1, 4 * capacity, 256, 400, 400))
    slots = rng.choice((1, 2, 3, 4, 5, 8, 64, 64, 64))
    if rng.random() < 0.01:
        capacity, slots = rng.choice(((2, slots), (window + 1, slots), (capacity, 0)))
    elif window < capacity:
        window = capacity
    return capacity, kind, n, limit, window, slots


def random_rooms(rng):
    """A width and a room."""
    return rng.choice((0, 1, 1, 2, 3, 4, 7, 60)), rng.choice((0, 1, 3, 8, 20, PLENTY, PLENTY, PLENTY))


def random_calls(rng, data, capacity):
    calls = []
    for _ in range(rng.choice((2, 4, 8, 14))):
        pick = rng.random()
        pester = rng.choice((0, 0, 0, 1, 3))
        calls += random_step(rng, data, pick, pester) if pick < 0.72 else random_look(rng, capacity, pick)
    if rng.random() < 0.3:
        calls.append(rng.choice((("all",), ("all", 2), ("all_sets",))))
    return calls


def random_step(rng, data, pick, pester):
    """A read, a set or a seek, with what is looked at behind it."""
    if pick < 0.40:
        calls = [("read", pester), ("position",)]
        if rng.random() < 0.5:
            calls.append(("views",))
        calls += [("writer", rng.randrange(3), *random_rooms(rng)) for _ in range(rng.choice((0, 0, 1, 3)))]
        if rng.random() < 0.2:
            calls.append(("view", rng.randrange(6), rng.randrange(6), rng.choice((0, 1, 4, 16, PLENTY))))
        return calls
    if pick < 0.54:
        calls = [("set", None, rng.choice((1, 2, 64, 64, 64)), rng.choice((1, 3, 6, 1024, 1024, 1024)), pester), ("position",)]
        if rng.random() < 0.6:
            calls.append(("set_views",))
        return calls + [("set_writer", rng.randrange(3), rng.randrange(3), *random_rooms(rng)) for _ in range(rng.choice((0, 0, 1, 3)))]
    if pick < 0.66:
        calls = [("seek_back", rng.randrange(99)), ("position",)]
        return calls + [("read", pester)] if rng.random() < 0.7 else calls
    if pick < 0.69:
        calls = [random_seek(rng, data)]
        return calls + [("read", pester)] if rng.random() < 0.5 else calls
    return [("seek_edge", rng.randrange(2), rng.choice((-1, 0, 0, 1))), ("read", pester)]


def random_look(rng, capacity, pick):
    """Calls that change nothing, wherever they fall: often there is no current record."""
    if pick < 0.78:
        return [("writer", rng.randrange(3), *random_rooms(rng)), ("view", rng.randrange(6), rng.randrange(6), PLENTY),
                ("set_writer", rng.randrange(4), rng.randrange(3), *random_rooms(rng))]
    if pick < 0.84:
        return [("set_view", rng.randrange(4), rng.randrange(6), rng.randrange(6), rng.choice((0, 1, 4, 16, PLENTY))), ("set_place", rng.randrange(4))]
    if pick < 0.90:
        return [("capacity",), ("grow", rng.choice((0, 1, capacity, 2 * capacity, rng.randrange(500), 1 << 23, (1 << 64) - 1)))]
    if pick < 0.95:
        a, b, c = (random_line(rng, rng.choice((0, 1, 5, 12))) for _ in range(3))
        width, room = rng.choice((0, 1, 2, 4, 5, 6, 99)), rng.choice((0, 1, 2, 7, 16, 40, PLENTY))
        return [("free", rng.randrange(10), a, b, c, width, room)]
    if pick < 0.97:
        return [("report", rng.choice((0, 1, 5)))]
    return [("set", rng.choice((0, 1)), 4, 4)]


def random_seek(rng, data):
    """To a `>`, to any place, past the end, or to a position that is refused."""
    marks = [at for at, byte in enumerate(data) if byte == 62]
    pick = rng.random()
    if pick < 0.5 and marks:
        byte = rng.choice(marks)
        return "seek", rng.randint(1, byte + 1), byte
    if pick < 0.8:
        byte = rng.randrange(len(data) + 3)
        return "seek", rng.randint(1, byte + 1), byte
    return ("seek", *rng.choice(((0, 0), (2, 0), (9, 7), (1, (1 << 62) + 1), (1, 1 << 62), (0, 5), (1, 300))))


def random_plans(count, seed):
    for number in range(count):
        rng = random.Random(seed * 1_000_003 + number)
        setup = random_setup(rng)
        data = random_input(rng, setup[0])
        often = rng.choice((0, 0.05, 0.3, 1))
        cuts = tuple(at for at in range(1, len(data)) if rng.random() < often)
        yield Plan("random", setup, data, cuts, random_calls(rng, data, setup[0]))


# ---------------------------------------------------------------------------------------------------------------------------------------
# Long inputs

def long_plans(count, seed):
    """Inputs of up to 100,000 bytes with records about the size of the largest window that a script may have."""
    for number in range(count):
        rng = random.Random(seed * 1_000_003 + number)
        capacity = rng.choice((256, 1000, 4096, 65535, 65536))
        window = rng.choice((65535, 65536))
        setup = min(capacity, window), rng.randrange(3), rng.choice((500, 4096, 1 << 20)), rng.choice((40000, 65536)), window, rng.choice((600, 4096))
        data = bytearray(rng.choice((b"", b"\n\r\n", b"\n" * rng.choice((255, 256, 257, 4096)))))
        while len(data) < 30000:
            need = rng.choice((10, 300, 1000, 4095, 20000, 65532)) + rng.randint(0, 4)
            width = rng.choice((60, 61, 80, need))
            record = bytearray(b">" + random_line(rng, rng.choice((3, 40))).replace(b"\r", b"") + b"\n")
            while len(record) < need:
                record += bytes([rng.choice(b"ACGT")]) * min(width, need - len(record) - 1) + b"\n"
            data += record
        cuts = tuple(sorted(rng.randrange(1, len(data)) for _ in range(rng.choice((0, 3, 30)))))
        way = rng.choice(([("all",), ("seek_back", 0), ("read",), ("writer", 1, 70, 65536)], [("all_sets",), ("seek_back", 1), ("read",)],
                          [("read",), ("writer", 2, 0, 65536), ("set",), ("set_writer", 0, 0, 1, 65536), ("seek_back", 0), ("read",), ("capacity",)]))
        yield Plan("up to 100,000 bytes", setup, bytes(data), cuts, way)


# ---------------------------------------------------------------------------------------------------------------------------------------
# Readers altered by hand, and calls inside a read: the port and the model alone

def altered_plans(count, seed):
    """One or two numbers of a reader altered after some reads, then every call: most are refused with 11, some go on from what stands there."""
    for number in range(count):
        rng = random.Random(seed * 1_000_003 + number)
        setup = random_setup(rng)
        if setup[0] < 3 or setup[0] > setup[4] or setup[5] == 0:
            continue
        data = b">" + random_input(rng, setup[0])
        cuts = tuple(range(rng.randint(1, 9), len(data), rng.randint(1, 40)))
        calls = [("read", rng.choice((0, 1)))] * rng.randint(1, 3)
        if rng.random() < 0.3:
            calls.append(("raw", 1))
        calls += [("raw", *random_alteration(rng, setup)) for _ in range(rng.randint(1, 2))]
        looks = [("raw", 4), ("raw", 10), *(("raw", 6, what, 0, PLENTY) for what in range(6)), ("raw", 6, 4, 1, PLENTY),
                 *(("raw", 7, what, rng.randrange(4), PLENTY) for what in range(3))]
        calls += looks
        calls += rng.choice(([("raw", 1)], [("raw", 2, rng.randrange(4))], [("raw", 3, 1, 0)],
                             [("raw", 5, setup[4], 4, 64), ("raw", 8, 0, 5, 0, PLENTY)], []))
        calls += [("raw", 4), ("read",), *looks, ("read",)]
        yield Plan("altered", setup, data, cuts, calls)


def random_alteration(rng, setup):
    """A small value, which may stand, or one that 11 refuses wherever it is put."""
    if rng.random() < 0.25:
        return 14, *rng.choice(((0, 2), (0, setup[4] + 1), (1, setup[4] + 1), (1, 1 << 63), (2, setup[4] + 1), (3, setup[4] + 1),
                                (4, setup[5] + 1), (4, (1 << 64) - 1), (5, 0), (5, 1 << 40), (6, (1 << 62) + 1), (6, (1 << 64) - 1)))
    if rng.random() < 0.3:
        return 15, rng.randrange(3), rng.choice((0, rng.randrange(20), setup[4], (1 << 64) - 1))
    return 14, *rng.choice(((0, rng.randint(3, setup[4])), (1, rng.randrange(setup[4] + 1)), (2, rng.randrange(12)), (3, rng.randrange(20)),
                            (4, rng.randrange(4)), (5, rng.randrange(1, 9)), (6, rng.choice((0, 5, 1 << 62, (1 << 62) - 9))),
                            (7, rng.randrange(2)), (8, rng.randrange(2))))
