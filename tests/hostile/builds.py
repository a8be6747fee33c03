"""The programs as they are built in other ways, held against the proved ones: for tests/hostile/run --builds.

`rt try` compiles a program from its sources without proof, with a check before each assumption that the compiler makes
of proved code, where the program stops if one is false: here at -O0 and at -O3. `rt ci` leaves beside each program the
one that Rattle's own compiler makes of the proved code. Each of these gets what the proved program gets, and must do
the same: exit status, standard output and standard error. The interpreter, which follows the proved form of the code
step by step, gets a small sample.
"""
import collections
import os
import tempfile
import time

import bugs
import start

# Each in a copy of the port's code. The first alters answers of every build alike; the second alters none, but a difference below 0 is formed on the
# way to the right number, which the compiler may assume never to be.
FAULTS = (
    next(bug for bug in bugs.BUGS if bug.name == "trim"),
    bugs.Bug("below", "a difference below 0 on the way", "crates/reader/src/hunt.rt",
             "        let from = self.mark.search.0.max(self.mark.start.0 + 1).min(filled);",
             "        let from = self.mark.search.0.max(self.mark.start.0 - 1 + 2).min(filled);"),
)
SHOWS = b">a\r\r\nA\n"  # an input in which both faults show
OWN = "by Rattle's own compiler"
TRIES = 3000  # at most so many runs to make a difference small

# What one run of a program gets: `parts` together, which are the scripts of a run, or one input; `number` says how it gets them.
Run = collections.namedtuple("Run", "program kind parts number")


class Builds:
    """The builds of both programs from one copy of the code, and `more` of them, and where they differ from the
    proved ones."""

    def __init__(self, builder, bug, proved, outcome_of, more=None):
        self.builder, self.copy, self.proved, self.outcome_of = builder, builder.copy(bug), proved, outcome_of
        self.programs = {name: {**builder.builds(self.copy, name), **(more or {}).get(name, {})} for name in proved}
        self.counts, self.found = collections.Counter(), []

    def outcome(self, path, run, parts):
        data = b"".join(parts)
        return self.outcome_of[run.program](path, run.number, data)

    def differs(self, build, run, parts):
        """None, or how a build differs from the proved program."""
        want = self.outcome(self.proved[run.program], run, parts)
        got = self.outcome(self.programs[run.program][build], run, parts)
        return None if got == want else "%s does %s, the proved one %s" % (build, brief(got, want), brief(want, got))

    def compare(self, run):
        self.counts["%s: %s" % (run.program, run.kind)] += len(run.parts)
        want = self.outcome(self.proved[run.program], run, run.parts)
        for build, path in self.programs[run.program].items():
            if self.outcome(path, run, run.parts) != want:
                self.found.append((build, run))

    def interpret(self, runs):
        """The same for the interpreter, which has no standard error."""
        for name in self.programs:
            some = [run for run in runs if run.program == name]
            wants = [(b"".join(run.parts), self.outcome(self.proved[name], run, run.parts)[1]) for run in some]
            for run, wrong in zip(some, self.builder.interpreted(self.copy, name, wants) if some else ()):
                self.counts["%s: %s" % (name, run.kind)] += len(run.parts)
                if wrong:
                    self.found.append((wrong, run))

    def show(self, most):
        """The first differences, each with its smallest input; of the interpreter's, what it says."""
        for build, run in self.found[:most]:
            if build not in self.programs[run.program]:
                print("%s on the interpreter: %r: %s" % (run.program, b"".join(run.parts)[:60], build.strip()))
                continue
            parts = shrunk(run.parts, lambda parts: self.differs(build, run, parts))
            if len(parts) == 1:
                parts = [shrunk(parts[0], lambda data: self.differs(build, run, [data]))]
            data = b"".join(parts)
            print("%s, %s, %d bytes %r: %s" % (run.program, run.kind, len(data), data[:200], self.differs(build, run, parts)))


def brief(outcome, other):
    """An outcome in a few words: its status, and what it prints from where it differs."""
    status, out, err = outcome
    at = next((at for at, (a, b) in enumerate(zip(out, other[1])) if a != b), min(len(out), len(other[1])))
    return "%d, %r from byte %d, %r" % (status, out[at:at + 40], at, err[:60])


def shrunk(whole, differs):
    """The smallest part of a list, or of bytes, in which a difference is still found by leaving parts out."""
    size, tries = len(whole) // 2, 0
    while size:
        at = 0
        while at < len(whole) and tries < TRIES:
            less, tries = whole[:at] + whole[at + size:], tries + 1
            if differs(less):
                whole = less
            else:
                at += size
        size //= 2
    return whole


def outcomes(list_outcome):
    return {"list": list_outcome, "drive": lambda path, _, data: start.outcome(path, data)}


def by_own(proved):
    """The programs that Rattle's own compiler made, where `rt ci` has left them."""
    own = {name: path + ".by-rattle" for name, path in proved.items() if os.path.exists(path + ".by-rattle")}
    for name in sorted(set(proved) - set(own)):
        print("%s %s is not there and not compared: run rt ci" % (name, OWN))
    return {name: {OWN: path} for name, path in own.items()}


def compare(root, proved, list_outcome, work, sample):
    """Whether no build differs from the proved program."""
    began = time.monotonic()
    with tempfile.TemporaryDirectory(prefix="builds-") as folder:
        builds = Builds(bugs.Builder(root, folder), None, proved, outcomes(list_outcome), by_own(proved))
        for run in work:
            builds.compare(run)
        builds.interpret(list(sample))
        for kind, count in sorted(builds.counts.items()):
            print("%8d  %s" % (count, kind))
        builds.show(8)
    print("%d inputs and scripts for the programs built with checks at -O0 and at -O3 and by Rattle's own compiler, or for "
          "the interpreter: %d answered otherwise than by the proved programs (%.0f s)" % (sum(builds.counts.values()), len(builds.found), time.monotonic() - began))
    return not builds.found


def planted(root, proved, list_outcome, work):
    """Whether each fault is found in both programs and on the interpreter, and the copy without one shows no difference."""
    fine = True
    with tempfile.TemporaryDirectory(prefix="builds-") as folder:
        builder = bugs.Builder(root, folder)
        for fault in (None, *FAULTS):
            builds = Builds(builder, fault, proved, outcomes(list_outcome))
            for run in work():
                builds.compare(run)
            builds.interpret([Run("list", "interpreted", [SHOWS], 1)])
            by = collections.Counter(
                "%s %s" % (run.program, build if build in builds.programs[run.program] else "on the interpreter")
                for build, run in builds.found)
            what, given = fault.what if fault else "no fault", sum(builds.counts.values())
            print("%s: %d differences in %d inputs and scripts" % (what, len(builds.found), given))
            for name, count in sorted(by.items()):
                print("%8d  %s" % (count, name))
            builds.show(1)
            needed = {"%s %s" % (name, build) for name in proved for build in bugs.BUILDS} | {"list on the interpreter"}
            fine = (needed <= set(by) if fault else not by) and fine
    print("%d planted faults, %s" % (len(FAULTS), "each found" if fine else "NOT AS IT SHOULD BE"))
    return fine
