"""Bugs for a copy of the port's code, and programs built from a copy without proof: for the test of the comparison itself, and for tests/hostile.

Nothing proves a copy with a bug, so it is built by `rt try`. That runs a program on the interpreter, then compiles it
at -O0 with checks of what the compiler may assume of proved code, and runs what it compiled, but keeps none of it. So
it is given a kit made of links to the one in use, with a linker that keeps what it links. A second such kit has a
compiler that takes -O3 for -O0. Copies and kits lie outside of the repository, where `rt ci` takes no file of Rattle
but those of its crates.
"""
import collections
import os
import re
import shutil
import subprocess
import sys
import tempfile

# In `file`, the text `new` in place of the line `old`, which must stand there exactly once. No bug leads outside of a
# slice, where a build with checks stops: each is to be found by an answer.
Bug = collections.namedtuple("Bug", "name what file old new")
BUGS = (
    Bug("search", "a last `\\n` is recorded early", "crates/scan/src/ends.rt",
        "        if bytes.len() <= next {",
        """        if bytes.len() == next {
            if limit <= count || ends.len() <= count {
                return Searched { at: end, count, stop: Stop::Full };
            }
            ends[count] = end;
            return Searched { at: next, count: count + 1, stop: Stop::Filled };
        }
        if bytes.len() < next {"""),
    Bug("trim", "every final `\\r` goes", "crates/scan/src/line.rt",
        "        Some((b'\\r', before)) => before,",
        "        Some((b'\\r', before)) => trim_cr(before),"),
    Bug("growth", "a size at the limit is no growth", "crates/growth/src/lib.rt",
        "    if size < next && next <= limit && next <= window {",
        "    if size < next && next < limit && next <= window {"),
    Bug("wrap", "each line is wrapped by itself", "crates/rewrite/src/lines.rt",
        "        column.put_line(line);",
        "        column.col = 0;\n        column.put_line(line);"),
)

LINKER = """#!/bin/sh
'%(real)s/ld.lld' "$@" && cp program '%(kept)s'
"""
COMPILER = """#!/bin/sh
for word; do
    shift
    [ "$word" = -O0 ] && word=-O3
    set -- "$@" "$word"
done
exec '%(real)s/clang' "$@"
"""

# The two ways in which a program of a copy is compiled.
BUILDS = ("checked, at -O0", "checked, at -O3")
NOTHING = {"drive": b"", "list": b"end\n"}  # what a program prints of no input
STEPS = 1_000_000_000  # of the interpreter, after which it gives no answer


class Builder:
    """Builds in `folder`, from the code in `root`."""

    def __init__(self, root, folder):
        self.root, self.folder = root, folder
        self.kept = os.path.join(folder, "kept")
        tools = {"ld.lld": LINKER}, {"ld.lld": LINKER, "clang": COMPILER}
        self.kits = {name: self.linked("kit%d" % number, tools[number]) for number, name in enumerate(BUILDS)}

    def linked(self, name, tools):
        """A kit made of links to the one in use, but for these tools, and for the two files by whose place `rt` knows
        its kit. Gives its `rt`."""
        rt = shutil.which("rt") or sys.exit("compare: no `rt` on the path")
        home = os.path.dirname(os.path.dirname(os.path.realpath(rt)))
        kit = os.path.join(self.folder, name)
        places = {"": ("bin", "toolchain"), "bin": ("rt", "rtlib.py"), "toolchain": ("bin",), "toolchain/bin": tools}
        for inner, others in places.items():
            os.makedirs(os.path.join(kit, inner))
            for part in os.listdir(os.path.join(home, inner)):
                if part not in others:
                    os.symlink(os.path.join(home, inner, part), os.path.join(kit, inner, part))
        for part in ("rt", "rtlib.py"):
            shutil.copy(os.path.join(home, "bin", part), os.path.join(kit, "bin", part))
        for tool, text in tools.items():
            path = os.path.join(kit, "toolchain", "bin", tool)
            with open(path, "w") as file:
                file.write(text % {"real": os.path.join(home, "toolchain", "bin"), "kept": self.kept})
            os.chmod(path, 0o755)
        return os.path.join(kit, "bin", "rt")

    def build(self, bug):
        """The path of `drive` with a bug, or with none, at -O0."""
        return self.builds(self.copy(bug), "drive", BUILDS[:1])[BUILDS[0]]

    def copy(self, bug):
        """The folder of a copy of the code with a bug, or with none."""
        copy = os.path.join(self.folder, bug.name if bug else "control")
        shutil.copytree(os.path.join(self.root, "crates"), os.path.join(copy, "crates"),
                        ignore=shutil.ignore_patterns("out", "proofs", "must-fail", "more-edits", "stdin", "stdout"))
        shutil.copy(os.path.join(self.root, "crates.txt"), copy)
        if bug:
            edit(os.path.join(copy, bug.file), bug)
        return copy

    def builds(self, copy, crate, names=BUILDS):
        """The paths of a program of a copy, compiled in these ways."""
        programs = {}
        for name in names:
            out, said = self.tried(self.kits[name], copy, crate)
            ended = re.search(r"(?m)^checked: ended status=0$", said)
            if out != NOTHING[crate] or not ended or not os.path.exists(self.kept):
                sys.exit("compare: %s is not built (%s):\n%s" % (crate, copy, said))
            programs[name] = os.path.join(copy, "%s.%d" % (crate, BUILDS.index(name)))
            os.rename(self.kept, programs[name])
        return programs

    def interpreted(self, copy, crate, runs):
        """Of each run of a program of a copy, an input and what is to be printed of it: None if the interpreter prints
        that, else what is said of it."""
        with tempfile.TemporaryDirectory(dir=self.folder) as folder:
            for number, texts in enumerate(runs):
                for end, text in zip(("", ".stdout"), texts):
                    with open(os.path.join(folder, "%06d%s" % (number, end)), "wb") as file:
                        file.write(text)
            _, said = self.tried("rt", copy, crate, "--steps", str(STEPS), "--cases", folder)
        ends = {}
        for lines in re.findall(r"(?m)((?:^(?!case=).*\n)*^case=.*)", said):
            ends[int(re.search(r"case=(\d+)", lines).group(1))] = lines
        right = re.compile(r"case=\d+ run=ended status=0 runners=2 output=expected ")
        told = [ends.get(number, said) for number in range(len(runs))]
        return [None if right.match(text) else text[:300] for text in told]

    @staticmethod
    def tried(rt, copy, crate, *words):
        """What a program of a copy prints of no input under `rt try`, and what that says."""
        done = subprocess.run([rt, "try", *words], cwd=os.path.join(copy, "crates", crate), stdin=subprocess.DEVNULL,
                              stdout=subprocess.PIPE, stderr=subprocess.PIPE)
        return done.stdout, done.stderr.decode(errors="replace")


def edit(path, bug):
    with open(path) as file:
        lines = file.read().split("\n")
    if lines.count(bug.old) != 1:
        sys.exit("compare: the line to plant %s on stands %d times in %s: %s" % (bug.name, lines.count(bug.old), bug.file, bug.old.strip()))
    lines[lines.index(bug.old)] = bug.new
    with open(path, "w") as file:
        file.write("\n".join(lines))
