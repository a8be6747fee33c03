"""Some of the stored vectors as questions to the definitions, for crates/vectors: its table, whose replies are the Rust's answers alone.

A run is what a vector's single reads heard from the front of the input, or from the place of a seek, to the end or to refusal 3. A vector is taken if
its run is whole and shows what a question asks of each record.
"""
import collections
import itertools

LONGEST = 40  # bytes of an input

# Where reading began (None: at the front), and what was heard: ("record", line, byte, looks), ("end",) or ("refused", number, values). The looks are
# the answers to the calls behind that record.
Run = collections.namedtuple("Run", "origin heard")


# ---------------------------------------------------------------------------------------------------------------------------------------
# From answers to replies

def run_of(vector):
    """A vector's last run, if nothing but reads and one seek at most made it and it came to its end; else None."""
    run, seeks = Run(None, []), 0
    for call, answer, behind in zip(vector.calls, vector.answers, (*vector.answers[1:], "")):
        words = answer.split()
        if call[0] == 5 or seeks > 1:
            return None
        if call[0] == 3:
            run, seeks = Run(call[1:], []), seeks + 1
        elif call[0] == 1 and words[0] == "record":
            run.heard.append(("record", *map(int, words[1:3]), {"lines": int(words[3])}))
        elif call[0] == 1 and not over(run):
            place = behind.split()[1:] if answer == "refused 3" else words[2:]
            run.heard.append((words[0], *([int(words[1]), list(map(int, place))] if words[0] == "refused" else [])))
        elif call[0] in (6, 7) and run.heard and run.heard[-1][0] == "record":
            run.heard[-1][3].setdefault(call[:2] + call[2:3] * (call[:2] in ((6, 4), (7, 1))), answer)
    return run if over(run) and not (run.origin and len(run.heard) == 1) else None


def over(run):
    return bool(run.heard) and run.heard[-1][:2] in (("end",), ("refused", 3))


def data(answer):
    """The bytes of `part HEX` and its like, None of `none`."""
    return None if answer == "none" else bytes.fromhex(answer.split()[1].replace("-", ""))


def records(run):
    return [entry for entry in run.heard if entry[0] == "record"]


def shown(run):
    """What was heard, each record with head and lines; None if the vector does not show them."""
    out = []
    for word, *rest in run.heard:
        if word == "record":
            line, byte, looks = rest
            wanted = [(6, 0), *((6, 4, number) for number in range(looks["lines"]))]
            if not all(look in looks for look in wanted):
                return None
            head, *lines = (text(data(looks[look])) for look in wanted)
            out.append("shows %d %d %s %s" % (line, byte, head, listed(lines, True)))
        else:
            out.append("the_end" if word == "end" else "refusal %d %s" % (rest[0], listed(rest[1], True)))
    return listed(out)


def named(run):
    """Id, description and joined sequence of each record."""
    wanted = (6, 1), (6, 2), (6, 5)
    looks = [entry[3] for entry in records(run)]
    if not all(look in shown for shown in looks for look in wanted):
        return None
    parts = [[data(shown[look]) for look in wanted] for shown in looks]
    return listed(["named %s %s %s" % (text(name), option(desc), text(seq)) for name, desc, seq in parts])


def written(run, *look):
    """What a writer made of each record."""
    texts = [entry[3].get(look, "") for entry in records(run)]
    return listed([text(data(answer)) for answer in texts]) if all(answer.startswith("wrote") for answer in texts) else None


# ---------------------------------------------------------------------------------------------------------------------------------------
# antt

def text(data):
    """Bytes as a term that may stand as an argument."""
    shown = data.decode("ascii").replace("\n", "\\n").replace("\r", "\\r")
    return '(ascii "%s")' % shown if data else "[]"


def listed(terms, inner=False):
    """A list; as an argument if `inner`."""
    out = " ∷ ".join([*(bare(str(term)) for term in terms), "[]"])
    return "(%s)" % out if inner and terms else out


def bare(term):
    """A term without the brackets that only an argument needs."""
    return term[1:-1] if term.startswith("(ascii") and term.endswith(")") and term.count("(") == 1 else term


def option(data):
    return "none" if data is None else "(some %s)" % text(data)


def policy(setup):
    _, kind, n, limit, _, _ = setup
    return ("StdPolicy", "(DoubleUntil %d)" % n, "(DoubleUntilLimited %d %d)" % (n, limit))[kind]


def setup_of(vector):
    return "%s %d %d %d" % (policy(vector.setup), vector.setup[4], vector.setup[0], vector.setup[5])


def questions(vector):
    """The questions that a vector's run answers, by kind: (kind, question, reply)."""
    run = run_of(vector)
    if run is None or len(vector.input) > LONGEST:
        return
    given = text(vector.input)
    if run.origin:
        if shown(run):
            yield "resumes", "resumes %s %d %d %s" % (setup_of(vector), *run.origin, given), "told (hears (%s))" % shown(run)
        return
    if shown(run):
        yield "reads", "listed (reads %s %s)" % (setup_of(vector), given), "told (hears (%s))" % shown(run)
    if run.heard[-1] == ("end",) and records(run):
        if named(run):
            yield "names", "names %s" % given, "are (%s)" % named(run)
        widths = {look[2] for _, _, _, looks in records(run) for look in looks if look[:2] == (7, 1)}
        for name, look in (("writes", (7, 0)), ("listed (rewrites", (7, 2)), *(("wraps %d" % width, (7, 1, width)) for width in sorted(widths))):
            if written(run, *look):
                yield "writers", "%s %s%s" % (name, given, ")" * name.count("(")), "told (texts (%s))" % written(run, *look)


def fills(vector):
    """A free writer's calls as questions: the output is lent full of `#`."""
    for call, answer in zip(vector.calls, vector.answers):
        _, what, a, b, c, width, room, rest = call
        words = answer.split()
        first, second, third = text(rest[:a]), option(rest[a:a + b]), text(rest[a + b:])
        writer = ("write-head " + first, "write-id-desc %s %s" % (first, second), "write-id-desc %s none" % first, "write-seq " + third,
                  "write-wrap-seq %s %d" % (third, width), "write-to %s %s" % (first, third), "write-parts %s %s %s" % (first, second, third),
                  "write-parts %s none %s" % (first, third), "write-wrap %s %s %s %d" % (first, second, third, width),
                  "write-wrap %s none %s %d" % (first, third, width))[what]
        if words[0] == "wrote":
            texts = [bytes.fromhex(word.replace("-", "")) for word in words[1:]]
            said, out = "wrote %d" % len(texts[0]), b"".join(texts)
        else:
            said, out = "refuses 9 (%s ∷ [])" % words[2], b"#" * room
        yield "fills (%s) %s" % (writer, text(b"#" * room)), "leaves (record { answer = %s; out = %s })" % (said, text(out)[1:-1] if out else "[]")


def grows(vector):
    replies = ["none" if answer == "none" else "some " + answer.split()[1] for answer in vector.answers]
    return ("grows %s %d %s" % (policy(vector.setup), vector.setup[4], listed([size for _, size in vector.calls], True)),
            "sizes (%s)" % listed(replies))


# ---------------------------------------------------------------------------------------------------------------------------------------
# The table

# How many vectors of each kind are taken for a part.
MOST = {"reads": 5, "resumes": 6, "names": 3, "writers": 7, "fills": 10, "growths": 2}
# What each part holds, and the definitions that compute its answers; those of the bench list's questions are all opened together.
LISTED = "asked_of_bench shown ascii due meaning largest chain unchanged_text copy_of listing head_of seq_lines"
PARTS = {
    "reads": ("what single reads give to the end or to a refusal, each record with line, byte, head and lines", LISTED),
    "resumes": ("the same behind a seek to a position that the reader gave", "shown ascii due records_from largest head_of seq_lines"),
    "names": ("id, description and joined sequence of each record", "ascii naming meaning head_of seq_of id_of desc_of"),
    "writers": ("what `write`, `write_wrap` and `write_unchanged` make of each record", LISTED + " wrap_seq_iter_text"),
    "fills": ("what a free writer answers, and the output behind it, which was full of `#`", "ascii writing filled wrapped wrap_seq_text"),
    "growths": ("what the policies grow sizes to", "ascii grown"),
}


def chosen(vectors, growth):
    """The vectors of each part: their names with their questions and replies. Those that refusal 3 ends count as a kind of their own."""
    kinds = collections.defaultdict(list)
    for number, vector in enumerate(vectors, 1):
        name = "vector %d" % number
        if vector.kind == "free writers":
            kinds["fills", vector.kind].append((name, list(fills(vector))))
        elif vector.kind == "growth":
            kinds["growths", vector.kind].append((name, [grows(vector)]))
        for part, found in itertools.groupby(questions(vector), lambda entry: entry[0]):
            kinds[part, vector.kind, "refused 3" in vector.answers].append((name, [entry[1:] for entry in found]))
    parts = {part: [] for part in PARTS}
    for (part, *_), found in kinds.items():
        most = min(MOST[part], len(found))
        parts[part] += [found[turn * len(found) // most] for turn in range(most)]
    parts["growths"] += [("growth.txt, vector %d" % number, [grows(vector)]) for number, vector in enumerate(growth, 1)]
    return parts


HEAD = """-- Made by `python3 tests/vectors/make`, not to be edited by hand. Vectors of tests/vectors/answers.txt and growth.txt as questions to the definitions:
-- every reply is what the Rust answered there, and the definitions compute the same. Assumes nothing.
use Rattle.std.specs.Prelude.{List, [], ◌∷◌, map, ◌≡◌, refl}
use Rattle.std.proofs.Math.Option.{none, some}
use Rattle.bench.specs.Table.{reads, rewrites, shows, the_end, refusal, hears, texts, shown, asked as asked_of_bench}
use Rattle.growth.specs.declared.Policy.TheVariants.{StdPolicy, DoubleUntil, DoubleUntilLimited}
use Rattle.growth.specs.Growth.{grown}
use Rattle.growth.specs.Chain.{largest, chain}
use Rattle.meaning.specs.Ascii.{ascii}
use Rattle.meaning.specs.Input.{records_from, meaning}
use Rattle.meaning.specs.Parts.{head_of, seq_lines, seq_of, id_of, desc_of}
use Rattle.meaning.specs.Due.{due}
use Rattle.write.specs.Text.{wrap_seq_text, wrap_seq_iter_text, unchanged_text, copy_of}
use Rattle.write.specs.Listing.{listing}
use Rattle.write.specs.Output.{wrote, refuses, filled, wrapped}
use Rattle.vectors.specs.Asked.{Vector, vector, asked, naming, writing, listed, resumes, names, writes, wraps, fills, grows, told, are, named, leaves, sizes}
use Rattle.vectors.specs.Asked.{write-head, write-id-desc, write-seq, write-wrap-seq, write-to, write-parts, write-wrap}
"""


def text_of(vectors, growth):
    out = [HEAD]
    for part, found in chosen(vectors, growth).items():
        table = "the_" + part
        what, opened = PARTS[part]
        out += ["-- " + what, "abbrev pub %s : List Vector" % table, "unfolding ascii", "%s =" % table]
        for name, pairs in found:
            out.append("    -- " + name)
            for question, reply in pairs:
                out += broken("vector (%s)" % question) + broken("(%s) ∷" % reply)
        out += ["    []", "", "pub %s-right : map (λ (v : Vector). asked v.query) %s ≡ map (λ (v : Vector). v.said) %s" % (part, table, table),
                "unfolding asked " + opened, "%s-right = refl" % part, ""]
    return "\n".join(out).rstrip("\n") + "\n"


def broken(term):
    """A term in lines of at most 150 characters, broken between the entries of a list."""
    lines = ["   "]
    for entry in term.split(" ∷ "):
        if len(lines[-1]) + len(entry) > 145:
            lines.append("   ")
        lines[-1] += " " + entry + " ∷"
    lines[-1] = lines[-1].removesuffix(" ∷")
    return lines
