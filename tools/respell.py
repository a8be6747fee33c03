#!/usr/bin/env python3
"""Spells the repository's own definitions and lemmas as today's Rattle does: words in snake case, types and modules as they are.

    python3 tools/respell.py [FOLDER]     once, after the scripts of the new kit have turned a tree; rewrites crates/ in place

A name is changed only where it is declared in a file of specs/ or proofs/ of this repository: `readOf` to `read_of`, `chainIn-stop` to `chain_in-stop`; a field,
a constructor or a definition of specs/ has underscores where it had dashes (`start-search` to `start_search`), a lemma keeps its dashes.
Names of src/, texts in quotes and names of the library stay. It prints what it changed, and stops before it writes if two names would fall together.
"""
import os
import re
import sys

TOKEN = re.compile(r"(?<![\w'.\\-])[A-Za-z_][\w'-]*|(?<=\.)[A-Za-z_][\w'-]*")
STRING = re.compile(r'"(?:[^"\\]|\\.)*"')
# what the scripts of the kit spelled as a word of the library, and which a word of ours is spelled as now
BACK = ["ends_of", "from_start", "goes_on", "lines_at", "too_long"]
CAMEL = re.compile(r"(?<=[a-z0-9])(?=[A-Z])")


def files(root):
    for folder, dirs, names in os.walk(os.path.join(root, "crates")):
        dirs[:] = sorted(d for d in dirs if d != "out")
        for name in sorted(names):
            if name.endswith((".antt", ".rt")):
                yield os.path.join(folder, name)


def read(path):
    with open(path, encoding="utf-8") as f:
        return f.read()


def snake(part):
    """A part of a name between dashes: words in snake case; a type, which begins with a capital, as it is."""
    if not part[:1].islower():
        return part
    return CAMEL.sub("_", part).lower() if CAMEL.search(part) else part


def declared(root):
    """The names that are declared, with whether dashes stay (a lemma) or not (a word, a field, a constructor)."""
    own = {}
    foreign = set()
    crates = {l.split(":")[0].strip() for l in read(os.path.join(root, "crates.txt")).splitlines() if ":" in l and not l.startswith("#")}
    for path in files(root):
        text = read(path)
        for m in re.finditer(r"^\s*(?:ghost )?(?:pub )?use ([\w.'-]+)\.\{([^}]*)\}", text, re.M):
            if not any(m.group(1).startswith(f"Rattle.{c}.") for c in crates):
                foreign |= {n.strip().split(" as ")[0] for n in m.group(2).split(",")}
        if not path.endswith(".antt"):
            continue
        block = None
        for line in text.splitlines():
            if re.match(r"\s*(?:pub )?(record|data) ", line):
                block = len(line) - len(line.lstrip())
                continue
            indent = len(line) - len(line.lstrip())
            if line.strip() and block is not None and indent <= block:
                block = None
            m = re.match(r"\s*((?:abbrev |unfoldable |pub )*)([a-z_][\w'-]*) :(?: |$)", line)
            if m:
                word = block is not None or "abbrev" in m.group(1) or "unfoldable" in m.group(1)
                own[m.group(2)] = own.get(m.group(2), False) or word
    return own, foreign


def renames(root):
    own, foreign = declared(root)
    new = {}
    for name, word in own.items():
        to = "-".join(snake(p) for p in name.split("-"))
        # an invariant and a measure have the names that the prover asks for
        if word and not name.startswith(("invariant-", "decreases-")):
            to = to.replace("-", "_")
        if to != name:
            if name in foreign:
                print(f"respell: {name} is also a name of the library and stays")
                continue
            new[name] = to
    for name in BACK:
        new[name] = name.replace("_", "-")
    used = set(own) | foreign
    for path in files(root):
        if path.endswith(".antt"):
            used |= set(TOKEN.findall(STRING.sub('""', read(path))))
    falls = {}
    for name, to in new.items():
        falls.setdefault(to, []).append(name)
    bad = {to: names for to, names in falls.items() if len(names) > 1 or (to in used and to not in new)}
    # a name with a dash that would fall together with another keeps its dash; a word that only a function of src/ has too does not fall together
    for to, names in sorted(bad.items()):
        for name in names:
            if "-" in name:
                del new[name]
        left = [n for n in names if n in new]
        if len(left) > 1 or (left and to in set(own) - set(BACK)):
            raise SystemExit(f"respell: {', '.join(left)} would fall together with {to}")
    return new


def turn(text, new):
    out, at = [], 0
    for m in STRING.finditer(text):
        if "\n" in m.group(0):
            continue
        out += [TOKEN.sub(lambda t: new.get(t.group(0), t.group(0)), text[at : m.start()]), m.group(0)]
        at = m.end()
    out.append(TOKEN.sub(lambda t: new.get(t.group(0), t.group(0)), text[at:]))
    return "".join(out)


def main(words):
    root = words[0] if words else "."
    # a proof that the scripts of the kit spelled as what a word of ours is spelled as now
    for path in files(root):
        if path.endswith(".antt"):
            text = read(path)
            turned = re.sub(r"(?<![\w.'-])after_read(?![\w'-])", "after-read", text)
            if turned != text:
                with open(path, "w", encoding="utf-8") as f:
                    f.write(turned)
    new = renames(root)
    for path in files(root):
        text = read(path)
        turned = turn(text, new)
        if turned != text:
            with open(path, "w", encoding="utf-8") as f:
                f.write(turned)
    for name in sorted(new):
        print(f"{name} {new[name]}")
    return 0


if __name__ == "__main__":
    sys.exit(main(sys.argv[1:]))
