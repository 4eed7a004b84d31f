#!/usr/bin/env python3
"""Turns the repository's own antt names to today's spelling: words, fields and constructors in snake case, facts and
types in camel case, an apostrophe for a prime. Run once, after the kit's own script, at the top of the checkout.

A name is left as it is where the library spells a name of its own so (`add-zero`), where the check makes it (the goals
of a function's proof) and where a lemma's name begins with a fact's (`All-map`). A new spelling that some file already
uses for something else is refused: the script lists such names, and changes nothing.
"""
import collections
import os
import re
import sys

DECLARED = re.compile(r"\s*(?:(?:abbrev|unfoldable|pub|data|record|module|let|where|in) )*([^\s(){};,.:=@\"]*[-′][^\s(){};,.:=@\"]*)\s+(?::|=)")
CAPITAL = re.compile(r"\s*(?:(?:abbrev|unfoldable|pub|data|record) )+([A-Z][^\s(){};,.:=@\"]*-[^\s(){};,.:=@\"]*)\s")
CLAUSE = re.compile(r"^\s*(?:pub )?([a-z][^\s(){};,.:=@\"]*[-′][^\s(){};,.:=@\"]*)( [^:=]*)? = ")
TOKEN = re.compile(r"\"(?:[^\"\\]|\\.)*\"|[^\s(){};,.@\"`\[\]]+")
LIBRARY = re.compile(r"use (?:Rattle\.(?:std|core)|native|lib|mathlib|Prim|denote|borrow|Lib)\b[^{\n]*\.\{([^}]*)\}")
MODULES = re.compile(r"use ((?:Rattle\.(?:std|core)|native|lib|mathlib|Prim|denote|borrow|Lib)\b[^{\n;]*)")


# a parameter has the name that the rule would give
SPECIAL = {"log-positions": "log_positions_of"}


def files(root):
    for top in ("crates", "tests/edits", "tests/misuse"):
        for folder, dirs, names in os.walk(os.path.join(root, top)):
            dirs[:] = sorted(d for d in dirs if d not in ("out", "data"))
            for name in sorted(names):
                if name.endswith((".antt", ".rt", ".edit")):
                    yield os.path.join(folder, name)


def spoken(path, text):
    """The part of a file whose names share one space with definitions: no paths to proofs, no code but the clauses."""
    if path.endswith(".rt"):
        return "\n".join(l for l in text.split("\n") if re.match(r"\s*(?:pub )?(?:ghost|requires|ensures)\b", l))
    return re.sub(r"^use Rattle\.\w+\.proofs\.[^{\n]*", "use ", text, flags=re.M)


def renamed(name, fact):
    name = name.replace("′", "'")
    if fact:
        head, *rest = name.split("-")
        return head + "".join(w[:1].upper() + w[1:] for w in rest)
    return name.replace("-", "_")


def main(root, write):
    texts = {p: open(p, encoding="utf-8").read() for p in files(root)}
    declared, facts, library, made = set(), set(), set(), set()
    for path, text in texts.items():
        for m in LIBRARY.finditer(text):
            for item in m.group(1).split(","):
                library.update(item.split())
        for m in MODULES.finditer(text):
            library.update(m.group(1).split("."))
        if not path.endswith(".antt"):
            continue
        generated = re.search(r"/proofs/(?:[^/]+/)+(?:Answers|Invariants|Proof)\.antt$", path)
        for line in text.split("\n"):
            if line.lstrip().startswith("--"):
                continue
            c = CAPITAL.match(line)
            m = c or DECLARED.match(line) or CLAUSE.match(line)
            if m is None:
                for x in re.finditer(r"\blet ([^\s(){};,.:=@\"]*[-′][^\s(){};,.:=@\"]*)\s+(?::|=)", line):
                    declared.add(x.group(1))
                continue
            name = m.group(1)
            if generated and re.search(r": (?:goal|need|needs)\.", line):
                made.add(name)
            else:
                declared.add(name)
                if c:
                    facts.add(name)
            for x in re.finditer(r"\blet ([^\s(){};,.:=@\"]*[-′][^\s(){};,.:=@\"]*)\s+(?::|=)", line):
                declared.add(x.group(1))
    skip = library | made | {n for n in declared if n.endswith("'") and n[:-1] in library}
    new = {}
    for name in sorted(declared - skip):
        if re.match(r"[A-Z]", name) and name not in facts:
            continue
        if not re.search(r"[A-Za-z]", name) or "→" in name:
            continue
        new[name] = SPECIAL.get(name) or renamed(name, name in facts)
    bad = collections.defaultdict(list)
    tokens = {p: set(TOKEN.findall(spoken(p, t))) for p, t in texts.items()}
    twins = collections.defaultdict(set)
    for name, to in new.items():
        twins[to].add(name)
    for name, to in new.items():
        for p, ts in tokens.items():
            if name in ts and (to in ts or len(twins[to] & ts) > 1):
                bad[name].append(p)
    if "-v" in sys.argv:
        for name, to in new.items():
            print(name, to)
        print("library", sorted((declared & library)))
        print("made", sorted((declared & made)))
    for name in sorted(bad):
        print("falls together:", name, new[name], bad[name][0], len(bad[name]), file=sys.stderr)
        del new[name]
    if write:
        for path, text in texts.items():
            after = TOKEN.sub(lambda m: new.get(m.group(0), m.group(0)), text)
            if after != text:
                open(path, "w", encoding="utf-8").write(after)
    print(len(new), "names")


main(".", "--write" in sys.argv)
