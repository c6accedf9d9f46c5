#!/usr/bin/env python3
"""Brings this repository's own definitions, lemmas and fields to today's spelling: snake case, a prime as an apostrophe.

usage: tools/respell.py      at the top of a checkout in which port.py has run, once

It goes by whole words in specs/, in proofs/, in the clauses and imports of src/, in must-fail/ and in README.md and docs/*.md.
A lemma that would fall together with a definition gets '_lem' after its name. Types, facts and modules keep their camel case, the
names of src/, exported names, and names of a library keep theirs, as do the goals of a function's proof.
"""

import os
import re
import sys

OWN = sorted(os.listdir("crates"))
WORD = re.compile(r"(?<![\w'′\-])[A-Za-z][\w'′]*(?:-[\w'′]+)*(?![\w])")
DECLARED = re.compile(r"^(\s*)((?:(?:abbrev|unfoldable|pub|opaque)\s+)*)([a-z][\w'′\-]*)\s*(?:\{[^}]*\}\s*)*(?::|\()")
CONSTRUCTOR = re.compile(r"^\s+(?:pub )?([a-z][\w'′\-]*) :")


def snake(name):
    name = re.sub(r"(?<=[a-z0-9])([A-Z])", lambda m: "_" + m.group(1).lower(), name)
    return name.replace("-", "_").replace("′", "'")


def files(kinds):
    for top in ("crates",):
        for folder, dirs, names in os.walk(top):
            dirs[:] = sorted(d for d in dirs if d != "out")
            for n in sorted(names):
                if n.endswith(kinds):
                    yield os.path.join(folder, n)


def of_function(path):
    """Whether the file belongs to one function's proof: proofs/F/.."""
    return path.endswith(".antt") and "/proofs/" in path and path.split("/proofs/")[1].count("/") >= 1


def imported(text):
    """The names that a file takes from a library."""
    found = set()
    for m in re.finditer(r"^\s*(?:pub )?(?:ghost )?use ([^\s{]+?)\.?\{([^}]*)\}", text, re.M):
        parts = m.group(1).split(".")
        if not (parts[0] == "Rattle" and len(parts) > 1 and parts[1] in OWN):
            found |= {n.strip().split(" as ")[-1].strip() for n in m.group(2).split(",")}
    return found


def declared():
    """The declared lowercase names of specs/ and proofs/, with what kind each is: a definition of specs/ or a lemma or field."""
    specs, lemmas = set(), set()
    for path in files((".antt",)):
        inner = of_function(path)
        for line in open(path, encoding="utf-8"):
            if re.match(r"^\s*(pub )?(use|mod|module|open|unfolding|infix\w*)\b", line) or line.lstrip().startswith("--"):
                continue
            m = DECLARED.match(line)
            if not m or m.group(3) in ("let", "in", "module", "record", "rw"):
                continue
            if inner and (re.search(r": (tie|goal)\.|: statement\b|: *\{M : Type", line) or m.group(1)):
                continue
            if m.group(1) and not m.group(2) and not CONSTRUCTOR.match(line):
                continue
            (specs if "/specs/" in path else lemmas).add(m.group(3))
    return specs, lemmas


def table():
    specs, lemmas = declared()
    new = {n: snake(n) for n in specs if snake(n) != n}
    taken = {snake(n) for n in specs}
    for n in sorted(lemmas - specs):
        s = snake(n)
        if s in taken and any(snake(x) == s and x != n for x in specs):
            s += "_lem"
        if s != n:
            new[n] = s
    back = {}
    for n, s in sorted(new.items()):
        if s in back:
            sys.exit(f"{n} and {back[s]} fall together as {s}")
        back[s] = n
    return new


def respelled(text, new, keep, dotted):
    """Whole words, but not those that a library gave the file, nor, where `dotted` says so, a step after a dot."""

    def word(m):
        w = m.group(0)
        if w in keep or w not in new:
            return w
        if not dotted and "-" in w and text[m.start() - 1] == "." and not re.search(r"(proofs|specs)[.\w]*\.$", text[max(0, m.start() - 80) : m.start()]):
            return w if w in STEPS else new[w]
        return new[w]

    return WORD.sub(word, text)


STEPS = set()


def main():
    new = table()
    for path in files((".rt",)):
        STEPS.update(n.replace("_", "-") for n in re.findall(r"\bfn (\w+)", open(path, encoding="utf-8").read()))
    names = set().union(*declared())

    def page_word(m):
        # also the names that port.py turned; a function's name stays
        w = m.group(0)
        if not re.search(r"[a-z][A-Z]|[\w]-[\w]", w):
            return w
        return new.get(w) or (snake(w) if snake(w) in names else w)

    pages = ["README.md"] + sorted("docs/" + n for n in os.listdir("docs") if n.endswith(".md") and n != "PORT.md")
    for path in list(files((".antt", ".rt", ".edit"))) + pages:
        text = open(path, encoding="utf-8").read()
        if path.endswith(".rt"):
            # the code has no dashes in its words; strings have none of the names
            to = WORD.sub(lambda m: new.get(m.group(0), m.group(0)) if re.search(r"[a-z][A-Z]", m.group(0)) or "-" in m.group(0) else m.group(0), text)
        elif path.endswith(".edit"):
            to = re.sub(r"^(old|new):.*$", lambda c: WORD.sub(page_word, c.group(0)), text, flags=re.M)
        elif path.endswith(".md"):
            to = re.sub(r"`[^`\n]+`", lambda c: WORD.sub(page_word, c.group(0)), text)
        else:
            keep = imported(text)
            # a word of specs/ that is some lemma's name elsewhere is only a variable here
            table_here = {n: snake(n) for n in new} if "/specs/" in path else new
            to = respelled(text, table_here, keep, not of_function(path))
            if "/specs/" in path:
                to = "".join(l if l.lstrip().startswith(("--", "use ", "pub use ")) else WORD.sub(lambda m: m.group(0) if m.group(0) in keep or not m.group(0)[0].islower() else snake(m.group(0)), l) for l in to.splitlines(keepends=True))
        if to != text:
            with open(path, "w", encoding="utf-8") as f:
                f.write(to)
    for n in sorted(new):
        print(n, new[n])


if __name__ == "__main__":
    main()
