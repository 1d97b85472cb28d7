#!/usr/bin/env python3
"""Spells the repository's own definitions and lemmas in snake case: readValue, read-back -> read_value, read_back.

usage: snake_case.py [--check] [FOLDER]

FOLDER is the top of the repository. It rewrites the .rt and .antt files of crates/ in place: commit first. Run it once, right after
the library's own script that turns the spelling. A lemma whose new name would be that of a definition gets _lem at its end, the next one
with the same name _lem2. A name that a file imports from a library stays there. --check writes nothing and prints what would fall together.
"""

import collections
import glob
import os
import re
import sys

NAME = r"[^\s(){}\[\]⟦⟧.;,@\"«»:λ]+"
DECLARED = re.compile(
    r"^ *(?:(?:pub|abbrev|unfoldable|opaque|private|data|record|constructor|mutual) )*(%s)(?: \{[^{}\n]*\})* :(?= |$)" % NAME, re.M
)
SEVERAL = re.compile(r"^ +(%s(?: %s)+) : [A-Z]\w*$" % (NAME, NAME), re.M)
USE = re.compile(r"^[ \t]*(?:(?:pub|ghost|unfoldable) )*use ([^\s;{]+?)(?:\.?\{([^}]*)\}| as (\S+?))?;?$", re.M)
TOKEN = re.compile(NAME)


def texts(top):
    for part in ("specs/**/*.antt", "proofs/**/*.antt", "src/**/*.rt"):
        yield from sorted(glob.glob(os.path.join(top, "crates/*", part), recursive=True))


def read(path):
    with open(path, encoding="utf-8", newline="") as it:
        return it.read()


def snake(name):
    name = name.replace("getD", "get_or")
    return re.sub(r"(?<=[a-z0-9])[A-Z]", lambda m: "_" + m[0].lower(), name).replace("-", "_")


def is_own(path, crates):
    steps = path.split(".")
    return steps[0] == "package" or (steps[0] == "Rattle" and len(steps) > 1 and steps[1] in crates)


def table(files, crates):
    """The new name of each declared name that changes, and where names were declared."""
    where = collections.defaultdict(set)
    for path in files:
        if path.endswith(".antt"):
            text = read(path)
            for name in DECLARED.findall(text) + [it for line in SEVERAL.findall(text) for it in line.split()]:
                where[name].add(path)
    new, taken = {}, {name for name in where if snake(name) == name}
    # A name that some file imports from a library is kept free there.
    for path in files:
        text = read(path)
        present = {snake(m[0]) for m in TOKEN.finditer(text) if m[0] in where and snake(m[0]) != m[0]}
        for m in USE.finditer(text):
            if not is_own(m[1], crates):
                taken |= {it.split(" as ")[0].strip() for it in (m[2] or "").split(",")} & present
    # A lemma that has the name of a definition in camel case gives way.
    camel = {snake(name) for name in where if name[0].islower() and "-" not in name and snake(name) != name}
    for name in sorted(camel & set(where)):
        new[name] = name + "_lem"
        taken.discard(name)
        taken.add(name + "_lem")
    # Definitions first, in camel case: they keep the plain name.
    for name in sorted(where, key=lambda it: ("-" in it, it)):
        if name[0].isupper() or name[0] in "+◌":
            continue
        to = snake(name)
        if to == name:
            continue
        n = 1
        base = to
        while to in taken:
            to = base + "_lem" + (str(n) if n > 1 else "")
            n += 1
        taken.add(to)
        new[name] = to
    return new, where


def turned(text, path, new, crates, found):
    library, aliases, own = set(), set(), set(DECLARED.findall(text)) if path.endswith(".antt") else set()
    for m in USE.finditer(text):
        if is_own(m[1], crates):
            own |= {it.strip() for one in (m[2] or "").split(",") for it in one.split(" as ")}
            continue
        for item in (m[2] or "").replace("\n", " ").split(","):
            library.add(item.split(" as ")[0].strip())
        if m[3]:
            aliases.add(m[3])
    present = {m[0] for m in TOKEN.finditer(text)}

    def put(m):
        name = m[0]
        if name not in new or (snake(name) == name and name not in own):
            return name
        before = text[: m.start()]
        if before.endswith("."):
            first = re.search(r"(%s)\.$" % NAME, before)
            if first and first[1] in aliases:
                return name
        elif name in library:
            return name
        # Rust has no name in camel case, and its clauses name no lemma with a dash.
        if path.endswith(".rt") and ("-" in name or snake(name) == name):
            return name
        if new[name] in present:
            found.add((path, name, new[name]))
        return new[name]

    return TOKEN.sub(put, text)


def main(argv):
    check = "--check" in argv
    rest = [it for it in argv if it != "--check"]
    top = rest[0] if rest else "."
    crates = set(os.listdir(os.path.join(top, "crates")))
    files = list(texts(top))
    new, _ = table(files, crates)
    found = set()
    for path in files:
        text = read(path)
        to = turned(text, path, new, crates, found)
        if to != text and not check:
            with open(path, "w", encoding="utf-8", newline="") as it:
                it.write(to)
    for one in sorted(found):
        print("meets a name of the file:", *one)
    print(len(new), "names")
    return 0


if __name__ == "__main__":
    raise SystemExit(main(sys.argv[1:]))
