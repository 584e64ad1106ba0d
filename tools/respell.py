#!/usr/bin/env python3
"""Respells the repository's own definitions and lemmas, once: words in snake case, facts in camel case.
usage: python3 tools/respell.py, at the top, right after the kit's port.py. Names of the library and names that the check makes keep their spelling;
so do functions of src/. Prints the names that would fall together with another one, and leaves those as they are."""

import collections
import os
import re

DASHED = re.compile(r"(?<![\w'-])[A-Za-z][\w']*(?:-[\w'₂]+)+(?![\w'-])")
SIGNED = re.compile(r"^(\s*)((?:(?:pub|abbrev|unfoldable|opaque|let|record) )*)((?:[^\s(){}:]+ )+):(?:\s+(.*))?$")


def texts(ends):
    for folder, dirs, files in os.walk("crates"):
        dirs[:] = sorted(d for d in dirs if d != "out")
        for f in sorted(files):
            if f.endswith(ends):
                yield os.path.join(folder, f)


def of_a_function(path):
    """A file of the proof of one function: its own names are goals."""
    return os.path.basename(path) in ("Answers.antt", "Invariants.antt", "Proof.antt") and "/proofs/" in path


def read(path):
    with open(path, encoding="utf-8") as f:
        return f.read()


def imported(text, ours):
    """The dashed names that a file imports from the crates of the repository, or from all others."""
    found = set()
    for m in re.finditer(r"use Rattle\.(\w+)([\w.+'-]*)\.\{([^}]*)\}", text):
        own = os.path.isdir(os.path.join("crates", m[1])) and ".Goals" not in m[2] and ".Given" not in m[2]
        if own == ours:
            found.update(DASHED.findall(m[3]))
    return found


def declared(paths):
    """Dashed names with a signature or a let, and dashed fields of records."""
    names, fields = collections.defaultdict(set), set()
    for path in paths:
        inside = None
        for line in read(path).split("\n"):
            m = SIGNED.match(line)
            if re.match(r"\s*(pub )?record \w", line):
                inside = len(line) - len(line.lstrip())
            elif inside is not None and line.strip() and len(line) - len(line.lstrip()) <= inside:
                inside = None
            if m and not (m[4] or "").startswith("goal."):
                for n in m[3].split():
                    if DASHED.fullmatch(n):
                        names[n].add(path)
                        if inside is not None and not line.lstrip().startswith("pub record"):
                            fields.add(n)
            for n in re.findall(r"let ([^\s:=]+) [:=]", line):
                if DASHED.fullmatch(n):
                    names[n].add(path)
            m = re.match(r"\s*(?:pub )?record ([^\s({:]+)", line)
            if m and DASHED.fullmatch(m[1]):
                names[m[1]].add(path)
    return names, fields


def respelled(name):
    if name[0].isupper():
        return "".join(w[0].upper() + w[1:] for w in name.split("-"))
    return name.replace("-", "_")


def turn(path, names, fields, alien):
    text = read(path)
    keep = imported(text, False) | alien
    local = of_a_function(path)

    def one(m):
        name = m[0]
        before = text[: m.start()]
        if name not in names or name in keep:
            return name
        if before.endswith("."):
            if local:
                return respelled(name) if name in fields else name
            return respelled(name)
        line = before[before.rfind("\n") + 1 :]
        if local and re.match(r"(abbrev )?(pub )?$", line):
            here = text[m.end() :]
            signed = re.match(r" : goal\.", here)
            if signed or re.search(r"(?m)^(?:abbrev )?(?:pub )?" + re.escape(name) + r" : goal\.", text):
                return name
        return respelled(name)

    turned = DASHED.sub(one, text)
    if turned != text:
        with open(path, "w", encoding="utf-8") as f:
            f.write(turned)
        return True
    return False


def main():
    antt = list(texts((".antt",)))
    names, fields = declared(antt)
    library = set()
    for path in antt + list(texts((".rt",))):
        library |= imported(read(path), False)
    alien = {n for n in names if n in library}
    new = collections.defaultdict(set)
    for n in names:
        new[respelled(n)].add(n)
    plain = collections.Counter()
    for path in antt:
        for line in read(path).split("\n"):
            m = SIGNED.match(line)
            if m:
                for n in m[3].split():
                    if not DASHED.fullmatch(n):
                        plain[n] += 1
    for n in sorted(new):
        if len(new[n]) > 1 or plain[n]:
            print("falls together:", n, sorted(new[n]), "already a definition" if plain[n] else "")
    for n in sorted(alien):
        print("also a name of the library, kept:", n)
    count = sum(turn(p, names, fields, alien) for p in antt + list(texts((".rt",))))
    print(f"{len(names)} names, {count} files respelled")


main()
