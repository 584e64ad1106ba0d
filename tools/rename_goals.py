#!/usr/bin/env python3
"""Respells, in proof files of functions, the names that the check makes, by the list that it prints itself.
usage: python3 tools/rename_goals.py NAME, at the top, after `rt check --generated /tmp/names/NAME --old-names` in crates/NAME. A name is turned where exactly one
of today's names of that function differs from it in dashes, underscores and capitals alone."""

import json
import os
import re
import sys

TOKEN = re.compile(r"(?<![\w'-])[A-Za-z][\w'-]*(?![\w'])")


FIXED = [(".type-inv", ".type_inv"), (".well-formed", ".well_formed"), (".yielded-by", ".yielded_by"), (".slots.name", ".slots.ghost_name")]


def moved(text, turned):
    """The answers whose name was turned, old and new."""
    form = r"(?m)^(?:abbrev )?(?:pub )?([\w'-]+) : goal\.[\w'-]+$"
    return [it for it in zip(re.findall(form, text), re.findall(form, turned)) if it[0] != it[1]]


def strings(x):
    if isinstance(x, str):
        yield x
    elif isinstance(x, dict):
        for k, v in x.items():
            yield k
            yield from strings(v)
    elif isinstance(x, list):
        for v in x:
            yield from strings(v)


def flat(name):
    return re.sub(r"[-_]", "-", name).lower()


def main():
    crate = sys.argv[1]
    data = json.load(open(f"/tmp/names/{crate}/names.json", encoding="utf-8"))
    folder = os.path.join("crates", crate)
    source = set()
    for top, _, files in os.walk(os.path.join(folder, "src")):
        for f in files:
            source.update(re.findall(r"[A-Za-z_]\w*", open(os.path.join(top, f), encoding="utf-8").read()))
    for key, value in data.items():
        m = re.fullmatch(r"Rattle-\w+-proofs\.(.*)\.Lts", key)
        if not m:
            continue
        made = {s for s in strings(value) if TOKEN.fullmatch(s)}
        made |= {s + "-preserved" for s in made if s.startswith("loop")} | {"invariant-" + s for s in made if s.startswith("loop")} | {"decreases-" + s for s in made if s.startswith("loop")}
        table = {}
        for s in made | source:
            table.setdefault(flat(s) + s[0].isupper() * "^", set()).add(s)
        place = os.path.join(folder, "proofs", *m[1].split("."))
        for f in ("Answers.antt", "Invariants.antt"):
            path = os.path.join(place, f)
            if not os.path.exists(path):
                continue
            text = open(path, encoding="utf-8").read()
            imported = {w for m in re.finditer(r"use Rattle[\w.+'-]*\.(?:Goals|Given)\.\{([^}]*)\}", text) for w in TOKEN.findall(m[1])}

            def one(t):
                name = t[0]
                if name in made or name in source or "-" not in name:
                    return name
                before = text[: t.start()]
                line = before[before.rfind("\n") + 1 :]
                cited = name in imported or before.endswith(".") or re.match(r"(abbrev )?(pub )?$", line) or (line.startswith("use ") and (".Goals" in line or ".Given" in line)) or "Goals.{" in line or re.search(r"[\[|(] *$", line)
                if not cited:
                    return name
                found = table.get(flat(name) + name[0].isupper() * "^", set())
                found = {s for s in found if s in made} or found
                return next(iter(found)) if len(found) == 1 else name

            turned = TOKEN.sub(one, text)
            # An answer that cites another answer of the file goes with it.
            for old, new in moved(text, turned):
                turned = re.sub(r"(?<![\w'.-])" + re.escape(old) + r"(?![\w'-])", new, turned)
            for old, new in FIXED:
                turned = turned.replace(old, new)
            if turned != text:
                open(path, "w", encoding="utf-8").write(turned)
                print(path)


main()
