#!/usr/bin/env python3
"""Brings this repository's own definitions and lemmas to snake case, once, after the port of its spelling.

usage: python3 tools/snake_names.py [--dry]      at the top of the repository

A word of a specification or a lemma is spelled with underscores: `plain-run` becomes `plain_run`, `kindIn`
becomes `kind_in`. Names of types and modules are left, and so are the names of goals, which the check gives,
and names that a library has with a dash. Only names that are defined in specs/ or proofs/ are turned, in the
files there and in the ghost lines and clauses of src/. Names that would fall together are listed, and then
nothing is written.
"""
import collections
import pathlib
import re
import sys

TOKEN = re.compile(r"[A-Za-z_][\w']*(?:-[\w']+)*")
HEAD = re.compile(r"^((?:(?:abbrev|unfoldable|pub|record|data|ruleset)\s+)*)([A-Za-z_][\w']*(?:-[\w']+)*)(?=[\s:({])")
INNER = re.compile(r"^\s+(?:(?:abbrev|unfoldable)\s+)?pub\s+([A-Za-z_][\w']*(?:-[\w']+)*)\s*:\s")
FIELD = re.compile(r"^\s+(?:pub\s+)?([A-Za-z_][\w']*(?:-[\w']+)*)\s*:\s")
IMPORT = re.compile(r"use\s+([\w.'+-]+?)\.\{([^}]*)\}", re.S)
# lemmas that are named after their left side, the outer call first: `bit (bit_and s t) i`
KEPT = {"bit-and", "bit-or", "bit-xor"}
WORDS = {"record", "data", "ruleset", "open"}
QUOTED = re.compile(r"«([A-Za-z_][\w']*)»")
GOAL = re.compile(r":\s*(goal|given)\.")


def snake(name):
    name = re.sub(r"(?<=[a-z0-9])([A-Z])", lambda m: "_" + m.group(1).lower(), name) if name[0].islower() else name
    return name.replace("-", "_")


def antt_files(root):
    return sorted(p for p in root.glob("crates/*/*/**/*.antt") if p.parts[-3] != "out" and "out" not in p.parts)


def own_names(files):
    """The names that are defined here, each with the files that define it."""
    found = collections.defaultdict(set)
    for path in files:
        in_body = False
        for line in path.read_text(encoding="utf-8").splitlines():
            head = HEAD.match(line)
            if head and not line.startswith(("use ", "mod ", "pub mod ", "unfolding ")):
                in_body = "record" in head.group(1) or "data" in head.group(1)
                if not GOAL.search(line):
                    found[head.group(2)].add(path)
            elif inner := INNER.match(line):
                found[inner.group(1)].add(path)
            elif in_body:
                field = FIELD.match(line)
                if field:
                    found[field.group(1)].add(path)
    return found


def goal_names(files):
    """The names under which goals are answered."""
    return {
        head.group(2)
        for path in files
        for line in path.read_text(encoding="utf-8").splitlines()
        if (head := HEAD.match(line)) and GOAL.search(line)
    }


def from_libraries(text, crates):
    """The names that a file imports from a library's modules."""
    taken = set()
    for module, names in IMPORT.findall(text):
        parts = module.split(".")
        if not (parts[0] == "Rattle" and parts[1] in crates):
            for item in names.split(","):
                taken.update(TOKEN.findall(item))
    return taken


def clauses_only(text):
    """Which parts of a source file name specifications: all but comments and strings."""
    out, last = [], 0
    for m in re.finditer(r"//[^\n]*|b?\"(?:[^\"\\\n]|\\.)*\"", text):
        out += [(text[last:m.start()], True), (m.group(0), False)]
        last = m.end()
    return out + [(text[last:], True)]


def main():
    root = pathlib.Path.cwd()
    files = antt_files(root)
    sources = sorted(root.glob("crates/*/src/**/*.rt"))
    crates = {p.name for p in (root / "crates").iterdir()}
    goals = goal_names(files)
    turned = {n: snake(n) for n in own_names(files) if n not in goals | KEPT and n[0].islower() and snake(n) != n}
    clashes, changed = [], []
    for path in files + sources:
        text = path.read_text(encoding="utf-8")
        kept = from_libraries(text, crates)
        before = set(TOKEN.findall(text))

        def turn(m):
            name = m.group(0)
            return turned[name] if name in turned and name not in kept else name

        if path.suffix == ".rt":
            new = "".join(TOKEN.sub(turn, part) if live else part for part, live in clauses_only(text))
            new = QUOTED.sub(lambda m: m.group(0) if m.group(1) in WORDS else m.group(1), new)
        else:
            new = TOKEN.sub(turn, text)
        for name in before & turned.keys() - kept:
            if turned[name] in before:
                clashes.append(f"{path.relative_to(root)}: {name} -> {turned[name]}")
        for name in before & turned.keys() & kept:
            clashes.append(f"{path.relative_to(root)}: {name} is a library's here")
        if new != text:
            changed.append((path, new))
    by_new = collections.defaultdict(set)
    for old, new in turned.items():
        by_new[new].add(old)
    for new, olds in by_new.items():
        if len(olds) > 1:
            clashes.append(f"fall together: {sorted(olds)} -> {new}")
    print(f"{len(turned)} names, {len(changed)} files, {len(clashes)} to look at")
    print("\n".join(sorted(clashes)))
    if "--dry" in sys.argv:
        return
    for path, new in changed:
        path.write_text(new, encoding="utf-8")


main()
