#!/usr/bin/env python3
"""Prints the places in crates/*/src that a design pass looks at, point by point: tools/design_counts.py [POINT..].

1  enums (to be read for the shape of Option or Result), errors that are handed on by a match, and functions that give a number
2  functions whose bodies have the same shape, and constants of the same value
3  loops that count by hand, and loops over a range or an enumeration
4  functions that turn one value into another, compare or print
5  clauses that stand in three or more contracts
6  arrays, and lengths that a clause gives
7  a match that chooses what to run
"""
import collections
import pathlib
import re
import sys

TOP = pathlib.Path(__file__).resolve().parent.parent
FILES = sorted(p for p in TOP.glob("crates/*/src/**/*.rt"))
KEYWORDS = set("fn let mut if else match while for in loop return break continue true false Some None Ok Err self as".split())


def lines():
    for path in FILES:
        for number, line in enumerate(path.read_text().splitlines(), 1):
            yield path.relative_to(TOP), number, line


def matching(pattern):
    return [f"{p}:{n}: {line.strip()}" for p, n, line in lines() if re.search(pattern, line) and not line.lstrip().startswith("//")]


def functions():
    head = re.compile(r"^ *(?:pub(?:\([a-z]+\))? )?fn (\w+)", re.M)
    for path in FILES:
        text = re.sub(r"//.*", "", path.read_text())
        for m in head.finditer(text):
            end = text.find(";", m.end())
            start = re.compile(r"^ *\{$|\{$", re.M).search(text, m.end())
            if not start or -1 < end < start.start() and "ensures" not in text[m.end():start.start()]:
                continue
            depth, at = 1, start.end()
            while depth and at < len(text):
                depth += {"{": 1, "}": -1}.get(text[at], 0)
                at += 1
            yield f"{path.relative_to(TOP)}: {m.group(1)}", text[start.end():at - 1]


def shape(body):
    words = re.findall(r"b?'(?:\\.|[^'])'|b?\"(?:\\.|[^\"])*\"|\w+|[^\s\w]", body)
    return tuple(w if w in KEYWORDS or not re.match(r"[\w'\"]", w) else "x" for w in words)


def twins():
    by_shape = collections.defaultdict(list)
    for name, body in functions():
        s = shape(body)
        if len(s) >= 12:
            by_shape[s].append(name)
    out = ["same shape: " + ", ".join(names) for names in by_shape.values() if len(names) > 1]
    by_value = collections.defaultdict(list)
    for p, n, line in lines():
        m = re.match(r"\s*(?:pub )?const (\w+): (\w+) = ([\w.:]+(?: as \w+)?);", line)
        if m:
            by_value[m.group(3)].append(f"{p}:{n} {m.group(1)}")
    return out + [f"constant {v}: " + ", ".join(ns) for v, ns in by_value.items() if len(ns) > 1]


def clauses():
    count = collections.Counter()
    for _, _, line in lines():
        m = re.match(r"\s*(?:requires|ensures)(?: \w+)? \{(.*)\}\s*$", line)
        if m:
            count[m.group(1).strip()] += 1
    return [f"{n} times: {text}" for text, n in count.most_common() if n >= 3]


POINTS = {
    1: [("enums", lambda: matching(r"^ *(pub(\([a-z]+\))? )?enum ")),
        ("errors handed on by a match", lambda: matching(r"Err\(\w+\) => (return )?Err\(")),
        ("errors made by a let-else", lambda: matching(r"^ +return Err\(.*\);$")),
        ("functions that give a number", lambda: matching(r"fn \w+\(.*\) -> (Option<|Result<)?u(8|16|32|64)\b"))],
    2: [("bodies of one shape, constants of one value", twins)],
    3: [("loops that count by hand", lambda: matching(r"\bwhile\b|\+= 1;")),
        ("loops over a range or an enumeration", lambda: matching(r"\bfor \S.* in .*(\.\.|enumerate)"))],
    4: [("functions that turn, compare or print", lambda: matching(r"fn (\w*(_of|_line|_text|_in|_word|name|number|letter|told|found|done|sealed|put_\w+|from_\w+|to_\w+)|is_\w+|push)\b\(?"))],
    5: [("clauses", clauses)],
    6: [("arrays", lambda: matching(r"\[[^\[\]]*; ?[0-9A-Z_]+\]")), ("lengths in clauses", lambda: matching(r"length [a-z.]+ (≡|≤) [0-9]+"))],
    7: [("a match that chooses", lambda: matching(r"\bmatch [a-z_.]+ \{")), ("dyn, Fn, function pointers", lambda: matching(r"\bdyn |\bFn(Mut|Once)?\(|: fn\("))],
}


def main():
    for point in [int(a) for a in sys.argv[1:]] or sorted(POINTS):
        for title, find in POINTS[point]:
            found = find()
            print(f"{point}. {title}: {len(found)}")
            for one in found:
                print("   " + one)


main()
