#!/usr/bin/env python3
"""Prints, from what a run of the gate printed, what refused each must-fail edit: tools/planted.py < OUTPUT.

One row an edit: its crate and name, the function that it changes, and the goal that no longer holds, with the function that
owes it. The run must have tried every edit; one without a verdict is told on standard error, and the status is then 1.
"""
import pathlib
import re
import sys

TOP = pathlib.Path(__file__).resolve().parent.parent
VERDICT = re.compile(r"must-fail (\w+)/(\w+)\.edit: refused, as it must be: (.*)")
IN_SOURCE = re.compile(r"(src/[\w/]+\.rt):(\d+):\d+: (.*)")
IN_PROOF = re.compile(r"\./proofs/([\w/+]+)/\w+\.antt:\d+:\d+: error: `([^`]+)`")


def function_at(path, line):
    """The function that a line of a source file stands in, or the type or impl where it stands in none."""
    lines = path.read_text().splitlines()
    # an attribute belongs to what it stands before
    while lines[line - 1].lstrip().startswith("#["):
        line += 1
    above = lines[:line]
    for text in reversed(above):
        found = re.search(r"\bfn (\w+)|^(?:pub )?(?:struct|enum) (\w+)|^impl.* for (\w+)", text)
        if found:
            return next(name for name in found.groups() if name)
    return path.stem


def changed(edit):
    """The file and the function that an edit changes."""
    fields = dict(re.findall(r"^(file|old): ?(.*)$", edit.read_text(), re.M))
    source = edit.parent.parent / fields["file"]
    before = source.read_text().split(fields["old"].rstrip("\n"))[0]
    return fields["file"], function_at(source, before.count("\n") + 1)


def goal(text, crate):
    """What was not proved: the goal's name, and the function that owes it."""
    found = IN_SOURCE.search(text)
    if found:
        owner = function_at(TOP / "crates" / crate / found[1], int(found[2]))
        name = re.search(r"\(`([^`]+)`", text)
        return f"`{owner}`: `{name[1]}`" if name else f"`{owner}`: {found[3][:60]}"
    found = IN_PROOF.search(text)
    return f"`{found[1].split('/')[-1]}`: `{found[2]}`" if found else text[:80]


def main():
    verdicts = {(crate, name): text for crate, name, text in VERDICT.findall(sys.stdin.read())}
    missing = 0
    print("| crate | edit | changes | what no longer holds |\n|---|---|---|---|")
    for edit in sorted(TOP.glob("crates/*/must-fail/*.edit")):
        crate, name = edit.parts[-3], edit.stem
        text = verdicts.get((crate, name))
        if text is None:
            print(f"no verdict on {crate}/{name}", file=sys.stderr)
            missing += 1
            continue
        file, function = changed(edit)
        print(f"| `{crate}` | {name.replace('_', ' ')} | `{file[4:]}`, `{function}` | {goal(text, crate)} |")
    return 1 if missing else 0


if __name__ == "__main__":
    sys.exit(main())
