"""Prints what crates/examples must print of its standard input, by the reference.

    python3 -B reference/examples.py < crates/examples/stdin > crates/examples/stdout
"""
import sys

from census import output, verdict


def bytes_of(text):
    return text.replace("~", "\n").encode("latin-1").replace(b"^", b"\xff")


def answers(example):
    form, sheet, *acts = example.split("|")
    sheet, *acts = map(bytes_of, (sheet, *acts))
    return [verdict(sheet)] if form == "verdict" else output(sheet, *acts)


for example in sys.stdin.read().splitlines():
    print(example)
    for line in answers(example):
        print(line)
