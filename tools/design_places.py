#!/usr/bin/env python3
"""Counts in src/ the places of docs/DESIGN-PASS.md, point by point: `tools/design_places.py [-v]` (-v names each)."""
import glob
import os
import re
import sys

os.chdir(os.path.join(os.path.dirname(os.path.abspath(__file__)), ".."))
FILES = sorted(glob.glob("crates/*/src/*.rt"))
TEXT = {f: "\n".join(re.sub(r"\s*//.*", "", l) for l in open(f).read().split("\n")) for f in FILES}
FN = re.compile(r"^ *(?:pub )?(?:extern \"C\" )?fn (\w+)[^(]*\(([^)]*)\)\s*(?:-> *([^\n{]+))?", re.M)


def functions():
    for f, t in TEXT.items():
        for m in FN.finditer(t):
            names = [p.split(":")[0].strip() for p in m[2].split(",") if ":" in p]
            yield f, m[1], m[2], names, (m[3] or "").strip()


def lines(pattern):
    return [f"{f}: {m[0].strip()}" for f, t in TEXT.items() for m in re.finditer(pattern, t, re.M)]


def with_parameters(test):
    return [f"{f}: {name}" for f, name, text, names, result in functions() if test(text, names, result)]


POINTS = {
    "1a enums declared": lines(r"^(?:pub )?enum \w+"),
    "1b numbers of refusals used": lines(r"\brefusal::[A-Z_]+|\b(?:NO_PAIR|TOO_LONG)\b|\b(?:number|refusal|later|cause): (?:u8|0)\b"),
    "1c functions that answer a refusal's number": with_parameters(lambda t, n, r: r == "u8"),
    "1d numbers that stand for none": lines(r"\b(?:NOBODY|VISITED)\b|pair: 0\b|\.pair [>=]+ 0|pair > 0|root == 0"),
    "2 bodies of six lines or more that another function has too, but for names": [],
    "3 while and loop": lines(r"^\s+(?:while|loop)\b"),
    "4 functions that compare, choose, copy or convert by hand": with_parameters(lambda t, n, r: False),
    "5 functions with two or more of the tables parents, numbers, sizes, places, lens, counts, known": with_parameters(
        lambda t, n, r: len({"parents", "numbers", "sizes", "places", "lens", "counts", "known"} & set(n)) > 1),
    "5b functions with six parameters or more": with_parameters(lambda t, n, r: len(n) > 5),
    "6a an array with its length beside it": with_parameters(lambda t, n, r: "nodes" in n and "len" in n and "[u16;" in t),
    "6b a list with its end beside it": with_parameters(lambda t, n, r: "list" in n and "len" in n),
    "7 flags that say which step to run": with_parameters(lambda t, n, r: bool(re.search(r": bool\b", t))),
}

BY_HAND = ["smaller", "larger", "larger_count", "fewer", "same_nodes", "same_holders", "begin_alike", "lacks", "copy", "put_part", "array_of", "put_bytes", "put", "wide",
           "move_down", "move_up", "reverse", "shift", "shift_back", "clear", "byte_at", "field", "number", "placed", "replied", "is_blank", "is_digit", "digits", "lighter", "bit", "size"]



def body(f, name):
    t = TEXT[f]
    m = re.search(rf"fn {name}\b", t)
    at = t.index("\n{", m.start()) if "\n{" in t[m.start():] else m.start()
    depth, i = 0, at
    while True:
        if t[i] == "{":
            depth += 1
        elif t[i] == "}":
            depth -= 1
            if depth == 0:
                return t[at:i]
        i += 1


def shape(text):
    text = re.sub(r"\b[a-z]\w*\b", "x", re.sub(r"\b\d\w*\b", "0", text))
    return re.sub(r"\b[A-Z]\w*\b", "X", text)


POINTS["4 functions that compare, choose, copy or convert by hand"] = [f"{f}: {name}" for f, name, *_ in functions() if name in BY_HAND]
SHAPES = {}
for f, name, *_ in functions():
    text = body(f, name)
    if text.count("\n") >= 6:
        SHAPES.setdefault(shape(text), []).append(f"{f}: {name}")
POINTS["2 bodies of six lines or more that another function has too, but for names"] = [p for ps in SHAPES.values() if len(ps) > 1 for p in ps]

for title, places in POINTS.items():
    print(f"{len(places):4} {title}")
    if "-v" in sys.argv:
        print("".join(f"       {p}\n" for p in places), end="")
