#!/usr/bin/env python3
"""Spells this repository's own definitions, lemmas, labels and variables in snake case, as today's Rattle does.

usage: tools/spelling.py FOLDER        after /opt/rattle/port/port.py has run there

Names of the kit, names that Rattle makes and the texts of comments stay; in comments and pages a name stands in backticks, and is turned there.
"""
import os
import re
import sys

KIT = "/opt/rattle/rattle"
NAME = re.compile(r"[^\s(){}.;,@\"«»`]+")
DASHED = re.compile(r"[^\W\d][\w'?]*-\w|\w-[^\W\d]|\w-\d")
DECLARED = re.compile(r"(?m)^ *(?:\w+ )*?(\S+)(?: \{[^{}\n]*\})* :(?= |$)")
MADE = re.compile(r"^(Need-|Lts-|invariant-loop|decreases-loop|loop-test|overflow-|prove-|enum-known|enum-told|bounds-|array-|element-|shared-slice-|same-length)")
# Names of this repository that would meet another.
OTHERS = {"label-at": "label_at_node"}


def read(path):
    with open(path, encoding="utf-8") as f:
        return f.read()


def files(root, ends, below):
    for folder, dirs, names in os.walk(os.path.join(root, below)):
        dirs[:] = [d for d in dirs if d not in ("out", ".git", "target")]
        for n in sorted(names):
            if n.endswith(ends):
                yield os.path.join(folder, n)


def is_dashed(name):
    return "-" in name and DASHED.search(name) is not None


def kit_names():
    found = set()
    for path in files(KIT, ".antt", ""):
        found.update(t for t in NAME.findall(read(path)) if "-" in t)
    return found


def declared(root):
    found = set()
    for path in files(root, ".antt", "crates"):
        if not path.endswith("Proof.antt"):
            found.update(m for m in DECLARED.findall(read(path)) if is_dashed(m))
    return found


def turned(name):
    return OTHERS.get(name, name.replace("-", "_"))


def imported(text):
    """The dashed names that a file has from the kit."""
    found = set()
    for m in re.finditer(r"(?m)^ *(?:ghost )?use ([^\s;{]+)(\{[^}]*\})?", text):
        path = m.group(1)
        if path.startswith("Rattle.") and not path.startswith(("Rattle.std", "Rattle.core", "Rattle.libc", "Rattle.io")):
            continue
        found.update(t for t in NAME.findall(m.group(2) or "") if "-" in t)
    return found


def spell(text, own, kit, walks, mark):
    """Turns the names of a text; comments begin with mark, and of them only what stands in backticks is read."""
    held = imported(text)
    labels = set(re.findall(r"(?m)^(\S+) : tie\.", text)) if walks else set()

    def name(m):
        t = m.group()
        if not is_dashed(t) or t in held:
            return t
        if m.start() >= 4 and m.string[m.start() - 4 : m.start()] == "tie.":
            return t
        if walks:
            return turned(t) if t in own and t not in labels else t
        if t in own:
            return turned(t)
        if t in kit or MADE.match(t):
            return t
        return turned(t)

    def ticks(comment):
        return re.sub(r"`[^`\n]*`", lambda m: NAME.sub(lambda n: turned(n.group()) if n.group() in own else n.group(), m.group()), comment)

    out = []
    for line in text.split("\n"):
        at = -1
        quoted = False
        for i, c in enumerate(line):
            if c == '"':
                quoted = not quoted
            if not quoted and line.startswith(mark, i) and (i == 0 or line[i - 1] in " \t"):
                at = i
                break
        code, comment = (line, "") if at < 0 else (line[:at], line[at:])
        parts = re.split(r'("(?:[^"\\]|\\.)*")', code)
        parts[::2] = [NAME.sub(name, p) for p in parts[::2]]
        out.append("".join(parts) + ticks(comment))
    return "\n".join(out)


def pages(text, own):
    def ticks(m):
        if "/" in m.group():
            return m.group()
        return NAME.sub(lambda n: turned(n.group()) if n.group() in own else n.group(), m.group())

    return re.sub(r"`[^`\n]*`", ticks, text)


def write(path, old, new):
    if new != old:
        with open(path, "w", encoding="utf-8") as f:
            f.write(new)


def main():
    root = sys.argv[1]
    kit, own = kit_names(), declared(root)
    taken = {}
    for n in sorted(own):
        other = taken.setdefault(turned(n), n)
        if other != n:
            print(f"look: {n} and {other} fall together")
    for path in files(root, ".antt", "crates"):
        old = read(path)
        write(path, old, spell(old, own, kit, path.endswith("Proof.antt"), "--"))
    for path in files(root, ".rt", "crates"):
        old = read(path)
        write(path, old, spell(old, own, kit, False, "//"))
    for path in files(root, ".md", ""):
        old = read(path)
        write(path, old, pages(old, own))


if __name__ == "__main__":
    main()
