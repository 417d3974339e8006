#!/usr/bin/env python3
"""Brings the repository's own definitions and lemmas to today's spelling.

usage: python3 tools/respell.py        at the top of the repository, once, after the kit's port.py

Words go into snake case, facts and types into upper camel case: `nameBytes` and `kept-both` become `name_bytes` and
`kept_both`, `Good-exactly-when-kept` becomes `GoodExactlyWhenKept`. A name is turned where a file defines it or imports
it from one of the repository's crates; functions of src/, labels, strings and comments stay. Names that would fall
together with another of the same file are printed, and take the spelling of OTHERWISE.
"""

import os
import re
import sys

# names whose plain spelling would fall together with another
OTHERWISE = {
}

WORKED = ("Answers.antt", "Choices.antt", "Invariants.antt", "Proof.antt")
DEFINES = re.compile(
    r"^(\s*)(?:(?:abbrev|unfoldable|opaque|pub)\s+)*(?:(record|data)\s+)?([^\s:(){};,.\"]+)\s*(?=[:(])"
)
NOT_NAMES = {"module", "use", "where", "let", "in", "rule", "="}
STRING = re.compile(r'"(?:[^"\\]|\\.)*"')
TOKEN = re.compile(r"[^\s(){}\[\];,.\"«»`]+")


def snake(name):
    if name in OTHERWISE:
        return OTHERWISE[name]
    if name[0].isupper():
        if "-" not in name:
            return name
        return "".join(p[:1].upper() + p[1:] for p in name.split("-"))
    name = name.replace("-", "_")
    name = re.sub(r"([a-z0-9])([A-Z]+)", lambda m: m.group(1) + "_" + m.group(2).lower(), name)
    return name


def files(root):
    for folder, dirs, names in os.walk(os.path.join(root, "crates")):
        dirs[:] = sorted(d for d in dirs if d != "out")
        for n in sorted(names):
            if n.endswith((".rt", ".antt")):
                yield os.path.join(folder, n)


def code_of(line, comment):
    """The parts of a line: (text, is code)."""
    out, at = [], 0
    while at < len(line):
        s = STRING.search(line, at)
        c = line.find(comment, at)
        if c >= 0 and (s is None or c < s.start()):
            out.append((line[at:c], True))
            out.append((line[c:], False))
            return out
        if s is None:
            break
        out.append((line[at:s.start()], True))
        out.append((s.group(), False))
        at = s.end()
    out.append((line[at:], True))
    return out


def definitions(path):
    """Names that a file of specs/ or proofs/ defines, and the fields of its records."""
    found, fields, record = set(), set(), None
    for line in open(path, encoding="utf-8"):
        if line.strip().startswith("--"):
            continue
        m = DEFINES.match(line)
        depth = len(line) - len(line.lstrip())
        if record is not None and line.strip() and depth <= record:
            record = None
        if not m or m.group(3) in NOT_NAMES:
            continue
        (found if record is None else fields).add(m.group(3))
        if m.group(2) == "record":
            record = depth
    return found, fields


def main():
    root = os.getcwd()
    crates = sorted(os.listdir(os.path.join(root, "crates")))
    ours = re.compile(r"\buse\s+Rattle\.(%s)\.((?:specs|proofs)(?:\.[^\s.{};]+)*)(?:\.\{([^}]*)\}|\s+as\s+(\w+))?" % "|".join(crates))
    defs, fields = {}, set()
    for path in files(root):
        if not path.endswith(".antt") or os.path.basename(path) in WORKED:
            continue
        rel = os.path.relpath(path, os.path.join(root, "crates"))
        module = rel[: -len(".antt")].replace("/", ".")
        d, f = definitions(path)
        defs[module] = d
        fields |= {x for x in f if snake(x) != x}
    changed = 0
    for path in files(root):
        text = open(path, encoding="utf-8").read()
        rel = os.path.relpath(path, os.path.join(root, "crates"))
        own = defs.get(rel[: -len(".antt")].replace("/", "."), set()) if path.endswith(".antt") else set()
        names, aliases = set(own), {}
        for m in ours.finditer(text):
            module = m.group(1) + "." + m.group(2)
            if m.group(3):
                for n in m.group(3).split(","):
                    n = n.strip().split(" as ")[0].strip()
                    if n in defs.get(module, ()):
                        names.add(n)
            elif m.group(4):
                aliases[m.group(4)] = defs.get(module, set())
        turn = {n: snake(n) for n in names if snake(n) != n}
        comment = "//" if path.endswith(".rt") else "--"
        old_tokens = set()
        for line in text.split("\n"):
            for part, is_code in code_of(line, comment):
                if is_code:
                    old_tokens |= set(TOKEN.findall(part))
        new_names = {}
        for n, s in sorted(turn.items()):
            if s in old_tokens or s in new_names:
                print(f"falls together: {rel}: {n} -> {s}")
            new_names[s] = n

        def turned(part):
            out, at = [], 0
            for m in TOKEN.finditer(part):
                out.append(part[at:m.start()])
                at = m.end()
                t = m.group()
                before = part[: m.start()]
                alias = re.search(r"([\w-]+)\.$", before)
                if alias and alias.group(1) in aliases and t in aliases[alias.group(1)]:
                    t = snake(t)
                elif before.endswith("."):
                    if t in fields:
                        t = snake(t)
                elif t in turn:
                    t = turn[t]
                elif t in fields and re.match(r"\s*(=|:)", part[m.end():]):
                    t = snake(t)
                out.append(t)
            out.append(part[at:])
            return "".join(out)

        new = "\n".join(
            "".join(turned(p) if c else p for p, c in code_of(line, comment)) for line in text.split("\n")
        )
        if new != text:
            changed += 1
            with open(path, "w", encoding="utf-8") as f:
                f.write(new)
    print(f"respell: {changed} files")
    print("fields: " + ", ".join(sorted(fields)))


if __name__ == "__main__":
    sys.exit(main())
