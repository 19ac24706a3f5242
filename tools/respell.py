#!/usr/bin/env python3
"""Respells the repository's own definitions, lemmas, fields and constructors: words in snake case, types and facts in camel case.

usage: python3 tools/respell.py [FOLDER]     once, in a repository (or FOLDER) that port.py has just turned

It goes by the names that specs/ and proofs/ declare. Functions of src/, strings, comments and must-fail edits stay as they are.
"""
import os
import re
import sys

ROOT = sys.argv[1] if len(sys.argv) > 1 else "."
BOUND = r"[^\s(){}\[\],;.`\"]"
TOP = re.compile(r"^(?:(?:abbrev|unfoldable)\s+)?(?:pub\s+)?(?:(?:data|record)\s+)?(?P<name>[^\s:(){}]+)\s*(?=[:({])")
MEMBER = re.compile(r"^\s+(?:(?:abbrev|unfoldable)\s+)?(?:pub\s+)?(?P<name>[^\s:(){}|,]+)\s+:\s")
GENERATED = ("Answers.antt", "Invariants.antt", "Proof.antt")
SKIP = {"use", "unfolding", "mod", "where"}


def files():
    for top, dirs, names in os.walk(os.path.join(ROOT, "crates")):
        dirs[:] = sorted(d for d in dirs if d not in ("out", "data", "must-fail"))
        for n in sorted(names):
            if n.endswith((".antt", ".rt")):
                yield os.path.join(top, n)


def read(p):
    with open(p, encoding="utf-8") as f:
        return f.read()


def declared():
    """The names that specs/ and proofs/ declare: at the head of a line, in records, data and modules without a name, and by `as`."""
    top, members = set(), set()
    for p in files():
        if not p.endswith(".antt"):
            continue
        own = os.path.basename(p) not in GENERATED
        for line in read(p).splitlines():
            if line.startswith("--"):
                continue
            head = TOP.match(line)
            if head and not line.startswith((" ", "use ", "pub use ", "mod ", "pub mod ", "unfolding ")):
                name = head.group("name")
                # in a proof of a function the goals have made names; only its helpers are ours
                if name not in SKIP and (own or not re.search(re.escape(name) + r"\s*:\s*(?:goal|need)\.", line)):
                    top.add(name)
                continue
            # members of a record or of data, and what stands in a module without a name
            m = MEMBER.match(line)
            if m and not m.group("name").startswith("--"):
                members.add(m.group("name"))
    for p in files():
        for line in read(p).splitlines():
            if re.match(r"\s*(?:ghost\s+)?use\s", line):
                members.update(re.findall(r"\sas\s+([A-Za-z][\w'-]*)(?=[,};\s])", split(p, line)[0] + " "))
    return top, members


def respelled(name):
    if not re.fullmatch(r"[A-Za-z][\w'-]*", name):
        return name
    if name[0].isupper():
        return "".join(p[0].upper() + p[1:] for p in re.split("[-_]", name) if p)
    return name.replace("-", "_")


def split(p, line):
    """The part of a line that is not a comment, and the comment."""
    mark = "//" if p.endswith(".rt") else "--"
    m = re.search(r"(?:^|\s)" + re.escape(mark) + r"(?:\s|$)", line)
    return (line[: m.start()], line[m.start() :]) if m else (line, "")


def main():
    top, members = declared()
    table = {n: respelled(n) for n in top | members if respelled(n) != n}
    if not table:
        print("respell: nothing to do")
        return 0
    everything = "\n".join(split(p, l)[0] for p in files() for l in read(p).splitlines())
    words = set(re.findall(BOUND + "+", everything))
    for old, new in sorted(table.items()):
        if new in words:
            print(f"falls together? {old} -> {new} (a word of that spelling stands already)")
    news = {}
    for old, new in table.items():
        news.setdefault(new, []).append(old)
    for new, olds in sorted(news.items()):
        if len(olds) > 1:
            print(f"falls together: {olds} -> {new}")
    pattern = re.compile("(?<!" + BOUND + ")(" + "|".join(re.escape(n) for n in sorted(table, key=len, reverse=True)) + ")(?!" + BOUND + ")")
    changed = 0
    for p in files():
        old = read(p)
        out = []
        for line in old.split("\n"):
            code, comment = split(p, line)
            if '"' in code:
                pieces = re.split(r'("(?:[^"\\]|\\.)*")', code)
                code = "".join(x if i % 2 else pattern.sub(lambda m: table[m.group(1)], x) for i, x in enumerate(pieces))
            else:
                code = pattern.sub(lambda m: table[m.group(1)], code)
            out.append(code + comment)
        new = "\n".join(out)
        if new != old:
            with open(p, "w", encoding="utf-8") as f:
                f.write(new)
            changed += 1
    print(f"respell: {len(table)} names, {changed} files")
    return 0


if __name__ == "__main__":
    raise SystemExit(main())
