#!/usr/bin/env python3
"""Counts the places in src/ that an older form of the language may stand at, point by point.

usage: tools/places.py [FOLDER] [-v]      FOLDER is a checkout, by default this one; -v prints each place
"""
import collections
import glob
import os
import re
import sys

ARGS = [a for a in sys.argv[1:] if a != "-v"]
VERBOSE = "-v" in sys.argv
ROOT = ARGS[0] if ARGS else os.path.join(os.path.dirname(os.path.abspath(__file__)), "..")

FILES = sorted(glob.glob(os.path.join(ROOT, "crates/*/src/**/*.rt"), recursive=True))
TEXTS = {os.path.relpath(f, os.path.join(ROOT, "crates")): open(f).read() for f in FILES}


def lines(pattern, skip=None):
    """The lines of code, without comments and ghost imports, in which the pattern is found."""
    found = []
    for name, text in TEXTS.items():
        for n, line in enumerate(text.split("\n"), 1):
            code = line.split("//")[0]
            if re.match(r"\s*(ghost|requires|ensures)\b", code) or (skip and re.search(skip, code)):
                continue
            if re.search(pattern, code):
                found.append(f"{name}:{n}: {line.strip()}")
    return found


def blocks(kind):
    """Each enum or struct as (place, name, body)."""
    for name, text in TEXTS.items():
        for m in re.finditer(r"\b%s (\w+)(?:<[^>]*>)? \{(.*?)\n\}" % kind, text, re.S):
            yield f"{name}:{text[:m.start()].count(chr(10)) + 1}", m.group(1), m.group(2)


def two_way_enums():
    """Enums of two variants, one of which at least carries a value: the shape of Option or Result."""
    found = []
    for place, name, body in blocks("enum"):
        body = re.sub(r"//[^\n]*", "", body)
        flat = re.sub(r"\{[^{}]*\}", "{}", body)
        flat = re.sub(r"\([^()]*\)", "()", flat)
        variants = [v.strip() for v in flat.split(",") if v.strip()]
        if len(variants) == 2 and any("(" in v or "{" in v for v in variants):
            found.append(f"{place}: enum {name}: {', '.join(variants)}")
    return found


def flags():
    """Fields of structs that are a bool."""
    found = []
    for place, name, body in blocks("struct"):
        for m in re.finditer(r"(\w+): bool,", re.sub(r"//[^\n]*", "", body)):
            found.append(f"{place}: struct {name}: {m.group(1)}")
    return found


def signatures():
    for name, text in TEXTS.items():
        for m in re.finditer(r"\n\s*(?:pub(?:\(crate\))? )?(?:final )?fn (\w+)(?:<[^>]*>)?\((.*?)\)(.*?)\n?\s*[{;]\n", text, re.S):
            yield f"{name}: {m.group(1)}", m.group(2)


def travelling():
    """Pairs of parameters, by name and type, that stand together in three functions or more."""
    pairs = collections.defaultdict(list)
    for place, params in signatures():
        ps = sorted({p.strip() for p in re.split(r",\s*", params.strip().rstrip(",")) if ":" in p})
        for i, a in enumerate(ps):
            for b in ps[i + 1:]:
                pairs[(a, b)].append(place)
    return [f"{a}, {b}: {len(w)} functions" for (a, b), w in sorted(pairs.items()) if len(w) >= 3]


def repeated_clauses():
    """Conditions that stand in the `requires` of three functions or more, word for word."""
    seen = collections.defaultdict(list)
    for name, text in TEXTS.items():
        for m in re.finditer(r"\n\s*requires(?: \w+)? \{ (.*?) \}\n", text):
            seen[m.group(1)].append(name)
    return [f"{c}: {len(w)} functions" for c, w in sorted(seen.items()) if len(w) >= 3]


def long_subjects():
    """One value told by its fields, one after the other, in the clauses of three functions or more."""
    seen = collections.defaultdict(set)
    for name, text in TEXTS.items():
        for fn in re.split(r"\n(?=[^\n]*\bfn \w+[<(])", text):
            head = re.search(r"\bfn (\w+)", fn)
            for m in re.finditer(r"\w+(?: (?:self|result)\.[\w.]+){2,}(?: \(S\.Slave\.meaning (?:self|result)[\w.]*\))", fn):
                term = re.sub(r"\.(old|new|now)\b", "", m.group(0)).replace("result", "self")
                seen[(name.split("/")[0], term)].add(head.group(1) if head else "")
    return [f"{c}: {t}: {len(w)} functions" for (c, t), w in sorted(seen.items()) if len(w) >= 3]


def constants():
    """Constants whose name or meaning stands in two crates or more."""
    seen = collections.defaultdict(list)
    for place in lines(r"\bconst [A-Z_]+: [\w<>]+ = [^;]+;"):
        m = re.search(r"const ([A-Z_]+): [\w<>]+ = ([^;]+);", place)
        seen[m.group(1)].append(place)
    return [p for ps in seen.values() if len(ps) > 1 for p in ps]


def bodies():
    """Each function of some length as (place, the shape of its body): names and numbers blanked."""
    for name, text in TEXTS.items():
        for m in re.finditer(r"\n([ ]*)(?:pub(?:\(crate\))? )?fn (\w+)\b.*?\n?\1?\{\n(.*?)\n\1\}", text, re.S):
            body = re.sub(r"//[^\n]*", "", m.group(3))
            shape = re.sub(r"\b[A-Za-z_]\w*\b", lambda w: w.group(0) if w.group(0) in KEPT else "x", body)
            shape = re.sub(r"\b\d\w*\b", "0", shape)
            shape = re.sub(r"\s+", "", shape)
            if len(shape) >= 24:
                yield f"{name}:{text[:m.start()].count(chr(10)) + 2}: {m.group(2)}", shape


KEPT = {"if", "else", "match", "for", "in", "let", "mut", "return", "loop", "while", "self", "Ok", "Err", "Some", "None"}


def same_bodies():
    """Functions that differ in names and numbers only."""
    seen = collections.defaultdict(list)
    for place, shape in bodies():
        seen[shape].append(place)
    return [p for ps in seen.values() if len(ps) > 1 for p in ps]


POINTS = [
    ("1a enums of two variants, one with a value", two_way_enums),
    ("1b flags in structs", flags),
    ("1c numbers for kinds and codes", lambda: lines(r"\b(kind|code): (u8|[0-9])|const (FIXED|INCR|WRAP)\b|\.code \{|kind [!=]= ")),
    ("1d tables of numbers for kinds and refusals", lambda: lines(r"::\w+(\(.*\))? => [0-9]+,")),
    ("1e Option and Result taken apart by hand", lambda: lines(
        r"Err\(\w+\) => (Err|false|None|true|0|Response|\(0)|Err\(\w+\) => \(false|Ok\((\(\)|_|\w+)\) => (true|Ok|0)|(Some\(\w+\)|None) => (None|Err|Ok|Some\(\w+\))|if let Err\(|None => (unreachable|false)")),
    ("2a constants in several places", constants),
    ("2b functions that differ in names and numbers only", same_bodies),
    ("2c twins by channel", lambda: lines(r"Channel::Write => (self|S)\b.*\bwrite|Channel::Write => (self|begin|\{)")),
    ("3 loops that count, and loops by hand", lambda: lines(r"\bfor \w+ in 0\.\.|\bloop \{|\bwhile\b|= \w+\.saturating_add\(1\)|\w+ \+= 1;")),
    ("4a casts", lambda: lines(r"\bas (u8|u16|u32|u64|usize)\b")),
    ("4b comparisons and choices by hand", lambda: lines(r"\bif \w+(\.\w+\(\))? [<>] \w+(\.\w+\(\))? \{ ?\w* ?\}?|a\.\w+ == b\.\w+|% 256\) as u8|256 \* \(|== 0$|self\.\w+\.\w+ == other\.\w+\.\w+")),
    ("5a conditions in three functions", repeated_clauses),
    ("5b parameters that travel together", travelling),
    ("5c one value by its fields in three functions", long_subjects),
    ("6 buffers with a length beside, arrays as fields", lambda: lines(r"^\s*(pub(\(crate\))? )?\w+: \[\w+; \w+\],|^\s*(pub(\(crate\))? )?(len|count): usize,")),
    ("7 switches on steps, tables of functions", lambda: lines(r"\benum Step\b|\bfn\(")),
]

for title, find in POINTS:
    found = find()
    print(f"{len(found):4}  {title}")
    if VERBOSE:
        for place in found:
            print(f"        {place}")

print("      8 lines of proofs/ by crate")
for crate in sorted(os.listdir(os.path.join(ROOT, "crates"))):
    counts = {}
    for kind in ("specs", "proofs"):
        names = glob.glob(os.path.join(ROOT, "crates", crate, kind, "**/*.antt"), recursive=True)
        counts[kind] = sum(open(f).read().count("\n") for f in names)
        if kind == "proofs":
            answers = sum(1 for f in names if os.path.basename(f) in ("Answers.antt", "Invariants.antt"))
    print(f"        {crate:16} specs {counts['specs']:5}  proofs {counts['proofs']:5}  files of answers {answers}")
