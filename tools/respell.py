#!/usr/bin/env python3
"""Respells the repository's own definitions and lemmas: words in snake case, types and facts in upper camel case.

usage: python3 tools/respell.py            at the top of a checkout on which /opt/rattle/port/port.py has just run

A name with a dash, or a word in lower camel case, is taken as ours where a file of specs/, or one right in proofs/, has it
and the kit has no such name. Files in proofs/F/ hold names that the check makes: there only names that are ours
elsewhere are turned. src/ is turned in its clauses and ghost imports alone.
"""
import collections
import glob
import re
import sys

KIT = "/opt/rattle/rattle"
NAME = r"[A-Za-z][A-Za-z0-9_'ℕℤ₂]*(?:-[A-Za-z0-9_'ℕℤ₂]+)*"
TOKEN = re.compile(r"(?<![A-Za-z0-9_'\-ℕℤ₂])" + NAME + r"(?![A-Za-z0-9_'\-ℕℤ₂])")
CAMEL = re.compile(r"^[a-z]+[A-Z][A-Za-z]*$")

# names of ours that the kit has too, elsewhere
OURS = {"at-end", "loop-turn", "next-is", "repeat-none", "within-from"}
# where the rule would give a name that is taken, or one that reads badly
GIVEN = {
    "at_least_lem": "at_least",
    "ending-number": "number_of_ending",
    "ending-offset": "offset_of_ending",
}


def new_name(old):
    if old in GIVEN:
        return GIVEN[old]
    if "-" in old:
        parts = old.split("-")
        if old[0].isupper():
            return "".join(p[0].upper() + p[1:] for p in parts)
        return "_".join(parts)
    return re.sub(r"[A-Z]", lambda m: "_" + m.group(0).lower(), old)


def antt_parts(text):
    """The text in parts, each with whether it is code."""
    out = []
    for line in text.splitlines(keepends=True):
        m = re.search(r"(^|\s)--", line)
        if m:
            out.append((True, line[: m.start()]))
            out.append((False, line[m.start():]))
        else:
            out.append((True, line))
    return out


def rt_parts(text):
    """Clauses and ghost imports are code here; comments and the program's text are not."""
    out = []
    clause = False
    depth = 0
    for line in text.splitlines(keepends=True):
        code = line.split("//")[0]
        starts = re.match(r"\s*(pub )?(ghost |ensures|requires|also_)", code)
        if starts or clause:
            out.append((True, line))
            depth += code.count("{") - code.count("}")
            clause = depth > 0
            if not clause:
                depth = 0
        else:
            out.append((False, line))
    return out


def files(kind):
    if kind == "own":
        return sorted(p for p in glob.glob("crates/*/specs/**/*.antt", recursive=True)) + sorted(glob.glob("crates/*/proofs/*.antt"))
    if kind == "answers":
        return sorted(set(glob.glob("crates/*/proofs/**/*.antt", recursive=True)) - set(glob.glob("crates/*/proofs/*.antt")))
    return sorted(glob.glob("crates/*/src/**/*.rt", recursive=True))


def kit_names():
    names = set()
    for p in glob.glob(KIT + "/**/*.antt", recursive=True):
        with open(p, errors="replace") as f:
            for t in TOKEN.findall(f.read()):
                if "-" in t or CAMEL.match(t):
                    names.add(t)
    return names


def main():
    kit = kit_names()
    turned = {}
    seen = collections.Counter()
    for p in files("own"):
        for code, part in antt_parts(open(p).read()):
            if code:
                for t in TOKEN.findall(part):
                    seen[t] += 1
    for t in seen:
        if t in GIVEN or t in OURS or ((("-" in t) or CAMEL.match(t)) and t not in kit):
            turned[t] = new_name(t)
    by_new = collections.defaultdict(set)
    for old, new in turned.items():
        by_new[new].add(old)
    for new, olds in by_new.items():
        if len(olds) > 1 or new in seen:
            print("falls together:", sorted(olds), "->", new, "(taken)" if new in seen else "")
    if "--list" in sys.argv:
        for old, new in sorted(turned.items()):
            print(old, new)
        return
    for kind, parts in (("own", antt_parts), ("answers", antt_parts), ("rt", rt_parts)):
        for p in files(kind):
            text = open(p).read()
            made = "".join(
                TOKEN.sub(lambda m: turned.get(m.group(0), m.group(0)), part) if code else part for code, part in parts(text)
            )
            if made != text:
                open(p, "w").write(made)


if __name__ == "__main__":
    main()
