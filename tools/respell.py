#!/usr/bin/env python3
"""Brings the definitions and lemmas of specs/ and proofs/ to the library's spelling: functions and lemmas in snake case, types and
modules in upper camel case, a dash only between two names that are defined by themselves.

usage: tools/respell.py            at the top of the repository, once, directly after port.py
       tools/respell.py --map      prints the renamings and changes nothing

It reads which names the .antt files outside of the proofs of single functions declare, and respells each of them in .antt and .rt files,
in edits and twins, and in the pages, there only between backquotes. Names of src/, strings and files keep their spelling.
"""
import os
import re
import sys

# what a name is made of
LETTER = r"[\w'\-₀-₉∙◌]"
TOKEN = re.compile(LETTER + "+")
DECLARED = re.compile(r"^\s*(?:(?:abbrev|unfoldable|pub)\s+)*(" + LETTER + r"+)\s+:(?!:)")
TYPE = re.compile(r"^\s*(?:(?:abbrev|unfoldable|pub)\s+)*(?:record|data)\s+(?:pub\s+)?(" + LETTER + r"+)")
BOUND = re.compile(r"[({]((?:" + LETTER + r"+\s+)+):")
FUNCTION = re.compile(r"\bfn (\w+)")
# words of the library that a dash may join to another name
LIBRARY = set("""length take drop set get_or map append reverse replicate sets sum min max div mod mul add sub pow suc zero not and or
cond eqb ltb leb ones ℕ""".split())
# a lemma that would have the name of its function
SUFFIX = "_lem"


def files(root, *endings):
    for folder, dirs, names in os.walk(root):
        dirs[:] = sorted(d for d in dirs if d not in ("out", ".git", "target"))
        for name in sorted(names):
            if name.endswith(endings):
                yield os.path.join(folder, name)


def is_one_function(path):
    """A proof of a function of src/: its names follow the code."""
    return os.path.basename(path) in ("Proof.antt", "Invariants.antt", "Answers.antt")


def snake(name):
    """Of one part: lower camel case as snake case."""
    name = name.replace("get_d_", "get_or_")
    if not re.match(r"[a-z]", name) or not re.search(r"[A-Z]", name):
        return name
    name = name.replace("getD", "get_or")
    return re.sub(r"(?<=[a-z0-9'])([A-Z])", lambda m: "_" + m.group(1).lower(), name)


def declared():
    plain, types, tops = set(), set(), set()
    for path in files("crates", ".antt"):
        if is_one_function(path):
            continue
        for line in open(path, encoding="utf-8"):
            if line.lstrip().startswith("--"):
                continue
            found = DECLARED.match(line)
            if found:
                plain.add(found.group(1))
                if "/specs/" in path and not line.startswith(" "):
                    tops.add(found.group(1))
            found = TYPE.match(line)
            if found:
                types.add(found.group(1))
            for names in BOUND.findall(line):
                plain.update(n for n in names.split() if re.search(r"[a-z][A-Z]", n))
    return plain, types, tops


def renamings():
    plain, types, tops = declared()
    bases = {snake(n) for n in tops if "-" not in n} | LIBRARY
    taken = bases | types | {snake(n) for n in plain if "-" not in n}
    to = {}
    for name in sorted(plain):
        if name in types or not re.match(r"[a-z0-9◌]", name):
            continue
        parts = [snake(p) for p in name.split("-")]
        new = parts[0]
        last = parts[0]
        for part in parts[1:]:
            if last in bases and part in bases:
                new, last = new + "-" + part, part
            else:
                new, last = new + "_" + part, last + "_" + part
        if "-" in name and new in taken:
            new = new + SUFFIX
        if new != name:
            to[name] = new
    # of two names that fall together the one in camel case is the function, and the other a lemma
    seen = {}
    for name in sorted(plain, key=lambda n: (not re.search(r"[a-z][A-Z]", n), n)):
        new = to.get(name, name)
        if new in seen and seen[new] != name:
            new = new + SUFFIX
            to[name] = new
        if new in seen and seen[new] != name:
            sys.exit(f"respell: {name} and {seen[new]} fall together as {new}")
        seen[new] = name
    return to


def functions():
    return {f for path in files("crates", ".rt") for f in FUNCTION.findall(open(path, encoding="utf-8").read())}


def turned(text, to, kept):
    """A function of src/ keeps its name, where a path or a projection names it."""

    def one(m):
        name = m.group(0)
        return name if name in kept and text[m.start() - 1 : m.start()] == "." else to.get(name, name)

    return TOKEN.sub(one, text)


def clauses(text, to):
    """Of a source file the clauses and imports of names, not the code: a token that is a name there has no dash and no capital."""
    return TOKEN.sub(lambda m: to[m.group(0)] if m.group(0) in to and re.search(r"[A-Z]", m.group(0)) else m.group(0), text)


def main():
    to = renamings()
    if "--map" in sys.argv[1:]:
        for name, new in to.items():
            print(name, new)
        return
    kept = functions()
    said = {name: new for name, new in to.items() if re.search("[A-Z]|-", name)}
    for path in files(".", ".antt", ".rt", ".edit", ".twin", ".md"):
        text = open(path, encoding="utf-8").read()
        if path.endswith(".rt"):
            new = clauses(text, to)
        elif path.endswith(".antt"):
            new = turned(text, to, kept)
        elif path.endswith(".md"):
            new = re.sub(r"`[^`\n]*`", lambda m: turned(m.group(0), said, kept), text)
        else:
            lines = text.split("\n")
            new = "\n".join(turned(l, said, kept) if re.match(r"(old|new):", l) else l for l in lines)
        if new != text:
            open(path, "w", encoding="utf-8").write(new)


main()
