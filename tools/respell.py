#!/usr/bin/env python3
"""Brings the names of this repository's own definitions and lemmas to snake case.

usage: python3 tools/respell.py [--list]     at the top of the repository, once, right after the kit's port.py

A definition, lemma, field or constructor that a file of specs/ or proofs/ declares in camel case, or with a dash in it,
is written in snake case wherever it stands: in specs/, proofs/, clauses and the lines of must-fail/*.edit, and a name in
camel case in comments too. A lemma that would then have the name of a definition gets _lem. Names that Rust source
declares, names of types, facts and modules, names that Rattle makes (goals and their fields), and text in quotes stay.
It stops, and writes nothing, where two names of one file would fall together. With --list it only prints the names.
"""

import os
import re
import sys

HEAD = re.compile(r"^(?P<in>\s*)(?:(?:abbrev|unfoldable|pub|ruleset)\s+)*(?P<names>[^\s:(){}\[\]|↦=,]+(?:\s+[^\s:(){}\[\]|↦=,]+)*?)\s*:(?:\s|$)")
KEEP = {"record", "data", "use", "mod", "let", "in", "elim", "rw", "open", "where", "λ"}
EDGE = r"[\w'·\-]"


def files(root, ends):
    for folder, dirs, names in os.walk(os.path.join(root, "crates")):
        dirs[:] = sorted(d for d in dirs if d != "out")
        for name in sorted(names):
            if name.endswith(ends):
                yield os.path.join(folder, name)


def read(path):
    with open(path, encoding="utf-8") as f:
        return f.read()


def declared(text):
    """The names that a file declares: at the margin of it or of a module in it, as fields of a record or constructors of a type."""
    blocks = []
    for line in text.split("\n"):
        words = line.lstrip()
        if not words or words.startswith("--"):
            continue
        indent = len(line) - len(words)
        while blocks and indent <= blocks[-1][0]:
            blocks.pop()
        if blocks and blocks[-1][1] is None:
            blocks[-1][1] = indent
        if indent != (blocks[-1][1] if blocks else 0):
            continue
        if re.match(r"(pub\s+)?(record|data|module)\s", words):
            blocks.append([indent, None])
            continue
        m = HEAD.match(line)
        if not m or words.startswith(("use ", "mod ", "pub mod ", "unfolding ")) or re.search(r":\s*goal\.", line):
            continue
        names = m.group("names").split()
        if not KEEP & set(names):
            yield from names


def snake(name):
    if not re.match(r"^[a-z]", name):
        return name
    name = re.sub(r"(?<=[a-z0-9])([A-Z])", lambda m: "_" + m.group(1).lower(), name)
    return re.sub(r"(?<=[\w'])-(?=[\w'])", "_", name)


def renamings(root):
    """What each name becomes. A lemma that would have a definition's name gets _lem."""
    inSpecs, inProofs = set(), set()
    for path in files(root, ".antt"):
        (inSpecs if "/specs/" in path else inProofs).update(declared(read(path)))
    words = {snake(n) for n in inSpecs}
    new = {n: snake(n) for n in inSpecs}
    for n in inProofs - inSpecs:
        new[n] = snake(n) + ("_lem" if snake(n) in words else "")
    return {a: b for a, b in new.items() if a != b}


def pattern(names):
    return re.compile(rf"(?<!{EDGE})(?:{'|'.join(sorted(map(re.escape, names), key=len, reverse=True))})(?!{EDGE})")


def turned(text, old, camel, new, mark):
    """The text with the names turned, but for paths of `use` lines and what stands in quotes; in comments those in camel case alone."""
    out = []
    for line in text.split("\n"):
        done = []
        for part in re.split(rf'("(?:[^"\\]|\\.)*"|(?:^|(?<=\s)){mark}.*$|^(?:ghost )?use [^{{]*)', line):
            if part.startswith(mark):
                part = camel.sub(lambda m: new[m.group(0)], part)
            elif not part.startswith(('"', "use ", "ghost use ")):
                part = old.sub(lambda m: new[m.group(0)], part)
            done.append(part)
        out.append("".join(done))
    return "\n".join(out)


def main():
    root = os.getcwd()
    new = renamings(root)
    if not new:
        sys.exit("respell: there is nothing to do")
    if "--list" in sys.argv:
        print("\n".join(f"{a} {b}" for a, b in sorted(new.items())))
        return
    old = pattern(new)
    unlikeRust = pattern([n for n in new if re.search("[A-Z-]", n)])
    camel = pattern([n for n in new if re.search("[A-Z]", n)])
    clashes = []
    for path in files(root, ".antt"):
        body = re.sub(r"^use (\S+?\.(?=\{)|[^{]*$)", "", read(path), flags=re.M)
        words = set(re.findall(rf"{EDGE}+", re.sub(r"--.*", "", body)))
        left = words - set(new)
        for name in sorted(words & set(new)):
            if new[name] in left:
                clashes.append(f"{os.path.relpath(path, root)}: {name} and {new[name]}")
            clashes += [f"{path}: {name} and {other}" for other in words & set(new) if other < name and new[other] == new[name]]
    if clashes:
        sys.exit("respell: these would fall together:\n" + "\n".join(clashes))
    changed = 0
    for path in files(root, (".antt", ".rt", ".edit")):
        before = read(path)
        after = turned(before, old, camel, new, "--") if path.endswith(".antt") else turned(before, unlikeRust, camel, new, "//")
        if after != before:
            changed += 1
            with open(path, "w", encoding="utf-8") as f:
                f.write(after)
    print(f"respell: {len(new)} names, {changed} files")


if __name__ == "__main__":
    main()
