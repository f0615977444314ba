#!/usr/bin/env python3
"""Spells this repository's own definitions and lemmas as today's Rattle does: in snake case.

usage: python3 tools/respell_names.py [FOLDER]

Run once, after port.py. Types, modules and constructors keep their capitals, and a lemma that begins with a type keeps its dash
behind it (`All-append`). Functions of src/, exported names, strings, inputs and outputs are left alone: in a .rt file only the words
of clauses and of `ghost use` can have a dash or a capital inside. In comments and pages only what stands in back quotes turns.
A lemma that would have its function's name ends in `_lem`. The names of goals, which Rattle makes, stay.
Crate log, named like a library of the kit, becomes record_log.
"""

import os
import re
import subprocess
import sys

WORD = re.compile(r'[^\s(){}.;,@"«»\[\]]+')
DECLARED = re.compile(r"^ *(?:(?:pub|abbrev|unfoldable|pattern|record|data) +)*([^\s(){}.;,@\"«»:]+(?: [^\s(){}.;,@\"«»:]+)*?)(?: \{[^{}\n]*\})*(?: \([^()]*\))* :(?= )(.*)")
# Parameters of modules and names after "as", which no signature declares.
PARAMETERS = "stopOf codeGoes isBytes refusedLine readPair machineStep lastBody isStage isKind finishInstr committedTable".split()
SPAN = re.compile(r"`[^`\n]*`")


def files(root, endings):
    for folder, dirs, names in os.walk(root):
        dirs[:] = sorted(d for d in dirs if d not in ("out", ".git", "target"))
        for n in sorted(names):
            p = os.path.join(folder, n)
            if n.endswith(endings) and not os.path.islink(p):
                yield p


def read(p):
    with open(p, encoding="utf-8") as f:
        return f.read()


def snake(n):
    if n[:1].isupper():
        head, dash, rest = n.partition("-")
        return head + dash + snake(rest) if dash else n
    n = n.replace("getD", "get_or").replace("get_d_", "get_or_")
    return re.sub(r"(?<=[a-z0-9])[A-Z]", lambda m: "_" + m[0].lower(), n).replace("-", "_")


def table(root):
    """Each own name that changes, with its new spelling."""
    own, goals = set(), set()
    for p in files(os.path.join(root, "crates"), ".antt"):
        for line in read(p).split("\n"):
            m = DECLARED.match(line)
            if m:
                (goals if re.match(r" *(tie|goal)\.", m[2]) else own).update(m[1].split(" "))
    own |= set(PARAMETERS)
    own -= goals
    new = {n: snake(n) for n in own if snake(n) != n}
    taken = {}
    for n in own:
        taken.setdefault(new.get(n, n), set()).add(n)
    for to, ns in taken.items():
        if len(ns) > 1:
            # The definition, spelled with a capital before, has the plain name.
            plain = next((n for n in ns if "-" not in n and n != to), None) or (to if to in ns else sorted(ns)[0])
            for n in ns:
                if n != plain:
                    new[n] = to + "_lem"
    return new


USE = re.compile(r"\buse ([^\s;{]+?)\.?(?:\{([^;{}]*)\})?(?: as \S+)?;?$", re.M)


def without_library(text, new, crates):
    """The table without what this file has from a library: there the library's spelling stands."""
    theirs = set()
    for m in USE.finditer(text):
        steps = m[1].split(".")
        if steps[0] == "Rattle" and len(steps) > 1 and steps[1] in crates:
            continue
        theirs.add(steps[-1])
        theirs.update(w.split(" as ")[0].strip() for w in (m[2] or "").split(","))
    return {n: to for n, to in new.items() if n not in theirs}


def turned(text, new):
    return WORD.sub(lambda m: new.get(m[0], m[0]), text)


def in_code(text, new, comment):
    out = []
    for line in text.split("\n"):
        m = re.search(r'(?:^|(?<=\s))' + comment + r".*$", line)
        code, said = (line[: m.start()], m[0]) if m else (line, "")
        parts = re.split(r'("(?:[^"\\]|\\.)*")', code)
        parts[::2] = [turned(p, new) for p in parts[::2]]
        out.append("".join(parts) + SPAN.sub(lambda s: turned_span(s[0], new), said))
    return "\n".join(out)


def turned_span(text, new):
    return re.sub(r"[^\s(){}.;,@\"«»\[\]`]+", lambda m: new.get(m[0], m[0]), text)


def rename_crate(root, old, new):
    folder = os.path.join(root, "crates", old)
    if not os.path.isdir(folder):
        return
    os.rename(folder, os.path.join(root, "crates", new))
    for p in files(os.path.join(root, "crates"), (".antt", ".rt")):
        t = read(p)
        u = t.replace(f"Rattle.{old}.", f"Rattle.{new}.")
        if p.endswith(".rt"):
            u = re.sub(rf"(?<![\w.:]){old}::", f"{new}::", u)
        if u != t:
            with open(p, "w", encoding="utf-8") as f:
                f.write(u)
    p = os.path.join(root, "crates.txt")
    lines = [line if line.startswith("#") else re.sub(rf"\b{old}\b", new, line) for line in read(p).split("\n")]
    with open(p, "w", encoding="utf-8") as f:
        f.write("\n".join(lines))


def main(argv):
    root = argv[0] if argv else "."
    rename_crate(root, "log", "record_log")
    new = table(root)
    dashed = {n: to for n, to in new.items() if "-" in n or n != n.lower()}
    crates = set(os.listdir(os.path.join(root, "crates")))
    changed = 0
    for p in files(root, (".antt", ".rt", ".md")):
        t = read(p)
        if p.endswith(".md"):
            u = SPAN.sub(lambda s: turned_span(s[0], new), t)
        elif os.sep + "crates" + os.sep in os.path.abspath(p):
            antt = p.endswith(".antt")
            u = in_code(t, without_library(t, new if antt else dashed, crates), "--" if antt else "//")
        else:
            u = t
        if u != t:
            with open(p, "w", encoding="utf-8") as f:
                f.write(u)
            changed += 1
    for c in sorted(crates):
        subprocess.run(["rt", "fmt"], cwd=os.path.join(root, "crates", c), check=True, stdout=subprocess.DEVNULL)
    print(f"{len(new)} names, {changed} files")


if __name__ == "__main__":
    main(sys.argv[1:])
