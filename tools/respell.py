#!/usr/bin/env python3
"""Brings the names of this repository's own definitions and lemmas to one spelling.

usage: python3 tools/respell.py        at the top of the repository, once, after the toolchain's port.py
       python3 tools/respell.py list   prints the renamings, and changes nothing

Values and lemmas get snake_case, types CamelCase. Names that are imported from the toolchain's library stay, and so do the
names that the checker itself makes of the code (goals, and what a goal's context has). Only specs/, proofs/ and the clauses
of src/ are read: functions, strings and comments stay as they are, but for names in backquotes.
"""

import os
import re
import sys

NAME = re.compile(r"[^\W\d][\w']*(?:-[\w']+)*", re.UNICODE)
COMMENT = re.compile(r"--[^\n]*|\{-.*?-\}|\"(?:[^\"\\]|\\.)*\"", re.S)
USE = re.compile(r"use\s+([\w'-]+(?:\.[\w'-]+)*)\.\{([^}]*)\}", re.S)
# These would fall together with a type of src/ of that name.
CLASHES = {"Span-line": "IsSpanLine", "Zone-name": "IsZoneName"}
CRATES = sorted(l.split(":")[0].strip() for l in open("crates.txt", encoding="utf-8") if ":" in l and not l.startswith("#"))


def files(suffix, *below):
    for crate in CRATES:
        for part in below:
            for folder, _, names in os.walk(os.path.join("crates", crate, part)):
                for n in sorted(names):
                    if n.endswith(suffix):
                        yield os.path.join(folder, n)


def read(path):
    with open(path, encoding="utf-8") as f:
        return f.read()


def odd(name):
    """Whether a name is not in this repository's spelling."""
    if "-" in name:
        return True
    return name[0].isupper() and "_" in name and not name.isupper() and not re.fullmatch(r"[A-Z0-9_]+", name)


def respelled(name):
    if name in CLASHES:
        return CLASHES[name]
    parts = re.split(r"[-_]", name)
    if name[0].isupper():
        return "".join(p[:1].upper() + p[1:] for p in parts)
    return "_".join(parts)


def own(module):
    words = module.split(".")
    if words[-1] in ("Goals", "Given"):
        return False
    return len(words) > 1 and words[0] == "Rattle" and words[1] in CRATES


def imported(texts):
    """Odd names that come from the library."""
    out = set()
    for t in texts:
        for m in USE.finditer(t):
            if not own(m.group(1)):
                out |= {n.strip().split(" as ")[0].strip() for n in m.group(2).split(",")}
    return {n for n in out if n and odd(n)}


def fields(texts):
    """Names of the fields of records that the repository declares."""
    out = set()
    for t in texts:
        for m in re.finditer(r"^(\s*)(?:pub )?record [^\n]*where\n((?:\1\s+[^\n]*\n|\n)*)", COMMENT.sub("", t) + "\n", re.M):
            out |= set(re.findall(r"^\s+(?:pub )?([^\W\d][\w'-]*)\s*:", m.group(2), re.M))
        for m in re.finditer(r"record \{([^}]*)\}", t):
            out |= set(re.findall(r"(?:^|;)\s*([^\W\d][\w'-]*)\s*[:=]", m.group(1)))
    return out


def turn(text, keep, known):
    """A clause or a proof text, respelled."""
    out, at = [], 0
    for m in COMMENT.finditer(text):
        out.append(words(text[at : m.start()], keep, known))
        piece = m.group(0)
        if not piece.startswith('"'):
            piece = re.sub(r"`([\w'-]+)`", lambda b: "`" + (respelled(b.group(1)) if b.group(1) in SEEN else b.group(1)) + "`", piece)
        out.append(piece)
        at = m.end()
    out.append(words(text[at:], keep, known))
    return "".join(out)


SEEN = {}
# A name in what the checker tells a goal: not the repository's, even if a record of its own has a field of that name.
CONTEXT = re.compile(r"(?:^|[^\w.'])[cw]\.$")


def words(text, keep, known):
    def one(m):
        n = m.group(0)
        before = text[max(0, m.start() - 8) : m.start()]
        if not odd(n) or n in keep or before.endswith(("goal.", "given.")):
            return n
        if before.endswith(".") and n[0].islower() and (n not in known or CONTEXT.search(before)):
            return n
        SEEN[n] = respelled(n)
        return SEEN[n]

    return NAME.sub(one, text)


def clauses(text, keep, known):
    """The clauses of a source file, respelled."""
    out, at = [], 0
    for m in re.finditer(r"^\s*(?:pub )?(?:ghost (?:use|fn|let)?|requires|ensures|law|decreases|invariant)\b", text, re.M):
        if m.start() < at:
            continue
        end = text.find(";", m.end()) + 1 if re.match(r"\s*(?:pub )?ghost use", m.group(0)) else closing(text, m.end())
        out += [text[at : m.start()], turn(text[m.start() : end], keep, known)]
        at = end
    return "".join(out) + text[at:]


def closing(text, at):
    """The place after the braces that open first at a place."""
    at = text.index("{", at)
    depth = 0
    for i in range(at, len(text)):
        depth += {"{": 1, "}": -1}.get(text[i], 0)
        if depth == 0:
            return i + 1
    raise ValueError("braces")


def main():
    antt = list(files(".antt", "specs", "proofs"))
    rt = list(files(".rt", "src"))
    texts = {p: read(p) for p in antt + rt}
    keep = imported(texts.values())
    known = fields([texts[p] for p in antt])
    new = {}
    for p in antt:
        made = set(re.findall(r"(?:goal|given)\.([\w'-]+)", texts[p]))
        new[p] = turn(texts[p], keep | made, known)
    for p in rt:
        new[p] = clauses(texts[p], keep, known)
    by = {}
    for old, name in SEEN.items():
        by.setdefault(name, set()).add(old)
    for name, olds in sorted(by.items()):
        if len(olds) > 1:
            print("together:", name, "from", ", ".join(sorted(olds)))
    if sys.argv[1:] == ["list"]:
        for old in sorted(SEEN):
            print(old, "->", SEEN[old])
        return
    for p, t in new.items():
        if t != texts[p]:
            with open(p, "w", encoding="utf-8") as f:
                f.write(t)


main()
