#!/usr/bin/env python3
"""Brings the names of this repository's definitions and lemmas to today's spelling.

usage: tools/respell.py            once, at the top, after port.py: rewrites crates/, docs/, README.md and host/README.md in place
       tools/respell.py --list     prints the names, old and new, and writes nothing

A function, a field or a variable in camel case becomes snake case. A lemma keeps a dash between two names (of a
definition here or of std's words); a plain word is joined by '_'. Types and modules keep their capitals. Names of the
Rattle sources, of C, and in strings stay. Where a new name would fall together with another one, it ends in '_lem'.
"""

import glob
import os
import re
import sys

WORD = r"[^\s(){}.;,@\"«»\[\]\\`:]+"
TOKEN = re.compile(WORD)
HEAD = re.compile(r"(?m)^(?:(?:abbrev|unfoldable|pub|record|data|ruleset) )*([^\s:(){}]+)(?= :| \(| \{|$)")
FIELD = re.compile(r"(?m)^\s+pub ([^\s:(){}]+) :")
RESERVED = set("use mod pub where data record abbrev unfoldable ruleset -- λ let in as".split())


def files(*ends):
    for folder, dirs, names in os.walk("crates"):
        dirs[:] = sorted(d for d in dirs if d != "out")
        for name in sorted(names):
            if name.endswith(ends):
                yield os.path.join(folder, name)


def read(path):
    with open(path, encoding="utf-8") as it:
        return it.read()


def snake(name):
    name = re.sub(r"(?<=[a-z0-9])([A-Z])(?=[a-z0-9]|$)", lambda m: "_" + m.group(1).lower(), name)
    return re.sub(r"(?<=[a-z0-9])([A-Z])", lambda m: "_" + m.group(1).lower(), name)


def declared():
    """The names that specs/ and the lemma files of proofs/ declare, with the fields of their records."""
    heads, fields = set(), set()
    for path in files(".antt"):
        if os.path.basename(path) in ("Proof.antt", "Lib.antt"):
            continue
        text = re.sub(r"(?m)--.*$", "", read(path))
        heads |= {n for n in HEAD.findall(text) if n not in RESERVED}
        fields |= set(FIELD.findall(text))
    return heads, fields


def in_sources():
    """For each crate, the names of Rattle sources that its clauses can see: parameters, fields, constants, labels."""
    own, uses = {}, {}
    for path in files(".rt"):
        crate = path.split(os.sep)[1]
        text = re.sub(r"(?m)//.*$", "", read(path))
        names = own.setdefault(crate, set())
        names |= set(re.findall(r"(?<!let )(?<!mut )\b([a-z_][a-z0-9_]*) ?: ", text))
        names |= set(re.findall(r"\b(?:const|static) ([A-Z_0-9]+)", text))
        names |= set(re.findall(r"\b(?:requires|ensures)\*? (\w+) \{", text))
        listed = re.findall(r"ghost use [^;{]*\.\{([^}]*)\}", text)
        uses.setdefault(crate, set()).update(n.split(" as ")[0].strip() for l in listed for n in l.split(","))
    return own, uses


def renamed():
    heads, fields = declared()
    used = set()
    for path in files(".antt"):
        text = re.sub(r"(?m)--.*$", "", read(path))
        used |= set(TOKEN.findall(re.sub(r"[^\s(){};,]+\.[^\s(){};,]*", " ", text)))
    std = set()
    for path in files(".antt", ".rt"):
        for listed in re.findall(r"use (?!Rattle\.(?!std\.))[\w.+·-]+\.\{([^}]*)\}", read(path)):
            std |= {n.split(" as ")[0].strip().strip("◌") for n in listed.split(",")}
    words = {snake(n) for n in heads if "-" not in n} | {n for n in std if "-" not in n} | {"Is"}
    out = {}
    for name in sorted(heads | fields):
        if name[0].isupper() and "-" not in name:
            continue
        parts = [p if p[:1].isupper() else snake(p) for p in name.split("-")] if not name.startswith("-") else [name]
        new = parts[0]
        for a, b in zip(parts, parts[1:]):
            new += ("-" if a in words and b in words else "_") + b
        if new != name:
            out[name] = new
    own, uses = in_sources()
    taken = set()
    # a definition in camel case keeps the plain name before a lemma does
    for name in sorted(out, key=lambda n: ("-" in n, n)):
        new = out[name]
        seen = {n for crate in own if name in uses[crate] for n in own[crate]} if name in heads else set()
        while new in taken or (new in used and new not in out) or new in seen:
            new += "_lem"
        out[name] = new
        taken.add(new)
    return out


def turned(text, names):
    return TOKEN.sub(lambda m: names.get(m.group(0), m.group(0)), text)


def in_code(text, names):
    """A document: names in back quotes alone."""
    return re.sub(r"`[^`\n]+`", lambda m: turned(m.group(0), names), text)


def in_sources_text(text, names):
    """A Rattle source: its `ghost use` lines and its clauses, and names in comments."""
    out, depth = [], 0
    for line in text.split("\n"):
        clause = depth > 0 or re.match(r"\s*(ghost |requires|ensures|//)", line)
        if clause:
            if not line.lstrip().startswith("//"):
                depth += line.count("{") - line.count("}")
            line = turned(line, names)
        depth = max(depth, 0)
        out.append(line)
    return "\n".join(out)


def main():
    names = renamed()
    if sys.argv[1:] == ["--list"]:
        for old in sorted(names):
            print(old, names[old])
        return
    paths = list(files(".antt", ".rt", ".edit")) + glob.glob("docs/**/*.md", recursive=True) + ["README.md", "host/README.md"]
    for path in paths:
        text = read(path)
        if path.endswith(".md"):
            new = in_code(text, names)
        elif path.endswith(".rt"):
            new = in_sources_text(text, names)
        else:
            new = turned(text, names)
        if new != text:
            with open(path, "w", encoding="utf-8") as it:
                it.write(new)
    print(f"respell: {len(names)} names")


main()
