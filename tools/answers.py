#!/usr/bin/env python3
"""Turns the proofs by hand of a crate (proofs/**/F/Proof.antt, over the former module Tie) into Invariants.antt and Answers.antt.

usage: tools/answers.py CRATE NAMES.json [FUNCTION..]

NAMES.json is what `rt check --generated FOLDER --old-names` writes in the crate. Each answer was given by its place in a
list and read the facts on the way to its goal by chains of `.before`; it goes by the goal's name now, and reads each
fact by its own name. An answer that only searches is left out, since the check searches by itself. What the script
cannot place is written with a line `-- TODO`, and is mended by hand.
"""

import json
import os
import re
import sys

WORD = r"[^\s(){}.;,@\"«»\[\]\\`]+"
TRIVIAL = re.compile(r"^(search rules|tt|omega arith|refl|\(\)|search rules depth \d+)$")


def norm(name):
    return re.sub(r"[-_·]", "", name).lower()


def blocks(text):
    """The top-level items of a file: a list of texts, comments with the item below them."""
    out, now = [], []
    for line in text.split("\n"):
        top = line and not line[0].isspace()
        if top and now and not all(l.startswith("--") or not l for l in now):
            name = re.match(WORD, line)
            head = next((l for l in now if l and not l.startswith("--")), "")
            declared = re.match(r"(?:(?:abbrev|pub|unfoldable) )*(" + WORD + r") :", head)
            same = declared and (re.match(re.escape(declared.group(1)) + r"(?=\s)", line) or line.startswith(("unfolding", ") ")) or line.startswith(")"))
            if not same or line.startswith("use ") or re.match(r"(?:(?:abbrev|pub|unfoldable) )+", line):
                out.append("\n".join(now).rstrip())
                now = []
        now.append(line)
    if any(l.strip() for l in now):
        out.append("\n".join(now).rstrip())
    return out


def split_args(text):
    """The arguments of an application, at depth 0."""
    out, depth, start, i = [], 0, None, 0
    while i < len(text):
        ch = text[i]
        if ch in "([{":
            if depth == 0 and start is None:
                start = i
            depth += 1
        elif ch in ")]}":
            depth -= 1
        elif ch.isspace() and depth == 0:
            if start is not None:
                out.append(text[start:i])
                start = None
            i += 1
            continue
        if start is None:
            start = i
        i += 1
    if start is not None:
        out.append(text[start:])
    return out


def strip_parens(text):
    text = text.strip()
    while text.startswith("(") and text.endswith(")"):
        depth = 0
        for i, ch in enumerate(text):
            depth += (ch in "([{") - (ch in ")]}")
            if depth == 0:
                break
        if i != len(text) - 1:
            break
        text = text[1:-1].strip()
    return text


def signatures():
    """For each function of the sources by the end of its path: its parameters by `&mut` in order, and its clauses' names."""
    out = {}
    for folder, dirs, files in os.walk("crates"):
        dirs[:] = [d for d in dirs if d != "out"]
        for name in files:
            if not name.endswith(".rt"):
                continue
            path = os.path.join(folder, name)
            parts = path.split(os.sep)
            module = [parts[1]] + [p for p in parts[3:-1]] + ([] if name in ("lib.rt", "main.rt", "mod.rt") else [name[:-3]])
            text = re.sub(r"(?m)//.*$", "", open(path, encoding="utf-8").read())
            for m in re.finditer(r"\bfn (\w+)(?:<[^>]*>)?\(([^)]*)\)([^{;]*)", text):
                head = text[m.start(3) :]
                labels, at = {"requires": [], "ensures": []}, m.start(3)
                # clauses: each with its braces, until the body's brace
                pos = m.end(2) + 1
                while True:
                    c = re.compile(r"[^{};]*?\b(requires|ensures)\*? ?(\w+)? ?\{").match(text, pos)
                    if not c:
                        break
                    labels[c.group(1)].append(c.group(2))
                    depth, k = 1, c.end()
                    while depth and k < len(text):
                        depth += (text[k] == "{") - (text[k] == "}")
                        k += 1
                    pos = k
                muts = [p.split(":")[0].strip().removeprefix("mut ").strip() for p in m.group(2).split(",") if re.search(r":\s*&(?:'\w+ )?mut\b", p)]
                out["::".join(module + [m.group(1)])] = (muts, labels)
    return out


SIGNATURES = signatures()


class Places:
    def __init__(self, entry):
        self.at, self.arms, self.clauses = {}, {}, {}
        for i, (name, parent, field, callee, _) in enumerate(entry["places"]):
            self.at[name] = (parent, field, callee)
            self.arms[name] = entry["arms"][i]
            self.clauses[name] = (entry["clauses"][i] or {}).get("fields") or []
        self.pre = (entry.get("pre") or {}).get("fields") or []

    def up(self, place):
        return self.at[place][0]

    def holder(self, place, word):
        """The place, at or above this one, whose step has this old name."""
        while place:
            old = self.at[place][1][0]
            if old and norm(old) == norm(word):
                return place
            place = self.up(place)
        return None

    def resolve(self, place, words):
        """The new path of an old one from this place, or None."""
        first, rest = words[0], list(words[1:])
        if first == "requires" and self.pre:
            return ".".join(["requires", *clause(self.pre, rest)])
        if first in ("args", "requires", "ranges", "lifetimes", "well_formed", "type_inv", "utf8", "captures"):
            return ".".join(words)
        at = self.holder(place, first) or self.holder(place, re.sub("_lem$", "", first))
        if at is None:
            # a step that is no step now stood between: by its name alone, the nearest above the goal
            at = self.holder(self.start, first) or self.holder(self.start, re.sub("_lem$", "", first))
            if at is None:
                return None
            self.guessed.append(".".join(words))
        new = self.at[at][1][1]
        arm = self.arms[at]
        if arm:
            for field, _, old in sorted(arm[2], key=lambda it: -len(it[2])):
                if old and rest[: len(old)] == old:
                    return ".".join([arm[0], field, *rest[len(old) :]])
        if self.clauses[at] and rest and rest[0] == "ensures":
            rest = ["ensures", *clause(self.clauses[at], rest[1:])]
        callee = self.at[at][2]
        if len(rest) > 1 and rest[0] == "new" and rest[1].isdigit() and callee in SIGNATURES:
            muts = SIGNATURES[callee][0]
            if int(rest[1]) < len(muts):
                rest = ["new", muts[int(rest[1])], *rest[2:]]
        rest = ["type_inv" if r == "type-inv" else r for r in rest]
        return ".".join([new, *rest])


def clause(fields, path):
    """A path into clauses that were nested pairs, by their names."""
    if len(fields) == 1 and (not path or path[0] != fields[0]):
        return [fields[0], *path]
    if not path or not path[0].isdigit():
        return path
    n, path = len(fields), list(path)
    if int(path[0]) > 1:
        return [fields[int(path[0])], *path[1:]] if int(path[0]) < n else path
    k = 0
    while k < n - 1 and path and path[0] == "1":
        path.pop(0)
        k += 1
    if k < n - 1:
        if not path or path[0] != "0":
            return ["TODO", *path]
        path.pop(0)
    return [fields[k], *path]


def parts_of(text, n):
    """The n parts of a tuple, which may be nested to the right."""
    text = text.strip()
    if not (text.startswith("(") and text.endswith(")")) or strip_parens(text) == text:
        return None
    inside, depth, cuts = strip_parens(text), 0, []
    for i, ch in enumerate(inside):
        depth += (ch in "([{") - (ch in ")]}")
        if ch == "," and depth == 0:
            cuts.append(i)
    each = [inside[a:b].strip() for a, b in zip([0] + [c + 1 for c in cuts], cuts + [len(inside)])]
    each = [e for e in each if e]
    if len(each) == n:
        return each
    if len(each) == 2 and n > 2:
        more = parts_of(each[1], n - 1)
        return more and [each[0], *more]
    return None


def as_record(body, fields):
    """An answer's tuple as a record of the clauses' names."""
    depth, last = 0, 0
    for m in re.finditer(r"[(\[{]|[)\]}]|(?<=\s)in(?=[\s(])", body):
        if m.group(0) == "in":
            if depth == 0:
                last = m.end()
        else:
            depth += 1 if m.group(0) in "([{" else -1
    head, tail = body[:last], body[last:]
    each = parts_of(tail, len(fields))
    if not each:
        return None
    bare = lambda it: f"({it})" if re.match(r"λ|let ", it) else it
    return head + " record { " + "; ".join(f"{a} = {bare(b)}" for a, b in zip(fields, each)) + " }"


def turn_body(body, place, places, todo, first="c"):
    """An answer's body with each fact by its own name; `first` is the record of facts, at the place of the goal."""
    # a variable that stands for a place, or for what is found from a place along a path
    env = {first: (place, [])}
    places.start, places.guessed = place, []
    path = r"((?:\.(?:" + WORD + r"))*)"
    out, pos = [], 0

    def found(name, words):
        """The place from which the words are read, and the words that are left once it has been gone back to."""
        at, prefix = env[name]
        full = [*prefix, *(w for w in words.split(".") if w)]
        while full and full[0] == "before":
            full.pop(0)
            at = at and places.up(at)
        return at, full

    while True:
        known = "(" + "|".join(sorted(map(re.escape, env), key=len, reverse=True)) + ")"
        m = re.compile(r"(?<![^\s(){};,\[\]←])" + known + path + r"(?![^\s(){}.;,\[\]])").search(body, pos)
        if not m:
            out.append(body[pos:])
            break
        a = re.compile(r"let (" + WORD + r") = " + known + path + r" in(?=[\s(])").search(body, pos)
        if a and a.start() <= m.start() <= a.end():
            out.append(body[pos : a.start()])
            pos = a.end()
            at, full = found(a.group(2), a.group(3))
            env[a.group(1)] = (at, full)
            if full:
                new = places.resolve(at, full)
                if new is None:
                    todo.append(f"{a.group(0)}: not found")
                    new = ".".join(full)
                out.append(f"let {a.group(1)} = {first}.{new} in")
            else:
                while pos < len(body) and body[pos] in " \n":
                    pos += 1
            continue
        out.append(body[pos : m.start()])
        pos = m.end()
        name = m.group(1)
        at, full = found(name, m.group(2))
        if not full:
            if name != first or m.group(2):
                todo.append(f"{m.group(0)} stands alone")
            out.append(first)
            continue
        new, prefix = places.resolve(at, full), env[name][1]
        if new is None:
            todo.append(f"{m.group(0)}: no step of this name at {at}")
            out.append(m.group(0))
            continue
        if "TODO" in new:
            todo.append(f"{m.group(0)}: {new}")
        kept = prefix and prefix[0] != "before" and places.resolve(env[name][0], prefix)
        stands = kept and name != first and (new == kept or new.startswith(kept + "."))
        out.append(name + new[len(kept) :] if stands else f"{first}.{new}")
    if places.guessed:
        todo.append("by name alone: " + ", ".join(places.guessed))
    return re.sub(r"not-(?:true|false) _ (c\.\S*if-not)", r"\1", "".join(out))


def turn(crate, path, entry, where):
    text = open(where, encoding="utf-8").read()
    items = blocks(text)
    uses, heads, declared, main = [], [], [], None
    for item in items:
        lines = item.split("\n")
        code = [l for l in lines if not l.startswith("--")]
        comments = [l for l in lines if l.startswith("--")]
        if code and code[0].startswith("use "):
            uses += [l for l in code if l.strip()]
            heads += comments
            continue
        head = code[0] if code else ""
        if re.search(r"\bstatement M\b", item):
            main = "\n".join(code)
        else:
            declared.append((comments, "\n".join(code)))
    places = Places(entry)
    own = [n for n in SIGNATURES.get("::".join([crate, *path.split(".")]), ([], {"ensures": []}))[1]["ensures"] if n]
    needs = {}
    for i, (old, new) in enumerate(entry["needs"]):
        needs.setdefault(norm(old), (new, entry["asked_at"][i][0]))
    loops = {norm(o[0]): (o[1], vars_, entry["changed"][i]) for i, (o, vars_) in enumerate(entry["loops"])}
    body = main.split("=", 1)[1].strip()
    m = re.search(r"tie\.spec", body)
    if not m:
        raise ValueError("no tie.spec")
    rest = body[m.end() :]
    depth, end = 0, len(rest)
    for i, ch in enumerate(rest):
        depth += (ch in "([{") - (ch in ")]}")
        if depth < 0:
            end = i
            break
    args = split_args(rest[:end])
    while args and re.match(r"(invariant|decreases)", args[0]):
        args.pop(0)
    todo, invariants, answers, helpers = [], [], [], []
    done = set()
    for comments, code in declared:
        m = re.match(r"(?:(?:abbrev|pub) )*(" + WORD + r") : tie\.(invariant|decreases)-?(" + WORD + r")", code)
        if m:
            name, kind, loop = m.group(1), m.group(2), m.group(3)
            new, vars_, changed = loops[norm(loop)]
            lines = code.split("\n", 1)[1]
            first = re.match(r"(?:unfolding [^\n]*\n)?" + re.escape(name) + r" ([^=]*)=", lines)
            params = first.group(1).split()
            inv_body = lines[first.end() :].strip("\n")
            wanted = list(vars_) + [v for v, c in zip(vars_, changed) if c]
            sub = {}
            if len(params) != len(wanted):
                todo.append(f"invariant {name}: parameters {params}, wanted {wanted}")
            for k, (p, v) in enumerate(zip(params, wanted)):
                if p == "_":
                    continue
                initial = k < len(vars_) and changed[k]
                sub[p] = f"l.initial.{v}" if initial else f"l.{v}"
            inv_body = re.sub(WORD, lambda m: m.group(0), inv_body)
            inv_body = re.sub(
                r"(?<![^\s(){};,\[\]←])(" + "|".join(sorted(map(re.escape, sub), key=len, reverse=True)) + r")(?![^\s(){}.;,\[\]])",
                lambda m: sub[m.group(1)],
                inv_body,
            ) if sub else inv_body
            invariants.append((comments, f"abbrev pub {kind}-{new} : goal.{kind}-{new}\n{kind}-{new} l ={' ' if not inv_body.startswith(chr(10)) else ''}{inv_body.lstrip(' ')}"))
            continue
        m = re.match(r"(?:(?:abbrev|pub) )*(" + WORD + r") : tie\.Need-(" + WORD + r")", code)
        if m:
            name, need = m.group(1), norm(m.group(2))
            for word in ("overflow", "nonzero"):
                if need not in needs and need.startswith(word):
                    need = need[len(word) :]
            if need not in needs:
                todo.append(f"no goal {m.group(2)}")
                answers.append((comments, code + "\n-- TODO no goal of this name"))
                done.add(name)
                continue
            new, place = needs[need]
            rest_code = code.split("\n", 1)[1]
            unf = re.match(r"(unfolding [^\n]*)\n", rest_code)
            if unf:
                rest_code = rest_code[unf.end() :]
            h = re.match(re.escape(name) + r"((?: " + WORD + r")*) =", rest_code)
            binders = [b for b in h.group(1).split() if b != "κs"]
            b = turn_body(rest_code[h.end() :], place, places, todo, binders[0] if binders else "c")
            if re.search(r"κs", b):
                todo.append(f"{new}: κs is used")
            fields = entry["asked"].get(new) or (own if new.startswith("returns") and len(own) > 1 else None)
            if fields:
                b = as_record(b, fields) or b
            answers.append((comments, f"pub {new} : goal.{new}\n" + (unf.group(1) + "\n" if unf else "") + f"{new} {' '.join(binders)} ={b}"))
            done.add(name)
            continue
        helpers.append((comments, code))
        if re.search(r"\b(tie|lts|reads)\.", code):
            todo.append("a lemma over a place: " + code.split("\n")[0][:120])
    # the answers given in the list itself
    order = [n for n in entry["needs"]]
    if len(args) != len(order):
        rest_args = [a for a in args if not TRIVIAL.match(re.sub(r"^λ [^.]*\.\s*", "", strip_parens(a)))]
        unnamed = [a for a in rest_args if strip_parens(a) not in done]
        if unnamed:
            todo.append(f"{len(args)} answers for {len(order)} goals {[n[1] for n in order]}; placed by hand: " + " ;; ".join(unnamed))
            for a in unnamed:
                helpers.append(([], "-- TODO place this answer: " + a.replace("\n", "\n--   ")))
    else:
        for i, (a, (old, new)) in enumerate(zip(args, order)):
            s = strip_parens(a)
            if s in done:
                continue
            m = re.match(r"λ ([^.]*)\.\s*", s)
            if not m:
                helpers_named = [h for h in helpers if h[1].startswith(s + " ")]
                answers.append(([], f"pub {new} : goal.{new}\n{new} c = {s} c" + ("" if helpers_named else "\n-- TODO what is this")))
                continue
            binders = [b for b in m.group(1).split() if b != "κs"]
            b = s[m.end() :]
            if TRIVIAL.match(b.strip()):
                continue
            b = turn_body(b, entry["asked_at"][i][0], places, todo, binders[0])
            fields = entry["asked"].get(new) or (own if new.startswith("returns") and len(own) > 1 else None)
            if fields:
                b = (as_record(b, fields) or b).strip()
            answers.append(([], f"pub {new} : goal.{new}\n{new} {' '.join(binders)} =\n    {b}" if "\n" in b else f"pub {new} : goal.{new}\n{new} {' '.join(binders)} = {b}"))
    return heads, uses, helpers, invariants, answers, todo


def used(uses, text):
    out = []
    tokens = set(re.findall(r"[^\s(){}.;,@\"«»\[\]\\`]+", text))
    for line in uses:
        m = re.match(r"use ([^{]*)\.\{([^}]*)\}$", line.strip())
        if not m:
            if re.search(r" as (tie|reads|lts)$", line) or ".Statement" in line:
                continue
            out.append(line)
            continue
        if m.group(1).endswith(("Statement", ".Tie")) or m.group(1) == "Prim" and m.group(2) == "tt":
            continue
        names = [n.strip() for n in m.group(2).split(",")]
        keep = [n for n in names if (n.split(" as ")[-1].strip("◌") in tokens) or any(p and p in tokens for p in n.split(" as ")[-1].split("◌"))]
        if keep:
            out.append(f"use {m.group(1)}.{{{', '.join(keep)}}}")
    return out


def write(folder, name, crate, path, heads, uses, parts, goal):
    text = "\n\n".join(("\n".join(c) + "\n" if c else "") + code for c, code in parts)
    lines = used(uses, text)
    out = "\n".join(heads) + ("\n" if heads else "") + "\n".join(lines) + ("\n" if lines else "")
    out += f"use Rattle.{crate}.proofs.{path}.{goal} as goal\n\n" + text + "\n"
    with open(os.path.join(folder, name), "w", encoding="utf-8") as it:
        it.write(out)


def main(argv):
    crate, names = argv[0], json.load(open(argv[1], encoding="utf-8"))
    only = argv[2:]
    entries = {}
    for module, entry in names.items():
        if ".Lts" in module:
            entries[module.split(".", 1)[1].rsplit(".Lts", 1)[0]] = entry
    top = os.path.join("crates", crate, "proofs")
    for folder, dirs, files in os.walk(top):
        dirs.sort()
        if "Proof.antt" not in files:
            continue
        path = os.path.relpath(folder, top).replace(os.sep, ".")
        if only and path.split(".")[-1] not in only and path not in only:
            continue
        if path.split(".")[-1].startswith("+"):
            print(f"{crate} {path}: a cycle, by hand")
            continue
        if path not in entries:
            print(f"{crate} {path}: NO NAMES")
            continue
        where = os.path.join(folder, "Proof.antt")
        try:
            heads, uses, helpers, invariants, answers, todo = turn(crate, path, entries[path], where)
        except Exception as e:
            print(f"{crate} {path}: FAILED {type(e).__name__} {e}")
            continue
        for it in todo:
            print(f"{crate} {path}: {it}")
        if invariants:
            write(folder, "Invariants.antt", crate, path, heads if not answers else [], uses, invariants, "Given")
        if answers or [h for h in helpers]:
            write(folder, "Answers.antt", crate, path, heads, uses, helpers + answers, "Goals")
        os.remove(where)


main(sys.argv[1:])
