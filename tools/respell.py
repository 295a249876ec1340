#!/usr/bin/env python3
"""Brings this repository's own definitions and lemmas to the library's spelling: words in snake case, types in camel case.

usage: python3 tools/respell.py        once, at the top of the repository, after the toolchain's port.py

A capital inside a word becomes an underscore and a small letter. A dash stays behind the name of a definition, since it joins two names
there (`length-codes`), and becomes an underscore elsewhere (`below_kind`). Where two names would fall together, the lemma gets `_lem`.
Names from src/, names that the check makes, strings, inputs and outputs stay as they are.
"""
import collections
import os
import re

WORD = r"[^\s(){}\[\],;:.\"`←→]+"
DECLARED = re.compile(rf"^( *)((?:(?:pub|abbrev|unfoldable) )*)({WORD}) :(?: |$)", re.M)
RULESET = re.compile(rf"^(?:pub )?ruleset ({WORD}) =", re.M)
TOKEN = re.compile(WORD)
HEADS = {"length", "drop", "take", "set", "sets", "get_or", "suc", "beq", "replicate"}
STD = {"getD": "get_or"}
VARIABLES = {"jobWords": "job_words", "glueWith": "glue_with"}
FIELDS = {"has-target": "target_there"}


def files():
    for folder, dirs, names in os.walk("crates"):
        dirs[:] = sorted(d for d in dirs if d != "out")
        for name in sorted(names):
            yield os.path.join(folder, name)


def part(path):
    p = path.split("/")
    return "spec" if p[2] == "specs" else "lemma" if p[2] == "proofs" and len(p) == 4 else "proof"


def snake(word):
    if word in STD:
        return STD[word]
    return re.sub(r"(?<=[a-z0-9])([A-Z])", lambda m: "_" + m[1].lower(), word) if word[:1].islower() else word


def declared():
    where = collections.defaultdict(set)
    fields, parts_of_records = set(), set()
    for path in files():
        if path.endswith(".antt"):
            text = open(path).read()
            for m in DECLARED.finditer(text):
                where[m[3]].add(part(path))
                if m[1] and part(path) != "proof":
                    fields.add(m[3])
                    if part(path) == "spec":
                        parts_of_records.add(m[3])
            for m in RULESET.finditer(text):
                where[m[1]].add(part(path))
    return where, fields, parts_of_records


def respelt(name, heads):
    if "◌" in name:
        return "◌".join(respelt(p, heads) if p else p for p in name.split("◌"))
    parts = [snake(p) for p in name.split("-")]
    for n in range(len(parts) - 1, 0, -1):
        head = "_".join(parts[:n])
        if head in heads:
            return head + "-" + "_".join(parts[n:])
    return "_".join(parts)


def table():
    where, fields, parts_of_records = declared()
    own = {n for n, parts in where.items() if parts & {"spec", "lemma"} and not re.match(r"(NOT|[A-Z])", n)}
    heads = HEADS | {snake(n) for n in own if "spec" in where[n] and "-" not in n and n not in fields}
    new = {n: respelt(n, heads) for n in own}
    taken = collections.defaultdict(list)
    for n in sorted(where):
        taken[new.get(n, n)].append(n)
    for name, olds in taken.items():
        if len(olds) > 1:
            for n in sorted(olds, key=lambda n: ("spec" not in where[n], "-" in n))[1:]:
                if n in new:
                    new[n] = name + "_lem"
                    print(f"falls together: {' '.join(olds)}: {n} becomes {new[n]}")
    turned = {a: b for a, b in new.items() if a != b}
    plain = {n: respelt(n, heads) for n in parts_of_records if n in turned} | FIELDS
    turned |= VARIABLES
    for a in list(turned):
        for p, q in zip(a.split("◌"), turned[a].split("◌")):
            if "◌" in a and p and p != q:
                turned.setdefault(p, q)
    return turned, fields, plain


def turn(text, new, fields, plain, local, steps=()):
    def one(m):
        word = m[0]
        if word not in new or word in local:
            return word
        if text[m.start() - 1] == "." and word.replace("-", "_") in steps:
            return word
        behind = text[m.end():m.end() + 3]
        start = text.rfind("\n", 0, m.start()) + 1
        indented = text[start:start + 1] == " "
        if word in plain and (text[m.start() - 1] == "." or indented and re.match(" [=:]($|[ \\n])", behind)):
            return plain[word]
        before = text[:m.start()]
        if before.endswith("."):
            owner = re.search(r"([^\s(){}\[\],;:.]+)\.$", before)
            module = owner and owner[1][:1].isupper()
            if not module and word not in fields and not re.search("[a-z][A-Z]", word):
                return word
        return new[word]
    return TOKEN.sub(one, text)


def functions():
    return {m[1] for path in files() if path.endswith(".rt") for m in re.finditer(r"\bfn (\w+)", open(path).read())}


def clauses(text, new, fields, plain):
    """In a source file only clauses and lines of imports are turned."""
    out, i = [], 0
    for m in re.finditer(r"\b(?:requires|ensures)\b[^{\n]*\{|^ghost use [^;]*;", text, re.M):
        if m.start() < i:
            continue
        end = m.end()
        if m[0].endswith("{"):
            deep = 1
            while deep:
                deep += (text[end] == "{") - (text[end] == "}")
                end += 1
        out += [text[i:m.start()], turn(text[m.start():end], new, fields, plain, set())]
        i = end
    return "".join(out) + text[i:]


def main():
    new, fields, plain = table()
    known = set(new.values())
    steps = functions()
    for path in files():
        if not path.endswith((".antt", ".rt")):
            continue
        text = open(path).read()
        if path.endswith(".rt"):
            for m in re.finditer(r"\b([a-z]\w*):", text):
                if m[1] in known:
                    print(f"look: {path}: {m[1]} is a name of the source too")
            turned = clauses(text, new, fields, plain)
        else:
            local = {m[3] for m in DECLARED.finditer(text)} if part(path) == "proof" else set()
            turned = turn(text, new, fields, plain, local, steps if part(path) == "proof" else ())
        if turned != text:
            open(path, "w").write(turned)
    print(f"{len(new)} names turned")


main()
