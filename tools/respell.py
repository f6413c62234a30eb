#!/usr/bin/env python3
"""Spells the definitions and lemmas of this repository in snake case, as in import_at for importAt and found_route for found-route.

usage: python3 tools/respell.py [--check]       at the top of the repository, after a port.py of the toolchain, with everything committed

It collects what the files of specs/ and proofs/ declare (a function's Proof.antt aside), and turns each name with a capital inside or a dash, in
.antt files, in the clauses and ghost items of .rt files, and in nothing else. Types and modules keep their capital. A name of the source that
stands in a clause is never turned. It says which names fall together, and turns nothing where some do. A second run changes nothing.
"""
import collections
import glob
import re
import sys

TOKEN = re.compile(r'[^\s(){}\[\].;,@"«»]+')
DECLARED = re.compile(r'(?m)^( *)((?:(?:pub|abbrev|unfoldable|data|record|ruleset) +)*)([^\s(){}.;,@"«»:|]+(?: [^\s(){}.;,@"«»:|=]+)*?)((?: [({][^{}\n]*[)}])*) *:(?=\s)')
RULESET = re.compile(r'(?m)^(?:pub )?ruleset (?:pub )?(\S+) =')
CONTRACT = re.compile(r'(?:requires|ensures)\*?(?: \w+)? \{|ghost(?: \w+)?(?::)? \{|ghost use ')
# A word that is not the end of a path or a field, nor the head of one.
ALONE = re.compile(r'(?<![^\s(){}\[\];,@"«»])[^\s(){}\[\].;,@"«»]+(?!\.\S)')
# A field of a record beside a word of its name: they never meet.
FIELDS = {"crate_root"}
# Names of a section that would meet a definition.
LOCAL = {
    "crates/nameable/proofs/Private.antt": {"both_hold": "both_hold_lem"},
    "crates/find_path_spec/proofs/laws/Sim.antt": {"go_on": "goes_on"},
}
USE = re.compile(r"(?m)^ *(?:pub )?use (Rattle\.[^\s{]+)\.\{([^}]*)\}")


def plain(name):
    if not name[:1].islower():
        head = re.match(r"[A-Z]\w*", name)
        if not head or "-" not in name:
            return name
        rest = name[head.end() :]
        return head[0] + snake(rest)
    return snake(name)


def snake(name):
    name = name.replace("getD", "get_or")
    name = re.sub(r"(?<=[a-z0-9])([A-Z]+)", lambda m: "_" + m[1].lower(), name)
    return name.replace("-", "_")


def files(kind):
    out = []
    for part in ("specs", "proofs") if kind == "antt" else ("src",):
        out += glob.glob(f"crates/*/{part}/**/*.{kind}", recursive=True)
    return sorted(p for p in out if "/out/" not in p)


def declared(text):
    for m in DECLARED.finditer(text):
        for name in m[3].split():
            yield name
    yield from RULESET.findall(text)


def clause_spans(text):
    """The parts of a .rt file that are clauses, ghost blocks or ghost use items."""
    for m in CONTRACT.finditer(text):
        if m[0].startswith("ghost use"):
            yield m.start(), text.index(";", m.end())
            continue
        depth, i = 1, m.end()
        while depth:
            depth += {"{": 1, "}": -1}.get(text[i], 0)
            i += 1
        yield m.end(), i - 1


def turn(text, table):
    return TOKEN.sub(lambda m: table.get(m[0], m[0]), text)


def turn_rt(text, table):
    out, at = [], 0
    for a, b in clause_spans(text):
        if a < at:
            continue
        out += [text[at:a], turn(text[a:b], table)]
        at = b
    return "".join(out) + text[at:]


def module_of(path):
    parts = re.sub(r"\.antt$", "", path).split("/")[1:]
    return ".".join(["Rattle", *parts])


def main(argv):
    where = collections.defaultdict(set)
    for p in files("antt"):
        if not p.endswith("/Proof.antt"):
            for n in declared(open(p, encoding="utf-8").read()):
                where[n].add(p)
    table = {n: plain(n) for n in where}
    back = collections.defaultdict(set)
    for n, m in table.items():
        back[m].add(n)
    # A lemma that would have the name of a definition, or of another lemma that has it already, ends in _lem.
    lemmas = {}
    for m, ns in back.items():
        if len(ns) < 2:
            continue
        for n in ns:
            if "-" in n:
                table[n] = m + "_lem"
            elif n == m and all("/proofs/" in p for p in where[n]):
                lemmas[n] = m + "_lem"
    table = {n: m for n, m in table.items() if n != m}
    bad = 0
    turned = {}
    for p in files("antt") + files("rt"):
        text = open(p, encoding="utf-8").read()
        own = dict(table)
        brought = {n: module for module, ns in USE.findall(text) for n in re.split(r"[\s,]+", ns)}
        for n, m in lemmas.items():
            if p in where[n] or any(brought.get(n) == module_of(q) for q in where[n]):
                own[n] = m
        own.update(LOCAL.get(p, {}))
        if p.endswith(".rt"):
            parts = "\n".join(text[a:b] for a, b in clause_spans(text))
            parameters = set(re.findall(r"\b(\w+): ", text))
        else:
            parts, parameters = re.sub(r"--[^\n]*", "", text), set()
        tokens = set(ALONE.findall(parts))
        seen = collections.defaultdict(set)
        for t in tokens:
            seen[own.get(t, t)].add(t)
        for m, ts in seen.items():
            if len(ts) > 1 and m not in FIELDS:
                print(f"together: {p}: {' '.join(sorted(ts))}")
                bad += 1
        for t in tokens & set(own):
            if own[t] in parameters:
                print(f"parameter: {p}: {t} -> {own[t]}")
        turned[p] = turn_rt(text, own) if p.endswith(".rt") else turn(text, own)
    print(len(table) + len(lemmas), "names;", bad, "fall together")
    if argv or bad:
        return bool(bad)
    for p, new in turned.items():
        with open(p, "w", encoding="utf-8") as f:
            f.write(new)
    return 0


if __name__ == "__main__":
    raise SystemExit(main(sys.argv[1:]))
