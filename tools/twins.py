#!/usr/bin/env python3
"""Lists the twins among the functions of the crates: those whose bodies differ only in names and literals, or hardly differ.

usage: python3 tools/twins.py [CRATE..]       at the top of the repository

Two bodies are the same if they agree once each name and literal is numbered by where it first stands. They are near if of their tokens, all names
alike, more than NEAR agree. Clauses, ghost items and comments are left out, and so is a body of fewer than LEAST tokens. A group's parts, one
above the other, are near, and the functions of a part are the same.
"""
import collections
import difflib
import glob
import re
import sys

LEAST, NEAR = 30, 0.9
TOKEN = re.compile(r"""//[^\n]*|"(?:\\.|[^"\\])*"|'(?:\\.|[^'\\])'|'\w+|\w+|[-=]>|::|\.\.=?|&&|\|\||[-<>=!+*/%&|^]=|\S""")
KEYWORDS = set("as break const continue else enum false fn for if impl in let loop match move mut pub ref return self Self struct trait true".split())
CLAUSES = {"requires", "ensures", "ghost"}


def tokens(text):
    """Each token with its line."""
    line, at = 1, 0
    for m in TOKEN.finditer(text):
        line += text.count("\n", at, m.start())
        at = m.start()
        if not m[0].startswith("//"):
            yield m[0], line


def closed(pairs, i):
    """The place after the bracket that closes the first one from i on."""
    depth = 0
    while True:
        depth += {"{": 1, "}": -1}.get(pairs[i][0], 0)
        if pairs[i][0] == "}" and not depth:
            return i + 1
        i += 1


def code(path):
    pairs, i = list(tokens(open(path, encoding="utf-8").read())), 0
    while i < len(pairs):
        if pairs[i][0] in CLAUSES:
            i = closed(pairs, i)
        else:
            yield pairs[i]
            i += 1


def functions(path):
    pairs = list(code(path))
    for i, (word, line) in enumerate(pairs[:-1]):
        start = next((k for k in range(i, len(pairs)) if pairs[k][0] in "{;"), None)
        if word == "fn" and start is not None and pairs[start][0] == "{":
            body = [w for w, _ in pairs[start : closed(pairs, start)]]
            if len(body) >= LEAST:
                yield f"{path}:{line} {pairs[i + 1][0]}", body


def is_name(word):
    return word not in KEYWORDS and (word[0].isalnum() or word[0] in "_\"'")


def numbered(body):
    seen = {}
    return tuple(f"#{seen.setdefault(w, len(seen))}" if is_name(w) else w for w in body)


def are_near(a, b):
    a, b = ([w[:1] if w[1:].isdigit() else w for w in body] for body in (a, b))
    match = difflib.SequenceMatcher(None, a, b, autojunk=False)
    return match.real_quick_ratio() > NEAR and match.quick_ratio() > NEAR and match.ratio() > NEAR


def main():
    same = collections.defaultdict(list)
    for crate in sys.argv[1:] or ["*"]:
        for path in sorted(glob.glob(f"crates/{crate}/src/**/*.rt", recursive=True)):
            for name, body in functions(path):
                same[numbered(body)].append(name)
    groups = []
    for body in same:
        near = [g for g in groups if any(are_near(body, other) for other in g)]
        groups = [g for g in groups if g not in near] + [sum(near, []) + [body]]
    for group in groups:
        if sum(len(same[body]) for body in group) > 1:
            print("near" if len(group) > 1 else "same", f"({len(group[0])} tokens)")
            print("\n    ~\n".join("\n".join("    " + name for name in same[body]) for body in group))


if __name__ == "__main__":
    main()
