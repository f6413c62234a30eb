#!/usr/bin/env python3
"""Counts the places that docs/DESIGN-PASS.md speaks of, point by point: tools/places.py [ROOT] [POINT]; with a point it lists them.

1 own enums, types made of a number, functions that answer 0 or a refusal's number, flags beside a value, numbers +1 with 0 for none
2 twins: bodies that are the same but for names and literals
3 loops with `while` and `loop`
4 functions that compare, copy, convert or write by hand
5 `requires` clauses that stand three times or more, and three parameters that stand together in three functions or more
6 arrays in structs, and a slice with a count beside it
7 a `match` on literal numbers, and parameters of type bool
8 answers that are one call of a tactic with no lemma of the crate
"""
import collections
import glob
import os
import re
import sys

ROOT = sys.argv[1] if len(sys.argv) > 1 else "."
FN = re.compile(r'^( *)((?:pub(?:\([a-z]+\))? |const |unsafe |extern "C" )*)fn (\w+)')


def sources():
    """The lines of each file of src/, by its path below crates/."""
    for path in sorted(glob.glob(f"{ROOT}/crates/*/src/**/*.rt", recursive=True)):
        with open(path, encoding="utf-8") as file:
            yield os.path.relpath(path, f"{ROOT}/crates"), file.read().split("\n")


def functions():
    """Each function: its file, line, name, the text of its parameters, of its clauses, and of its body."""
    for path, lines in sources():
        at = 0
        while at < len(lines):
            found = FN.match(lines[at])
            if not found:
                at += 1
                continue
            begin, end = at, at
            while not lines[end].endswith("{") or re.match(r"\s+(requires|ensures)", lines[end]) and not lines[end].endswith(" {"):
                end += 1
                if end == len(lines) or lines[end] == found[1] + "{":
                    break
            head = "\n".join(lines[begin:end + 1])
            close = end
            while close < len(lines) and lines[close] != found[1] + "}":
                close += 1
            clauses = re.split(r"(?m)^\s+(?=requires|ensures)", head)
            yield path, begin + 1, found[3], clauses[0], clauses[1:], "\n".join(lines[end + 1:close])
            at = max(close, begin + 1)


def lines_that(pattern):
    return [f"{path}:{number}: {line.strip()}" for path, lines in sources() for number, line in enumerate(lines, 1) if re.search(pattern, line)]


def point_1():
    yield "own enums", lines_that(r"^\s*(pub )?enum ")
    yield "types made of a number", lines_that(r"^\s*(pub )?struct \w+\((pub )?(u\d+|usize)\);")
    yield "answers 0 or a refusal", [
        f"{path}:{line}: {name}"
        for path, line, name, head, _, body in functions()
        if re.search(r"-> (u32|usize)\s*$|-> (u32|usize)\n", head + "\n") and re.search(r"Refusal::|fault|judge", body + name)
    ]
    yield "flags beside values", lines_that(r"^\s+pub \w+: bool,$")
    yield "+1, or 0 for none", lines_that(r"//.*\+1\b")


def point_2():
    groups = collections.defaultdict(list)
    for path, line, name, _, _, body in functions():
        if body.count("\n") < 3:
            continue
        shape = re.sub(r"//.*", "", body)
        shape = re.sub(r"\b(?!let\b|mut\b|if\b|else\b|while\b|for\b|in\b|return\b|match\b|as\b|true\b|false\b)\w+(::\w+)*", "x", shape)
        groups[re.sub(r"\s+", " ", shape)].append(f"{path}:{line}: {name}")
    yield "in groups of twins", [" = ".join(it) for it in groups.values() if len(it) > 1]


def point_3():
    yield "while and loop", lines_that(r"^\s*('\w+: )?(while|loop)\b")


def point_4():
    names = r"^(same|equal|eq|cmp|compare|less|earlier|flag|low|copy|clone|from|to|put|write)(_\w+)?$"
    yield "by hand", [f"{path}:{line}: {name}" for path, line, name, _, _, _ in functions() if re.match(names, name)]


def point_5():
    clauses, groups = collections.defaultdict(list), collections.defaultdict(list)
    for path, line, name, head, said, _ in functions():
        where = f"{path}:{line}: {name}"
        for clause in said:
            if clause.startswith("requires"):
                for part in re.sub(r"\s+", " ", clause[clause.index("{") + 1:clause.rindex("}")]).split("×"):
                    clauses[part.strip().strip("()")].append(where)
        params = re.findall(r"(\w+: [^,()]+?)\s*(?=,|\))", head[head.find("(") + 1:])
        for first in range(len(params) - 2):
            groups[", ".join(params[first:first + 3])].append(where)
    for title, table in (("clauses three times or more", clauses), ("three parameters together", groups)):
        yield title, [f"{len(at)} times: {text}" for text, at in sorted(table.items(), key=lambda it: -len(it[1])) if len(at) > 2]


def point_6():
    yield "arrays in structs", lines_that(r"^\s+(pub )?\w+: \[\w+; [\w:]+\],$")
    yield "slice with a count", [
        f"{path}:{line}: {name}"
        for path, line, name, head, _, _ in functions()
        if re.search(r"(\w+): &(mut )?\[[^\]]+\],\s*(n|count|len|steps|size)\w*: usize", head)
    ]


def point_7():
    yield "match on numbers", lines_that(r"^\s+\d+ => ")
    yield "bool parameters", [f"{path}:{line}: {name}" for path, line, name, head, _, _ in functions() if re.search(r"\w+: bool\b", head)]


def point_8():
    found = []
    trivial = r"(omega arith|omega \(arith(, c\.[\w.\-]+)*\)|refl|tt|cc|search rules|\(omega arith(, (omega arith|refl|tt))*\)|record \{ fits = omega arith \})"
    for path in sorted(glob.glob(f"{ROOT}/crates/*/proofs/**/Answers.antt", recursive=True)):
        with open(path, encoding="utf-8") as file:
            for name in re.findall(rf"(?m)^([\w\-+]+) (?:t )?c =\s+{trivial}\n(?=\n|\Z)", file.read() + "\n"):
                found.append(f"{os.path.relpath(path, f'{ROOT}/crates')}: {name[0]}")
    yield "answers by a tactic alone", found


for number in range(1, 9):
    if len(sys.argv) > 2 and sys.argv[2] != str(number):
        continue
    for title, found in globals()[f"point_{number}"]():
        print(f"{number} {title}: {len(found)}")
        if len(sys.argv) > 2:
            print("".join(f"    {it}\n" for it in found), end="")
