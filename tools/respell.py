#!/usr/bin/env python3
"""Respells the repository's own definitions and lemmas: types and facts in upper camel case, all else in snake case.

usage: python3 tools/respell.py        at the top of the repository, once

It renames what specs/ and proofs/ define with a dash in its name: definitions, lemmas, record fields. The names that
Rattle makes (goals, steps of a proof, clauses) and those of src/ keep their spelling. It prints each name and its new one,
and stops, with nothing written, where two names would fall together.
"""

import os
import re
import sys

WORD = r"[^\s(){}\[\].,;:|`\"]"
BINDER = re.compile(rf"^( *)((?:(?:pub|abbrev|unfoldable|record|data|ruleset) )*)({WORD}+)((?: [^:\n]*?)?) :(?: |$)", re.M)
ANSWERS = ("Answers.antt", "Invariants.antt", "Proof.antt")


def files(ending):
    for folder, dirs, names in os.walk("crates"):
        dirs[:] = sorted(d for d in dirs if d not in ("out", "must-fail"))
        for name in sorted(names):
            if name.endswith(ending):
                yield os.path.join(folder, name)


def read(path):
    with open(path, encoding="utf-8") as f:
        return f.read()


# names that would read as a variant or a type of src/
APART = {
    "Bad-interface": "HasBadInterface",
    "Destination-astray": "IsDestinationAstray",
    "No-such": "NamesNoSuch",
    "Source-astray": "IsSourceAstray",
    "Too-short": "IsTooShort",
}


def new_name(name):
    if name in APART:
        return APART[name]
    if name[0].isupper():
        return "".join(w[:1].upper() + w[1:] for w in re.split("[-_]", name))
    return name.replace("-", "_").replace("getD", "get_or")


def defined():
    """The names with a dash that the crates define, and all names that they define."""
    dashed, known = set(), set()
    for path in files(".antt"):
        answers = os.path.basename(path) in ANSWERS
        text = read(path)
        for m in BINDER.finditer(text):
            name, after = m.group(3), text[m.end():m.end() + 5]
            if name in ("let", "|", "in", "--") or name.startswith("λ") or (answers and after.startswith("goal.")):
                continue
            known.add(name)
            if "-" in name and name[0].isalpha():
                dashed.add(name)
    return dashed, known


def fields():
    """The fields of the records that the crates define."""
    found = set()
    for path in files(".antt"):
        inside = None
        for line in read(path).split("\n"):
            m = re.match(r"( *)pub record ", line)
            if m:
                inside = len(m.group(1))
                continue
            m = re.match(rf"( *)pub ({WORD}+) :", line)
            if inside is not None and line.strip() and len(line) - len(line.lstrip()) <= inside:
                inside = None
            if inside is not None and m:
                found.add(m.group(2))
    return found


def turned(text, names, comment, answers, members):
    """The text with the names replaced outside comments and strings; in an answer, behind a dot only a field."""
    longest = sorted(names, key=len, reverse=True)
    choice = "|".join(map(re.escape, longest))
    choice_of_fields = "|".join(re.escape(n) for n in longest if n in members) or "(?!)"
    before = rf"(?<!{WORD})(?<!\.)(?:{choice})|(?<=\.)(?:{choice_of_fields})" if answers else rf"(?<!{WORD})(?:{choice})"
    word = re.compile(rf"({before})(?!{WORD})")
    out = []
    for line in text.split("\n"):
        code, mark, rest = line, "", ""
        at = re.search(rf"(?:^|\s){comment}(?:\s|$)", line)
        if at:
            code, rest = line[:at.start()], line[at.start():]
        if answers and re.match(r"\s*use Rattle\.", code):
            code = re.sub(r"(?<=[{ ,.])(" + "|".join(sorted(map(re.escape, names), key=len, reverse=True)) + r")(?=[},]| as |$)", lambda m: names[m.group(1)], code)
        else:
            parts = re.split(r'("[^"]*")', code)
            code = "".join(p if i % 2 else word.sub(lambda m: names[m.group(1)], p) for i, p in enumerate(parts))
        out.append(code + mark + rest)
    return "\n".join(out)


def main():
    dashed, known = defined()
    names = {n: new_name(n) for n in sorted(dashed)}
    members = fields()
    taken = {}
    clash = [f"{n} and {new} fall together" for n, new in names.items() if new in known]
    for n, new in names.items():
        if new in taken:
            clash.append(f"{n} and {taken[new]} both become {new}")
        taken[new] = n
    if clash and "--clash" not in sys.argv:
        print("\n".join(clash))
        return 1
    for path in list(files(".antt")) + list(files(".rt")):
        text = read(path)
        new = turned(text, names, "//" if path.endswith(".rt") else "--", os.path.basename(path) in ANSWERS, members)
        if new != text:
            with open(path, "w", encoding="utf-8") as f:
                f.write(new)
    for n, new in names.items():
        print(f"{n} {new}")
    return 0


if __name__ == "__main__":
    sys.exit(main())
