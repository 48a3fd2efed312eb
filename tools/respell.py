#!/usr/bin/env python3
"""Spells this repository's own definitions, lemmas and fields as today's Rattle does: words in snake case.

usage: respell.py [--check] (at the top of the repository, after port.py)

A name turns that a specs/ or proofs/ file declares in camel case with a small first letter, and so does one that specs/ declares with a dash.
It turns as a whole word, in .antt, in the clauses of .rt, and in must-fail edits. Names of src/ and strings are not touched.
--check writes nothing, and says which new spelling stands already for something else.
"""
import glob
import re
import sys

WORD = re.compile(r'[^\s(){}.;,@"«»\[\]`]+')
STRING = re.compile(r'"(?:[^"\\\n]|\\.)*"')
DECLARED = re.compile(r"(?m)^ *((?:(?:pub|abbrev|unfoldable|data|record) +)*)([^\s:(){}.;,=|]+)((?: +[^\s:(){}.;,=|]+)*)(?: +[({][^\n]*?)?\s*:\s")
# Names that a rule would spell wrong.
SPELLED = {"getD-from": "get_or-from", "getD-last": "get_or-last", "countFits": "count_in_limit"}
# Names of one file that a definition's new spelling would meet.
BEFORE = {
    "crates/promised/proofs/Meanings.antt": {"given_back": "given_back_world"},
    "crates/promised/proofs/Prices.antt": {"lines_at": "lines_at-is"},
    "crates/promised/proofs/Reports.antt": {"four_bytes": "four_bytes-is", "no_line": "no_line-is"},
    "crates/search/proofs/Refused.antt": {"given_back": "given_back_world"},
}


def texts(*kinds):
    return sorted(f for kind in kinds for f in glob.glob(f"crates/*/{kind}", recursive=True))


def read(path):
    with open(path, encoding="utf-8") as f:
        return f.read()


def code(text):
    return re.sub(r"--[^\n]*", "", text)


def in_snake_case(name):
    return re.sub(r"(?<=[a-z0-9])([A-Z])", lambda m: "_" + m[1].lower(), name)


def table():
    turned = {"inPhase": "in_phase"}
    for path in texts("specs/*.antt", "proofs/**/*.antt"):
        for marks, first, more in DECLARED.findall(code(read(path))):
            for name in [first, *more.split()]:
                if name[0].islower() and re.search("[a-z0-9][A-Z]", name):
                    turned[name] = SPELLED.get(name, in_snake_case(name))
                elif "/specs/" in path and name[0].islower() and "-" in name:
                    turned[name] = name.replace("-", "_")
    return turned


def turn(text, turned):
    def word(m):
        return turned.get(m[0], m[0])

    out, at = [], 0
    for quoted in STRING.finditer(text):
        out += [WORD.sub(word, text[at : quoted.start()]), quoted[0]]
        at = quoted.end()
    return "".join(out + [WORD.sub(word, text[at:])])


def main():
    turned = table()
    files = texts("specs/*.antt", "proofs/**/*.antt", "src/*.rt", "must-fail/*.edit")
    if "--check" in sys.argv:
        words = {}
        for path in files:
            for w in WORD.findall(code(read(path))):
                words.setdefault(w, set()).add(path)
        for old, new in sorted(turned.items()):
            if new in words:
                print(old, new, len(words[new]), sorted(words[new])[:3])
        for new in sorted(set(turned.values())):
            olds = [old for old in turned if turned[old] == new]
            if len(olds) > 1:
                print("together:", new, olds)
        print(len(turned))
        return
    for path in files:
        old = read(path)
        new = turn(turn(old, BEFORE.get(path, {})), turned)
        if new != old:
            with open(path, "w", encoding="utf-8") as f:
                f.write(new)


main()
