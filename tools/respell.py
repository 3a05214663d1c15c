#!/usr/bin/env python3
"""Respells the repository's own definitions and lemmas in snake case: a dash inside a name becomes an underscore.

usage: tools/respell.py [--check]     at the top of the repository, after the toolchain's own port script; a second run changes nothing

It collects every name that a file of specs/ or proofs/ declares (definitions, lemmas, record fields, constructors, labels of
records) and turns those with a dash wherever they stand as whole words: in .antt files outside quoted text, and in .rt files
outside strings and comments, where a dash without spaces around it stands in contracts alone. Names of goals, and of the steps that
answers read behind c., w. and l., are made by the toolchain and keep their dashes. A lemma that names the left side
of an equation keeps the dash between the two functions that it joins; KEPT says which.
--check writes nothing and says what would be turned, and which names would fall together.
"""
import collections
import os
import re
import sys

# lemmas whose dash joins two functions: the dash that stays is the one in the new spelling
KEPT = {
    "length-in-front": "length-in_front",
    "length-lines": "length-lines",
    "length-encoded": "length-encoded",
    "all-timed-set": "all_timed-set",
    "all-timed-written": "all_timed-written",
    "all-timed-fallen": "all_timed-fallen",
    "kept-replicate": "kept-replicate",
    "timed-stored": "timed-stored",
    "applied-between": "applied-between",
}
SIGNATURE = re.compile(r"^\s*(?:abbrev |unfoldable )?(?:pub )?([^\s(){}.;,@\"«»:=]+)((?:\s+[({][^:]*:[^)}]*[)}])*)\s:\s(.*)$")
WORD = re.compile(r'[^\s(){}.;,@"«»]+')
RUST = re.compile(r"""//[^\n]*|b?"(?:\\.|[^"\\])*"|b?'(?:\\.|[^'\\])'""")
QUOTED = re.compile(r'"(?:\\.|[^"\\\n])*"')
STEPS = re.compile(r"(?<![\w'.])(?:[cwl]|[cwl]'|goal)(?:\.[^\s(){}.;,@\"«»]+)*\.$")


def files(kind):
    for folder, dirs, names in os.walk("crates"):
        dirs[:] = sorted(d for d in dirs if d != "out")
        for name in sorted(names):
            if name.endswith(kind):
                yield os.path.join(folder, name)


def declared():
    found = collections.defaultdict(set)
    for path in files(".antt"):
        for line in open(path, encoding="utf-8"):
            if line.lstrip().startswith(("--", "use ", "let ", "λ")):
                continue
            m = SIGNATURE.match(line)
            if m and not re.match(r"\s*goal\.", m[3]):
                found[m[1]].add(path)
    return found


def turned(text, table, skip):
    out, at = [], 0
    for m in skip.finditer(text):
        out += [words(text, at, m.start(), table), m[0]]
        at = m.end()
    return "".join(out + [words(text, at, len(text), table)])


def words(text, begin, end, table):
    def one(m):
        if m[0] not in table or STEPS.search(text[max(0, begin + m.start() - 200) : begin + m.start()].split("\n")[-1]):
            return m[0]
        return table[m[0]]

    return WORD.sub(one, text[begin:end])


def main():
    found = declared()
    table = {n: KEPT.get(n, n.replace("-", "_")) for n in found if "-" in n and n not in KEPT.values()}
    fall = [n for n, m in table.items() if m != n and (m in found or sum(1 for k in table.values() if k == m) > 1)]
    for n in sorted(fall):
        print(f"falls together: {n} and {table[n]}")
    table = {n: m for n, m in table.items() if n != m}
    if fall:
        return 1
    print(f"{len(table)} names")
    count = 0
    for kind, skip in ((".antt", QUOTED), (".rt", RUST)):
        for path in files(kind):
            text = open(path, encoding="utf-8").read()
            new = turned(text, table, skip)
            if new != text:
                count += 1
                if "--check" not in sys.argv:
                    open(path, "w", encoding="utf-8").write(new)
    print(f"{count} files")
    return 0


if __name__ == "__main__":
    raise SystemExit(main())
