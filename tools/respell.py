#!/usr/bin/env python3
"""Brings the repository's own definitions and lemmas to snake case, once, right after the kit's port.py.

usage: python3 tools/respell.py      at the top of the repository

It turns a name of specs/ and proofs/ that has a capital inside a word (`xorInplace` to `xor_inplace`, `bytes-bitBlock` to
`bytes-bit_block`), a constant with a dash (`CHUNK-LEN` to `CHUNK_LEN`), and a lemma that would then have a definition's name (it
gets `_lem`). A dash that joins two names in a lemma stays, as in the kit's library. Only .antt files and the clauses of .rt files are
read: code, strings and other words of .rt files keep their names. Must-fail edits are brought over apart.
It prints each name that it turns, and each new name that a file had already.
"""

import collections
import os
import re

WORD = r"[^\s(){}.;,@\"«»:]+"
MARKS = r"((?:(?:pattern|unfoldable|abbrev|axiom|pub|record|data) +)*)"
DECL = re.compile(r"^" + MARKS + "(" + WORD + r")((?: \{[^{}\n]*\}| \([^()\n]*\))*) :(?: |$)", re.M)
# In a section or behind `where`.
INNER = re.compile(r"^ +" + MARKS + "(" + WORD + r")((?: \{[^{}\n]*\}| \([^()\n]*\))*) :(?: |$)", re.M)
FIELD = re.compile(r"^  (?:pub )(" + WORD + r") : ", re.M)
TOKEN = re.compile(r"\"(?:[^\"\\]|\\.)*\"|[^\s(){}.;,@\"«»\[\]]+")
# Lemmas that would fall together with a definition that their file speaks of.
BY_FILE = {
    "crates/share/specs/ShareLaws.antt": {"bit_at": "bit_at_lem"},
    "crates/plan/specs/PlanLaws.antt": {"pairs_len": "pairs_len_lem"},
    "crates/inputs/specs/OpeningLaws.antt": {"pairs_len": "pairs_len_lem"},
    "crates/blake3/specs/ByteLaws.antt": {"block_words": "block_words_lem"},
}
# A clause or a ghost item of a .rt file: from the word to the brace that closes it.
CLAUSE = re.compile(r"\b(?:requires|ensures)\*?\s*(?:\w+\s*)?\{|\bghost\s+(?:use\b|\w+\s*[:=]\s*\{|\w+\s*:\s*\{|\{)")


def texts(end):
    for folder, dirs, files in os.walk("crates"):
        dirs[:] = sorted(d for d in dirs if d != "out")
        for f in sorted(files):
            if f.endswith(end):
                yield os.path.join(folder, f)


def read(path):
    with open(path, encoding="utf-8") as f:
        return f.read()


def snake(name):
    # The kit's getD is get_or now.
    name = "-".join("get_or" if part == "getD" else part for part in name.split("-"))
    name = re.sub(r"([A-Z])(?=[A-Z][a-z])", r"\1_", name)
    return re.sub(r"(?<=[a-z0-9])_?[A-Z](?:(?=_)|(?![A-Z]))|(?<=_)[A-Z](?=[a-z])", lambda m: "_" * (not m[0].startswith("_") and name[m.start() - 1] != "_") + m[0].lower(), name)


def table():
    declared, fields = collections.defaultdict(set), set()
    for p in texts(".antt"):
        if p.endswith("/Proof.antt"):
            continue
        t = read(p)
        for m in DECL.finditer(t):
            declared[m[2]].add(p)
        for m in INNER.finditer(t):
            if re.search("[a-z0-9][A-Z]", m[2]) and not m[2][0].isupper():
                declared[m[2]].add(p)
        fields |= {m[1] for m in FIELD.finditer(t) if re.search("[a-z0-9][A-Z]", m[1])}
    turn = {}
    for n in declared:
        if re.fullmatch(r"[A-Z0-9]+(-[A-Z0-9]+)+", n):
            turn[n] = n.replace("-", "_")
        elif not n[0].isupper() and re.search("[a-z0-9][A-Z]", n):
            turn[n] = snake(n)
        elif "-" in n and re.search("[a-z0-9][A-Z]", n) and not n[0].isupper():
            turn[n] = snake(n)
    new = {turn.get(n, n) for n in declared}
    definitions = {n for n in new if "-" not in n}
    for n in declared:
        to = turn.get(n, n)
        if "-" in to and to.replace("-", "_") in definitions:
            turn[n] = to.replace("-", "_") + "_lem"
    taken = {turn.get(n, n) for n in declared}
    for f in sorted(fields):
        if f not in declared and snake(f) not in taken:
            turn[f] = snake(f)
    return turn, declared


def turned(text, turn):
    return TOKEN.sub(lambda m: m[0] if m[0].startswith('"') else turn.get(m[0], m[0]), text)


def in_clauses(text, turn):
    out, at = [], 0
    while True:
        m = CLAUSE.search(text, at)
        if not m:
            return "".join(out) + text[at:]
        out.append(text[at : m.start()])
        if "use" in m[0].split():
            end = text.index(";", m.start()) + 1
        else:
            end, depth = m.end(), 1
            while depth:
                depth += {"{": 1, "}": -1}.get(text[end], 0)
                end += 1
        out.append(turned(text[m.start() : end], turn))
        at = end


def main():
    for p, words in BY_FILE.items():
        t = read(p)
        with open(p, "w", encoding="utf-8") as f:
            f.write(turned(t, words))
    turn, declared = table()
    meet = collections.Counter(turn.get(n, n) for n in declared)
    for n, k in sorted(meet.items()):
        if k > 1:
            print("meet:", n, [o for o in declared if turn.get(o, o) == n])
    for old, to in sorted(turn.items()):
        print(old, to)
    for end in (".antt", ".rt"):
        for p in texts(end):
            t = read(p)
            words = set(TOKEN.findall(t))
            for old in sorted(words & set(turn)):
                if turn[old] in words:
                    print("look:", p, old, turn[old])
            new = turned(t, turn) if end == ".antt" else in_clauses(t, turn)
            if new != t:
                with open(p, "w", encoding="utf-8") as f:
                    f.write(new)


if __name__ == "__main__":
    main()
