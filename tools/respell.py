#!/usr/bin/env python3
"""Spells the names that this repository's antt texts declare in snake case, as the toolchain's library does.

usage: tools/respell.py [FOLDER]     FOLDER has crates/; this one where none is given

`verdictOf` becomes `verdict_of` and `pieces-sound` becomes `pieces_sound`. A dash stays before
an operator, as in `neg-≤`, and behind a type. Names that the prover makes stay, and so do functions of src/, strings and
files of other kinds. A second run changes nothing. Names that would fall together in one file are told, and a lemma gets
`_lem`, another name a prime. Run once, right after the toolchain's own port.py.
"""
import collections
import glob
import os
import re
import sys

STOP = r"\s(){}.;,@\"«»:"
WORD = re.compile(rf"[^{STOP}]+")
CODE = re.compile(r"(?m)(?:^|(?<=\s))--(?= |$).*$")
HEAD = re.compile(rf"\s*(?:(?:abbrev|unfoldable|pub|opaque)\s+)*(?:(record|data|ruleset|module|constructor)\s+)?([^{STOP}]+)")
TYPED = re.compile(rf"\s*(?:(?:abbrev|unfoldable|pub|opaque)\s+)*([^{STOP}]+)((?:\s+\{{[^{{}}]*\}}|\s+\([^()]*\))*)\s+:(\s|$)")
GOAL = re.compile(rf"(?m)^\s*(?:(?:abbrev|unfoldable|pub)\s+)*([^{STOP}]+) : tie\.")
OPERATOR = re.compile(r"^[^\w'].*|^[ℤℕ].*")


def texts(top):
    for pattern in ("crates/*/specs/*.antt", "crates/*/proofs/**/*.antt"):
        yield from sorted(glob.glob(os.path.join(top, pattern), recursive=True))


def declared(text):
    """Each name that a text declares, with a word for how: at the top, as a goal's answer, or bound inside."""
    text = CODE.sub("", text)
    goals = set(GOAL.findall(text))
    for line in text.split("\n"):
        head = HEAD.match(line)
        if head and head.group(1):
            yield head.group(2), "top"
            continue
        typed = TYPED.match(line)
        if typed and typed.group(1) not in ("use", "let", "in", "where", "λ"):
            yield typed.group(1), "goal" if typed.group(1) in goals else "top" if line[:1].strip() else "inner"
    for found in re.finditer(rf"\b(?:as|let) ([^{STOP}]+)", text):
        yield found.group(1), "inner"
    for found in re.finditer(rf"[(λ{{,] ?((?:[^{STOP}]+ )+):|λ ([^.:()]+)\.", text):
        for word in (found.group(1) or found.group(2)).split():
            yield word, "inner"


def camel_turned(name):
    return re.sub(r"(?<=[a-z0-9])[A-Z]+", lambda m: "_" + m[0].lower(), name)


def turned(name):
    """The name in snake case. A dash stays before an operator and behind a type."""
    parts = [it if it[:1].isupper() else camel_turned(it) for it in name.split("-")]
    if len(parts) == 1:
        return parts[0]
    out = parts[0]
    for before, part in zip(parts, parts[1:]):
        joined = "-" if OPERATOR.match(part) or before[:1].isupper() and before[:1].isascii() else "_"
        out += joined + part
    return out


def main(top):
    kinds, files = collections.defaultdict(set), collections.defaultdict(set)
    read = {path: open(path, encoding="utf-8").read() for path in texts(top)}
    for path, text in read.items():
        for name, kind in declared(text):
            kinds[name].add(kind)
            files[name].add(path)
    rough = [n for n in kinds if kinds[n] != {"goal"} and ("-" in n.strip("-") or not n[:1].isupper() and camel_turned(n) != n)]
    rough = [n for n in rough if n[0] not in "-+" or not n[1:2].isalpha()]
    words = {path: set(WORD.findall(re.sub(r"\buse [^\s{]+", "", CODE.sub("", text)))) for path, text in read.items()}
    spread = collections.defaultdict(set)  # the files that have a word; walks of code aside, whose words are the prover's
    for path, found in words.items():
        for word in found if not path.endswith("/Proof.antt") else ():
            spread[word].add(path)
    in_specs = {n for n in kinds if "top" in kinds[n] and any("/specs/" in p for p in files[n])}
    table, taken = {}, collections.defaultdict(set)
    for name in sorted(rough, key=lambda n: (n not in in_specs, n)):
        new = turned(name)
        while any(spread[name] & spread[other] for other in {new} | taken[new] if other != name):
            ending = "_lem" if "top" in kinds[name] and not new.endswith("_lem") else "'"
            print(f"together: {name} and {new}: {new + ending}")
            new += ending
        table[name] = new
        taken[new].add(name)
    changed = 0
    for path in [*read, *sorted(glob.glob(os.path.join(top, "crates/*/src/**/*.rt"), recursive=True))]:
        text = open(path, encoding="utf-8").read()
        new = respelled(text, table, path)
        if new != text:
            open(path, "w", encoding="utf-8").write(new)
            changed += 1
    print(f"{len(table)} names, {changed} files")


def respelled(text, table, path):
    goals = set(GOAL.findall(text)) if path.endswith("/Proof.antt") else set()
    comment = re.compile(r"(?:^|(?<=\s))(?:--(?= |$)|//).*$", re.M)

    def word(m):
        return m[0] if m[0] in goals else table.get(m[0], m[0])

    def code(part):
        if path.endswith(".rt"):  # only a clause or a ghost item has such names
            return WORD.sub(lambda m: word(m) if "-" not in m[0] or "◌" in part else m[0], part)
        return WORD.sub(word, part)

    def said(part):
        part = re.sub(r"`[^`\n]*`", lambda m: re.sub(rf"[^{STOP}`]+", word, m[0]), part)
        return re.sub(rf"[^{STOP}`]+", lambda m: m[0] if "-" in m[0] else word(m), part)

    out, at = [], 0
    for found in comment.finditer(text):
        out += [code(text[at : found.start()]), said(found[0])]
        at = found.end()
    return "".join(out) + code(text[at:])


if __name__ == "__main__":
    main(sys.argv[1] if len(sys.argv) > 1 else os.path.join(os.path.dirname(os.path.realpath(__file__)), ".."))
