#!/usr/bin/env python3
"""Turns this repository's own definitions and lemmas to snake case: each name declared in specs/ or in a lemma file of proofs/ that joins
words with a dash, and each local name of a proof that does, is written with an underscore in its place. Names that the toolchain makes, behind `c.`, `g.`, `l.` and `goal.`,
and names of the library stay. Run once, at the top: tools/respell.py [--check]"""
import collections
import os
import re
import sys

WORD = r"[^\s(){}\[\].;,@\"«»|]+"
DECLARED = re.compile(r"(?m)^\s*(?:(?:pub|abbrev|unfoldable|record|data|opaque)\s+)*(" + WORD + r")(?=\s*(?::\s|\s[({].*:\s|\s*$))")
PATTERN = re.compile(r"(?:\blet |\bin let |[({]|λ )\s*((?:" + WORD + r"\s+)*?" + WORD + r") :\s")
BOUND = re.compile(r"λ ([^.()]+)\.")


def files(ending):
    for folder, subs, names in os.walk("crates"):
        subs[:] = sorted(s for s in subs if s != "out")
        for name in sorted(names):
            if name.endswith(ending):
                yield os.path.join(folder, name)


def bare(text):
    return re.sub(r'"(?:[^"\\\n]|\\.)*"|(?<!\S)--[^\n]*', " ", text)


def is_answer(path):
    return os.path.basename(path) in ("Answers.antt", "Invariants.antt", "Proof.antt")


def fields():
    """The fields of this repository's own records."""
    found = set()
    for path in files(".antt"):
        inside = False
        for line in bare(open(path, encoding="utf-8").read()).splitlines():
            if re.match(r"\s*(?:pub )?record\b", line):
                inside = True
            elif re.match(r"\S", line):
                inside = False
            m = re.match(r"\s+(?:pub )?(" + WORD + r") :\s", line)
            if inside and m and "-" in m.group(1):
                found.add(m.group(1))
    return found


def own_names():
    own, local = collections.defaultdict(set), collections.defaultdict(set)
    for path in files(".antt"):
        text = bare(open(path, encoding="utf-8").read())
        for m in DECLARED.finditer(text):
            name = m.group(1)
            rest = text[m.end() : m.end() + 12]
            if "-" in name.strip("-") and re.match(r"[a-zA-Z]", name):
                if is_answer(path) and re.match(r"\s*:\s*goal\.", rest):
                    continue
                own[name].add(path)
        for m in list(PATTERN.finditer(text)) + list(BOUND.finditer(text)):
            for name in m.group(1).split():
                if "-" in name.strip("-") and re.match(r"[a-zA-Z]+[-a-zA-Z0-9']*$", name):
                    local[path].add(name)
    return own, local


def spelled(name):
    name = re.sub(r"([a-z])([A-Z])(?=[a-z])", lambda m: m.group(1) + "_" + m.group(2).lower(), name)
    return name.replace("-", "_")


def turned(text, table, known, made_behind):
    def one(m):
        word = m.group(0)
        if word not in table:
            return word
        before = text[: m.start()]
        if before.endswith(".") and made_behind:
            head = re.search(r"((?:" + WORD + r"\.)+)$", before)
            if not head or re.match(r"(?:c|g|l|goal|need)\.", head.group(1)):
                return word
            if not re.match(r"Rattle\.", head.group(1)) and word not in known:
                return word
        return table[word]

    return re.sub(WORD, one, text)


def code_parts(text, ending):
    """(piece, is code) of a file: comments turn only in their code spans."""
    mark = "--" if ending == ".antt" else "//"
    pattern = r'"(?:[^"\\\n]|\\.)*"|(?<!\S)' + mark + r"[^\n]*"
    at = 0
    for m in re.finditer(pattern, text):
        yield text[at : m.start()], True
        yield m.group(0), False
        at = m.end()
    yield text[at:], True


def main():
    check = "--check" in sys.argv
    own, local = own_names()
    known = fields()
    table = {n: spelled(n) for n in own}
    for path in list(files(".antt")) + list(files(".rt")):
        ending = os.path.splitext(path)[1]
        text = open(path, encoding="utf-8").read()
        here = dict(table)
        here.update({n: spelled(n) for n in local.get(path, ())})
        for m in re.finditer(r"use Rattle\.std\.[^{;]*\{([^}]*)\}", text):
            for item in m.group(1).split(","):
                here.pop(item.split(" as ")[0].strip(), None)
        plain = set(re.findall(WORD, bare(text)))
        for old, new in here.items():
            if old in plain and new in plain:
                print(f"falls together: {path}: {old} and {new}")
        parts = []
        if ending == ".antt":
            for piece, is_code in code_parts(text, ending):
                parts.append(turned(piece, here, known, True) if is_code else re.sub(r"`([^`]+)`", lambda m: "`" + turned(m.group(1), here, known, False) + "`", piece))
        else:
            for piece, is_code in code_parts(text, ending):
                parts.append(turned(piece, here, known, False) if is_code else re.sub(r"`([^`]+)`", lambda m: "`" + turned(m.group(1), here, known, False) + "`", piece))
        new_text = "".join(parts)
        if new_text != text and not check:
            open(path, "w", encoding="utf-8").write(new_text)
    if check:
        for n in sorted(own):
            print(n, "->", table[n])


main()
