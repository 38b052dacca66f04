#!/usr/bin/env python3
"""Brings this repository's own definitions and lemmas to the spelling of today's Rattle: words in snake case, a dash only between two names.

usage: tools/respell.py [ROOT]      after port.py, once and never twice, at the top of a checkout that has the older spelling

respell.tsv, beside this script, has each name and what it becomes. Names of src/, exported C names and strings stay. A lemma that would have
its definition's name, or one that the same file uses, ends in _lem (IN_PART, by the crates whose proofs say it). specs/Contracts.antt becomes
specs/Promises.antt, since Rattle makes a module `contracts` of its own. The choice by a test, if◌then◌else◌, becomes when◌then◌else◌: the library
has an operator of that name, which binds otherwise, and a crate may define none under it.
"""
import os
import re
import sys

HERE = os.path.dirname(os.path.realpath(__file__))
TOKEN = re.compile(r"[^\s(){}.,;\[\]`\"«»@:]+")
STRING = re.compile(r'"(?:[^"\\]|\\.)*"')
CODE = re.compile(r"`[^`\n]+`")
IN_PART = {
    "goes_on": ("crates/permit/proofs/", "crates/retirer/proofs/"),
    "block_size": ("crates/placer/proofs/PoolLaws.antt",),
    "kept_from": ("crates/keeping/proofs/", "crates/calendar/proofs/"),
    "marked_from": ("crates/runs/proofs/",),
    "pair_fits": ("crates/runs/proofs/", "crates/pairs/proofs/count_changes/"),
    "slot_ok": ("crates/claims/proofs/",),
    "name_in": ("crates/claims/proofs/", "crates/holdings/proofs/", "crates/granter/proofs/"),
}


def table():
    with open(os.path.join(HERE, "respell.tsv"), encoding="utf-8") as f:
        return dict(line.rstrip("\n").split("\t") for line in f)


def respell(text, names, part):
    def one(m):
        word = m.group(0)
        tight = m.start() > 0 and text[m.start() - 1] == "."
        if word in part and not tight:
            return word + "_lem"
        return names.get(word, word)

    return TOKEN.sub(one, text)


def choice(text, is_code):
    """The choice by a test in antt: in a .rt file it stands in clauses alone, where a `then` follows."""
    out = []
    for line in text.split("\n"):
        code, dashes, said = line.partition("//" if is_code else "--")
        if not is_code or " then " in code or "if◌then◌else◌" in code:
            code = re.sub(r"(?<![^\s(){}.,;\[\]])if(?=\s|◌then◌else◌)", "when", code)
        out.append(code + dashes + said)
    return "\n".join(out)


def outside_strings(text, turn):
    out, at = [], 0
    for m in STRING.finditer(text):
        out += [turn(text[at : m.start()]), m.group(0)]
        at = m.end()
    return "".join(out + [turn(text[at:])])


def files(root):
    for folder, dirs, found in os.walk(root):
        dirs[:] = sorted(d for d in dirs if d not in ("out", ".git", "target"))
        yield from (os.path.join(folder, f) for f in sorted(found) if f.endswith((".antt", ".rt", ".md")))


def main(root):
    names, changed = table(), 0
    for path in files(root):
        rel = os.path.relpath(path, root)
        with open(path, encoding="utf-8") as f:
            old = f.read()
        part = {n for n, places in IN_PART.items() if rel.startswith(places)}
        if path.endswith(".antt"):
            new = respell(old, names, part)
        elif path.endswith(".rt"):
            new = outside_strings(old, lambda t: respell(t, names, set()))
        else:
            new = CODE.sub(lambda m: respell(m.group(0), names, set()), old)
        if path.endswith((".antt", ".rt")):
            new = re.sub(r"\bspecs\.Contracts\b", "specs.Promises", new)
            new = new.replace("Contracts.antt", "Promises.antt")
        if path.endswith("specs/Lib.antt"):
            new = re.sub(r"\bmod Contracts\b", "mod Promises", new)
        if not path.endswith(".md"):
            new = choice(new, path.endswith(".rt"))
        if new != old:
            changed += 1
            with open(path, "w", encoding="utf-8") as f:
                f.write(new)
        if path.endswith("specs/Contracts.antt"):
            os.rename(path, path[: -len("Contracts.antt")] + "Promises.antt")
    print(f"respell: {len(names)} names, {changed} files changed")


if __name__ == "__main__":
    main(sys.argv[1] if len(sys.argv) > 1 else ".")
