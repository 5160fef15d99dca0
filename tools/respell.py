#!/usr/bin/env python3
"""Spells the definitions and lemmas of this repository in snake case, once, right after the kit's port.py.

usage: python3 tools/respell.py        at the top of the repository

A name that is declared in specs/ or in a lemma file of proofs/ and begins with a small letter is turned: `wordCount` to `word_count`, `words-admit` to
`words_admit`. A dash stays where it joins a name of several words to what is said of it, as in `clause_words-length`. It turns whole words, in .antt files, in
clauses, comments and ghost items of .rt files, and in must-fail edits; strings and names of the code stay. Where a definition and a lemma would fall together the lemma's name gets `_lem`; what would meet a name of the library is printed and stays.
"""
import os
import re
import sys

PART = r"[^\s(){}\[\].;,:@\"«»`|=]"
WORD = re.compile(PART + "+")
DECLARED = re.compile(r"^\s*(?:(?:abbrev|unfoldable|opaque|pub) )*((?:" + PART + r"+ )*" + PART + r"+)\s+(?:\([^()]*(?:\([^()]*\)[^()]*)*\) |\{[^{}]*\} )*: ")
USE = re.compile(r"^\s*(?:pub |ghost )*use ([^\s{;]+?)(?:\.\{([^}]*)\})?(?: as \S+)?;?\s*$")


def files(top, *endings):
    for folder, dirs, names in os.walk(top):
        dirs[:] = sorted(d for d in dirs if d not in ("out", "target", ".git"))
        yield from (os.path.join(folder, n) for n in sorted(names) if n.endswith(endings))


def read(path):
    with open(path, encoding="utf-8") as f:
        return f.read()


def snake(name):
    joined = re.search(r"[a-z0-9][A-Z]", name) and "-" in name
    turned = re.sub(r"(?<=[a-z0-9])[A-Z]", lambda m: "_" + m[0], name)
    turned = re.sub(r"(?<![A-Za-z])[A-Z](?![A-Za-z])|(?<=_)[A-Z]", lambda m: m[0].lower(), turned)
    return turned if joined else turned.replace("-", "_")


def names(crates):
    """The names that the repository declares, and those that it takes from a library."""
    own, lent = set(), set()
    folders = {c for c in os.listdir(crates)}
    for path in files(crates, ".antt", ".rt"):
        for line in read(path).splitlines():
            used = USE.match(line)
            if used:
                parts = used[1].split(".")
                if not (parts[0] == "Rattle" and len(parts) > 1 and parts[1] in folders):
                    lent.update(it.strip().split(" as ")[0] for it in (used[2] or "").split(",") if it.strip())
                continue
            if path.endswith("Proof.antt") or path.endswith(".rt") or line.lstrip().startswith(("--", "mod ", "pub mod ")):
                continue
            found = DECLARED.match(line)
            if found and "=" not in found[1] and "→" not in found[1]:
                own.update(found[1].split())
    return own, lent


def table(crates):
    """The new spelling of each name. Where a definition and a lemma would meet, the lemma gets `_lem`."""
    own, lent = names(crates)
    olds = [n for n in own - lent if n[0].islower() and re.search(r"[a-z0-9][A-Z]|-", n) and not n.endswith("-")]
    turns = {}
    for name in sorted(olds, key=lambda n: ("-" in n, n)):
        new = snake(name)
        if new in turns.values() or ("-" in name and new in own):
            new += "_lem"
        elif new in own:
            turns[new] = new + "_lem"
        if new in lent or new in turns.values():
            print(f"falls together: {name} and {new}")
            continue
        turns[name] = new
    return turns


QUOTED = re.compile(r'"(?:[^"\\\n]|\\.)*"')


def turned(text, turns, path):
    def word(m):
        # a name in snake case is also one of the code's functions, and part of the paths to its proof
        if m[0] in turns and re.fullmatch(r"[a-z0-9_]+", m[0]) and (path.endswith(".rt") or m.string[: m.start()].endswith(".")):
            return m[0]
        return turns.get(m[0], m[0])

    out, at = [], 0
    for q in QUOTED.finditer(text):
        out += [WORD.sub(word, text[at : q.start()]), q[0]]
        at = q.end()
    return "".join(out) + WORD.sub(word, text[at:])


def main():
    turns = table("crates")
    changed = 0
    for path in files("crates", ".antt", ".rt", ".edit"):
        text = read(path)
        new = turned(text, turns, path)
        if new != text:
            changed += 1
            if "--check" not in sys.argv:
                with open(path, "w", encoding="utf-8") as f:
                    f.write(new)
    print(f"{len(turns)} names turned, in {changed} files")


if __name__ == "__main__":
    main()
