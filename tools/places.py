#!/usr/bin/env python3
"""Lists the places in src/ that docs/DESIGN-PASS.md counts, point by point: `tools/places.py` of the files as they are, `tools/places.py COMMIT` of a commit.
It goes by the text alone, so it lists candidates; which of them are places is said in the page. With -c it prints the counts only."""
import re
import subprocess
import sys

ARGS = [a for a in sys.argv[1:] if a != "-c"]
COUNTS = "-c" in sys.argv[1:]


def files():
    """The source files: name and text."""
    run = lambda *c: subprocess.run(c, capture_output=True, text=True, check=True).stdout
    if ARGS:
        names = run("git", "ls-tree", "-r", "--name-only", ARGS[0]).split()
        return [(n, run("git", "show", f"{ARGS[0]}:{n}")) for n in names if re.fullmatch(r"crates/[^/]+/src/.*\.rt", n)]
    names = run("git", "ls-files", "crates/*/src/*.rt").split()
    return [(n, open(n, encoding="utf-8").read()) for n in names]


def lines(pattern):
    """The lines of code, without comments, that match."""
    found = []
    for name, text in SOURCES:
        for number, line in enumerate(text.split("\n"), 1):
            if not line.lstrip().startswith("//") and re.search(pattern, line):
                found.append(f"{name}:{number}: {line.strip()}")
    return found


def functions():
    """Each function: where it stands, its name, its parameters."""
    for name, text in SOURCES:
        for m in re.finditer(r"^ *(?:pub )?(?:extern \"C\" )?fn (\w+)(?:<[^(]*>)?\(([^{]*?)\)(?: ->|\n| \{)", text, re.M):
            parts = [p for p in re.split(r",(?![^<\[(]*[>\])])", m[2]) if ":" in p or "self" in p]
            yield name, text[: m.start()].count("\n") + 1, m[1], parts


def wide():
    """The functions with more than seven parameters."""
    return [f"{f}:{n}: {name} has {len(p)} parameters" for f, n, name, p in functions() if 7 < len(p)]


def clauses(word):
    """The clauses that say a fact by its word."""
    return lines(rf"(requires|ensures).*\b{word}\b")


SOURCES = files()
POINTS = [
    ("1 enums", lines(r"^ *(pub )?enum ")),
    ("1 structs, of which some are a flag with a value", lines(r"^ *(pub )?struct ")),
    ("1 numbers for kinds", lines(r"\b(kind(_of\([^)]*\))?|k) [!=]= \d|\bkind: u32")),
    ("2 pairs of functions of one name or one body: read the list", [f"{f}:{n}: {name}" for f, n, name, _ in functions()]),
    ("3 while and loop", lines(r"^\s*('\w+: )?(while|loop)\b")),
    ("4 least and greatest by hand", lines(r"if (\w|\.|\(|\))+ < (\w|\.|\(|\))+ \{ .* \} else \{ .* \}|fn (smaller|larger)\b")),
    ("4 conversions and printing by hand", lines(r"fn (child_of|word_of|edge_word|wide|print_refusal|print_number)\b")),
    ("5 functions of more than seven parameters", wide()),
    ("5 clauses with Lent", clauses("Lent")),
    ("5 clauses with RecordsFit", clauses("RecordsFit")),
    ("5 clauses with Sorted", clauses("Sorted")),
    ("6 lists with a length beside", lines(r"table: &.*count: usize|^ *count: usize,|^ *n: usize,")),
    ("7 parameters that say which step to run", lines(r"form: Form|(gap|comment|number|phase): Phase,")),
]
for title, found in POINTS:
    print(f"{title}: {len(found)}")
    if not COUNTS:
        print("".join(f"    {x}\n" for x in found), end="")
