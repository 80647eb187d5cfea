#!/usr/bin/env python3
"""Counts the places of docs/DESIGN-PASS.md in a checkout: tools/design_count.py [FOLDER] [--list]."""
import glob
import os
import re
import sys
from collections import defaultdict

args = [a for a in sys.argv[1:] if a != "--list"]
root = args[0] if args else "."
listing = "--list" in sys.argv
sources = sorted(glob.glob(os.path.join(root, "crates/*/src/*.rt")))
found = defaultdict(list)


def note(point, path, line, text):
    found[point].append(f"{os.path.relpath(path, root)}:{line}: {text.strip()}")


LINES = [
    ("1 enums", r"^\s*(pub(\(crate\))? )?enum "),
    ("1 flags beside a value", r"^\s+(pub )?[a-z_]+: (bool|Judged|Verdict|Finding|Next),"),
    ("1 numbers for kinds", r"(-> (u8|u32)$|^\) -> u32$|const [A-Z]+: u8 =|\b(what|key|kind|work|code): u8)"),
    ("3 loops with while", r"^\s*(.[a-z]+: )?(while|loop) "),
    ("3 loops with for over a range", r"^\s*(.[a-z]+: )?for .* in .*\.\."),
    ("3 loops with for over items", r"^\s*(.[a-z]+: )?for (?!.* in .*\.\.)"),
    ("4 methods of order, sum and conversion", r"fn (less|at_most|plus|minus|negated|of|magnitude|widened|in_seconds|unmarked|equal|same|same_times)\("),
    ("4 copies by a loop of their own", r"fn (store|copy|copy_down|put_set|put_front|to_front|first_times|clear|plain_times|start_times)\("),
    ("4 printing by hand", r"fn (put_\w+|write_\w+|signed|refused|times|number|seconds|byte|word)\(.*(out|at)"),
    ("6 a buffer and a place in it", r"\bat: usize\b"),
    ("7 switches on a code", r"match (key|what|code|kind|work)\b"),
]
names = defaultdict(set)
for path in sources:
    text = open(path).read()
    for number, line in enumerate(text.split("\n"), 1):
        if line.lstrip().startswith("//"):
            continue
        for point, pattern in LINES:
            if re.search(pattern, line):
                note(point, path, number, line)
    for m in re.finditer(r"fn (\w+)(<[^>]*>)?\(([^)]*)\)", text):
        number = text[: m.start()].count("\n") + 1
        names[m.group(1)].add((path, number))
        parameters = [p for p in m.group(3).split(",") if p.strip()]
        if len(parameters) >= 6:
            note("5 functions of six parameters or more", path, number, f"{m.group(1)} {len(parameters)}")
for name, places in sorted(names.items()):
    if name != "main" and len({p.split("/")[-3] for p, _ in places}) > 1:
        for path, number in sorted(places):
            note("2 functions of one name in several crates", path, number, name)
proofs = glob.glob(os.path.join(root, "crates/*/proofs/**/*.antt"), recursive=True)
found["8 walks of the code by hand"] = [os.path.relpath(p, root) for p in proofs if p.endswith("/Proof.antt")]
for point in sorted(found):
    print(f"{point}: {len(found[point])}")
    if listing:
        for place in found[point]:
            print(f"    {place}")
print(f"lines of code: {sum(len(open(p).read().splitlines()) for p in sources)}")
print(f"lines of proof: {sum(len(open(p).read().splitlines()) for p in proofs)}")
