#!/usr/bin/env python3
"""Brings this repository's own definitions and lemmas to snake case, once, after the toolchain's port.py.

usage: python3 tools/respell.py [--check]      at the top of the repository

A name of specs/ or proofs/ that begins in lower case is spelled with '_' in place of '-' and of a capital within, as 'zoneAt' to 'zone_at' and
'list-in' to 'list_in'. It turns whole words: of specs/ and proofs/, of the clauses of src/, of must-fail edits, and of code spans in documents.
Names that the toolchain makes (behind 'tie.', and what answers them) stay. TOLD_APART has the names that would fall together with another.
"""

import collections
import os
import re
import sys
import tempfile

WORD = re.compile(r'[^\s(){}.;,@"«»⌜⌝`]+')
DECLARED = re.compile(
    r"^ *(?:(?:pub|abbrev|unfoldable) )*(?:(?:data|record|ruleset) )?"
    r"(?P<name>[^\s(){}.;,@\"«»:]+)(?: \{[^{}\n]*\})*(?: \([^()\n]*\))*(?: :(?: |$)|(?= =))(?P<type>.*)"
)
NO_NAME = ("let", "in", "use", "module", "|", "--", "where", "elim", "rw", "record")

# Names that would read alike: the lemma or the field beside the definition.
TOLD_APART = {
    "row-of": "row_of_lem",
    "start-limit": "start_limit_lem",
    "table-of": "table_of_lem",
    "case-of": "case_of_lem",
    "is-time": "is_time_lem",
    "times-of": "times_of_lem",
    "table-full": "is_table_full",
    "most-size": "most_size_lem",
    "repeats-at": "repeats_at_lem",
    "next-time": "next_time_lem",
    "entry-bits": "entry_bits_lem",
    "slot-at": "slot_at_lem",
    "in-parts": "in_parts_lem",
    "settled-former": "settled_former_lem",
    "search-former": "search_former_lem",
    "entries-of": "entries_of_lem",
    "bytes-of": "bytes_of_lem",
    "first-common": "first_common_lem",
    "metBy": "met_by_cycle",
    "list-in": "list_in_lem",
    "keptNext": "kept_after",
    "marks-lost": "marks_lost_lem",
    "field-bits": "field_bits_lem",
    "case-bits": "case_bits_lem",
    "parts-of": "parts_of_lem",
    "start-in": "start_in_lem",
    "pattern-size": "pattern_size_lem",
    "zone-size": "zone_size_lem",
    "same-time": "same_time_lem",
    "rowRoom": "room_of_row",
    "part-of": "part_of_lem",
    "times-in": "times_in_lem",
    "rowsEnd": "end_of_rows",
    "moved-search": "moved_search_lem",
    "numberRead": "read_number",
    "seenSize": "size_seen",
    "columns-from": "columns_from_lem",
    "with-column": "with_column_lem",
    "zone-of": "zone_of_lem",
    "table-in": "table_in_lem",
    "row-time": "row_time_lem",
    "of-halves": "of_halves_lem",
}

# Where port.py leaves what it respelled itself, for the texts that it does not turn.
SAID = os.path.join(tempfile.gettempdir(), "port-said", "upgrade.txt")


def snake(name):
    name = re.sub(r"(?<=[a-z0-9])[A-Z]", lambda m: "_" + m[0].lower(), name)
    return re.sub(r"(?<=\w)-(?=\w)", "_", name)


def files(ending, *tops):
    for top in tops:
        for folder, dirs, names in os.walk(top):
            dirs[:] = sorted(d for d in dirs if d not in ("out", "target", ".git"))
            for name in sorted(names):
                if name.endswith(ending):
                    yield os.path.join(folder, name)


def read(path):
    with open(path, encoding="utf-8") as f:
        return f.read()


def declared():
    """The names that specs/ and proofs/ declare, but those that answer a need of the toolchain's."""
    found, answers = collections.defaultdict(set), set()
    for path in files(".antt", "crates"):
        for line in read(path).splitlines():
            m = DECLARED.match(line)
            if not m or m["name"] in NO_NAME:
                continue
            if m["type"].lstrip().startswith("tie."):
                answers.add(m["name"])
            else:
                found[m["name"]].add(path)
    return found, answers


def table():
    found, answers = declared()
    turned = {}
    for name in found:
        if name[0].isupper() or name in answers and not name.endswith("-spec"):
            continue
        new = TOLD_APART.get(name, snake(name))
        if new != name:
            turned[name] = new
    spelled = collections.defaultdict(set)
    for name in found:
        spelled[turned.get(name, name)].add(name)
    clash = {k: sorted(v) for k, v in spelled.items() if len(v) > 1}
    return turned, clash


def words(text, turned, after_tie=False):
    def one(m):
        if text[max(0, m.start() - 4) : m.start()] == "tie.":
            return m[0]
        return turned.get(m[0], m[0])

    return WORD.sub(one, text)


def comment(text, turned):
    """In a comment a name within backticks turns, and a word with a capital within."""
    camel = {k: v for k, v in turned.items() if "-" not in k}
    parts = re.split(r"(`[^`\n]*`)", text)
    return "".join(words(p, turned if p.startswith("`") else camel) for p in parts)


def antt(text, turned):
    lines = []
    for line in text.split("\n"):
        m = re.search(r"(?:^|(?<=\s))--(?=\s|-|$)", line)
        code, rest = (line[: m.start()], line[m.start() :]) if m else (line, "")
        lines.append(words(code, turned) + comment(rest, turned))
    return "\n".join(lines)


def rt(text, turned):
    lines = []
    for line in text.split("\n"):
        parts = re.split(r'("(?:[^"\\]|\\.)*"|//.*$)', line)
        lines.append("".join(p if p.startswith('"') else comment(p, turned) if p.startswith("//") else words(p, turned) for p in parts))
    return "\n".join(lines)


def edit(text, turned):
    def one(line):
        return antt(line, turned) if line.startswith(("old:", "new:")) else line

    return "\n".join(one(line) for line in text.split("\n"))


def document(text, turned):
    parts = re.split(r"(```.*?```|`[^`\n]*`)", text, flags=re.S)
    return "".join(words(p, turned) if p.startswith("`") and not p.startswith("```") else p for p in parts)


def earlier():
    """The names that port.py turned, as it listed them."""
    if not os.path.exists(SAID):
        return {}
    rows = {}
    for line in read(SAID).splitlines():
        if "these names of yours are in snake case now: " in line:
            names = line.split("snake case now: ")[1].split(". Your other")[0]
            rows.update((n, snake(n)) for n in names.split(", "))
    return rows


def main():
    turned, clash = table()
    print(f"{len(turned)} names; fall together: {clash}")
    if "--check" in sys.argv:
        return
    older = {**earlier(), **turned}
    jobs = [(p, antt, turned) for p in files(".antt", "crates")]
    jobs += [(p, rt, turned) for p in files(".rt", "crates")]
    jobs += [(p, edit, older) for p in files(".edit", "crates")]
    jobs += [(p, document, older) for p in [*files(".md", "docs", "bench", "cases", "crates"), "README.md"]]
    for path, turn, names in jobs:
        text = read(path)
        new = turn(text, names)
        if new != text:
            with open(path, "w", encoding="utf-8") as f:
                f.write(new)


if __name__ == "__main__":
    main()
