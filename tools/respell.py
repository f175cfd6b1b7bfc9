#!/usr/bin/env python3
"""Spells this repository's own definitions and lemmas in snake case, and its own types in camel case.

usage: tools/respell.py [--list] FOLDER..

A name with dashes that the .antt files below the folders declare, or bind, turns its dashes into underscores; one
that begins with a capital is a type, and its words are joined by capitals. Names that Rattle makes (goals, steps,
invariants) and names of libraries stay. It goes by whole words, and leaves strings and prose alone; in comments it
turns what stands in backquotes. It stops, and writes nothing, where a new name is in use already.
--list prints the table and writes nothing."""
import os
import re
import sys

NAME = r"[^\s(){}.;,@\"«»:\[\]|`]+"
QUIET = re.compile(r'b?"(?:[^"\\]|\\.)*"|(?<![^\s(){}.;,@"«»])--[^\n]*|//[^\n]*', re.S)
DECLARED = re.compile(
    r"\s*(?:(?:abbrev|unfoldable|pub|record|data|mutual|module|axiom) +)*(" + NAME
    + r")((?: *[({][^(){}]*[)}])*) *:(?!:)\s*(.*)"
)
MADE = re.compile(r"(?:invariant|decreases|ghost|loop|returns|returns_in|overflow|bounds|slice|then|else)-")
# Labels of two records, or a type beside a module: no file reads both by the bare name.
APART = {
    "few-formulas", "few-joins", "few-rules", "field-count", "ranges-kept", "rule-count", "some-fields",
}
OWN_NOT = ("std", "core", "std_alloc", "std_collections", "std_heap", "std_io", "io", "libc", "os")
# Where the plain spelling is taken or names a word that has another name today.
CHOSEN = {
    "at-getD": "at_get_or",
    "in-getD": "in_get_or",
    "line-end": "end_of_line",
    "line-number": "number_of_line",
    "line-start": "start_of_line",
    "sign-class": "class_of_sign",
    "word-class": "class_of_word",
    "entries-hold": "entries_hold_lem",
    "every-sheet-keeps": "every_sheet_keeps_lem",
    "lines-differ": "lines_differ_lem",
    "one-verdict": "one_verdict_lem",
    "well-read": "well_read_lem",
    "Well-read": "EverySheetWellRead",
}


def texts(folders, ending):
    for folder in folders:
        for where, dirs, files in os.walk(folder):
            dirs[:] = sorted(d for d in dirs if d not in ("out", "target", ".git"))
            for it in sorted(files):
                if it.endswith(ending):
                    yield os.path.join(where, it)


def read(path):
    with open(path, encoding="utf-8") as f:
        return f.read()


def bare(text):
    return QUIET.sub(lambda m: '""' if '"' in m[0][:2] else "", text)


def own_path(path):
    steps = path.split(".")
    return steps[0] == "Rattle" and len(steps) > 1 and steps[1] not in OWN_NOT and not ("proofs" in steps and steps[-2:-1] + steps[-1:] and steps[-1].strip(".") in ("Goals", "Given"))


def names(folders):
    """The names with dashes that the files declare, or use with no import from a library."""
    found = set()
    for path in texts(folders, ".antt"):
        text = bare(read(path))
        made = set()
        for line in text.split("\n"):
            m = DECLARED.match(line)
            if not m:
                continue
            (made if m[3].startswith("goal.") or MADE.match(m[1]) else found).add(m[1])
        lent = set()
        for from_, items in re.findall(r"^use ([^\s{]+)\{([^}]*)\}", text, re.M):
            if not own_path(from_):
                lent.update(re.findall(NAME, items))
            found.update(alias for alias in re.findall(r"\bas (" + NAME + ")", items))
        body = re.sub(r"^use [^\n]*$", "", text, flags=re.M)
        for m in re.finditer(r"(?<![^\s(){};,@\"«»\[|])(" + NAME + ")", body):
            it = m[1]
            if it not in lent and it not in made and re.match(r"\w", it) and not MADE.match(it):
                found.add(it)
    return {it for it in found if re.fullmatch(r"\w[\w'₀-₉]*(?:-\w[\w'₀-₉]*)+", it) and not MADE.match(it)}


def respelled(name):
    if name in CHOSEN:
        return CHOSEN[name]
    if name[0].isupper():
        return "".join(it[0].upper() + it[1:] for it in name.split("-"))
    return name.replace("-", "_")


def table(folders):
    return {it: respelled(it) for it in sorted(names(folders))}


def lent_to(text):
    """The names that a file brings in from a library: they stay there."""
    found = set()
    for from_, items in re.findall(r"^(?:ghost )?use ([^\s{]+)\{([^}]*)\}", bare(text), re.M):
        if not own_path(from_):
            found.update(re.findall(NAME, items))
    return found


def clashes(folders, rows):
    """The new names that a file has already where it has the old one, or that two old names share."""
    met, bad = {}, []
    for old, new in rows.items():
        if new in met:
            bad.append(f"{old} and {met[new]} would both be {new}")
        met[new] = old
    used = {}
    for path in list(texts(folders, ".antt")) + list(texts(folders, ".rt")):
        for it in set(re.findall(NAME, bare(read(path)))):
            used.setdefault(it, set()).add(path)
    for old, new in rows.items():
        for path in sorted(used.get(old, set()) & used.get(new, set())) if old not in APART else ():
            bad.append(f"{path}: {old} would meet {new}")
    for old, new in rows.items():
        declared = {p for p in used.get(new, ()) if re.search(r"(?m)^\s*(?:(?:abbrev|unfoldable|pub|record|data) +)*" + re.escape(new) + r" .*?:", bare(read(p)))}
        if declared and not any(x.endswith(f"meet {new}") for x in bad):
            bad.append(f"note: {new} ({old}) is declared in {sorted(declared)[:2]}")
    return bad


def turn(text, rows):
    word = re.compile(r"(?<![^\s(){}.;,@\"«»\[\]|`])(" + NAME + ")")

    def code(part):
        return word.sub(lambda m: rows.get(m[1], m[1]), part)

    out, at = [], 0
    for m in QUIET.finditer(text):
        out.append(code(text[at:m.start()]))
        quiet = m[0]
        if '"' not in quiet[:2]:
            quiet = re.sub(r"`[^`\n]*`", lambda s: code(s[0]), quiet)
        out.append(quiet)
        at = m.end()
    out.append(code(text[at:]))
    return "".join(out)


def main(args):
    folders = [it for it in args if it != "--list"] or ["crates"]
    rows = table(folders)
    bad = clashes(folders, rows)
    for it in bad:
        print(it)
    if "--list" in args:
        for old, new in rows.items():
            print(f"{old}\t{new}")
        return 0
    if any(not it.startswith("note:") for it in bad):
        return 1
    count = 0
    for path in list(texts(folders, ".antt")) + list(texts(folders, ".rt")):
        text = read(path)
        lent = lent_to(text)
        new = turn(text, {old: it for old, it in rows.items() if old not in lent})
        if new != text:
            count += 1
            with open(path, "w", encoding="utf-8") as f:
                f.write(new)
    print(f"{len(rows)} names, {count} files")
    return 0


if __name__ == "__main__":
    raise SystemExit(main(sys.argv[1:]))
