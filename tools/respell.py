#!/usr/bin/env python3
"""Brings the names that the definitions and laws of this repository declare to the spelling of today's Rattle.

usage: tools/respell.py [--list]

Run it at the top, behind port.py; a second run does nothing. A name in camel case or with dashes that a file of specs/ or a file of laws in proofs/
declares is spelled in snake case wherever it stands: in the crates, in their must-fail edits, and between backticks in the pages.
Names of types and modules, of functions of src/, of exports and of the library stay. What a function's answers or invariants
declare for themselves is spelled so in their folder and in the crate's edits. Each crate is laid out by rt fmt afterwards. --list prints the table and writes nothing.
"""

import glob
import re
import subprocess
import sys

# Laws that would meet the definition that they speak of: they get `_lem`.
LAWS = (
    "all-below all-of base-fits bit_length certificate-count coefficient-from diameter-most distance-size factor-from "
    "first-most good-seconds is-step job-trouble left_over no-finding no-point no-segment no-weighing of-header of-run "
    "point-of pressure-least pressure-most reason-of run-count second-most segment-of signed-bits starred-factors "
    "starred-isokinetic starred-positions starred-weighings step-rows time-most unless-zero weighing-of wrong-seconds "
)
APART = {it: it.replace("-", "_") + "_lem" for it in LAWS.split()}

PART = r"[^\s(){}.;,@\"«»:`]"
DECLARED = re.compile(rf"^(?:(?:abbrev|unfoldable|pub)\s+)*({PART}+)(?:\s+:|$)")
# A field, a constructor, or what a section or a `where` declares.
INSIDE = re.compile(rf"^\s+(?:(?:abbrev|unfoldable|pub)\s+)*({PART}+)\s+:(?:\s|$)")
HEAD = re.compile(r"^\s*(?:pub\s+)?(?:record|data)\s+(\S+)")


def snake(name):
    words = re.sub(r"(?<=[a-z0-9])[A-Z]", lambda m: "_" + m[0].lower(), name)
    return words.replace("-", "_")


def own_names():
    """Every name that is declared, with the files that declare it."""
    names = {}
    files = glob.glob("crates/*/specs/**/*.antt", recursive=True) + glob.glob("crates/*/proofs/*.antt")
    for file in sorted(files):
        for line in open(file, encoding="utf-8"):
            if line.lstrip().startswith(("--", "use ", "pub use ", "mod ", "pub mod ")):
                continue
            if m := HEAD.match(line) or DECLARED.match(line) or INSIDE.match(line):
                names.setdefault(m[1], set()).add(file)
    return names


def private_names(folder):
    """The names with dashes that a function's answers or invariants declare for themselves, each with its new spelling."""
    names = {}
    for file in glob.glob(folder + "/Answers.antt") + glob.glob(folder + "/Invariants.antt"):
        for line in open(file, encoding="utf-8"):
            m = DECLARED.match(line) or INSIDE.match(line)
            if m and "-" in m[1] and " : goal." not in line and not m[1][:1].isupper():
                names[m[1]] = snake(m[1])
    return names


def turn_private():
    for folder in sorted(glob.glob("crates/*/proofs/*/**/", recursive=True)):
        names = private_names(folder.rstrip("/"))
        if not names:
            continue
        crate = "/".join(folder.split("/")[:2])
        for file in glob.glob(folder + "*.antt") + glob.glob(crate + "/must-fail/*.edit"):
            text = open(file, encoding="utf-8").read()
            word = re.compile(rf"(?<![\w'.-])(?:{'|'.join(map(re.escape, sorted(names, key=len, reverse=True)))})(?![\w'-])")
            new = word.sub(lambda m: names[m[0]], text)
            if new != text:
                print(file, *sorted({m[0] for m in word.finditer(text)}))
                open(file, "w", encoding="utf-8").write(new)


def table(names):
    """The old and the new spelling of each name that changes."""
    changes = {}
    for name in names:
        plain = name.strip("◌_")
        if "_" in plain and plain in APART and not any(snake(it) == plain for it in names if it != plain):
            continue
        if plain in APART or not plain[:1].isupper() and re.search(r"[a-z0-9][A-Z]|-", plain):
            changes[plain] = APART.get(plain, snake(plain))
    return changes


def turned(text, changes, among):
    if not among:
        return text
    names = "|".join(re.escape(it) for it in sorted(among, key=len, reverse=True))
    word = re.compile(rf"(?<![\w'-])(?:{names})(?![\w'-])")
    return word.sub(lambda m: changes[m[0]], text)


def in_ticks(text, changes):
    return re.sub(r"`[^`\n]+`", lambda m: turned(m[0], changes, changes), text)


def code(text, changes, comment):
    """A file of code: in comments a name with dashes is one only between backticks."""
    plain = [it for it in changes if "-" not in it]
    lines = []
    for line in text.split("\n"):
        at = line.find(comment) if line.lstrip().startswith(comment) else -1
        if at < 0:
            lines.append(turned(line, changes, changes))
        else:
            lines.append(in_ticks(turned(line, changes, plain), changes))
    return "\n".join(lines)


def main():
    names = own_names()
    changes = table(names)
    turn_private()
    if not changes:
        print("respell: every other name has its spelling already")
        return
    met = {}
    for old in names:
        plain = old.strip("◌_")
        met.setdefault(changes.get(plain, plain), set()).add(plain)
    if "--list" in sys.argv[1:]:
        for old in sorted(changes):
            print(old, changes[old])
        for new in sorted(met):
            if len(met[new]) > 1:
                print("MEETS", new, *sorted(met[new]))
        return
    files = [(f, "--") for f in glob.glob("crates/**/*.antt", recursive=True)]
    files += [(f, "//") for f in glob.glob("crates/**/*.rt", recursive=True)]
    files += [(f, "//") for f in glob.glob("crates/*/must-fail/*.edit")]
    pages = glob.glob("docs/**/*.md", recursive=True) + ["README.md"]
    for file in sorted(f for f, _ in files) + sorted(pages):
        text = open(file, encoding="utf-8").read()
        new = in_ticks(text, changes) if file in pages else code(text, changes, dict(files)[file])
        if new != text:
            open(file, "w", encoding="utf-8").write(new)
    for crate in sorted(glob.glob("crates/*")):
        subprocess.run(["rt", "fmt"], cwd=crate, check=True, stdout=subprocess.DEVNULL)


if __name__ == "__main__":
    main()
