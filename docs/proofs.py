#!/usr/bin/env python3
"""Writes docs/PROOFS.md: the files of lemmas of each crate, each with what its first comment says.

usage: docs/proofs.py           writes the page
       docs/proofs.py --check   writes nothing, and ends with status 1 where the page isn't what would be written"""
import os, re, sys

TOP = os.path.join(os.path.dirname(os.path.abspath(__file__)), "..")
PAGE = os.path.join(TOP, "docs", "PROOFS.md")

HEAD = """# Proof files

The lemmas of each crate, file by file, with the first comment of each file; the crates stand in the order and the groups of
[crates.txt](../crates.txt). A file is `crates/CRATE/proofs/FILE.antt`. One marked by * may be used by other crates. The answers to goals of single
functions, in folders beside these files, aren't listed.

`docs/proofs.py` writes this page.
"""


def groups():
    """The groups of crates.txt: the comment above each, and its crates."""
    found = []
    for line in open(os.path.join(TOP, "crates.txt"), encoding="utf-8"):
        if line.startswith("#"):
            found.append((line[1:].strip(), []))
        elif ":" in line and found:
            found[-1][1].append(line.split(":")[0].split()[0])
    return [(title, crates) for title, crates in found if crates]


def first_comment(path):
    """The lines of the comment with which the file begins, as one line; a list of words with their meanings in it isn't taken."""
    words = []
    for line in open(path, encoding="utf-8"):
        if not line.startswith("--") or "   " in line[2:].strip():
            break
        words.append(line[2:].strip())
    return " ".join(words).rstrip(".").replace("|", "\\|")


def files_of(crate):
    """The names of the crate's files of lemmas, in alphabetical order, with their comments and whether they are public."""
    folder = os.path.join(TOP, "crates", crate, "proofs")
    names = sorted(f[:-5] for f in os.listdir(folder) if f.endswith(".antt")) if os.path.isdir(folder) else []
    if "Lib" not in names:
        return []
    lib = open(os.path.join(folder, "Lib.antt"), encoding="utf-8").read()
    public = set(re.findall(r"^pub mod (\w+)", lib, re.M))
    return [(n, first_comment(os.path.join(folder, n + ".antt")), n in public) for n in names if n != "Lib"]


def page():
    lines = [HEAD]
    for title, crates in groups():
        lines.append(f"## {title[0].upper()}{title[1:]}\n")
        for crate in crates:
            files = files_of(crate)
            if files:
                lines += [f"### `{crate}`\n", "| File | Says |", "|---|---|"]
                lines += [f"| `{name}`{'*' if public else ''} | {says} |" for name, says, public in files]
                lines.append("")
    return "\n".join(lines)


def main():
    text = page()
    if sys.argv[1:] == ["--check"]:
        kept = open(PAGE, encoding="utf-8").read() if os.path.exists(PAGE) else ""
        sys.exit(0 if kept == text else "docs/PROOFS.md is not what docs/proofs.py writes")
    if sys.argv[1:]:
        sys.exit(__doc__)
    with open(PAGE, "w", encoding="utf-8") as out:
        out.write(text)


main()
