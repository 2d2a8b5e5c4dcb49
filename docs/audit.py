#!/usr/bin/env python3
"""Lists the definitions that the clauses of a public function reach, so that docs/AUDIT.md can be compared with them.

usage: docs/audit.py [CRATE FILE FUNCTION]        (default: ft_cli running run)

It reads the sources alone: the names in the clauses of FUNCTION in crates/CRATE/src/FILE.rt, then, from definition to
definition, the names in their bodies, through the imports of each file. Definitions of std and types of the code
(specs/declared) are left out. A line is a file of specs/ and those of its definitions that are reached."""
import os, re, sys

TOP = os.path.join(os.path.dirname(os.path.abspath(__file__)), "..")
WORD = re.compile(r"[^\s(){}\[\],;.=λ→×]+")


def imports_of(text, prefix="(?:pub )?use "):
    """The names that a file imports from specs of this repository, each with its module and its own name there."""
    found = {}
    for line in re.findall(rf"^[ ]*{prefix}Rattle\.(ft_\S+?\.specs\.[\w.]*?)\.\{{([^}}]*)\}}", text, re.M | re.S):
        for item in line[1].split(","):
            own, _, alias = item.strip().partition(" as ")
            found[alias or own] = (line[0], own)
    return found


def definitions_of(text):
    """The bodies of a file's definitions by name: from a line that begins one to the next such line. Those of a `module` stand two columns in."""
    bodies, name, inside = {}, None, False
    for line in text.splitlines():
        if line.startswith("module "):
            name, inside = None, True
            continue
        if inside and line and not line[0].isspace():
            inside = False
        line = line[2:] if inside else line
        if line.startswith(("use ", "pub use ", "--")):
            name = None
        elif line and not line[0].isspace() and line[0] not in "})]":
            words = [w for w in line.split() if w not in ("abbrev", "unfoldable", "pub", "record", "data", "rec")]
            name = words[0] if words else None
            bodies.setdefault(name, "")
        if name:
            bodies[name] += line + "\n"
    return bodies


class Specs:
    def __init__(self):
        self.files = {}

    def read(self, module):
        if module not in self.files:
            crate, path = module.split(".specs.", 1)
            file = os.path.join(TOP, "crates", crate, "specs", *path.split(".")) + ".antt"
            text = open(file, encoding="utf-8").read() if os.path.exists(file) else None
            self.files[module] = None if text is None else (imports_of(text), definitions_of(text))
        return self.files[module]

    def reach(self, names):
        """All definitions that these (module, name) reach, and they themselves."""
        reached, ahead = set(), list(names)
        while ahead:
            at = ahead.pop()
            if at in reached or ".declared." in at[0]:
                continue
            found = self.read(at[0])
            if found is None:
                continue
            imported, bodies = found
            if at[1] in imported:
                # passed on
                ahead.append(imported[at[1]])
                continue
            if at[1] not in bodies:
                # a field or a constructor: its record or data is in this file, and is reached by its type
                owner = next((n for n, body in bodies.items() if re.search(rf"^\s+(pub )?{re.escape(at[1])} :", body, re.M)), None)
                if owner is None:
                    continue
                at = (at[0], owner)
                if at in reached:
                    continue
            reached.add(at)
            for word in WORD.findall(bodies[at[1]]):
                if word in imported:
                    ahead.append(imported[word])
                elif word in bodies and word != at[1]:
                    ahead.append((at[0], word))
        return reached


def clauses_of(text, function):
    """The clauses of a function: from its name to the brace that opens its body."""
    start = re.search(rf"\bfn {function}\b", text)
    if not start:
        sys.exit(f"no function {function}")
    body = re.search(r"^\s*\{\s*$", text[start.end():], re.M)
    return text[start.end(): start.end() + body.start()]


def main():
    crate, file, function = sys.argv[1:] if len(sys.argv) == 4 else ("ft_cli", "running", "run")
    text = open(os.path.join(TOP, "crates", crate, "src", file + ".rt"), encoding="utf-8").read()
    imported = imports_of(text, "ghost use ")
    words = set(WORD.findall(clauses_of(text, function)))
    reached = Specs().reach(imported[w] for w in words if w in imported)
    by_file = {}
    for module, name in reached:
        by_file.setdefault(tuple(module.split(".specs.", 1)), []).append(name)
    for (crate, path), names in sorted(by_file.items()):
        print(f"{crate} {path}: {' '.join(sorted(names))}")
    print(f"{len(reached)} definitions in {len(by_file)} files")


main()
