#!/usr/bin/env python3
"""Sees that crates.txt is what dependencies.txt comes to.

A line of dependencies.txt names a crate and the libraries that it uses itself. rt wants beside them, in crates.txt, all that these
stand on in turn: the crates of this repository in the order of the file, then the kit's libraries by name.

  dependencies.py           sees that the two agree, and that each crate stands below those that it uses
  dependencies.py --write   writes crates.txt

Uses the standard library alone.
"""

import sys
from pathlib import Path

TOP = Path(__file__).resolve().parent.parent
SOURCE, MADE = TOP / "dependencies.txt", TOP / "crates.txt"
HEAD = "# each crate, and all libraries that it stands on; lowest first; made from dependencies.txt by checks/dependencies.py --write\n"


def direct():
    """The crates in order, each with the libraries that it uses itself."""
    found = {}
    for number, line in enumerate(SOURCE.read_text(encoding="utf-8").splitlines(), 1):
        line = line.partition("#")[0].strip()
        if not line:
            continue
        name, colon, uses = line.partition(":")
        if not colon or name in found:
            sys.exit(f"dependencies.txt:{number}: a line is NAME: LIBRARY .., and each crate has one")
        found[name] = uses.split()
    return found


def whole(crates):
    """The lines of crates.txt."""
    below, lines = {}, []
    for name, uses in crates.items():
        late = [use for use in uses if use in crates and use not in below]
        if late:
            sys.exit(f"dependencies.txt: {name} stands above {late[0]}, which it uses")
        below[name] = set(uses).union(*(below.get(use, ()) for use in uses))
        own = [one for one in crates if one in below[name]]
        lines.append(f"{name}: {' '.join([*own, *sorted(below[name].difference(own))])}\n")
    return HEAD + "".join(lines)


def main():
    crates = direct()
    text = whole(crates)
    if sys.argv[1:] == ["--write"]:
        MADE.write_text(text, encoding="utf-8")
    elif sys.argv[1:]:
        sys.exit("dependencies.py: usage: dependencies.py [--write]")
    elif MADE.read_text(encoding="utf-8") != text:
        sys.exit("crates.txt is not what dependencies.txt comes to: run checks/dependencies.py --write")
    print(f"dependencies: {sum(map(len, crates.values()))} of {len(crates)} crates, and crates.txt agrees")


if __name__ == "__main__":
    main()
