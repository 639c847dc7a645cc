#!/usr/bin/env python3
"""Checks a crate over libraries whose proofs are left open: for work on several layers at once. It gives no verdict.

  over_open.py CRATE --open X,Y [rattle's flags]    checks CRATE; the libraries X and Y below it are read as they stand in the sources, with a hole
                                                    for each of their proofs, so that their contracts count and need not be proved yet

The other libraries below the crate have to stand in crates/*/out/rlib, as rt or build.py leaves them, and may not stand on one that is left open. `--only CRATE::PATH`
asks for some functions alone. What is checked is kept in crates/CRATE/out/open. It says of each function of the crate that does not stand why, and counts
the others: one that rests on nothing but holes of the libraries that are left open stands. Status 0 where all stand. It uses the kit's own rtlib.py.
"""

import os
import re
import subprocess
import sys
from pathlib import Path

import kit
import trials

TOP = trials.TOP
TOLD = re.compile(r"(?:fn|impl|trait) (\w+)::[^:]*(?:::[^:]+)*: (.*)")
ELSEWHERE = re.compile(r"depends on a hole in `Rattle\.(\w+)\.")


def left_open(lib, name, home):
    """Puts the sources of a library into a folder, with a hole for each proof of a function, and gives its root file."""
    crate = lib.Crate(f"{TOP}/crates/{name}", str(TOP), {})
    subprocess.run(["rm", "-rf", str(home)], check=True)
    home.mkdir(parents=True)
    trials.Copy(crate, home, set()).leave_open(set())
    return f"{home}/src/lib.rt"


def words_over(lib, crate, names, room):
    """The words of a check of a crate over libraries of which these are left open."""
    of_kit = dict.fromkeys([*crate.of_kit, "core", *(it for dep in crate.below() for it in dep.of_kit)])
    words = ["--crate-name", crate.name, "src/main.rt" if crate.is_program else "src/lib.rt", "-L", f"dependency={lib.KIT}/rlibs"]
    for name in of_kit:
        words += ["--extern", f"{name}={lib.KIT}/rlibs/{name}.rlib"]
    for dep in crate.below():
        if dep.name in names:
            uses = ",".join(dict.fromkeys(["core", *dep.of_kit, *(it.name for it in dep.deps)]))
            words += ["--lib", f"{dep.name}:{uses}={left_open(lib, dep.name, room / dep.name)}"]
        else:
            words += ["--extern", f"{dep.name}={dep.rlib}", "-L", f"dependency={os.path.dirname(dep.rlib)}"]
    words += ["--antt-project", f"{lib.KIT}/rattle/logic/antt-project.json", "--logic-built", f"{lib.KIT}/logic_built"]
    return [*words, "--links", f"{crate.name}=", "--incremental", str(room), "--allow-holes", "--progress"]


def shown(said, name, room):
    """Prints what a check says of its own crate, and returns how many functions stand and how many do not."""
    fine = bad = 0
    is_passed_over = False
    for line in said.split("\n"):
        if is_passed_over and (line.startswith(" ") or not line):
            continue
        is_passed_over = str(room) in line.split(" ")[0] or "/out/open/" in line.split(" ")[0]
        if is_passed_over or line.startswith(("statements ", "library ", "checked ", "logic /", "so far:")):
            continue
        told = TOLD.match(line)
        if told:
            elsewhere = ELSEWHERE.match(told[2])
            if told[1] != name:
                continue
            if told[2].startswith(("no holes", "proved")) or elsewhere and elsewhere[1] != name:
                fine += 1
                continue
            bad += 1
        print(line)
    return fine, bad


def main():
    words = sys.argv[1:]
    if len(words) < 3 or words[1] != "--open":
        sys.exit("usage: over_open.py CRATE --open X,Y.. [rattle's flags]")
    name, names, flags = words[0], words[2].split(","), words[3:]
    lib = kit.rtlib()
    crate = lib.Crate(f"{TOP}/crates/{name}", str(TOP), {})
    crate.out = sys.stderr
    room = Path(crate.folder) / "out" / "open"
    room.mkdir(parents=True, exist_ok=True)
    command = [*lib.guarded(), lib.RATTLE, "check", *words_over(lib, crate, names, room), *flags]
    how = {"cwd": crate.folder, "stdin": subprocess.DEVNULL, "stdout": subprocess.PIPE, "stderr": subprocess.STDOUT}
    fine, bad = shown(subprocess.run(command, text=True, errors="replace", **how).stdout, name, room)
    print(f"{fine} functions stand over what is left open, {bad} do not")
    sys.exit(1 if bad or not fine else 0)


if __name__ == "__main__":
    main()
