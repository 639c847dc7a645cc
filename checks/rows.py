#!/usr/bin/env python3
"""Runs the rows: lines `KIND|GIVEN|WANTED` of checks/rows/*.rows, each tried on the libraries by their public calls.

  rows.py            builds the program of rows where it is not built of these sources, and runs all rows
  rows.py LAYER..    the same for the rows of some layers: base, storage, net, book, server, crowd, run
  rows.py --count    writes checks/rows/counts.txt anew: how many rows there are of each kind
  rows.py --format   lays the sources of the program out as rt fmt does

The program (checks/rows/src, whose files end in .rs, since rt takes a .rt file for a proved crate's) is compiled with all libraries as they stand, WITHOUT PROOF
and with the checks of rt try: a number that overflows, an index out of bounds, a failed unwrap or a read or write of memory that is not there ends it, and
fails the rows behind. So a row says what the libraries' bodies answer, and their contracts say the rest.

A row that has another answer is printed with that answer. That as many rows of each kind are run as the files hold, and as counts.txt says, is seen too, so that
none is lost. The built program is kept in checks/rows/out, by the sum of all that it was made of. Uses the standard library, and the kit's own rtlib.py.
"""

import hashlib
import os
import re
import shutil
import subprocess
import sys
import tempfile
import time
from collections import Counter
from concurrent.futures import ThreadPoolExecutor
from pathlib import Path

import kit

TOP = Path(__file__).resolve().parent.parent
sys.path.insert(0, str(TOP / "bench"))

import unproved  # noqa: E402

HOME = TOP / "checks" / "rows"
COUNTS, OUT = HOME / "counts.txt", HOME / "out"
# The layers, those of a program together: what reaches SQLite takes the longest to build, so the others have a program of their own.
PROGRAMS = [["storage", "run"], ["base", "net", "book", "server", "crowd"]]
LAYERS = ["base", "storage", "net", "book", "server", "crowd", "run"]
BOUND = 900  # seconds of a layer's rows


class Program:
    """The program of the rows of some layers, over the libraries that their sources use, as unproved.py takes a crate."""

    name = "rows"

    def __init__(self, lib, layers):
        self.layers, self.folder, known = layers, None, {}
        texts = [file.read_text(encoding="utf-8") for file in self.sources().values()]
        used = {it for text in texts for it in re.findall(r"\b(dns_\w+)::|^use (\w+)", text, re.M) for it in it if it}
        crates = [lib.Crate(str(TOP / "crates" / it), str(TOP), known) for it in sorted(used) if (TOP / "crates" / it / "src/lib.rt").is_file()]
        self.libraries = list({it.name: it for crate in crates for it in [*crate.below(), crate]}.values())
        self.of_kit = ["std", "hex", *(it for it in sorted(used - {"std", "crate"}) if os.path.isdir(f"{lib.KIT}/rlibs/{it}.rlib"))]

    def below(self):
        return self.libraries

    def sources_below(self):
        words = []
        for it in self.libraries:
            uses = dict.fromkeys(["core", *it.of_kit, *(dep.name for dep in it.deps)])
            words += ["--lib", f"{it.name}:{','.join(uses)}={it.folder}/src/lib.rt"]
        return words

    def sources(self):
        """The program's own files, each with its place in a crate: the modules of other layers are left out."""
        files = sources()
        return {name: file for name, file in files.items() if Path(name).parts[1] not in set(LAYERS) - set(self.layers)}

    def copy_to(self, folder):
        """Puts its sources into a folder, with the names that rt reads, and without the lines of main on other layers."""
        copied(folder, self.sources())
        main = Path(folder, "src/main.rt")
        others = "|".join(it for it in LAYERS if it not in self.layers)
        lines = main.read_text(encoding="utf-8").splitlines(keepends=True)
        main.write_text("".join(line for line in lines if not others or not re.match(rf'(mod ({others});| *"({others})" =>)', line)), encoding="utf-8")


def sources():
    """The files of the programs, each with its place in a crate."""
    return {f"src/{it.relative_to(HOME / 'src').with_suffix('.rt')}": it for it in sorted((HOME / "src").rglob("*.rs"))}


def copied(folder, files):
    """Puts these files into a folder, with the names that rt reads."""
    for name, file in files.items():
        to = Path(folder, name)
        to.parent.mkdir(parents=True, exist_ok=True)
        shutil.copyfile(file, to)


def formatted(lib, flag):
    """Has the kit's formatter look at the sources (--check), or lay them out (--write), and returns whether they are laid out."""
    with tempfile.TemporaryDirectory(prefix="rows-") as folder:
        copied(folder, sources())
        ran = subprocess.run([lib.RATTLE, "fmt", flag, *sources()], cwd=folder, stdout=subprocess.PIPE, stderr=subprocess.STDOUT, text=True)
        for name, file in sources().items() if flag == "--write" else ():
            shutil.copyfile(Path(folder, name), file)
    return ran.returncode == 0


def summed(program):
    """The sum of all that a program is made of."""
    told = hashlib.sha256(kit.version().encode())
    scripts = [Path(__file__), Path(unproved.__file__), Path(kit.__file__), TOP / "crates.txt"]
    libraries = [it for library in program.libraries for it in sorted(Path(library.folder, "src").rglob("*.rt"))]
    for file in [*scripts, *program.sources().values(), *libraries]:
        told.update(f"{file.relative_to(TOP)} {hashlib.sha256(file.read_bytes()).hexdigest()}\n".encode())
    return told.hexdigest()


def built(lib, layers):
    """The program of the rows of these layers, which is built where it was not built of these sources."""
    made, kept = OUT / layers[0], OUT / f"{layers[0]}.sum"
    program = Program(lib, layers)
    told = summed(program)
    if made.is_file() and kept.is_file() and kept.read_text(encoding="utf-8") == told:
        return made
    begun = time.time()
    OUT.mkdir(exist_ok=True)
    kept.unlink(missing_ok=True)
    with tempfile.TemporaryDirectory(prefix="rows-") as program.folder:
        program.copy_to(program.folder)
        unproved.build(program, lib, made, "-O1", is_checked=True)
    kept.write_text(told, encoding="utf-8")
    print(f"rows: the program of {', '.join(layers)} is built, without proof, in {time.time() - begun:.0f} s", flush=True)
    return made


def rows_of(layer):
    """The rows of a layer; a line that begins with # says what those below it show."""
    return [it for it in (HOME / f"{layer}.rows").read_text(encoding="utf-8").splitlines() if not it.startswith("#")]


def kinds_of(layer):
    """How many rows a layer has of each kind."""
    return Counter(row.partition("|")[0] for row in rows_of(layer))


def counted():
    """What counts.txt has to say: a line for each kind of each layer."""
    return "".join(f"{layer} {kind} {count}\n" for layer in LAYERS for kind, count in sorted(kinds_of(layer).items()))


def lost():
    """The kinds of which there are not as many rows as counts.txt says."""
    told, there = (Counter({line.rpartition(" ")[0]: int(line.split()[-1]) for line in text.splitlines()}) for text in (COUNTS.read_text(encoding="utf-8"), counted()))
    return [f"{kind}: {there[kind]} rows, and counts.txt has {told[kind]} (rows.py --count writes it)" for kind in sorted({*told, *there}) if told[kind] != there[kind]]


def run(made, layer):
    """Runs the rows of a layer, and returns what to say, how many passed, and how many did not."""
    begun, wanted, passed, failed = time.time(), kinds_of(layer), Counter(), []
    with open(HOME / f"{layer}.rows", "rb") as rows:
        how = {"stdin": rows, "stdout": subprocess.PIPE, "stderr": subprocess.PIPE, "text": True, "errors": "replace"}
        try:
            ran = subprocess.run([made, layer], timeout=BOUND, env={**os.environ, "ASAN_OPTIONS": "detect_leaks=0"}, **how)
            said, ended, why = ran.stdout, ran.returncode == 0, f"the run ended with status {ran.returncode}: {ran.stderr[-1500:]}"
        except subprocess.TimeoutExpired as late:
            said, ended, why = (late.stdout or b"").decode(errors="replace"), False, f"the run had not ended after {BOUND} seconds"
    for line in said.splitlines():
        if line.startswith("passed "):
            passed[line.removeprefix("passed ")] += 1
        else:
            failed.append(line)
    lines = [*failed, *([] if ended else [why])]
    lines += [f"{layer} {kind}: {passed[kind]} of {wanted[kind]} rows passed" for kind in sorted({*passed, *wanted}) if passed[kind] != wanted[kind]]
    count = max(len(lines) > 0, sum((wanted - passed).values()), sum(line.startswith("failed ") for line in failed))
    lines.append(f"rows of {layer}: {sum(passed.values())} of {sum(wanted.values())} passed, {len(wanted)} kinds, {time.time() - begun:.0f} s")
    return "\n".join(lines), sum(passed.values()), count


def main():
    words = sys.argv[1:]
    if words == ["--count"]:
        COUNTS.write_text(counted(), encoding="utf-8")
        return 0
    lib = kit.rtlib()
    if words == ["--format"]:
        return 0 if formatted(lib, "--write") else 1
    layers = words or LAYERS
    if not {*layers} <= {*LAYERS}:
        sys.exit(f"usage: rows.py [--count | --format | LAYER..], where a layer is of {', '.join(LAYERS)}")
    for fault in lost():
        print(f"rows: {fault}")
    if lost():
        return 1
    passed = failed = 0
    with ThreadPoolExecutor(len(os.sched_getaffinity(0))) as pool:
        programs = [(some, pool.submit(built, lib, some)) for some in PROGRAMS if {*some} & {*layers}]
        made = {layer: program for some, program in programs for layer in some}
        for said, fine, bad in pool.map(lambda it: run(made[it].result(), it), layers):
            passed, failed = passed + fine, failed + bad
            print(said, flush=True)
    print(f"{passed} passed, {failed} failed")
    return 1 if failed else 0


if __name__ == "__main__":
    sys.exit(main())
