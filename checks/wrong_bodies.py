#!/usr/bin/env python3
"""Tries wrong bodies: the prover must refuse each function that one of them changes, for itself.

  wrong_bodies.py              sees that each applies, and tries those of the crates of which checks/wrong_bodies.sums does not have today's sum
  wrong_bodies.py NAME..       tries those of these crates, whatever the list has
  wrong_bodies.py --since REV  tries those of the crates whose code, definitions or proofs changed since a revision
  wrong_bodies.py --anew       tries all
  wrong_bodies.py --apply      sees that each applies, and tries none: no library and no proof is needed
  wrong_bodies.py --due        tells which crates it would try, and tries none
  .. --write                   writes the lines of the crates of which it saw all refused into the list

It runs after `rt ci` in the same checkout, over the libraries that stand in crates/*/out/rlib. rt itself tries crates/*/must-fail, which
it proves each crate once more for; these here are crates/*/must-fail-together, and those of a crate are tried together, in a copy of it (trials.py).

The list checks/wrong_bodies.sums has a line for each crate of which all wrong bodies were seen refused, and all harmless edits proved: its name, and the sum of
what that rests on. These are the crate's own sources, definitions, proofs and edits; of each library of the repository below it the definitions, and the sources
without the bodies of functions and without comments, since a caller knows a function only by its clauses; the lines of crates.txt, the kit's name, and trials.py. What
a lemma of a library below says is no part of it: it makes no false statement true. The sum is the same on every machine.

RT_JOBS says how many crates are tried side by side (all processors), and WRONG_BODIES_LOG names a folder for what the prover says. Uses the standard
library, and the kit's own rtlib.py for the words of a check.
"""

import functools
import hashlib
import os
import re
import resource
import subprocess
import sys
import time
from concurrent.futures import ThreadPoolExecutor, as_completed
from pathlib import Path

import kit
import trials
from trials import BY_RT, PARTS, PROVED, REFUSED, TOGETHER, TOP, edits_of, stale, tried

LIST = TOP / "checks" / "wrong_bodies.sums"
HEAD = "# The crates of which all wrong bodies were seen refused, and the sum of what that rests on; written by checks/wrong_bodies.py --write.\n"
# The head of a function whose body its callers may read: what a constant comes to, and which type it gives.
READ_ABOVE = re.compile(r"\bconst fn\b|->.*\bimpl\b", re.S)


def without_bodies(folder, file, text):
    """The text of a file of src/ without the lines in the bodies of its functions."""
    lines, left_out = text.split("\n"), set()
    for place in trials.places(folder, file, text):
        if not READ_ABOVE.search("\n".join(lines[place.head : place.opens + 1])):
            left_out.update(range(place.opens + 1, place.last))
    return "\n".join(line for at, line in enumerate(lines) if at not in left_out)


def without_comments(lib, text):
    """The text of Rattle without its line comments and empty lines."""
    kept, at = [], 0
    while at < len(text):
        token = lib.RUST_TOKEN.match(text, at)[0]
        kept.append("" if token.startswith("//") else token)
        at += len(token)
    return "\n".join(line for line in (it.rstrip() for it in "".join(kept).split("\n")) if line)


def sum_of(said):
    return hashlib.sha256(said.encode() if isinstance(said, str) else said).hexdigest()


@functools.lru_cache(maxsize=None)
def known_above(lib, folder):
    """What the crates above a library know of it, as lines with sums."""
    lines = []
    for file in sorted(Path(folder).glob("src/**/*.rt")):
        name = str(file.relative_to(folder))
        lines.append(f"{name} {sum_of(without_comments(lib, without_bodies(folder, name, file.read_text(encoding='utf-8'))))}")
    lines += [f"{file.relative_to(folder)} {sum_of(file.read_bytes())}" for file in sorted(Path(folder).glob("specs/**/*.antt"))]
    return "\n".join(lines)


def rests_on(lib, crate):
    """The sum of all that the trial of a crate's wrong bodies rests on."""
    told = [kit.version(), sum_of(Path(trials.__file__).read_bytes())]
    listed = (TOP / "crates.txt").read_text(encoding="utf-8").splitlines()
    for part in PARTS:
        files = sorted(it for it in Path(crate.folder, part).rglob("*") if it.suffix in (".rt", ".antt"))
        told += [f"{it.relative_to(crate.folder)} {sum_of(it.read_bytes())}" for it in files]
    told += [f"{it.name} {sum_of(it.read_bytes())}" for it in edits_of(crate.name, TOGETHER)]
    for it in [*sorted(crate.below(), key=lambda it: it.name), crate]:
        told += [line for line in listed if line.startswith(f"{it.name}:")]
        told.append(known_above(lib, it.folder) if it is not crate else "")
    return sum_of("\n".join(told))


def listed():
    """The crates of the list, with their sums."""
    lines = LIST.read_text(encoding="utf-8").splitlines() if LIST.is_file() else []
    return dict(line.split() for line in lines if line and not line.startswith("#"))


def write(sums, every):
    """Writes the list with these sums beside those that it has, without the crates that are no more."""
    LIST.write_text(HEAD + "".join(f"{name} {it}\n" for name, it in sorted({**listed(), **sums}.items()) if name in every), encoding="utf-8")


def crate_of(lib, name):
    crate = lib.Crate(f"{TOP}/crates/{name}", str(TOP), {})
    crate.out = open(os.devnull, "w")
    return crate


def stands(lib, crate):
    """Whether a library is built of the sources that stand: by the sum that rt check leaves beside it, or, of one of rt ci, which leaves none, since it was
    laid there behind the last change of its sources."""
    rlib = Path(crate.folder, "out", "rlib")
    if (rlib / "stamp").is_file():
        return crate.is_built()
    laid = [it.stat().st_mtime for it in (rlib, *rlib.glob("*.rlib"), *rlib.glob("*.rlib/*")) if it.is_dir()]
    return Path(crate.rlib).is_dir() and max(laid) >= max(Path(it).stat().st_mtime for it in lib.files_of(crate.folder))


def tried_crate(lib, name):
    """Tries all edits of a crate, and returns what to say, how many wrong bodies there were, how many failed, how many harmless edits, and the sum."""
    begun, found, crate = time.time(), {}, crate_of(lib, name)
    lacking = [it.name for it in crate.below() if not stands(lib, it)]
    if lacking:
        return f"{name}: NOT TRIED: the library {lacking[0]} below it is not built of these sources: rt check builds it", 0, 1, 0, None
    told = rests_on(lib, crate)
    left, no_copies = edits_of(name, TOGETHER), set()
    while left:
        more, left = tried(lib, crate, left, no_copies)
        found.update(more)
    bad = {it: came for it, came in found.items() if (came != PROVED if it.suffix == ".harmless" else came != REFUSED)}
    wrong = [it for it in found if it.suffix == ".edit"]
    lines = [f"{name}: {len(wrong) - sum(it in bad for it in wrong)} of {len(wrong)} wrong bodies refused in {time.time() - begun:.0f} s"]
    lines += [f"  {it.name}: {came}" for it, came in bad.items()]
    lines += [f"  (no copy of {it} is proved, so its wrong bodies were tried one after another)" for it in sorted(no_copies)]
    # (of a file that was changed meanwhile another text was tried)
    if not bad and told == rests_on(lib, crate):
        lines.append(f"  its line of the list is: {name} {told}")
    else:
        told = None
    return "\n".join(lines), len(wrong), len(bad), len(found) - len(wrong), told


def changed_since(revision):
    """The names of the crates whose code, definitions or proofs differ, in the working tree, from those of a revision."""
    listed = subprocess.run(["git", "diff", "--name-only", revision, "--", "crates"], cwd=TOP, stdout=subprocess.PIPE, text=True)
    if listed.returncode:
        sys.exit(f"wrong_bodies.py: {revision} names no revision")
    parts = [name.split("/") for name in listed.stdout.splitlines()]
    return {part[1] for part in parts if len(part) > 3 and part[2] in (*PARTS, TOGETHER)}


def chosen(lib, words, every):
    """The crates that the words ask for, and a line on the others."""
    if words[:1] == ["--since"] and len(words) == 2:
        return sorted(changed_since(words[1]) & set(every)), ""
    if words and words != ["--anew"]:
        without = [name for name in words if name not in every]
        if without:
            sys.exit(f"wrong_bodies.py: there is no folder crates/{without[0]}/{TOGETHER}")
        return words, ""
    known = {} if words else listed()
    due = [name for name in every if name not in known or known[name] != rests_on(lib, crate_of(lib, name))]
    return due, f"wrong bodies: of {len(every) - len(due)} of {len(every)} crates all were seen refused, by the sums of the list"


def try_all(lib, crates):
    """Tries the wrong bodies of these crates, and returns the sums of those of which all were as they must be, and whether that were all."""
    jobs = os.environ.get("RT_JOBS", "")
    total, failed, harmless, sums = 0, 0, 0, {}
    # (the largest first)
    crates = sorted(crates, key=lambda it: -sum(path.stat().st_size for path in (TOP / "crates" / it).glob("src/**/*.rt")))
    with ThreadPoolExecutor(int(jobs) if jobs.isdigit() and int(jobs) else len(os.sched_getaffinity(0))) as pool:
        running = {pool.submit(tried_crate, lib, it): it for it in crates}
        for one in as_completed(running):
            said, count, bad, kept, told = one.result()
            total, failed, harmless = total + count, failed + bad, harmless + kept
            sums.update({running[one]: told} if told else {})
            print(said, flush=True)
    used = sum(resource.getrusage(resource.RUSAGE_CHILDREN)[:2])
    print(f"wrong bodies: {total} tried together and {harmless} harmless edits beside them, {failed} not as they must be; {used / 60:.0f} processor minutes")
    return sums, not failed


def main():
    words, every = sys.argv[1:], sorted(it.parent.name for it in TOP.glob(f"crates/*/{TOGETHER}"))
    writes, words = "--write" in words, [it for it in words if it != "--write"]
    count, wrong = stale()
    print("\n".join([*wrong, f"wrong bodies: {count[BY_RT]} that rt tries, {count[TOGETHER]} that are tried together, {len(wrong)} do not apply"]), flush=True)
    if wrong or words == ["--apply"]:
        return 1 if wrong else 0
    lib = kit.rtlib()
    crates, said = chosen(lib, [it for it in words if it != "--due"], every)
    print(said, end="\n" if said else "", flush=True)
    if "--due" in words:
        print("\n".join(crates))
        return 0
    # (what it starts ends when this ends; its first call sets a signal's handler, which only the main thread may)
    lib.guarded()
    kit.sums_once(lib)
    sums, is_well = try_all(lib, crates) if crates else ({}, True)
    if writes:
        write(sums, every)
    elif sums:
        print("wrong bodies: --write writes these lines of the list")
    return 0 if is_well else 1


if __name__ == "__main__":
    sys.exit(main())
