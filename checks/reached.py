#!/usr/bin/env python3
"""Sees that whatever the libraries let others call is called: by a program, by a row or by a test, or by what these call in turn. The body of a call that
nobody makes is told by its contract alone, which leaves want of memory free.

  reached.py         lists the calls that nobody makes, and fails where one is not among the exceptions below
  reached.py --all   lists the exceptions too

It knows no types: a method counts as called where its name stands in a body that is reached. A function counts as called only where its own crate names it, or
a file that imports it from there. Laws, whose calls do nothing, are told by their proofs and are passed over. Uses the standard library alone.
"""

import re
import sys
from collections import defaultdict, namedtuple
from pathlib import Path

import trials

TOP = Path(__file__).resolve().parent.parent
# Calls of the libraries that nobody makes, each with why.
EXCEPTIONS = {
    "dns_server_core::server::Server::keeps_order": "a law",
    "dns_server_core::server::Server::cut_pieces": "a law",
    "dns_ticket_world::ticket_world::TicketWorld::keeps_facts": "a law",
}
# A name, with a dot before it where it is a method's; and what stands between quotes.
WORD = re.compile(r"\.?\b[a-z_][a-z0-9_]*\b")
QUOTED = re.compile(r'"(?:[^"\\]|\\.)*"')
# What the language calls by itself.
CALLED_ANYWAY = "fmt drop from eq ne clone next hash cmp partial_cmp default deref deref_mut index index_mut source".split()
GHOST = re.compile(r"(?:ensures|requires|ghost|invariant|decreases)\b")

Call = namedtuple("Call", "crate file path name is_public is_method body imported")


def code_of(text):
    """The text without comments, clauses and what is quoted."""
    kept, depth = [], 0
    for line in QUOTED.sub('""', re.sub(r"//[^\n]*", "", text)).split("\n"):
        if depth or GHOST.match(line.strip()):
            depth = max(depth + line.count("{") - line.count("}"), 0)
        else:
            kept.append(line)
    return "\n".join(kept)


def imports_of(text):
    """The names that a file imports, or names by their path, each with the crate that it has them from."""
    found = defaultdict(set)
    for crate, rest in re.findall(r"\b(dns_\w+)::([^;()]*)", code_of(text)):
        for name in WORD.findall(rest):
            found[name].add(crate)
    return found


def handed_on():
    """The names that a library hands on, each with the libraries that it has them from."""
    return {file.parent.parent.name: imports_of(file.read_text(encoding="utf-8")) for file in TOP.glob("crates/*/src/lib.rt")}


def calls_of(crate):
    """The functions of a library's sources that have a body."""
    for file in sorted(crate.glob("src/**/*.rt")):
        name, text = str(file.relative_to(crate)), file.read_text(encoding="utf-8")
        lines, imported = text.split("\n"), imports_of(text)
        for place in trials.places(crate, name, text):
            body = code_of("\n".join(lines[place.opens + 1 : place.last]) if place.last > place.opens else lines[place.opens])
            is_public = re.match(r"\s*pub (?:const |unsafe )?fn ", lines[place.head]) is not None
            yield Call(crate.name, name, place.path, place.name, is_public, bool(place.indent), body, imported)


def beginnings():
    """The names of what the programs, the rows and the tests call, each with the crates that it may be imported from."""
    programs = [it.parent.parent for it in TOP.glob("crates/*/src/main.rt")] + [TOP / "crates" / "dns_tests", TOP / "checks" / "rows"]
    for file in sorted(it for program in programs for it in program.glob("src/**/*.r[ts]")):
        text = file.read_text(encoding="utf-8")
        yield from ((word, None, imports_of(text)) for word in set(WORD.findall(code_of(text))))
    yield from ((word, None, {}) for word in CALLED_ANYWAY)


def reached(calls):
    """Those of the calls that are made."""
    named, made, left = defaultdict(list), set(), list(beginnings())
    for at, one in enumerate(calls):
        named[one.name].append(at)
    seen, handed = set(), handed_on()
    while left:
        word, crate, imported = left.pop()
        sources = {crate, *imported.get(word, ())}
        while more := {it for source in sources for it in handed.get(source, {}).get(word, ())} - sources:
            sources |= more
        if (word, frozenset(sources)) in seen:
            continue
        seen.add((word, frozenset(sources)))
        for at in named[word.removeprefix(".")]:
            one = calls[at]
            if at not in made and (one.is_method or one.crate in sources and word == one.name):
                made.add(at)
                left += [(it, one.crate, one.imported) for it in set(WORD.findall(one.body))]
    return made


def is_law(one):
    return one.crate == "dns_laws" or one.file.endswith("laws.rt")


def main():
    programs = {it.parent.parent.name for it in TOP.glob("crates/*/src/main.rt")} | {"dns_tests"}
    calls = [one for crate in sorted(TOP.glob("crates/*")) if crate.name not in programs and (crate / "src").is_dir() for one in calls_of(crate)]
    made = reached(calls)
    public = [at for at, one in enumerate(calls) if one.is_public and one.body.strip() not in ("", "{}") and not is_law(one)]
    never = [f"{calls[at].crate}::{calls[at].path}" for at in public if at not in made]
    wrong = [it for it in never if it not in EXCEPTIONS] + [f"{it} (is called, or is no more)" for it in EXCEPTIONS if it not in never]
    for line in [*wrong, *(f"{it}: {why}" for it, why in EXCEPTIONS.items() if "--all" in sys.argv)]:
        print(line)
    print(f"reached: of {len(public)} public calls of the libraries {len(never)} are made by no program, row or test, {len(EXCEPTIONS)} with a reason")
    return 1 if wrong else 0


if __name__ == "__main__":
    sys.exit(main())
