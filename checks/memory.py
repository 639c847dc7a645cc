#!/usr/bin/env python3
"""Lists, from the sources, each public call that may answer want of memory, with the clauses of its contract that speak then.

    checks/memory.py [CRATE..]          the calls of these crates, or of all, and the names of those clauses
    checks/memory.py --say [CRATE..]    the clauses in full beside them, and what the call's comment says of memory

A call may answer want of memory where the error of its result is `OutOfMemory`, has a variant of that name, or holds such an error. A clause
speaks then, unless it is one of Ok alone, or of one other error alone. A call of a trait is listed with the trait, and once more with
each implementation that has clauses of its own. Not listed are calls of std's traits, as `clone`, those whose error is a type of the caller's,
and the top calls, which answer with a status or a record: docs/MEMORY.md tells of them, and what the clauses have in common. Uses the
standard library alone, and needs no built program.
"""

import re
import sys
from pathlib import Path

TOP = Path(__file__).resolve().parent.parent
OF_OK = re.compile(r"^\s*(?:\(?\w+ : [^)]*\)? → )?(?:IfOk|OnOk) result\b")
OF_ONE_ERROR = re.compile(r"^\s*IsErrOf result \w+\.(?!OutOfMemory)\w+ →")
HEAD = re.compile(r"^ *(?:pub )?(?:unsafe )?fn (\w+)")
CLAUSE = re.compile(r"\s*(requires|ensures)(?: (\w+))? ?\{")
OWNER = re.compile(r"^(pub )?(trait|impl)\b(?:<[^{]*?>)? ?(.*?)(?: where .*)?\{")
# The errors of libraries below that a crate hands on, and that may tell want of memory.
OF_SQLITE = {"dns_sqlite": {"Error", "VersionFault"}}


def errors_of_memory():
    """The types of errors that may tell want of memory: by a variant of that name, or by one that holds such an error."""
    bodies = {}
    for file in sorted((TOP / "crates").glob("*/src/*.rt")):
        for name, body in re.findall(r"^pub (?:enum|struct) (\w+)(?:<[^>]*>)? \{\n(.*?)^\}", file.read_text(encoding="utf-8"), re.M | re.S):
            bodies[name] = re.sub(r"//.*", "", body)
    found = {"OutOfMemory"} | {name for name, body in bodies.items() if re.search(r"^\s*OutOfMemory\b", body, re.M)}
    while True:
        more = {name for name, body in bodies.items() if name not in found and re.search(rf"(?:\(|pub kind: )(?:{'|'.join(found)})\b", body)}
        if not more:
            return found
        found |= more


def closed(text, at):
    """The place behind the bracket that closes the one which opens at a place."""
    depth = 0
    for place in range(at, len(text)):
        depth += {"{": 1, "}": -1}.get(text[place], 0)
        if not depth:
            return place + 1
    return len(text)


def contract_of(text):
    """The signature with which a text begins, and the clauses `ensures` behind it, by name and what they say."""
    head = re.match(r"(?:\[[^\]]*\]|[^{;\[])*?(?=\s*(?:\b(?:requires|ensures)\b|[{;]))", text)
    at, found = head.end(), []
    while clause := CLAUSE.match(text, at):
        at = closed(text, clause.end() - 1)
        if clause[1] == "ensures":
            found.append((clause[2] or "the one clause", " ".join(text[clause.end() : at - 1].split())))
    return head[0], found


def of_memory(comment):
    """The sentences of a comment that speak of memory."""
    return [it for it in re.split(r"(?<=\.)\s+", comment) if "memory" in it.lower()]


def calls_of(file, errors):
    """The public calls of a file that may answer want of memory: name, clauses, comment."""
    lines = [it for it in file.read_text(encoding="utf-8").splitlines() if not re.match(r"\s*//(?!/)", it)]
    owner, kind, comment, found = "", "", [], []
    for at, line in enumerate(lines):
        if line.startswith("#[cfg(test)]"):
            break
        if not line.startswith(" ") and (head := OWNER.match(line)):
            owner = re.match(r"\w*", head[3].split(" for ")[-1])[0]
            kind = "for" if " for " in head[3] else head[2]
        elif line.startswith("}"):
            owner, kind = "", ""
        if line.strip().startswith("///"):
            comment.append(line.strip()[3:].strip())
        elif head := HEAD.match(line):
            signature, clauses = contract_of("\n".join(lines[at:]))
            answer = re.search(r"-> .*?\bResult<(.*?)(?:\bwhere\b|$)", signature, re.S)
            kinds = set(re.findall(r"\w+", answer[1].split(",", 1)[-1])) if answer else set()
            if kinds & (errors | OF_SQLITE.get(file.parts[-3], set())) and ("pub fn" in line or kind == "trait" or (kind == "for" and clauses)):
                found.append((f"{owner}::{head[1]}" if owner else head[1], clauses, " ".join(comment)))
            comment = []
        elif line.strip() and not line.strip().startswith("#["):
            comment = []
    return found


def lost_calls(page):
    """The calls that a table of a page names, behind the crates that have them, and that none of these has."""
    lost = []
    for line in page.read_text(encoding="utf-8").splitlines():
        if row := re.match(r"\| (dns_\w+(?:, dns_\w+)*) \| (.*?) \|", line):
            sources = [it for crate in row[1].split(", ") for it in (TOP / "crates" / crate).glob("src/*.rt")]
            text = "".join(it.read_text(encoding="utf-8") for it in sources)
            lost += [f"{row[1]}: {it}" for it in re.findall(r"`([\w:]+)`", row[2]) if not re.search(rf"\bfn {it.split('::')[-1]}\b", text)]
    return lost


def speaks(said):
    """Whether a clause speaks where the answer is want of memory."""
    return not OF_OK.match(said) and not OF_ONE_ERROR.match(said)


def main():
    words = sys.argv[1:]
    say, named = "--say" in words, [it for it in words if it != "--say"]
    errors, count = errors_of_memory(), 0
    for crate in sorted((TOP / "crates").iterdir()):
        if named and crate.name not in named:
            continue
        for file in sorted(crate.glob("src/*.rt")):
            for name, clauses, comment in calls_of(file, errors):
                spoken = [it for it in clauses if speaks(it[1])]
                count += 1
                print(f"{crate.name}::{file.stem}::{name}: {', '.join(it[0] for it in spoken) or 'no clause'}")
                if say:
                    print("".join(f"    {it}\n" for it in [*of_memory(comment), *(f"{key}: {said}" for key, said in spoken)]), end="")
    print(f"memory: {count} calls may answer want of memory")


if __name__ == "__main__":
    main()
