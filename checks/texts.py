#!/usr/bin/env python3
"""Reads the texts that people and other tools read: the pages of docs/, those for man, the shell scripts, the units for systemd.

- each link from a page of docs/ to another, and each page and file that a text names by its path, leads to what is there;
- the rules of docs/MAP.md stand in order (with --sort it puts them so);
- each file that docs/MAP.md names is there, and the map names each crate; docs/PROVED.md names each that has definitions of its own;
- each call that the tables of docs/MEMORY.md name is one of its crate;
- each line of the contract that docs/CONTRACTS.md reads aloud stands in the sources;
- the pages for man name each option and each status that `--help` names;
- `mandoc -Tlint`, `shellcheck` and `systemd-analyze verify` find no fault in them, each where it is installed, and else it is passed over with a line.

It needs no built program: the help stands in the sources. Uses the standard library alone.
"""

import re
import shutil
import subprocess
import sys
import tempfile
from pathlib import Path

import memory

TOP = Path(__file__).resolve().parent.parent
PAGES = {
    "man/dns.8": "crates/dns_serve/src/help.rt",
    "man/dns-nsupdate.1": "crates/dns_update_client/src/help.rt",
    "man/dns-audit.1": "crates/dns_audit/src/help.rt",
    "man/dns-follow.1": "crates/dns_follow/src/help.rt",
}
SCRIPTS = ["dns", ".ci/run", "examples/followers.sh"]
MAP = TOP / "docs/MAP.md"
PROVED = TOP / "docs/PROVED.md"
CONTRACTS = TOP / "docs/CONTRACTS.md"
MEMORY = TOP / "docs/MEMORY.md"
READ_ALOUD = ["crates/dns_book/src/book.rt", "crates/dns_book/specs/Book.antt"]
# What a text names that stands at the top of the repository: a page, a script, an example.
NAMED = re.compile(r"(?<![\w/.-])(?:docs|checks|bench|examples|man|crates)/[\w./*-]*[\w*]")
UNITS = ["examples/dns.service", "examples/dns.socket"]


def lacks(page, source):
    """The options and statuses that a help names and a page does not."""
    text = (TOP / page).read_text(encoding="utf-8")
    told = (TOP / source).read_text(encoding="utf-8")
    options = sorted(set(re.findall(r"--([a-z]+)", told)))
    statuses = re.findall(r"^  (\d+) ", told[told.index("Exit status") :], re.M)
    faults = [f"--{it}" for it in options if f"Fl -{it}" not in text and f"| -{it}" not in text]
    return faults + [f"status {it}" for it in statuses if f".It {it}\n" not in text]


def pages_of_docs():
    """The pages that people read, in Markdown."""
    return sorted([*TOP.glob("*.md"), *(TOP / "docs").rglob("*.md")])


def lost_links():
    """The links of the pages that lead to no file, and the paths of texts that no file has. A `*` in a path stands for any name; what a build
    makes (`out`) may be there or not."""
    faults = []
    for page in pages_of_docs():
        for target in re.findall(r"\]\(([^)#\s]+)[^)]*\)", page.read_text(encoding="utf-8")):
            if "://" not in target and not (page.parent / target).exists():
                faults.append(f"{page.relative_to(TOP)}: no file for the link {target}")
    sources = [*(TOP / "crates").glob("*/src/*.rt"), *(TOP / "crates").glob("*/specs/*.antt"), *(TOP / "checks").rglob("*.py"), *(TOP / "bench").glob("*.py")]
    for text in [*pages_of_docs(), *sorted(sources)]:
        for named in sorted(set(NAMED.findall(text.read_text(encoding="utf-8")))):
            if not re.search(r"/(CRATE|out)\b", named) and not list(TOP.glob(named)):
                faults.append(f"{text.relative_to(TOP)}: no file {named}")
    return faults


def files_named(cell, folder):
    """The files that a cell of a table names in backticks, each with the folder in which it should be: a path that begins with a crate gives
    the folder of the names behind it, and one that begins with src/ or specs/ stands in the folder's crate."""
    found = []
    for name in re.findall(r"`([^`\s]+\.(?:rt|antt))`", cell):
        if re.match(r"dns_\w+/", name):
            folder = (TOP / "crates" / name).parent
            found.append(TOP / "crates" / name)
        elif "/" in name and folder:
            found.append((folder if folder.parent.name == "crates" else folder.parent) / name)
        elif folder:
            found.append(folder / name)
    return found


def lost_words(cell):
    """The words that stand in brackets behind a file in a cell, in backticks, and that the file does not have."""
    lost = []
    for name, words in re.findall(r"`(dns_\w+/[^`\s]+)` \(((?:`[^`]+`(?:, )?)+)\)", cell):
        text = (TOP / "crates" / name).read_text(encoding="utf-8") if (TOP / "crates" / name).exists() else ""
        lost += [f"{word} in {name}" for word in re.findall(r"`([^`]+)`", words) if word not in text]
    return lost


def lost_files():
    """The files that the map names, and that are not there. In a table each cell is read by itself, with the crate of the row's first cell before
    it; elsewhere a name alone is looked for in all crates. A word in brackets behind a file has to stand in it."""
    faults = []
    all_names = {it.name for it in (TOP / "crates").glob("*/*/*") if it.suffix in (".rt", ".antt")}
    for number, line in enumerate(MAP.read_text(encoding="utf-8").splitlines(), 1):
        if line.startswith("|"):
            first, *cells = line.strip("|").split("|")
            crate = TOP / "crates" / first.strip()
            names = [it for cell in cells for it in files_named(cell, crate if crate.is_dir() else None)]
            lost = [str(it.relative_to(TOP)) for it in names if not it.exists()] + [it for cell in cells for it in lost_words(cell)]
        else:
            named = re.findall(r"`([^`\s]+\.(?:rt|antt))`", line)
            lost = [it for it in named if "/" in it and it.startswith("dns_") and not (TOP / "crates" / it).exists()]
            lost += [it for it in named if it.rsplit("/", 1)[-1] not in all_names]
        faults += [f"docs/MAP.md line {number}: there is no {it}" for it in lost]
    return faults


def left_out():
    """The crates that the map does not name, and those with definitions of their own of which docs/PROVED.md says nothing."""
    told = MAP.read_text(encoding="utf-8")
    proved = "\n".join(re.findall(r"^### .*", PROVED.read_text(encoding="utf-8"), re.M))
    crates = sorted(it for it in (TOP / "crates").iterdir() if (it / "src").is_dir())
    faults = [f"docs/MAP.md does not name {it.name}" for it in crates if not re.search(rf"^\| (?:[\w, ]*, )?{it.name}\b", told, re.M)]
    return faults + [f"docs/PROVED.md does not name {it.name}" for it in crates if (it / "specs").is_dir() and not re.search(rf"\b{it.name}\b", proved)]


def rules_sorted():
    """The map with the rows of "Where a rule lives" by the alphabet of their words."""
    text = MAP.read_text(encoding="utf-8")
    head, rules, rest = re.split(r"(?m)^(?=## Where a rule lives|## How to add a case)", text)
    title, rows = re.fullmatch(r"(.*?\n\|---.*?\n)(.*?)\n*", rules, re.S).groups()
    in_order = sorted(rows.splitlines(), key=lambda row: re.sub(r"[^a-z0-9 ]", "", row.split("|")[1].lower()).strip())
    return head + title + "\n".join(in_order) + "\n\n" + rest


def stale_lines():
    """The lines of the contract that docs/CONTRACTS.md reads aloud which stand in none of the files that it is copied from."""
    page = CONTRACTS.read_text(encoding="utf-8")
    section = page[page.index("## One contract, read aloud") :].split("\n## ")[0]
    copied = [it.strip() for it in section.splitlines() if it.startswith("    ")]
    there = {it.strip() for file in READ_ALOUD for it in (TOP / file).read_text(encoding="utf-8").splitlines()}
    return [f"docs/CONTRACTS.md: this line stands in the sources no more: {it}" for it in copied if it not in there]


def lint(words, what):
    """What a tool says of files, or nothing; where it is not installed, a line says so."""
    if not shutil.which(words[0]):
        print(f"texts: {words[0]} is not installed, so it does not read {what}")
        return ""
    ran = subprocess.run(words, cwd=TOP, stdin=subprocess.DEVNULL, stdout=subprocess.PIPE, stderr=subprocess.STDOUT, text=True)
    return ran.stdout if ran.returncode else ""


def units(home):
    """Copies of the units that can be verified where neither the program nor its user is there."""
    for unit in UNITS:
        text = (TOP / unit).read_text(encoding="utf-8").replace("/usr/local/bin/dns ", "/bin/true ")
        text = re.sub(r"^(User|Documentation)=.*\n", "", text, flags=re.M)
        (home / Path(unit).name).write_text(text, encoding="utf-8")
    return [str(home / Path(unit).name) for unit in UNITS]


def main():
    if sys.argv[1:] == ["--sort"]:
        MAP.write_text(rules_sorted(), encoding="utf-8")
    faults = [] if MAP.read_text(encoding="utf-8") == rules_sorted() else ["docs/MAP.md: rules out of order; --sort mends it"]
    faults += lost_links() + lost_files() + left_out() + stale_lines()
    faults += [f"docs/MEMORY.md: no call {it}" for it in memory.lost_calls(MEMORY)]
    faults += [f"{page} does not name {it}" for page, source in PAGES.items() for it in lacks(page, source)]
    pages = sorted(str(it.relative_to(TOP)) for it in (TOP / "man").iterdir())
    with tempfile.TemporaryDirectory() as home:
        said = [
            lint(["mandoc", "-Tlint", "-W", "warning", *pages], "the pages for man"),
            lint(["shellcheck", *SCRIPTS], "the shell scripts"),
            lint(["systemd-analyze", "verify", *units(Path(home))], "the units for systemd"),
        ]
    faults += [it for text in said for it in text.splitlines()]
    for fault in faults:
        print(f"texts: {fault}")
    print(f"texts: {len(pages_of_docs())} pages of docs, {len(pages)} for man, {len(SCRIPTS)} scripts, {len(UNITS)} units, {len(faults)} faults")
    sys.exit(1 if faults else 0)


if __name__ == "__main__":
    main()
