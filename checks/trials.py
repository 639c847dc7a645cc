"""How wrong bodies are tried: edits as they are read and applied, copies of a crate in which several are tried together, and what the prover's words
come to. wrong_bodies.py tells what a wrong body is, and which are tried; over_open.py leaves proofs of libraries open by the same means.

- Each wrong body changes a function of its own (a second one of the same function is put into a function of another name beside it,
  with the proof files of the first), and no function that is not changed is proved: its proof is a hole, so that its contract counts
  and its body does not;
- one check proves just the functions that were changed. A wrong body is refused if the prover says of the function that it changes that a
  goal is not proved, or refuses a proof file of that function. That it calls a function which is not proved counts for nothing, and
  neither does a proof file that names what the edit took away: such an edit says nothing of a contract, and fails the run;
- an edit of a constant or a definition can change what others mean, so it is tried alone. It says by `only: FUNCTION` (a path below the
  crate, several lines for several functions) whose contract is to refuse it; an edit of a function may do so too;
- what ends in .harmless in the same folder is an edit that keeps the meaning: it is tried with the others, and has to stay proved.

An edit is as rt's: a line 'file: PATH', then pairs of lines 'old: TEXT' and 'new: TEXT', where the old text stands exactly once in that file.
"""

import functools
import os
import re
import shutil
import subprocess
import tempfile
from pathlib import Path

TOP = Path(__file__).resolve().parent.parent
BY_RT, TOGETHER = "must-fail", "must-fail-together"
EDIT = re.compile(r"[A-Za-z0-9_-][A-Za-z0-9_.-]*\.(edit|harmless)")
PARTS = ("src", "specs", "proofs")
FUNCTION = re.compile(r"^( *)(?:pub(?:\([a-z]+\))? )?(?:const )?(?:unsafe )?fn (\w+)")
# What the prover says of a proof file that names what an edit took away.
NAMES = re.compile(r"has no field|\(nearest: |is not in scope|has no `|was not admitted|is no name")


class Stale(Exception):
    """An edit that cannot be applied, with why."""


class Place:
    """A function in a file's text: its path below the crate, and its lines, from the first of its doc comment to its end; its body begins behind
    the line `opens`."""

    def __init__(self, path, name, indent, first, head, opens, last):
        self.path, self.name, self.indent = path, name, indent
        self.first, self.head, self.opens, self.last = first, head, opens, last


def bare(kind):
    """The last word of a type's or trait's path, without its parameters."""
    kind = re.sub(r"^&(?:'\w+ )?(?:mut )?", "", kind.strip())
    return re.sub(r"<.*", "", kind).split("::")[-1].strip()


def owner_of(line):
    """How rattle names what an impl or a trait's methods belong to, or none."""
    trait = re.match(r"(?:pub(?:\([a-z]+\))? )?(?:unsafe )?trait (\w+)", line)
    if trait:
        return trait[1]
    if not re.match(r"(?:unsafe )?impl\b", line):
        return None
    text, depth = re.sub(r"^(?:unsafe )?impl\s*", "", line).split("{")[0], 0
    text = re.sub(r"\bwhere\b.*", "", text)
    for at, letter in enumerate(text if text.startswith("<") else ""):
        depth += (letter == "<") - (letter == ">" and text[at - 1] != "-")
        if not depth:
            text = text[at + 1 :]
            break
    first, _, second = text.partition(" for ")
    source = re.fullmatch(r"\s*From<([\w:]+)(?:<.*>)?>\s*", first)
    # (of From it says from what, as in FaultFromIoError)
    kind = "From" + "".join(it[:1].upper() + it[1:] for it in source[1].split("::")) if source else bare(first)
    return bare(second)[:1].upper() + bare(second)[1:] + kind if second else bare(first)


def body_of(lines, head, indent):
    """The line behind which the body of a function begins that begins at this one, and the last line; or none where it has no body."""
    depth = 0
    for at in range(head, len(lines)):
        line = lines[at]
        if not depth and (line == indent + "{}" or at == head and re.search(r"\{.*\}$", line)):
            return at, at
        if not depth and line.endswith("{") and len(line) - len(line.lstrip()) == len(indent):
            return at, lines.index(indent + "}", at)
        depth += line.count("{") - line.count("}")
        if not depth and line.endswith(";"):
            return None
    return None


def module_of(file):
    """The path of the module that a file of src/ is."""
    return [it for it in Path(file).with_suffix("").parts[1:] if it not in ("lib", "main", "mod")]


@functools.lru_cache(maxsize=None)
def homes(folder):
    """Where each type of a crate is declared: rattle names its own methods by that module, wherever they stand."""
    found = {}
    for file in sorted(Path(folder).glob("src/**/*.rt")):
        for name in re.findall(r"^(?:pub(?:\([a-z]+\))? )?(?:struct|enum) (\w+)", file.read_text(encoding="utf-8"), re.M):
            found[name] = module_of(str(file.relative_to(folder)))
    return found


def places(folder, file, text):
    """The functions with a body in the text of a file of src/ of a crate, as rustfmt lays it out."""
    module, lines, owner, found = module_of(file), text.split("\n"), None, []
    for at, line in enumerate(lines):
        if re.match(r"(?:pub(?:\([a-z]+\))? )?(?:unsafe )?(?:impl|trait)\b", line):
            owner = owner_of(" ".join(it.strip() for it in lines[at : at + 12]))
        elif line.startswith("}"):
            owner = None
        head = FUNCTION.match(line)
        body = body_of(lines, at, head[1]) if head else None
        if body is None:
            continue
        first = at
        while first and re.match(r" *(///|#\[)", lines[first - 1]):
            first -= 1
        own = [*homes(folder).get(owner, module), owner] if head[1] and owner else module
        found.append(Place("::".join([*own, head[2]]), head[2], head[1], first, at, *body))
    return found


def read(edit):
    """The pairs of an edit, each with its file, and the functions that it names."""
    file = old = None
    pairs, only = [], []
    for line in edit.read_text(encoding="utf-8").split("\n"):
        if line.startswith("file: "):
            file = line.removeprefix("file: ").strip()
            if os.path.normpath(file) != file or not file.startswith(tuple(f"{it}/" for it in PARTS)):
                raise Stale(f"{file} is no file below src/, specs/ or proofs/")
        elif line.startswith("only: "):
            only.append(line.removeprefix("only: ").strip())
        elif line.startswith("old: "):
            old = line.removeprefix("old: ")
        elif line.startswith("new:"):
            if not file or not old:
                raise Stale("a new text stands before any file or old text")
            pairs.append((file, old, line.removeprefix("new:").removeprefix(" ")))
            old = None
    if not pairs:
        raise Stale("it has no pair of an old and a new text")
    return pairs, only


def applied(folder, edit):
    """The texts that an edit makes of files, those of before, the functions that it changes, and whether it changes nothing else."""
    texts, before, inside, apart = {}, {}, {}, True
    pairs, only = read(edit)
    for file, old, new in pairs:
        if file not in texts:
            try:
                texts[file] = before[file] = (folder / file).read_text(encoding="utf-8")
            except (OSError, UnicodeDecodeError):
                raise Stale(f"there is no file {file}") from None
        if texts[file].count(old) != 1:
            raise Stale(f"an old text is in {file} {texts[file].count(old)} times, and not once")
        row = texts[file][: texts[file].index(old)].count("\n")
        around = [it for it in places(folder, file, texts[file]) if it.head < row <= it.last] if file.startswith("src/") else []
        inside.update({around[-1].path: file} if around else {})
        apart = apart and bool(around)
        texts[file] = texts[file].replace(old, new)
    if texts == before:
        raise Stale("it changes nothing")
    return texts, before, only or list(inside), apart


def edits_of(crate, kind):
    """The edits of a crate in the folder of this name."""
    folder = TOP / "crates" / crate / kind
    return sorted(path for path in folder.rglob("*") if path.is_file() and path.suffix != ".md")


def stale():
    """How many edits there are by folder, and what is wrong with them."""
    count, wrong = {BY_RT: 0, TOGETHER: 0}, []
    for kind in count:
        for crate in sorted(it.parent.name for it in TOP.glob(f"crates/*/{kind}")):
            for edit in edits_of(crate, kind):
                count[kind] += edit.suffix == ".edit"
                try:
                    if not EDIT.fullmatch(edit.name) or edit.parent.name != kind:
                        raise Stale("it is no edit")
                    _, _, only, _ = applied(TOP / "crates" / crate, edit)
                    if kind == TOGETHER and not only:
                        raise Stale("it changes no function, and has no line `only:`")
                except Stale as why:
                    wrong.append(f"{edit.relative_to(TOP)}: {why}")
    return count, wrong


class Copy:
    """A copy of a crate in which wrong bodies are tried together."""

    def __init__(self, crate, room, no_copies):
        self.no_copies, self.is_closed = no_copies, False
        self.crate, self.room, self.tried, self.changed, self.same = crate, room, {}, {}, {}
        for part in PARTS:
            if os.path.isdir(f"{crate.folder}/{part}"):
                shutil.copytree(f"{crate.folder}/{part}", room / part)

    def take(self, edit):
        """Applies an edit, and returns whether it could go along with those that were taken."""
        if self.is_closed:
            return False
        own, before, only, is_apart = applied(Path(self.crate.folder), edit)
        if not is_apart or len(only) != 1 or len(own) != 1:
            if self.tried:
                return False
            for file, text in own.items():
                (self.room / file).write_text(text, encoding="utf-8")
            self.tried[edit] = only
            self.changed.update(dict.fromkeys(only, True))
            self.is_closed = not is_apart
            return True
        (file, text), (path,) = *own.items(), only
        now = (self.room / file).read_text(encoding="utf-8")
        if path not in self.changed:
            first = self.put_in_place(file, before[file], text, now, path)
        else:
            first = self.put_beside(file, before[file], text, now, path)
        if first:
            self.tried[edit] = [first]
            self.changed[first] = True
        return bool(first)

    def lines_of(self, file, text, path):
        """Where a function stands, and its lines."""
        place = next(it for it in places(Path(self.crate.folder), file, text) if it.path == path)
        return place, text.split("\n")[place.first : place.last + 1]

    def put_in_place(self, file, before, text, now, path):
        _, wrong = self.lines_of(file, text, path)
        place, _ = self.lines_of(file, now, path)
        lines = now.split("\n")
        lines[place.first : place.last + 1] = wrong
        (self.room / file).write_text("\n".join(lines), encoding="utf-8")
        return path

    def put_beside(self, file, before, text, now, path):
        """Puts the wrong function beside the right one, by another name and with copies of its proof files; and, with the first, the right one by
        another name too, which has to be proved, or else such copies say nothing."""
        place, wrong = self.lines_of(file, text, path)
        owner = path.split("::")[-2] if place.indent else ""
        header = next((it for it in text.split("\n")[: place.head][::-1] if it[:1] not in ("", " ", "/", "}", ")")), "")
        if path in self.no_copies or place.indent and (" for " in header or header.startswith(("trait", "pub trait")) or not owner):
            return None
        _, right = self.lines_of(file, before, path)
        if path not in self.same:
            self.same[path] = self.put_copy(file, path, right, "unchanged")
            self.changed[self.same[path]] = True
        return self.put_copy(file, path, wrong, str(len(self.changed)))

    def put_copy(self, file, path, text, ending):
        """Puts a function of this text beside another, by its name with an ending, and gives its path."""
        now = (self.room / file).read_text(encoding="utf-8")
        place, _ = self.lines_of(file, now, path)
        lines = now.split("\n")
        text = "\n".join(text).replace(f"fn {place.name}", f"fn {place.name}_{ending}", 1)
        lines[place.last + 1 : place.last + 1] = ["", *text.split("\n")]
        (self.room / file).write_text("\n".join(lines), encoding="utf-8")
        beside = f"{path}_{ending}"
        self.copy_proof(path, beside)
        return beside

    def copy_proof(self, path, beside):
        one, other = (self.room / "proofs" / Path(*it.split("::")) for it in (path, beside))
        if one.is_dir():
            shutil.copytree(one, other)
        for proof in other.rglob("*.antt") if other.is_dir() else ():
            whole = [f"proofs.{it.replace('::', '.')}." for it in (path, beside)]
            text = proof.read_text(encoding="utf-8").replace(*whole)
            proof.write_text(text, encoding="utf-8")

    def leave_open(self, but):
        """Gives each function that is not changed, but these, a hole for a proof."""
        for source in sorted((self.room / "src").rglob("*.rt")):
            text = source.read_text(encoding="utf-8")
            lines = text.split("\n")
            for place in places(Path(self.crate.folder), str(source.relative_to(self.room)), text):
                calls = rf"(?:self\.|Self::){place.name}\(" if place.indent else rf"(?<![\w:.]){place.name}\("
                is_cycle = any("#[cycle" in it for it in lines[place.first : place.head]) or re.search(calls, "\n".join(lines[place.head + 1 : place.last]))
                if is_cycle or place.path in self.changed or place.path in but:
                    continue
                folder = self.room / "proofs" / Path(*place.path.split("::"))
                for name in ("Invariants.antt", "Answers.antt"):
                    (folder / name).unlink(missing_ok=True)
                folder.mkdir(parents=True, exist_ok=True)
                module = place.path.replace("::", ".")
                (folder / "Proof.antt").write_text(
                    f"use Rattle.{self.crate.name}.proofs.{module}.Statement.{{statement}}\n\n"
                    f"pub {place.name}_spec : {{M : Type 1}} → statement M\n{place.name}_spec 𝓤 𝓛 𝓜 𝓡 w = ?\n",
                    encoding="utf-8",
                )

    def check(self, lib):
        """What the prover says of the functions that were changed."""
        but = set()
        for _ in range(4):
            self.leave_open(but)
            only = [word for path in self.changed for word in ("--only", f"{self.crate.name}::{path}")]
            words = [*lib.guarded(), lib.RATTLE, "check", *self.crate.words(["--jobs", "1"], keeps=False), "--allow-holes", "--progress", *only]
            how = {"cwd": self.room, "stdin": subprocess.DEVNULL, "stdout": subprocess.PIPE, "stderr": subprocess.STDOUT}
            said = subprocess.run(words, text=True, errors="replace", **how).stdout
            if os.environ.get("WRONG_BODIES_LOG"):
                Path(os.environ["WRONG_BODIES_LOG"], f"{self.crate.name}-{len(self.tried)}").write_text(said, encoding="utf-8")
            # (where rattle knows no function of that name it may say so before it checks any)
            none = re.findall(r"^\./proofs/(\S+)/Proof\.antt: error: (?:rattle does not read|`\w+` has no function)", said, re.M)
            if not none or re.search(r"^only=\d+ ", said, re.M):
                break
            for path in none:
                shutil.rmtree(self.room / "proofs" / path)
                but.add(path.replace("/", "::"))
        return said


# What a wrong body came to.
REFUSED, PROVED, BY_NAME, UNREAD = "refused", "NOT REFUSED", "refused only because a proof file names what the edit took away", "it was not tried: the prover could not read it"


def verdict(said, crate, path, is_alone):
    """What the prover says of one function. Behind an edit that is alone it may refuse a lemma on which the function's proof stands."""
    lines = said.split("\n")
    line = next((it for it in lines if it.startswith(f"fn {crate}::{path}: ")), "")
    told = line.partition(": ")[2]
    if not told or "does not cover this function" in told or "is not made yet" in told:
        return UNREAD
    if told.startswith(("no holes", "depends on a hole", "proved")):
        return PROVED
    own = f"proofs/{path.replace('::', '/')}/"
    faults = [it for it in lines if it.startswith("./proofs/" if is_alone else "./" + own) and ": error" in it]
    # (a goal whose name is another has lost its answer, and then that it was not found says nothing)
    by_name = [it for it in faults if NAMES.search(it)]
    is_false = any(f"of {own}" in it and " may be false: " in it for it in lines)
    if is_false or len(by_name) < len(faults) or ("did not prove" in told and not by_name):
        return REFUSED
    return BY_NAME if by_name else PROVED


def tried(lib, crate, edits, no_copies):
    """Tries edits together, and returns what each came to, and what is left to try. Of the functions in no_copies no copy is made."""
    with tempfile.TemporaryDirectory(prefix="wrong-bodies-") as home:
        copy = Copy(crate, Path(home), no_copies)
        left = [edit for edit in edits if not copy.take(edit)]
        said = copy.check(lib)
    told = lambda path: verdict(said, crate.name, path, copy.is_closed)
    for path, same in copy.same.items():
        if told(same) != PROVED:
            # (its proof does not go along with another name: its edits are tried one after another)
            no_copies.add(path)
            again = [edit for edit, (one, *_) in copy.tried.items() if one.startswith(f"{path}_")]
            left += again
            copy.tried = {edit: paths for edit, paths in copy.tried.items() if edit not in again}
    found = {}
    for edit, paths in copy.tried.items():
        came = [told(path) for path in paths]
        found[edit] = next((it for it in (REFUSED, BY_NAME, UNREAD) if it in came), PROVED)
    unsure = [edit for edit in found if found[edit] == UNREAD or found[edit] == PROVED and edit.suffix == ".edit"]
    if unsure and len(found) > 1:
        # (one of them may keep the others from being read, and what calls a wrong function may not be looked at to its end)
        for edit in unsure:
            found.update(tried(lib, crate, [edit], no_copies)[0])
        return found, left
    for edit in found:
        if found[edit] == UNREAD:
            found[edit] += ": " + "\n    ".join([it for it in said.split("\n") if "error" in it][:4])
    return found, left
