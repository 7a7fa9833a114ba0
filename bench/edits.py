#!/usr/bin/env python3
"""Tries the edits of edits/, which the gate doesn't try, before a release: the proofs have to refuse each.

usage: bench/edits.py [--list FILE] [CRATE | CRATE/NAME ..]
       bench/edits.py --texts

The first tries those of these crates, or these alone, or all. It works on a copy of the files as they stand. Libraries that `rt ci` proved
on this machine are taken as proved. In each crate it first proves the functions that the edits change, as they stand. Then it tries several
edits in one check, each of another function: a caller knows a function by its contract, which no edit changes. An edit of a constant or a
type is tried alone, in the functions that name it. What isn't refused so is tried alone, by a check of the whole crate, before it is called
not refused. A line tells of each edit that isn't refused, that can't be compiled, that wasn't tried, or that is refused for a name alone or
by a limit of the prover, which says little of a contract. The last line counts them; those refused by a limit count as refused. Lines on
the standard error say what each crate took.

With `--list FILE` a line is added to FILE for each edit: its crate, its name, what came of it, the functions, the first goal that wasn't
proved, and a sum of its text. An edit of the same text that FILE has as refused isn't tried again, so a run may be cut off.

The second tries none, and takes less than a second: it says which edits, those that the gate tries too, can't be applied. Each text after
`old:` stands in its file once, and a later pair of an edit applies to what an earlier one made.

The status is 1 where an edit isn't refused or can't be applied, and 2 where none was tried.
"""

import hashlib
import importlib.machinery
import importlib.util
import os
import pathlib
import re
import resource
import shutil
import signal
import subprocess
import sys
import tempfile
import time

TOP = pathlib.Path(__file__).resolve().parents[1]
# What came of an edit.
REFUSED, LIMIT = "refused", "refused by a limit of the prover alone"
NAME, BAD, MISSED, UNTRIED = "refused for a name alone", "BAD", "NOT REFUSED", "NOT TRIED"
# The seconds that a check gets.
SECONDS = 1200

FUNCTION = re.compile(r"( *)(?:pub(?:\(\w+\))? )?(?:(?:const|unsafe|final) )*fn (\w+)")
ITEM = re.compile(r" *(?:pub(?:\(\w+\))? )?(?:const|static|struct|enum|type|trait) (\w+)")
# A line of a check that speaks of a place.
PLACED = re.compile(r"(?:note: )?(?:\./)?((?:src|specs|proofs)/\S+?):(\d+):\d+: ")
# What the compiler says of a place, before anything is proved.
UNCOMPILED = re.compile(r"(?:\./)?(src/\S+?):(\d+):\d+: error\[")
# What a proof file lacks where an edit takes away or renames what it cites.
OF_A_NAME = re.compile(r"(?:note: )?(?:\./)?proofs/.*(has no field|is not in scope|has no `|was not admitted)")
OF_A_LIMIT = re.compile(r"antt ran out of (stack|the (steps|memory))|(outgrew the memory limit|stopped at the step limit) \(")
OF_A_CALLEE = re.compile(r"it calls|it passes|a call of")


class Function:
    """A function with a body: its file in the crate, the lines of its body, counted from 1, and its path as a check writes it."""

    def __init__(self, file, lines, first, opens, last):
        self.file, self.opens, self.last = file, opens + 1, last + 1
        head = FUNCTION.match(lines[first])
        module = file.removeprefix("src/").removesuffix(".rt").removesuffix("/mod").split("/")
        module = [it for it in module if it not in ("lib", "main")]
        below = [*block_of(lines, first, head[1]), head[2]]
        # A closure in it has a path that begins with the second.
        self.path, self.inside = [*module, *below], [*module, "fn", *below]

    def __eq__(self, other):
        return self.path == other.path

    def __hash__(self):
        return hash(str(self))

    def __str__(self):
        return "::".join(self.path)

    def is_named(self, symbol):
        """Returns whether the symbol, which begins with the crate, is that of the function or of a closure in it."""
        path = symbol.split("::")[1:]
        return path == self.path or path[: len(self.inside)] == self.inside

    def has(self, file, line):
        """Returns whether the place is in the body, or in the function's proof files."""
        proofs = tuple("/".join(["proofs", *it, ""]) for it in (self.path, self.inside))
        return file.startswith(proofs) or file == self.file and self.opens <= line <= self.last


def block_of(lines, first, indent):
    """Returns, in a list, the name that a check gives the block in which the function stands, or nothing where it stands in none."""
    heads = (it for it in reversed(lines[:first]) if re.match(rf"{indent[4:]}(pub )?(impl|trait)\b", it))
    head = next(heads, None) if indent else None
    if not head:
        return []
    if re.match(r" *(pub )?trait", head):
        return [re.search(r"trait (\w+)", head)[1]]
    # `impl<T: Drop> From<AllocFailed<T>> for Fault` is FaultFromAllocFailed, and `impl<T> List<T>` is List.
    generics, words = re.fullmatch(r" *impl(<(?:[^<>]|<[^<>]*>)*>)? (.*?)(?: where.*| \{)?", head).groups()
    own = re.findall(r"(?:^<|, ?)(?:const )?(\w+)", generics or "")
    trait, _, of = re.sub(r"'\w+", "", words).rpartition(" for ")
    names = [it.rpartition("::")[2] for it in re.findall(r"\w+(?:::\w+)*", f"{of} {trait}")]
    return ["".join(it for it in names if it not in own) if trait else names[0]]


def functions_in(file, text):
    """Returns the functions with a body in a text that `rt fmt` laid out: a body begins and ends at the depth of its `fn`."""
    lines, found = text.split("\n"), []
    for first, line in enumerate(lines):
        head = FUNCTION.match(line)
        at, indent = first, head[1] if head else ""
        while head and at < len(lines) and not lines[at].endswith(";"):
            is_edge = lines[at].startswith(indent) and not lines[at].startswith(indent + " ")
            if is_edge and lines[at].endswith(("{", "{}")):
                last = at if lines[at].endswith("{}") else lines.index(indent + "}", at)
                found.append(Function(file, lines, first, at, last))
                break
            at += 1
    return found


class Edit:
    """An edit: its text, what it changes, and what came of it."""

    def __init__(self, path, crate):
        self.path, self.crate, self.name = path, crate, f"{crate.name}/{path.stem}"
        self.text = path.read_text(encoding="utf-8") if path.suffix == ".edit" else ""
        self.sum = hashlib.sha256(self.text.encode()).hexdigest()[:12]
        # The functions that it changes, or that name what it changes outside of bodies: then it is tried alone.
        self.functions, self.is_alone = [], False
        self.verdict, self.why = None, ""

    def applied(self, texts):
        """Returns the texts of the files that it changes, by their paths, made from these texts or the files, and the place of each change:
        the path, the text before it, and where in that. Where it can't be applied, returns none and why."""
        path, old, made, places = None, None, {}, []
        for line in self.text.split("\n"):
            if line.startswith("file: "):
                path = self.crate / line.removeprefix("file: ").strip()
                if not path.is_file():
                    return None, f"there is no file {path.relative_to(TOP)}"
            elif line.startswith("old: "):
                old = line.removeprefix("old: ")
            elif line.startswith("new:"):
                if not path or not old:
                    return None, "a line `new:` has no `file:` or no `old:` before it"
                text = made.get(path) or texts.get(path) or path.read_text(encoding="utf-8")
                if text.count(old) != 1:
                    return None, f"in {path.relative_to(TOP)} this text stands {text.count(old)} times, and not once: {old.strip()}"
                places.append((path, text, text.index(old)))
                made[path] = text.replace(old, line.removeprefix("new:").removeprefix(" "))
                old = None
            elif line.strip():
                return None, f"a line begins with none of `file:`, `old:` and `new:`: {line.strip()}"
        return (made, places) if places else (None, "it has no pair of `old:` and `new:`")

    def look(self):
        """Finds the functions that it changes."""
        for path, text, place in self.applied({})[1]:
            file, line = path.relative_to(self.crate).as_posix(), text.count("\n", 0, place) + 1
            around = [it for it in functions_in(file, text) if it.opens < line < it.last]
            self.is_alone = self.is_alone or not around
            self.functions += around[-1:] or self.naming(text.split("\n")[:line])
        self.functions = list(dict.fromkeys(self.functions))

    def naming(self, lines):
        """Returns the functions that name the item whose head is the last in the lines."""
        heads = (FUNCTION.match(it) or ITEM.match(it) for it in reversed(lines))
        head, found = next((it for it in heads if it), None), []
        for path in self.crate.glob("src/**/*.rt") if head else []:
            text = path.read_text(encoding="utf-8")
            for it in functions_in(path.relative_to(self.crate).as_posix(), text):
                body = "\n".join(text.split("\n")[it.opens - 1 : it.last])
                found += [it] * bool(it.path[-1] == head[head.lastindex] or re.search(rf"\b{head[head.lastindex]}\b", body))
        return found


def all_of(pattern):
    """Returns the edits in the files that the pattern names."""
    crate = lambda it: it.parents[1] if it.parent.name == "must-fail" else TOP / "crates" / it.parent.name
    return [Edit(it, crate(it)) for it in sorted(TOP.glob(pattern))]


def can_be_applied():
    """Says which edits can't be applied, and returns whether all can."""
    found = sorted(all_of("crates/*/must-fail/*") + all_of("edits/*/*"), key=lambda it: it.path)
    why = lambda it: it.applied({})[1] if it.path.suffix == ".edit" else "its name doesn't end in .edit"
    bad = [it for it in found if it.path.suffix != ".edit" or not it.applied({})[0]]
    for it in bad:
        print(f"{it.path.relative_to(TOP)} can't be applied: {why(it)}", file=sys.stderr)
    if bad:
        why = "mend them, or remove those whose code is gone (docs/TESTING.md)"
        print(f"{len(bad)} of {len(found)} edits can't be applied: {why}", file=sys.stderr)
    return not bad


def copy_to(room):
    """Copies the files that a check reads."""
    (room / ".git").mkdir()
    for name in ("crates.txt", "HANDLES"):
        shutil.copyfile(TOP / name, room / name)
    shutil.copytree(TOP / "crates", room / "crates", ignore=shutil.ignore_patterns("out", "must-fail"))


def lend(room):
    """Gives the libraries in the room what `rt ci` kept of the same files on this machine, and returns the names of those it didn't keep.

    Here alone this looks into `rt`, that of rattle-kit-13f. What is kept of a library has a key made of all that it was proved from. The
    library's stamp tells `rt check` that nothing has changed since."""
    loader = importlib.machinery.SourceFileLoader("rt", os.path.realpath(shutil.which("rt")))
    rt = importlib.util.module_from_spec(importlib.util.spec_from_loader("rt", loader))
    sys.dont_write_bytecode = True
    loader.exec_module(rt)
    rt.Crate.allowed, rt.Crate.cuts_libraries = rt.handles_of(str(room)), True
    crates = rt.crates_of(str(room))
    kept, lacking = rt.Kept(crates), []
    for crate in crates:
        is_above = any(it.name in lacking for it in crate.below())
        if crate.is_program:
            continue
        if is_above or not kept.give(crate, False, kept.key(crate)):
            lacking.append(crate.name)
            continue
        kept.is_built(crate)
        pathlib.Path(crate.folder, "out", "rlib", "stamp").write_text(crate.stamp(), encoding="utf-8")
    return lacking


class Said:
    """What a check said."""

    def __init__(self, status, text):
        self.status, self.lines = status, text.rstrip("\n").split("\n")
        self.functions = dict(it.removeprefix("fn ").split(": ", 1) for it in self.lines if re.match(r"fn \S+: ", it))
        self.uncompiled = [it for it in self.lines if UNCOMPILED.match(it)]
        placed = [it for it in self.lines if PLACED.match(it)]
        self.goals = [it for it in placed if ": error" in it or it.startswith("note: ")]
        # One that the compiler stopped, or that was cut off, came to no function.
        self.has_judged = status in (0, 1, 3) and bool(self.functions)

    def of(self, functions):
        """Returns what came of an edit of these functions, and the first goal. Returns none where the check doesn't tell, as where it was
        stopped, or where something that they call isn't proved."""
        words = [said for symbol, said in self.functions.items() if any(it.is_named(symbol) for it in functions)]
        places = [(it, PLACED.match(it)) for it in self.goals]
        goals = [it for it, place in places if any(f.has(place[1], int(place[2])) for f in functions)]
        goals += [it for it in words if "did not prove" in it and not OF_A_CALLEE.search(it)]
        if goals:
            return refusal(goals)
        return (MISSED, "") if words and all(it.startswith("proved") for it in words) else None

    def of_all(self):
        """Returns what came of an edit that was tried by a check of the whole crate, and the first goal."""
        limit = next((it for it in self.lines if OF_A_LIMIT.search(it)), None)
        if self.status == 0:
            return MISSED, "the crate is still proved with it: where that is right, remove it"
        if self.uncompiled:
            return BAD, self.uncompiled[0]
        if self.status == 1 and self.lines[-1].startswith("logic=not-proved"):
            return refusal(self.goals)
        if self.status == 3 and limit:
            return LIMIT, limit
        return UNTRIED, f"its check ended with status {self.status}: {' | '.join(self.lines[-3:])}"


def refusal(goals):
    """Returns what a refusal with these goals says of a contract, and the first that tells."""
    telling = [it for it in goals if not OF_A_NAME.match(it)]
    return (REFUSED, telling[0]) if telling else (NAME, goals[0] if goals else "")


class Trial:
    """A crate in the room, whose edits are tried."""

    def __init__(self, room, crate):
        self.crate, self.folder, self.checks = crate, room / "crates" / crate.name, 0
        # What a check of the crate as it stands proved, and whether it was of the whole crate.
        self.seed, self.is_whole = room / "seed", False

    def check(self, edits, functions):
        """Checks these functions with these edits, or the whole crate where no function is named."""
        made, kept = {}, self.folder / "out" / "incremental"
        for edit in edits:
            made.update(edit.applied(made)[0])
        for path, text in made.items():
            (self.folder / path.relative_to(self.crate)).write_text(text, encoding="utf-8")
        shutil.rmtree(kept, ignore_errors=True)
        if self.seed.is_dir():
            shutil.copytree(self.seed, kept, copy_function=linked)
        words = ["rt", "check", *(word for it in functions for word in ("--only", f"{self.crate.name}::{it}"))]
        how = {"cwd": self.folder, "stdin": subprocess.DEVNULL, "stdout": subprocess.PIPE, "stderr": subprocess.STDOUT, "errors": "replace"}
        try:
            ran = subprocess.run(words, timeout=SECONDS, **how)
            said = Said(ran.returncode, ran.stdout)
        except subprocess.TimeoutExpired:
            said = Said(-1, f"it had not ended after {SECONDS} seconds")
        for path in made:
            shutil.copyfile(path, self.folder / path.relative_to(self.crate))
        self.checks += 1
        return said

    def begin(self, functions):
        """Proves these functions, or the whole crate, as they stand, and keeps that for the checks of edits."""
        said = self.check([], functions)
        if said.has_judged:
            shutil.rmtree(self.seed, ignore_errors=True)
            os.rename(self.folder / "out" / "incremental", self.seed)
            self.is_whole = not functions and said.status == 0
        return said

    def together(self, edits):
        """Tries edits of different functions in one check. Returns those it says nothing of, as of a caller of what another changes."""
        said = self.check(edits, functions_of(edits))
        if said.has_judged:
            for edit in edits:
                edit.verdict, edit.why = said.of(edit.functions) or (None, "")
            return [it for it in edits if not it.verdict]
        if len(edits) == 1:
            edits[0].verdict, edits[0].why = (BAD, said.uncompiled[0]) if said.uncompiled else (None, "")
            return edits * (not edits[0].verdict)
        # One that can't be compiled hides the others, so those at the errors go apart, or else one half does.
        errors = [UNCOMPILED.match(it) for it in said.uncompiled]
        apart = [edit for edit in edits if any(it.has(at[1], int(at[2])) for at in errors for it in edit.functions)]
        apart = apart if 0 < len(apart) < len(edits) else edits[len(edits) // 2 :]
        return self.together([it for it in edits if it not in apart]) + self.together(apart)

    def alone(self, edit):
        """Tries an edit by a check of the whole crate."""
        said = None if self.is_whole else self.begin([])
        if said and said.status != 0:
            edit.verdict, edit.why = UNTRIED, f"the crate isn't proved as it stands: {' | '.join(said.lines[-3:])}"
        else:
            edit.verdict, edit.why = self.check([edit], []).of_all()

    def run(self, edits):
        """Tries all these edits of the crate, and yields each when it is done."""
        functions = functions_of(edits)
        said = self.begin(functions) if functions else None
        unproved = [it for it in functions if said.of([it]) != (MISSED, "")]
        if unproved:
            print(f"edits.py: {self.crate.name}: not proved as they stand: {', '.join(map(str, unproved))}", file=sys.stderr, flush=True)
        ready = [it for it in edits if it.functions and not {*it.functions} & {*unproved}]
        left = [it for it in edits if it not in ready]
        for batch in batches(ready):
            for edit in self.together(batch):
                left += self.together([edit]) if len(batch) > 1 else [edit]
            left += [it for it in batch if it.verdict in (MISSED, NAME)]
            yield from (it for it in batch if it.verdict in (REFUSED, BAD))
        for edit in left:
            self.alone(edit)
            yield edit
        shutil.rmtree(self.seed, ignore_errors=True)
        shutil.rmtree(self.folder / "out" / "incremental", ignore_errors=True)


def functions_of(edits):
    return list(dict.fromkeys(it for edit in edits for it in edit.functions))


def linked(one, other):
    """Links what was proved, since a check replaces such a file and never changes it, and copies what else it kept."""
    return os.link(one, other) if one.endswith(".oantt") else shutil.copy2(one, other)


def batches(edits):
    """Returns the edits in few lists, in each of which no two change the same function and all can be applied one after the other."""
    found = []
    for edit in edits:
        fits = (it for it in found if not it[0].is_alone and not {*edit.functions} & {*functions_of(it)} and go_together([*it, edit]))
        batch = None if edit.is_alone else next(fits, None)
        if batch:
            batch.append(edit)
        else:
            found.append([edit])
    return found


def go_together(edits):
    made = {}
    for edit in edits:
        more = edit.applied(made)[0]
        if not more:
            return False
        made.update(more)
    return True


def known(file):
    """Returns the names and sums of the edits that the file has as refused."""
    lines = file.read_text(encoding="utf-8").splitlines() if file and file.is_file() else []
    rows = [it.split("\t") for it in lines]
    return {(f"{it[0]}/{it[1]}", it[-1]) for it in rows if it[2] in (REFUSED, LIMIT)}


def tell(edit, file):
    """Prints a line of an edit that isn't plainly refused, and adds one to the file."""
    if edit.verdict != REFUSED:
        print(f"{edit.path.relative_to(TOP)}: {edit.verdict}: {edit.why[:300]}", flush=True)
    row = [edit.crate.name, edit.path.stem, edit.verdict, " ".join(map(str, edit.functions)), edit.why[:300].replace("\t", " "), edit.sum]
    if file:
        with open(file, "a", encoding="utf-8") as to:
            to.write("\t".join(row) + "\n")


def try_all(edits, file):
    """Tries the edits, tells of each, and returns the status."""
    before = known(file)
    left = [it for it in edits if (it.name, it.sum) not in before]
    signal.signal(signal.SIGTERM, lambda *_: sys.exit(2))
    with tempfile.TemporaryDirectory(prefix="ciderlater-edits-") as room:
        room = pathlib.Path(room).resolve()
        copy_to(room)
        lacking = lend(room) if left else []
        if lacking:
            print(f"edits.py: these have to be proved first, since `rt ci` kept nothing of them: {', '.join(lacking)}", file=sys.stderr)
        for crate in dict.fromkeys(it.crate for it in left):
            mine, begun, trial = [it for it in left if it.crate == crate], time.time(), Trial(room, crate)
            for edit in mine:
                edit.look()
            for edit in trial.run(mine):
                tell(edit, file)
            count = sum(it.verdict in (REFUSED, LIMIT) for it in mine)
            minutes = f"{(time.time() - begun) / 60:.1f} minutes"
            print(f"edits.py: {crate.name}: {count} of {len(mine)} refused, {trial.checks} checks, {minutes}", file=sys.stderr, flush=True)
    spent = resource.getrusage(resource.RUSAGE_CHILDREN)
    print(f"edits.py: {(spent.ru_utime + spent.ru_stime) / 60:.1f} processor minutes", file=sys.stderr)
    refused = sum(it.verdict in (REFUSED, LIMIT) for it in left) + len(edits) - len(left)
    print(f"{refused} of {len(edits)} edits were refused, {len(edits) - refused} were not")
    if left and all(it.verdict == UNTRIED for it in left):
        return 2
    return 0 if refused == len(edits) else 1


def main(words):
    if not can_be_applied():
        return 1
    if words == ["--texts"]:
        return 0
    file = pathlib.Path(words[1]).resolve() if words[:1] == ["--list"] and len(words) > 1 else None
    names = [it.removesuffix(".edit") for it in (words[2:] if file else words)]
    found = all_of("edits/*/*")
    for name in names:
        if name.startswith("-"):
            print(__doc__.split("\n\n")[1], file=sys.stderr)
            return 2
        if not any(name in (it.crate.name, it.name) for it in found):
            print(f"edits.py: there is no folder and no edit edits/{name}", file=sys.stderr)
            return 2
    return try_all([it for it in found if not names or it.crate.name in names or it.name in names], file)


if __name__ == "__main__":
    sys.exit(main(sys.argv[1:]))
