#!/usr/bin/env python3
"""Measures the whole test from nothing, on a clean clone of what is committed: `bench/gate.py [FOLDER]`.

It runs `./test` there: `rt ci`, short tests beside it and, where cargo is, a comparison at last. It looks four times a second at the checks
below it, and prints a line a crate: the processor minutes of its proof, of the proof of its tests, of its must-fail edits (with the check
of the crate as it stands that belongs to them) and of building its programs. Then come the sum, the processor and wall minutes of the gate
and of the comparison, the longest chain of proofs, by the wall minutes that each took, the gate's last line and the last two of `./test`, and
at the end how what isn't the proof of a library or of `ciderlater` compares with these proofs. Run it with nothing else running, and as
`taskset -c 0,1 bench/gate.py` for two processors. FOLDER keeps the clone and the log of the test, `gate.log`; without one they go.

A kit whose `rt ci` proves everything each time, as rattle-kit-13b, needs nothing more. With a kit that keeps what passed between runs, as
rattle-kit-13f does in a folder `rattle-kept` beside its own, move that folder away first: else only what changed since is measured. Where
no proof of a crate was seen, a line says so.

A check is known by the name and words of its process, and an edit by its folder (`rt-edit..`), which are the same in both kits.
"""

import os
import re
import resource
import subprocess
import sys
import tempfile
import time

TICK = os.sysconf("SC_CLK_TCK")
KINDS = ("proof", "tests", "edits", "program")


def read(path):
    """Returns the bytes of a file of a process, or none where the process has ended."""
    try:
        with open(path, "rb") as file:
            return file.read()
    except OSError:
        return b""


def parents():
    """Returns the parent of each process, when it began, and its processor seconds with those of the children it waited for."""
    found = {}
    for name in os.listdir("/proc"):
        if name.isdigit():
            fields = read(f"/proc/{name}/stat").rpartition(b")")[2].split()
            if fields:
                found[int(name)] = int(fields[1]), int(fields[19]), sum(map(int, fields[11:15])) / TICK
    return found


def check_of(pid):
    """Returns the crate that a process checks and why, or none where it checks nothing."""
    words = read(f"/proc/{pid}/cmdline").decode(errors="replace").split("\0")
    if "--crate-name" not in words or os.path.basename(words[0]) != "rattle":
        return None
    name = words[words.index("--crate-name") + 1]
    try:
        here = os.readlink(f"/proc/{pid}/cwd")
    except OSError:
        return None
    if "/rt-edit" in here:
        return name, "edits"
    if "--test" in words:
        return name, "tests"
    return name, "program" if "--crate-checked" in words else "proof"


def is_gate(pid):
    """Returns whether a process is `rt ci`, a program of Python."""
    words = read(f"/proc/{pid}/cmdline").decode(errors="replace").split("\0")
    return words[-2:] == ["ci", ""] and os.path.basename(words[-3]) == "rt" if len(words) > 3 else False


class Gate:
    """What was seen of the checks of a run: processor seconds, and when each kind of a crate's checks began and ended."""

    def __init__(self):
        self.seen, self.spans = {}, {}
        # When `rt ci` was last seen, and its processor seconds then.
        self.ended, self.seconds = None, 0.0

    def look(self, top):
        now, all_of = time.time(), parents()
        below, grown = {top}, True
        while grown:
            more = {pid for pid, (parent, _, _) in all_of.items() if parent in below} - below
            below, grown = below | more, bool(more)
        for pid in below & all_of.keys():
            # A long run gives numbers of processes out again, so when it began tells a process.
            _, start, seconds = all_of[pid]
            what = self.seen[pid, start][0] if (pid, start) in self.seen else check_of(pid)
            if what:
                self.seen[pid, start] = what, seconds
                begun = self.spans.get(what, (now, now))[0]
                self.spans[what] = begun, now
            elif is_gate(pid):
                self.ended, self.seconds = now, seconds

    def minutes(self):
        """Returns the processor minutes of each crate by their kind."""
        found = {}
        for (name, kind), seconds in self.seen.values():
            of = found.setdefault(name, dict.fromkeys(KINDS, 0.0))
            of[kind] += seconds / 60
        return found

    def wall(self, name, kind):
        begun, ended = self.spans.get((name, kind), (0, 0))
        return (ended - begun) / 60


def crates(folder):
    """Returns the crates of the repository that each crate stands on."""
    found = {}
    with open(f"{folder}/crates.txt", encoding="utf-8") as file:
        for line in file:
            name, colon, rest = line.partition("#")[0].partition(":")
            if colon:
                found[name.split()[0]] = rest.split()
    return {name: [it for it in below if it in found] for name, below in found.items()}


def longest_chain(below, cost):
    """Returns the longest chain of proofs and its length: a crate's proof begins once those below it have ended."""
    known = {}

    def chain(name):
        if name not in known:
            length, names = max((chain(it) for it in below[name]), default=(0.0, []))
            known[name] = length + cost(name), [*names, name]
        return known[name]

    return max(chain(it) for it in below)


def table(below, found):
    """Prints a line a crate, and the sum."""
    print("| Crate | " + " | ".join(("Proof", "Tests", "Edits", "Program", "Together")) + " |")
    print("|---|" + "--:|" * 5)
    for name in below:
        of = found.get(name, dict.fromkeys(KINDS, 0.0))
        print(f"| `{name}` | " + " | ".join(f"{it:.1f}" if it else "" for it in [*of.values(), sum(of.values())]) + " |")
    sums = [sum(of[kind] for of in found.values()) for kind in KINDS]
    print("| all crates | " + " | ".join(f"{it:.1f}" for it in [*sums, sum(sums)]) + " |")


def is_product(folder, name):
    """Returns whether the crate is a library that isn't for tests, or the program."""
    is_library = not os.path.isfile(f"{folder}/crates/{name}/src/main.rt")
    return name == "ciderlater" or is_library and not name.startswith(("rows", "tests_"))


def run(folder):
    """Runs the test and prints what it took; returns its status."""
    gate, begun, before = Gate(), time.time(), resource.getrusage(resource.RUSAGE_CHILDREN)
    with open(f"{folder}/../gate.log", "w", encoding="utf-8") as log:
        ran = subprocess.Popen(["./test"], cwd=folder, stdin=subprocess.DEVNULL, stdout=log, stderr=log)
        while ran.poll() is None:
            gate.look(ran.pid)
            time.sleep(0.25)
    wall, after = (time.time() - begun) / 60, resource.getrusage(resource.RUSAGE_CHILDREN)
    total = (after.ru_utime + after.ru_stime - before.ru_utime - before.ru_stime) / 60
    of_gate = ((gate.ended or begun) - begun) / 60
    below, log = crates(folder), read(f"{folder}/../gate.log").decode(errors="replace").rstrip("\n").split("\n")
    table(below, gate.minutes())
    kit = subprocess.run(["rt", "version"], capture_output=True, text=True).stdout.strip()
    print(f"\n{len(os.sched_getaffinity(0))} processors, {kit}")
    print(f"the gate, with runs and what rt does itself: {gate.seconds / 60:.1f} processor minutes, {of_gate:.1f} wall minutes")
    print(f"what ./test does after it: {total - gate.seconds / 60:.1f} processor minutes, {wall - of_gate:.1f} wall minutes")
    length, names = longest_chain(below, lambda name: gate.wall(name, "proof"))
    print(f"longest chain of proofs: {length:.1f} wall minutes: {', '.join(names)}")
    unseen = [name for name in below if (name, "proof") not in gate.spans]
    if unseen:
        print(f"not from nothing, or not reached: no proof was seen of {', '.join(unseen)}")
    print("\n".join(dict.fromkeys([it for it in log if re.fullmatch(r"\d+ passed, \d+ failed", it)] + log[-2:])))
    proofs = sum(of["proof"] for name, of in gate.minutes().items() if is_product(folder, name))
    print(f"proofs of libraries and of ciderlater: {proofs:.1f} processor minutes")
    times = f", {(total - proofs) / proofs:.2f} times these" if proofs else ""
    print(f"all else (edits; proofs of rows and tests; programs, runs, the comparison): {total - proofs:.1f} processor minutes{times}")
    return ran.returncode


def main(words):
    if len(words) > 2 or any(word.startswith("-") for word in words[1:]):
        print("usage: bench/gate.py [FOLDER]", file=sys.stderr)
        return 2
    top = os.path.dirname(os.path.dirname(os.path.realpath(__file__)))
    with tempfile.TemporaryDirectory(prefix="ciderlater-gate-") as room:
        if len(words) > 1:
            room = os.path.abspath(words[1])
            os.makedirs(room, exist_ok=True)
        subprocess.run(["git", "clone", "--quiet", top, f"{room}/clone"], check=True)
        return run(f"{room}/clone")


if __name__ == "__main__":
    sys.exit(main(sys.argv))
