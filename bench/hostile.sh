#!/bin/sh
# Times what is declared or asked to be dear, at half of a size, at the size and at twice, and tells how that grows:
#   bench/hostile.sh [CASE ..]
# Where no more may be declared than the size, it is a quarter, a half and the size. The cases are
#   inputs     an instruction of 30,000 inputs, each of a variable of its own, in a file, for each fault that it can show
#   immediates an instruction of 70,000 immediates, with its names checked, and the builder's text
#   sets       4,095 instructions of seven inputs, each of a set of its own, and no two of a set
#   names      8,191 entries of a group whose names have one hash, and a megabyte of lines that ask for the last of them
#   opcodes    4,095 instructions whose names have one hash
#   formats    4,095 instructions that have a format each, of three immediates
#   name       an instruction whose name has half a million letters
#   values     an enum of 256 values of a thousand letters, asked for by a thousand lines, and, with 2 GB of memory, by a megabyte
#   types      one line of a megabyte, of types that an instruction is to take
#   lists      255 enums of 256 values each, which share none
#   shared     a text of tables to be read, whose 255 enums share 256 values of so many letters
# A line of what it prints is a case, its size, what is timed, the processor seconds, the instructions of the processor, the most memory
# of the run, the size against the one before, and what it took against that. The seconds are the least of three runs, and the
# instructions are counted by `valgrind --tool=callgrind` where the seconds are few. All is declared in a file, which `ciderlater -d FILE`
# reads. `generate` is a run of `query` over no input less one of `types`. A text of Rust is less that run of `types`, and what else is timed
# less that of `query`. What takes more than the size times its logarithm is marked: `by a named case` where names collide or lists overlap, which
# docs/PERFORMANCE.md names, and else `more than n log n`. Then the status is 1, as it is where a run fails; it is 125 where a program
# couldn't be built.
set -u

. "$(dirname "$0")/programs.sh"

built ciderlater --version
processor

exec python3 - "$program" "$@" << 'END'
import math
import os
import random
import re
import resource
import subprocess
import sys
import tempfile

RUN, ASKED = sys.argv[1], sys.argv[2:]

# A run of more seconds isn't counted, which takes fifty times as long.
MOST_COUNTED = 2

MEGABYTE = 1_048_576


class Took:
    """What a run took: the least processor seconds of three, its instructions, or none, the most memory in MB, and how it ended."""

    def __init__(self, words, text, memory=None, is_counted=True):
        limit = memory and (lambda: resource.setrlimit(resource.RLIMIT_AS, (memory, memory)))
        self.seconds, self.instructions = math.inf, None
        with tempfile.TemporaryFile() as given, tempfile.TemporaryFile() as told:
            given.write(text.encode())
            for _ in range(3):
                given.seek(0)
                told.seek(0)
                told.truncate()
                run = subprocess.Popen(words, stdin=given, stdout=told, stderr=subprocess.DEVNULL, preexec_fn=limit)
                _, status, used = os.wait4(run.pid, 0)
                run.returncode = os.waitstatus_to_exitcode(status)
                self.seconds = min(self.seconds, used.ru_utime + used.ru_stime)
                self.memory = used.ru_maxrss / 1024
            told.seek(0)
            lines = told.read().decode(errors="replace").strip().split("\n")
            self.told, self.end = lines, f"{lines[-1][:40]} ({run.returncode})"
            if is_counted and self.seconds <= MOST_COUNTED:
                given.seek(0)
                words = ["valgrind", "--tool=callgrind", "--callgrind-out-file=/dev/null", *words]
                counted = subprocess.run(words, stdin=given, stdout=subprocess.DEVNULL, stderr=subprocess.PIPE)
                found = re.search(rb"Collected *: *(\d+)", counted.stderr)
                self.instructions = int(found[1]) if found else None

    def less(self, base):
        """The same, without what the base takes."""
        self.seconds -= base.seconds
        if self.instructions is not None and base.instructions is not None:
            self.instructions -= base.instructions
        return self


class Declared:
    """A file of declarations, of which words are asked."""

    def __init__(self, lines):
        self.file = tempfile.NamedTemporaryFile("w", suffix=".isa")
        self.file.write("".join(line + "\n" for line in lines))
        self.file.flush()

    def run(self, *words, text="", **how):
        return Took([RUN, "-d", self.file.name, *words], text, **how)


def over(lines, *commands, asked=None):
    """What is asked over these lines: to make the tables, to write texts, and to answer queries."""
    declared = Declared(lines)
    read, made = declared.run("types"), declared.run("query")
    for command in commands:
        yield command, declared.run(command).less(made if command == "tables" else read)
    if asked:
        yield "query", declared.run("query", text=asked).less(made)
    yield "generate", made.less(read)


def inputs(size):
    """The format has no inputs; the last variable stands at one input more, so that none controls; or there are too many."""
    names = [f"t{k:x}" for k in range(size)]
    types = [f"type {it}:ints all" for it in names]
    shown = {"FormatMismatch": ("none", names), "NoControl": (None, [*names, names[-1]]), "TooManyOperands": (None, names)}
    for fault, (slots, inputs) in shown.items():
        slots = slots or ",".join(["value"] * len(inputs))
        yield fault, Declared([*types, f"format W:{slots}", f"inst i:W({','.join(f'x:{it}' for it in inputs)})"]).run("tables")


def immediates(size):
    inputs = ",".join(f"a{k}:u" for k in range(size))
    declared = Declared(['kind u: imm "u8"', f"format F: {','.join(['u'] * size)}", f"inst i: F({inputs})"])
    yield "check", Took([RUN, "check", declared.file.name], "")
    yield "builder", declared.run("builder").less(declared.run("types"))


def sets(size):
    """Each variable has a set of its own: ranges of lanes, of dynamic lanes, of ints and of floats, by the digits of its number."""

    def span(low, high, digit, base):
        return f"{low * 2 ** (digit // base)}..{high * 2 ** (digit % base)}"

    def types(k):
        return (f"lanes {span(1, 16, k % 16, 4)}, dynamic {span(2, 32, k // 16 % 16, 4)},"
                f" ints {span(8, 64, k // 256 % 4, 2)}, floats {span(16, 64, k // 1024 % 4, 2)}")

    lines = [f"format S: {', '.join(['value'] * 7)}"]
    lines += [f"type V{k}: {types(k)}" for k in range(size)]
    lines += [f"inst i{k}: S({','.join(f'x: V{(k + j * 577) % size}' for j in range(7))}) -> a: V{k}" for k in range(size)]
    return over(lines, "tables", "instructions", "builder")


def hashed(start, name):
    """What `simple_hash` makes of a name after what it made of those before."""
    h = start
    for byte in name:
        h = ((h ^ byte) + (h >> 6 | h << 26)) & 0xFFFFFFFF
    return h


def alike(count):
    """So many names of one hash: of each pair of pieces, which lead from one hash to the same, one is taken."""
    chance, h, pairs = random.Random(1), 5381, []
    while 2 ** len(pairs) < count:
        seen = {}
        while True:
            piece = "".join(chance.choices("abcdefghijklmnopqrstuvwxyz", k=8))
            end = hashed(h, piece.encode())
            if seen.setdefault(end, piece) != piece:
                pairs.append((seen[end], piece))
                h = end
                break
    return ["".join(pair[k >> place & 1] for place, pair in enumerate(pairs)) for k in range(count)]


ALIKE = alike(8_191) if not ASKED or {"names", "opcodes"} & set(ASKED) else []


def names(size):
    question = f"setting {ALIKE[size - 1]}\n"
    lines = ["group g", *(f"preset {name}()" for name in ALIKE[:size])]
    return over(lines, "tables", "settings", asked=question * (MEGABYTE // len(question)))


def opcodes(size):
    return over(["format F: none", *(f"inst {name}: F()" for name in ALIKE[:size])], "tables", "instructions", "builder")


def formats(size):
    lines = [f'kind {part}{k}: imm "i64"' for part in "pqr" for k in range(16)]
    for k in range(size):
        kinds = f"p{k % 16}", f"q{k // 16 % 16}", f"r{k // 256 % 16}"
        lines += [f"format F{k}: {', '.join(kinds)}", f"inst i{k}: F{k}({', '.join(f'{it}: {it}' for it in kinds)})"]
    return over(lines, "tables", "instructions", "builder")


def name(size):
    return over(["format F: none", f"inst {'a' * size}: F()"], "tables", "instructions", "builder")


ENUM = ["group g", "enum e(" + ",".join(f"v{k:0999}" for k in range(256)) + ")"]


def values(size):
    return over(ENUM, asked="setting e\n" * size)


def types(size):
    """An instruction of one variable, whose one line asks for as many values as there is room for."""
    asked = "accept i - - " + "i8,i16,i32,i64," * (size // 15)
    return over(["format One: value", "type V: ints 8..64", "inst i: One(x: V)"], asked=f"{asked}i8\n")


def lists(size):
    return over(["group g", *(f"enum e{k}(" + ",".join(f"v{k}_{j}" for j in range(256)) + ")" for k in range(size))], "tables")


def shared(size):
    """The text of such enums with short values is made, and then its values are made longer: each stands there once."""
    values = ",".join(f"v{k:03}" for k in range(256))
    text = "\n".join(Declared(["group g", *(f"enum e{k}({values})" for k in range(255))]).run("tables", is_counted=False).told) + "\n"
    text = re.sub(r"\bv(\d{3})\b", lambda it: "v" + it[1].zfill(size - 1), text)
    yield "recheck", Took([RUN, "recheck"], text).less(Took([RUN, "recheck"], ""))


# Each case: what it times, its sizes, and what grows by names that collide or lists that overlap.
CASES = {
    "inputs": (inputs, (7_500, 15_000, 30_000), ()),
    "immediates": (immediates, (17_500, 35_000, 70_000), ()),
    "sets": (sets, (1_023, 2_047, 4_095), ("generate", "tables")),
    "names": (names, (2_047, 4_095, 8_191), ("generate", "tables", "query")),
    "opcodes": (opcodes, (1_023, 2_047, 4_095), ("generate", "tables")),
    "formats": (formats, (1_023, 2_047, 4_095), ()),
    "name": (name, (131_072, 262_144, 524_288), ()),
    "values": (values, (500, 1_000, 2_000), ()),
    "types": (types, (262_144, 524_288, 1_048_500), ()),
    "lists": (lists, (63, 127, 255), ("generate", "tables")),
    "shared": (shared, (750, 1_500, 3_000), ()),
}


def told(case, size, what, took, before, is_named):
    """Prints a line, and answers whether what was timed may grow so."""
    count = "" if took.instructions is None else f"{took.instructions:,}"
    line = f"{case:10} {size:>9,} {what:15} {took.seconds:9.3f} s {count:>16} {took.memory:7.0f} MB"
    allowed = True
    if before:
        sized, earlier = before
        is_counted = None not in (took.instructions, earlier.instructions)
        one, other = (earlier.instructions, took.instructions) if is_counted else (earlier.seconds, took.seconds)
        by = size / sized
        line += f" {by:5.2f}"
        # Of few seconds, from which others were taken off, nothing can be told.
        if is_counted or one > 0.05:
            most = by * math.log(size) / math.log(sized) * (1.1 if is_counted else 1.4)
            is_more = other / one > most
            allowed = is_named or not is_more
            mark = "" if not is_more else " by a named case" if is_named else " more than n log n"
            line += f" {other / one:5.2f}{mark}"
    print(f"{line}  {took.end}" if not before else line, flush=True)
    return allowed


is_well = True
for case in ASKED or CASES:
    call, sizes, named = CASES[case]
    before = {}
    for size in sizes:
        for what, took in call(size):
            is_well &= told(case, size, what, took, before.get(what), what in named)
            before[what] = (size, took)
    if case == "values":
        took = Declared(ENUM).run("query", text="setting e\n" * (MEGABYTE // 10), memory=2_000_000_000, is_counted=False)
        took.end = "no memory" if took.told == [""] else took.end
        told(case, MEGABYTE // 10, "query, 2 GB", took, None, False)
sys.exit(0 if is_well else 1)
END
