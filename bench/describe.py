#!/usr/bin/env python3
"""Describes random declarations, and reads what it wrote: `bench/describe.py PROGRAM [COUNT [SEED]]`.

PROGRAM is a built `ciderlater`. A file of declarations is made from each number from SEED on, COUNT of them (500 from 1, if not told). Those
that show no fault are described, and the description is held against them: its tables in all three versions and its texts of types, settings,
instructions and builder are the same, byte for byte, with the same status, and what describes the description is itself. The last line says
how many were described and how many were refused as they were made; the status is 1 where one differs, and its number is told.
"""

import os
import random
import subprocess
import sys
import tempfile

FUNCTIONS = "lane_of as_truthy half_width double_width split_lanes merge_lanes dynamic_to_vector narrower wider".split()
PLAIN = "i8 i16 i32 i64 i128 f16 f32 f64 i8x16 i16x8 i32x4 f32x4 i64x2xN i32x4xN".split()
SHOWN = ["i32", "an int", "T1", "type"]
MARKS = "terminates_block branches call returns can_load can_store can_trap other_side_effects side_effects_idempotent".split()
SPANS = {
    "lanes": [1, 2, 4, 8, 16, 32, 64, 128, 256],
    "dynamic": [2, 4, 8, 16, 32, 64, 128, 256],
    "ints": [8, 16, 32, 64, 128],
    "floats": [16, 32, 64, 128],
}
ASKED = [["tables", "--version", str(it)] for it in (1, 2, 3)] + [["types"], ["settings"], ["instructions"], ["builder"]]


class Maker:
    """Makes the text of a file from a number."""

    def __init__(self, number):
        self.some = random.Random(number)
        self.lines, self.roots, self.words, self.kinds, self.varargs, self.formats = [], [], [], [], [], []
        self.count = 0

    def chance(self, percent):
        return self.some.randrange(100) < percent

    def word(self, stem):
        """A word that no item has."""
        self.count += 1
        return f"{stem}{self.count}"

    def text(self):
        return '"' + self.some.choice(["", "a text", "it \\\"says\\\"", "back\\\\slash", "two\\nlines"]) + '"'

    def doc(self):
        if self.chance(40):
            self.lines += ["/// " + self.some.choice(["One line.", "A `type`", "x"])] * self.some.randint(1, 2)

    def span(self, values):
        if self.chance(20):
            return "all"
        low = self.some.randrange(len(values))
        high = self.some.randrange(low, len(values))
        return f"{values[low]}..{values[high]}" if low < high else str(values[low])

    def set_of(self):
        if self.roots and self.chance(15):
            return f"like {self.some.choice(self.roots)}"
        parts = self.some.sample(sorted(SPANS), self.some.randint(1, 4))
        if "ints" not in parts and "floats" not in parts:
            parts.append("ints")
        if "dynamic" in parts and "lanes" not in parts:
            parts.append("lanes")
        return ", ".join(f"{it} {self.span(SPANS[it])}" for it in parts)

    def types(self):
        for _ in range(self.some.randint(1, 4)):
            word = self.word(self.some.choice(["Int", "T", "Num"]))
            self.doc()
            shown = f' "{self.some.choice(SHOWN)}"' if self.chance(25) else ""
            self.lines.append(f"type {word}{shown}: {self.set_of()}")
            self.roots.append(word)
        self.words = list(self.roots)
        for _ in range(self.some.randint(0, 2)):
            word = self.word("Al")
            self.lines.append(f"type {word} = {self.derived(self.some.choice(self.words + PLAIN))}")
            self.words.append(word)

    def derived(self, word):
        return word if self.chance(60) else f"{self.some.choice(FUNCTIONS[:3])}({word})"

    def kind_list(self):
        for _ in range(self.some.randint(0, 4)):
            word = self.word("k")
            sort = self.some.choice(["imm", "entity", 'imm_enum(eq = Equal, "l t" = Less)', "varargs", f"value({self.some.choice(PLAIN)})"])
            self.doc()
            rust = "&[Value]" if sort == "varargs" else self.some.choice(["i64", "Uimm8", "ir::Inst", "Cond"])
            field = f" field {self.some.choice([self.word('f'), 'imm'])}" if self.chance(40) else ""
            self.lines.append(f'kind {word}: {sort} "{rust}"{field}')
            if sort == "varargs":
                self.varargs.append(word)
            elif not sort.startswith("value"):
                self.kinds.append(word)

    def format_list(self):
        for _ in range(self.some.randint(1, 5)):
            word = self.word("F")
            slots = ["value"] * self.some.randint(0, 3) + [self.some.choice(self.kinds + ["block"]) for _ in range(self.some.randint(0, 2))]
            if self.chance(20):
                slots.append("varargs")
            self.some.shuffle(slots)
            values = [at for at, it in enumerate(slots) if it == "value"]
            if len(values) > 1 and self.chance(40):
                slots[self.some.choice(values)] = "designated value"
            shown = f' "{self.word("Shown")}"' if self.chance(20) else ""
            self.lines.append(f"format {word}{shown}: {', '.join(slots) or 'none'}")
            self.formats.append((word, slots))

    def control(self, slots):
        """The place of the value that controls: the designated one, or else the first."""
        values = [at for at, it in enumerate(slots) if it.endswith("value")]
        return ([at for at in values if slots[at] != "value"] or values or [None])[0]

    def inst(self):
        word, slots = self.some.choice(self.formats)
        root, at = self.some.choice(self.roots), self.control(slots)
        is_plain = at is None or self.chance(20)
        near = [root, f"lane_of({root})", f"as_truthy({root})", *self.some.sample(PLAIN, 3)]
        operands = []
        for place, slot in enumerate(slots):
            if slot.endswith("value"):
                means = self.some.choice(PLAIN) if is_plain else root if place == at else self.some.choice(near)
            else:
                means = slot
            operands.append(f"{self.some.choice('xyzw')}{place}: {means}" + (f" {self.text()}" if self.chance(10) else ""))
        results = [f"a{it}: {self.some.choice(PLAIN if is_plain else near)}" for it in range(self.some.randint(0, 2))]
        if self.varargs and self.chance(5):
            results.append(f"rest: {self.some.choice(self.varargs)}")
        marks = self.some.sample(MARKS, self.some.randint(0, 3)) if self.chance(50) else []
        self.doc()
        name = self.some.choice([self.word("op_"), f'"{self.word("op")}"'])
        line = f"inst {name}: {word}({', '.join(operands)})"
        self.lines.append(line + (" -> " + ", ".join(results) if results else "") + (f" [{', '.join(marks)}]" if marks else ""))

    def group(self):
        self.lines.append(f"group {self.word('g')}")
        booleans = []
        for _ in range(self.some.randint(0, 6)):
            kind, word = self.some.choice(["bool", "bool", "num", "enum"]), self.word("s_")
            said = f" {self.text()}" if self.chance(30) else ""
            if kind == "bool":
                self.lines.append(f"bool {word} = {self.some.choice(['true', 'false'])}{said}")
                booleans.append(word)
            elif kind == "num":
                self.lines.append(f"num {word} = {self.some.randrange(256)}{said}")
            else:
                self.lines.append(f"enum {word}({', '.join(self.word('v_') for _ in range(self.some.randint(1, 4)))}){said}")
        for _ in range(self.some.randint(0, 3)):
            word = self.word("p_")
            self.lines.append(f"preset {word}({', '.join(self.some.sample(booleans, self.some.randint(0, len(booleans))))})")
            booleans.append(word)

    def file(self):
        self.types()
        self.kind_list()
        self.format_list()
        for _ in range(self.some.randint(0, 12)):
            self.inst()
        for _ in range(self.some.randint(0, 2)):
            self.group()
        return "\n".join(self.lines) + "\n"


def answer(program, path, words):
    """What the program answers over the file, and its status."""
    ran = subprocess.run([program, "-d", path, *words], stdin=subprocess.DEVNULL, stdout=subprocess.PIPE, stderr=subprocess.DEVNULL)
    return ran.returncode, ran.stdout


def differs(program, path, room):
    """Says in which way the description of a file's declarations differs from them, if it does; and '-' where they are refused."""
    if answer(program, path, ["check"])[0] == 1:
        return "-"
    status, text = answer(program, path, ["describe"])
    if status:
        return f"describe ends with {status}"
    other = os.path.join(room, "described.isa")
    with open(other, "wb") as file:
        file.write(text)
    for words in [*ASKED, ["describe"]]:
        if answer(program, other, words) != answer(program, path, words):
            return " ".join(words)
    return ""


def main(program, count="500", seed="1"):
    described = refused = different = 0
    with tempfile.TemporaryDirectory() as room:
        path = os.path.join(room, "random.isa")
        for number in range(int(seed), int(seed) + int(count)):
            with open(path, "w", encoding="utf-8") as file:
                file.write(Maker(number).file())
            how = differs(program, path, room)
            if how == "-":
                refused += 1
            elif how:
                different += 1
                print(f"{number}: {how}")
            else:
                described += 1
    print(f"{described} described, {refused} refused, {different} different")
    return 1 if different else 0


if __name__ == "__main__":
    sys.exit(main(*sys.argv[1:]))
