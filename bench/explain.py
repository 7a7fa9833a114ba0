#!/usr/bin/env python3
"""Judges what `explain` answers: `bench/explain.py PROGRAM [COUNT [SEED [FILE ..]]]`.

PROGRAM is a built `ciderlater`. Over the shared declarations, and over those of each FILE, it is asked about COUNT random signatures (10,000,
from the seed 1, if not told), about each instruction, mark and format, and about lists of lines (`--why`). Each answer is judged in three
ways:

- by a model, which reads what `describe` writes, and follows docs/DEFINITIONS.md and docs/COMMANDS.md alone;
- by `query`: `accept` has to stand exactly where it says so, and of the types that an operand may have under a control, one at a time, each
  has to be accepted and no other of the 153 types;
- by itself: if the part that is told is replaced by each of the 153 types, the first part that fails has to come later exactly for those
  that it wants.

A FILE that ends in `.tsv` has signatures of the file before it, one a line: ANSWER, a word, NAME, RESULTS, VALUES, with tabs between them.
`find` has to find the name exactly if the ANSWER is `accept`. The last line of each declarations says how many answers were judged. The
status is 1 if one is wrong, which is told.
"""

import itertools
import random
import re
import subprocess
import sys

LIMIT = 1_000_000
LANES = [1 << k for k in range(9)]
WIDTHS = {"i": [8, 16, 32, 64, 128], "f": [16, 32, 64, 128]}
MARKS = "terminates_block branches call returns can_load can_store can_trap other_side_effects side_effects_idempotent imm_method".split()
TOKEN = re.compile(r'"(?:\\.|[^"\\])*"|[A-Za-z0-9_]+|->|\.\.|\S')

# ---- types: a kind of lane, its width, the count of lanes, and whether that is the least count of a dynamic vector


def name_of(it):
    kind, width, lanes, dynamic = it
    return f"{kind}{width}" + (f"x{lanes}" if lanes > 1 else "") + ("xN" if dynamic else "")


# All types, by rising numbers: those of one shape stand together, ints before floats, and dynamic vectors after all others.
TYPES = [
    (kind, width, lanes, dynamic)
    for dynamic, shapes in ((False, LANES), (True, LANES[1:]))
    for lanes in shapes
    for kind in "if"
    for width in WIDTHS[kind]
]
PLACE = {it: at for at, it in enumerate(TYPES)}
NAMED = {name_of(it): it for it in TYPES}


def led(function, it):
    """The types to which the function leads from a type."""
    kind, width, lanes, dynamic = it
    if function == "lane_of":
        to = [(kind, width, 1, False)]
    elif function == "as_truthy":
        to = [("i", 8 if lanes == 1 else width, lanes, dynamic)]
    elif function == "half_width":
        to = [(kind, width // 2, lanes, dynamic)]
    elif function == "double_width":
        to = [(kind, width * 2, lanes, dynamic)]
    elif function == "split_lanes":
        to = [(kind, width // 2, lanes * 2, dynamic)]
    elif function == "merge_lanes":
        to = [(kind, width * 2, lanes // 2, dynamic)] if lanes > 1 else []
    elif function == "dynamic_to_vector":
        to = [(kind, width, lanes, False)] if dynamic and lanes < 256 else []
    else:
        widths = [w for w in WIDTHS[kind] if (w < width if function == "narrower" else w > width)]
        to = [(kind, w, 1, False) for w in widths] if lanes == 1 else []
    return [t for t in to if t in PLACE]


def spans(numbers):
    """Powers of two, as spans."""
    found = []
    for number in numbers:
        if found and found[-1][1] * 2 == number:
            found[-1][1] = number
        else:
            found.append([number, number])
    return " ".join(f"{low}..{high}" if low < high else f"{low}" for low, high in found)


def set_text(types):
    """A set of types: that of one `type` item, if it has several types and such an item has exactly these; or else their names."""
    parts = [
        ("lanes", LANES, {it[2] for it in types if not it[3]}),
        ("dynamic", LANES[1:], {it[2] for it in types if it[3]}),
        ("ints", WIDTHS["i"], {it[1] for it in types if it[0] == "i"}),
        ("floats", WIDTHS["f"], {it[1] for it in types if it[0] == "f"}),
    ]
    count = (len(parts[0][2]) + len(parts[1][2])) * (len(parts[2][2]) + len(parts[3][2]))
    if len(types) < 2 or count != len(types):
        return alternatives_text(types)
    said = []
    for name, all_of, has in parts:
        if has or (name == "lanes" and parts[1][2]):
            if name == "lanes" and has == {1} and not parts[1][2]:
                continue
            said.append(f"{name} " + ("all" if has == set(all_of) else spans(sorted(has)) or "none"))
    return ", ".join(said)


def alternatives_text(types):
    return "|".join(name_of(it) for it in sorted(types, key=PLACE.get)) or "none"


def wanted(text):
    """The types that a text of a set has, or the texts of a control that isn't there."""
    if text in ("-", "none"):
        return {text} - {"none"}
    if re.fullmatch(r"[if]\d+(x\d+)?(xN)?(\|.*)?", text):
        return {NAMED[it] for it in text.split("|")}
    given = dict(part.split(" ", 1) for part in text.split(", "))
    held = {}
    for name, all_of in (("lanes", LANES), ("dynamic", LANES[1:]), ("ints", WIDTHS["i"]), ("floats", WIDTHS["f"])):
        said = given.pop(name, "1" if name == "lanes" else "none")
        ends = [it.split("..") for it in said.split()]
        held[name] = all_of if said == "all" else [] if said == "none" else [n for n in all_of if any(int(e[0]) <= n <= int(e[-1]) for e in ends)]
    assert not given, text
    return {it for it in TYPES if it[2] in held["dynamic" if it[3] else "lanes"] and it[1] in held["ints" if it[0] == "i" else "floats"]}


# ---- declarations, as `describe` writes them


class Instruction:
    """An instruction: what its operands with types are, what controls, and what each operand is under the controls."""

    def __init__(self, name, form, marks):
        self.name, self.form, self.marks = name, form, marks
        self.results, self.values = [], []
        self.second = None

    def operands(self):
        return self.results + self.values

    def rules(self, control):
        """Whether the variable may control."""
        roots = [root for _, (root, _), _ in self.values]

        def is_ruled(place, root, chain, types):
            if root in (control, self.second) or len(types) == 1:
                return True
            return place >= len(self.results) and not chain and roots.count(root) == 1

        return control != self.second and all(
            is_ruled(place, root, chain, types) for place, (_, (root, chain), types) in enumerate(self.operands())
        )

    def settle(self, designated, first_is_value):
        """Finds the control, and what each operand has to be."""
        self.control = None
        if any(len(types) != 1 for _, _, types in self.operands()):
            chosen = self.values[designated : designated + 1] + (self.results[:1] if first_is_value else [])
            ruling = [root for _, (root, chain), _ in chosen if not chain and self.rules(root)]
            self.control = ruling[0]
        self.sets = {root: types for _, (root, _), types in self.operands()}
        self.demands = [self.demand(*it[1:]) for it in self.operands()]
        self.under = {c: tested for c in self.choices() if all(tested := self.tested(c))}

    def demand(self, variable, types):
        root, chain = variable
        ends = {tuple(self.ends(chain, it)) for it in types}
        if not {"narrower", "wider"} & set(chain) and len(ends) == 1 and len(fixed := next(iter(ends))) == 1:
            return "is", fixed[0]
        which = "T" if root == self.control else "U" if root == self.second else None
        return ("of", types) if not which else ("by", which, chain[0]) if chain else ("same", which)

    @staticmethod
    def ends(chain, it):
        ends = [it]
        for function in chain:
            ends = [t for e in ends for t in led(function, e)]
        return ends

    def passing(self, demand, controls):
        """The types that an operand may have under controls that fit."""
        if demand[0] == "is":
            return {demand[1]}
        if demand[0] == "of":
            return set(demand[1])
        it = controls["TU".index(demand[1])]
        return {it} if demand[0] == "same" else set(led(demand[2], it))

    def fitting(self, root):
        return [None] if root is None else sorted(self.sets[root], key=PLACE.get)

    def choices(self):
        return itertools.product(self.fitting(self.control), self.fitting(self.second))

    def tested(self, controls):
        return [self.passing(demand, controls) for demand in self.demands]

    def first_failing(self, controls, results, values):
        """The first part that fails and what it wants, or nothing."""
        for part, root, has in zip(("control", "second control"), (self.control, self.second), controls):
            if has not in self.fitting(root):
                return part, f"has {control_name(has)}, wants " + ("-" if root is None else set_text(self.sets[root]))
        for part, has, of in (("results", results, self.results), ("values", values, self.values)):
            if len(has) != len(of):
                return part, f"has {len(has)}, wants {len(of)}"
        for place, (has, passing) in enumerate(zip(results + values, self.tested(controls))):
            if has not in passing:
                kind, at = ("result", place) if place < len(results) else ("value", place - len(results))
                return f"{kind} {at} {self.operands()[place][0]}", f"has {name_of(has)}, wants {set_text(passing)}"
        return None

    def accept_text(self, controls, results, values):
        failing = self.first_failing(controls, results, values)
        return "refuse " + ": ".join(failing) if failing else "accept"

    def demand_text(self, demand):
        if demand[0] == "is":
            return name_of(demand[1])
        return f"({set_text(demand[1])})" if demand[0] == "of" else demand[1] if demand[0] == "same" else f"{demand[2]}({demand[1]})"

    def lists(self, texts):
        results, values = texts[: len(self.results)], texts[len(self.results) :]
        return f"results {','.join(results) or '-'} values {','.join(values) or '-'}"

    def types_text(self):
        if not self.under:
            return "refuse"
        first, second = ({c[k] for c in self.under} for k in (0, 1))
        said = "control " + ("-" if self.control is None else set_text(first)) + (f" second {set_text(second)}" if self.second else "")
        return f"{said} {self.lists([self.demand_text(it) for it in self.demands])}"

    def types_under_text(self, controls):
        if controls not in self.under:
            return "refuse"
        return self.lists([alternatives_text(it) for it in self.under[controls]])


class Declared:
    """The instructions of what `describe` writes."""

    def __init__(self, text):
        self.types, self.kinds, self.formats, self.instructions = {}, {}, {}, []
        for line in text.splitlines():
            self.tokens = [] if line.startswith("///") else TOKEN.findall(line)
            keyword = self.take() if self.tokens else None
            if keyword in ("type", "kind", "format", "inst"):
                getattr(self, "add_" + keyword)()
        self.named = {it.name: it for it in self.instructions}

    def take(self):
        return self.tokens.pop(0)

    def takes(self, token):
        if self.tokens[:1] != [token]:
            return False
        self.tokens.pop(0)
        return True

    def take_name(self):
        return self.take().strip('"')

    def listed(self, end):
        """Takes elements with commas between them, up to a sign, or to the end."""
        while self.tokens and not self.takes(end):
            yield
            self.takes(",")

    def variable(self):
        """A type that the tokens write: its root, the functions from the inside out, and the types of the root."""
        word = self.take()
        if self.takes("("):
            root, chain, types = self.variable()
            self.take()
            return root, [*chain, word], types
        return self.types.get(word) or (f"={word}", [], [NAMED[word]])

    def add_type(self):
        word = self.take()
        if self.takes("="):
            self.types[word] = self.variable()
            return
        while not self.takes(":"):
            self.take()
        if self.takes("like"):
            self.types[word] = (word, [], self.types[self.take()][2])
            return
        text = " ".join(self.tokens).replace(" .. ", "..").replace(" ,", ",")
        self.types[word] = (word, [], wanted(text))

    def add_kind(self):
        word = self.take()
        self.take()
        sort = self.take()
        if sort == "value":
            self.take()
            self.kinds[word] = self.variable()
        else:
            self.kinds[word] = None

    def add_format(self):
        word = self.take()
        name = word if self.tokens[0] == ":" else self.take_name()
        self.take()
        slots = [" ".join(self.until_comma()) for _ in self.listed("")]
        values = [it for it in slots if it.endswith("value")]
        self.formats[word] = name, ([at for at, it in enumerate(values) if it != "value"] or [0])[0]

    def until_comma(self):
        while self.tokens and self.tokens[0] != ",":
            yield self.take()

    def operand(self):
        """An operand: its name, and its variable and types if it has any."""
        name = self.take_name()
        self.take()
        word = self.tokens[0]
        if word in self.kinds or word in ("block", "raw_block", "varargs"):
            self.take()
            it = self.kinds.get(word)
        else:
            it = self.variable()
        if self.tokens and self.tokens[0].startswith('"'):
            self.take()
        return (name, (it[0], it[1]), set(it[2])) if it else None

    def add_inst(self):
        name = self.take_name()
        self.take()
        form, designated = self.formats[self.take()]
        self.take()
        it = Instruction(name, form, [])
        it.values = [found for _ in self.listed(")") if (found := self.operand())]
        outputs = []
        if self.takes("->"):
            while True:
                outputs.append(self.operand())
                if not self.takes(","):
                    break
        it.results = [found for found in outputs if found]
        if self.takes("["):
            for _ in self.listed("]"):
                mark = self.take()
                if mark == "second":
                    it.second = self.variable()[0]
                else:
                    # What branches or returns ends its block.
                    it.marks += [mark, "terminates_block"] if mark in ("branches", "returns") else [mark]
        it.settle(designated, bool(outputs and outputs[0]))
        self.instructions.append(it)

    def find_text(self, results, values):
        """What `find` answers: `None` stands for any type."""
        found = [
            f"{it.name} {controls_text(it, controls)}"
            for it in self.instructions
            if len(it.results) == len(results) and len(it.values) == len(values)
            for controls, passing in it.under.items()
            if all(has is None or has in types for has, types in zip(results + values, passing))
        ]
        return ",".join(found) or "-"

    def list_text(self, word):
        if not word:
            names = [it.name for it in self.instructions]
        elif word in MARKS:
            names = [it.name for it in self.instructions if word in it.marks]
        else:
            names = [it.name for it in self.instructions if it.form == word]
            if not names:
                return "unknown"
        return ",".join(names) or "-"

    def answer(self, line):
        """What `explain` answers to a line, but for those that begin with `infer` or `setting`."""
        command, *words = line.split(" ")
        if "" in words or (command, len(words)) not in (("accept", 4), ("types", 1), ("types", 2), ("find", 2), ("list", 0), ("list", 1)):
            return "bad"
        if command == "list":
            return self.list_text(words[0] if words else "")
        lists = [read_list(it, "?" if command == "find" else None) for it in words[-2:]] if command in ("accept", "find") else []
        controls = read_controls(words[1]) if len(words) > 1 and command != "find" else (None, None)
        if None in lists or controls is None:
            return "bad"
        if command == "find":
            return self.find_text(*lists)
        it = self.named.get(words[0])
        if not it:
            return "unknown"
        return it.accept_text(controls, *lists) if lists else it.types_under_text(controls) if len(words) > 1 else it.types_text()


def read_controls(word):
    """The controls that a word has."""
    types = [NAMED.get(it) for it in word.split("/")]
    if word == "-":
        return None, None
    return (*types, None)[:2] if all(types) and len(types) < 3 else None


def read_list(word, anything):
    """The types that a word lists, and `None` for any type."""
    names = [] if word == "-" else word.split(",")
    return [NAMED.get(it) for it in names] if all(it in NAMED or it == anything for it in names) else None


# ---- asking


def control_name(it):
    return name_of(it) if it else "-"


def controls_text(instruction, controls):
    """Controls, as a line has them. `/` stands before a second one."""
    first, second = controls
    return control_name(first) + (f"/{name_of(second)}" if second else "")


def list_of(types):
    return ",".join("?" if it is None else name_of(it) for it in types) or "-"


def accept_line(name, controls, results, values):
    return f"accept {name} {controls_text(None, controls)} {list_of(results)} {list_of(values)}"


class Judge:
    def __init__(self, program, path):
        self.words = [program, *(["-d", path] if path else [])]
        self.path = path or "the shared declarations"
        self.judged = self.wrong = 0

    def run(self, words, text="", statuses=(0,)):
        ran = subprocess.run([*self.words, *words], input=text.encode(), stdout=subprocess.PIPE, stderr=subprocess.PIPE, check=False)
        if ran.returncode not in statuses:
            sys.exit(f"{self.path}: {' '.join(words)} ends with {ran.returncode}: {ran.stderr.decode(errors='replace')}")
        return ran.stdout.decode()

    def ask(self, command, lines):
        """The answers to lines, of which a run gets as many as it takes."""
        answers, some, size = [], [], 0
        for line in [*lines, None]:
            if line is None or size + len(line) + 1 > LIMIT:
                answers += self.run([command], "".join(f"{it}\n" for it in some)).split("\n")[:-1]
                some, size = [], 0
            if line is not None:
                some.append(line)
                size += len(line) + 1
        assert len(answers) == len(lines), f"{len(lines)} lines have {len(answers)} answers"
        return answers

    def hold(self, asked, answer, right):
        self.judged += 1
        if answer != right:
            self.wrong += 1
            if self.wrong <= 20:
                print(f"{self.path}: {asked}\n    answers {answer}\n    and not {right}", file=sys.stderr)

    def hold_all(self, asked, rights):
        """Asks lines, and judges each answer by the right one."""
        for line, answer, right in zip(asked, self.ask("explain", asked), rights):
            self.hold(line, answer, right)


def signature(it, some):
    """Types that the instruction accepts, of which mostly one or two are spoilt."""
    if it.under and some.random() < 0.9:
        controls, passing = some.choice(list(it.under.items()))
        types = [some.choice(sorted(held, key=PLACE.get)) for held in passing]
    else:
        controls, types = (some.choice(TYPES), None), [some.choice(TYPES) for _ in it.operands()]
    results, values = types[: len(it.results)], types[len(it.results) :]
    for _ in range(some.choice([0, 1, 1, 1, 2])):
        how = some.randrange(8)
        if how == 0:
            controls = (some.choice([None, *TYPES]), controls[1])
        elif how == 1:
            controls = (controls[0], some.choice([None, *TYPES]) if controls[0] else None)
        elif how == 2:
            some.choice([results, values]).append(some.choice(TYPES))
        elif how == 3:
            del some.choice([results, values])[-1:]
        elif results + values:
            part = some.choice([part for part in (results, values) if part])
            part[some.randrange(len(part))] = some.choice(TYPES)
    return controls, results, values


ORDER = ["control", "second control", "results", "values", "result", "value"]


def place_told(answer):
    """Where in the order the part stands that an answer tells: the last of all for `accept`."""
    if answer == "accept":
        return len(ORDER), 0
    part = answer[len("refuse ") :].split(": ")[0]
    operand = re.fullmatch(r"(result|value) (\d+) .*", part)
    return (ORDER.index(operand[1]), int(operand[2])) if operand else (ORDER.index(part), 0)


def judge_accept(judge, declared, count, some):
    """Random signatures, judged by the model, by `query`, and by replacing the part that is told."""
    them = [declared.instructions[k % len(declared.instructions)] for k in range(count)]
    asked = [(it, *signature(it, some)) for it in them]
    lines = [accept_line(it.name, *rest) for it, *rest in asked]
    told = judge.ask("explain", lines)
    plain = judge.ask("query", lines)
    others, meant = [], []
    for (it, controls, results, values), line, answer, by_query in zip(asked, lines, told, plain):
        judge.hold(line, answer, it.accept_text(controls, results, values))
        judge.hold(line, answer.split(" ")[0], by_query)
        order, at = place_told(answer)
        if order in (2, 3, len(ORDER)):
            continue
        wants = wanted(answer.split(", wants ", 1)[1])
        for other in [*TYPES, *([None] if order < 2 else [])]:
            now = [controls, list(results), list(values)]
            if order < 2:
                now[0] = (other, controls[1]) if order == 0 else (controls[0], other)
                if not now[0][0] and now[0][1]:
                    continue
            else:
                now[order - 3][at] = other
            others.append(accept_line(it.name, *now))
            meant.append(((order, at), ("-" if other is None else other) in wants))
    for line, answer, (before, is_wanted) in zip(others, judge.ask("explain", others), meant):
        judge.hold(line, place_told(answer) > before, is_wanted)


def judge_types(judge, declared, some):
    """All instructions under all controls, by the model; and the types of each operand, by `query`."""
    judge.hold_all([f"types {it.name}" for it in declared.instructions], [it.types_text() for it in declared.instructions])
    asked, rights, lines, meant = [], [], [], []
    for it in declared.instructions:
        firsts = [None, *TYPES]
        seconds = [None, *some.sample(TYPES, 12), *(some.sample(it.fitting(it.second), 1) if it.second else [])] if it.second else [None]
        for controls in itertools.product(firsts, seconds):
            if controls[0] or not controls[1]:
                asked.append(f"types {it.name} {controls_text(it, controls)}")
                rights.append(it.types_under_text(controls))
        for controls in some.sample(list(it.under), min(3, len(it.under))):
            base = [some.choice(sorted(held, key=PLACE.get)) for held in it.under[controls]]
            for place, other in itertools.product(range(len(base)), TYPES):
                now = [*base[:place], other, *base[place + 1 :]]
                lines.append(accept_line(it.name, controls, now[: len(it.results)], now[len(it.results) :]))
                meant.append("accept" if other in it.under[controls][place] else "refuse")
    judge.hold_all(asked, rights)
    for line, answer, right in zip(lines, judge.ask("query", lines), meant):
        judge.hold(line, answer, right)


def judge_find(judge, declared, count, some):
    """Signatures of which some types are any, by the model; and a few by `query` of each instruction under each control."""
    asked, rights = [], []
    for k in range(count):
        _, results, values = signature(declared.instructions[k % len(declared.instructions)], some)
        results, values = ([None if some.random() < 0.2 else it for it in part] for part in (results, values))
        asked.append(f"find {list_of(results)} {list_of(values)}")
        rights.append(declared.find_text(results, values))
    judge.hold_all(asked, rights)
    for it in some.sample(declared.instructions, min(10, len(declared.instructions))):
        _, results, values = signature(it, some)
        lines, names = [], []
        for other in declared.instructions:
            for controls in itertools.product([None, *TYPES], other.fitting(other.second)):
                if controls[0] or not controls[1]:
                    lines.append(accept_line(other.name, controls, results, values))
                    names.append(f"{other.name} {controls_text(other, controls)}")
        found = [name for name, answer in zip(names, judge.ask("query", lines)) if answer == "accept"]
        judge.hold_all([f"find {list_of(results)} {list_of(values)}"], [",".join(found) or "-"])


def judge_lines(judge, declared, count, some):
    """Lines that are spoilt, and lines that `query` answers too."""
    lines = []
    for k in range(count):
        it = declared.instructions[k % len(declared.instructions)]
        controls, results, values = signature(it, some)
        line = some.choice([
            accept_line(it.name, controls, results, values),
            f"types {it.name}",
            f"types {it.name} {controls_text(it, controls)}",
            f"find {list_of(results)} {list_of(values)}",
            f"list {some.choice([*MARKS, it.form])}",
        ])
        at = some.randrange(len(line))
        lines.append(some.choice([line[:at] + line[at + 1 :], line[:at] + some.choice(" ,/-?xN|8") + line[at:], line.replace(" ", "  ", 1), line + " -"]))
    judge.hold_all(lines, [declared.answer(it) for it in lines])
    lines = [f"infer {it.name} {control_name(some.choice([None, *TYPES]))}" for it in declared.instructions for _ in range(4)]
    lines += [f"setting {it}" for it in ("opt_level", "enable_pcc", "nothing_has_this_name", "opt_level x")]
    judge.hold_all(lines, judge.ask("query", lines))


def judge_why(judge, declared, count, some):
    """Lists of one line, by the model: `verify --why`, and `asm short --why` where it is refused."""
    for it in (some.choice(declared.instructions) for _ in range(count)):
        controls, results, values = signature(it, some)
        names = [f"v{at}" for at in some.sample(range(1000), len(results) + len(values))]
        lines = [f"param {name} {name_of(has)}" for name, has in zip(names[len(results) :], values)]
        typed = ",".join(f"{name}:{name_of(has)}" for name, has in zip(names, results)) or "-"
        lines.append(f"line {it.name} {controls_text(it, controls)} {typed} {','.join(names[len(results) :]) or '-'}")
        failing, right = it.first_failing(controls, results, values), "ok"
        if failing:
            kind, *at = failing[0].split(" ")
            value = f"{names[int(at[0]) + (len(results) if kind == 'value' else 0)]} " if kind in ("result", "value") else ""
            part = f"{kind} {at[0]}" if value else failing[0]
            right = f"line {len(lines)}: refused {part}: {value}{failing[1]}"
        for words in [["verify", "--why"], *([["asm", "short", "--why"]] if failing else [])]:
            answer = judge.run(words, "".join(f"{it}\n" for it in lines), (0, 7))
            judge.hold(f"{' '.join(words)} of {lines}", answer, f"{right}\n")


def judge_lists(judge, declared):
    forms = [name for name, _ in declared.formats.values()]
    words = ["", *MARKS, *forms, "nothing_has_this_name"]
    judge.hold_all([f"list {it}".rstrip() for it in words], [declared.list_text(it) for it in words])


def judge_signatures(judge, path):
    """A list of signatures: whether some control accepts them."""
    with open(path, encoding="utf-8") as file:
        rows = [line.rstrip("\n").split("\t")[:5] for line in file][1:]
    asked = [f"find {results} {values}" for _, _, _, results, values in rows]
    for (answer, _, name, _, _), line, found in zip(rows, asked, judge.ask("explain", asked)):
        judge.hold(f"{line} ({name})", name in {it.split(" ")[0] for it in found.split(",")}, answer == "accept")


def main(program, count="10000", seed="1", *files):
    wrong = 0
    lists = {path: [it for it in itertools.takewhile(lambda it: it.endswith(".tsv"), files[at + 1 :])] for at, path in enumerate(files)}
    for path in ["", *(it for it in files if not it.endswith(".tsv"))]:
        some = random.Random(int(seed))
        judge = Judge(program, path)
        declared = Declared(judge.run(["describe"]))
        judge_lists(judge, declared)
        judge_types(judge, declared, some)
        judge_accept(judge, declared, int(count), some)
        judge_find(judge, declared, int(count) // 5, some)
        judge_lines(judge, declared, int(count) // 5, some)
        judge_why(judge, declared, int(count) // 20, some)
        for them in lists.get(path, []):
            judge_signatures(judge, them)
        print(f"{judge.path}: {judge.judged} answers judged, {judge.wrong} wrong")
        wrong += judge.wrong
    sys.exit(bool(wrong))


if len(sys.argv) < 2:
    sys.exit("usage: bench/explain.py PROGRAM [COUNT [SEED [FILE ..]]]")
main(*sys.argv[1:])
