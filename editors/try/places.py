"""Tries the files for Vim and VS Code: `places.py VIM [FILE ..]`. try.sh calls this. If VIM is empty only those for VS Code are tried.

- Each place of places.txt has to have the colour that is written there.
- In all lines of all files of declarations both have to colour each character alike.
- The words that both colour have to be those of the code, if `crates` is there (a package hasn't it).
- Both have to read each message of MESSAGES as it is written there.
- Node and jq, if they are there, have to take each regular expression for VS Code: jq's are those of Oniguruma, as VS Code's are.

Prints how many were as expected. The status is 1 if one isn't.
"""

import glob
import itertools
import json
import os
import re
import shutil
import subprocess
import sys
import tempfile

import textmate

HERE = os.path.dirname(os.path.realpath(__file__))
EDITORS = os.path.dirname(HERE)
TOP = os.path.dirname(EDITORS)

# The letters of places.txt, the groups of Vim, and how the scopes of the grammar begin. A group or scope that isn't here has no letter.
COLOURS = [
    ("K", "isaKeyword", "keyword.declaration"),
    ("N", "isaName", "entity.name"),
    ("T", "isaUsed", "entity.name.type.used"),
    ("W", "isaWord isaDimension isaSortWord isaSlotWord", "keyword.other"),
    ("C", "isaSpan isaTruth", "constant.language"),
    ("0", "isaNumber", "constant.numeric"),
    ("-", "isaOperator", "keyword.operator"),
    ("P", "isaPlain isaGiven", "support.type"),
    ("F", "isaFunction", "support.function"),
    ("O", "isaOperandName", "variable.parameter"),
    ("V", "isaMember isaField", "variable.other.member"),
    ("M", "isaMark", "storage.modifier"),
    ("S", "isaText isaUnclosed", "string"),
    ("E", "isaEscape", "constant.character.escape"),
    ("/", "isaComment", "comment.line.double-slash"),
    ("D", "isaDoc", "comment.line.documentation"),
    ("!", "isaStray isaBadEscape", "invalid"),
]
OF_GROUP = {group: letter for letter, groups, _ in COLOURS for group in groups.split()}
SCOPES = sorted(((scope, letter) for letter, _, scope in COLOURS), reverse=True)

# What `filetype`, `commentstring` and `makeprg` are in Vim.
OPTIONS = ["isa", "// %s", "ciderlater check %:S"]

# Lines that the program writes, or will write, and what they say: file, line, column (0 if there is none), level, text.
MESSAGES = [
    ("my.isa:22: half_width cannot be derived from Int", ["my.isa", 22, 0, "error", "half_width cannot be derived from Int"]),
    ("a/b c.isa:1: wanted `:`, found `=`", ["a/b c.isa", 1, 0, "error", "wanted `:`, found `=`"]),
    ("/x/my.isa:7: warning: const: a keyword", ["/x/my.isa", 7, 0, "warning", "const: a keyword"]),
    ("my.isa:7: error: the line", ["my.isa", 7, 0, "error", "the line"]),
    ("my.isa:22:23: error: `sub` is declared twice", ["my.isa", 22, 23, "error", "`sub` is declared twice"]),
    ("my.isa:3:1: warning: 4:5: why", ["my.isa", 3, 1, "warning", "4:5: why"]),
    ("my.isa:12:6: note: `sub` is declared here", ["my.isa", 12, 6, "note", "`sub` is declared here"]),
    ("my.isa:12:6: why", ["my.isa", 12, 6, "error", "why"]),
    ("ciderlater: no command 'chek': the commands are check, describe", None),
    ("ok: 12 instructions, 10 formats", None),
    ("   |", None),
    ("22 | inst sub: Binary(x: Int, y: Int) -> a: Int", None),
    ("   |      ^^^", None),
]


def letter_of_scope(scope):
    return next((letter for begin, letter in SCOPES if scope and (scope + ".").startswith(begin + ".")), " ")


def letter_of_group(group):
    return OF_GROUP.get(group, " ")


def letters(text, colours, letter_of):
    """The letters of lines. A blank that isn't part of a text, comment or documentation has none."""
    whole = []
    for line, of_line in zip(text.split("\n"), colours):
        found = (letter_of(it) for it in of_line)
        whole.append("".join(it if sign.strip() or it in "S/D!" else " " for sign, it in zip(line, found)))
    return whole


def read(*path):
    with open(os.path.join(*path), encoding="utf-8") as file:
        return file.read()


def sections():
    """The sections of places.txt: a file or `new`, and pairs of a line and its letters, which are None if they aren't written."""
    found = []
    for line in read(HERE, "places.txt").split("\n"):
        if line.startswith("== "):
            found.append((line[3:], []))
        elif line.startswith("|"):
            found[-1][1].append([line[2:], None])
        elif line.startswith(">"):
            found[-1][1][-1][1] = line[2:]
    return found


class Tally:
    def __init__(self):
        self.failed = False

    def tell(self, what, good, bad):
        """Prints how many were as expected, and those that weren't."""
        print(f"{what}: {good} of {good + len(bad)} as expected")
        for it in bad:
            print(f"    {it}")
        self.failed |= bool(bad) or not good


def in_vim(vim, files, room, from_end=False):
    """What Vim makes of the files, as colours.vim writes it."""
    out = os.path.join(room, "out.json")
    with open(os.path.join(room, "messages"), "w", encoding="utf-8") as file:
        file.write("".join(f"{line}\n" for line, _ in MESSAGES))
    env = {**os.environ, "OUT": out, "MESSAGES": file.name, "FROM_END": "yes" if from_end else "", "LC_ALL": "C.UTF-8"}
    words = [vim, "-es", "-V1", "-N", "-u", "NONE", "-i", "NONE", "--cmd", f"set encoding=utf-8 runtimepath^={EDITORS}/vim"]
    words += ["--cmd", "filetype plugin on", "--cmd", "syntax on", "-S", f"{HERE}/colours.vim", *files]
    how = {"stdin": subprocess.DEVNULL, "stdout": subprocess.PIPE, "stderr": subprocess.STDOUT, "timeout": 600}
    done = subprocess.run(words, env=env, check=False, **how)
    if done.returncode:
        sys.exit(f"Vim ends with {done.returncode}:\n{done.stdout.decode(errors='replace')}")
    return json.loads(read(out))


def try_places(tally, who, found, written):
    """Compares the letters of files with those of places.txt. A place is a run of one letter."""
    good, bad = 0, []
    for path, lines in written:
        text = read(path).split("\n")
        begun = 0
        for line, wanted in lines:
            if line not in text[begun:]:
                bad.append(f"{path}: no line after line {begun} is: {line}")
                continue
            begun = text.index(line, begun) + 1
            if wanted is None:
                continue
            place = 0
            for letter, run in itertools.groupby(wanted.ljust(len(line))):
                end = place + len(list(run))
                there = found[path][begun - 1][place:end]
                if set(there) == {letter}:
                    good += bool(line[place:end].strip())
                else:
                    bad.append(f"{path}:{begun}: {line[place:end]!r} is '{there}' and not '{letter}'")
                place = end
    tally.tell(f"places in {who}", good, bad)


def try_alike(tally, what, one, other):
    good, bad = 0, []
    for path in one:
        for number, (a, b) in enumerate(zip(one[path], other[path]), 1):
            good += sum(x == y for x, y in zip(a, b))
            if a != b:
                bad.append(f"{path}:{number}:\n    {a}\n    {b}")
    tally.tell(what, good, bad)


def source(crate):
    return "".join(read(it) for it in sorted(glob.glob(f"{TOP}/crates/{crate}/src/*.rt")))


def words_of_code():
    """The words of the language by their class. `meta_file_syntax` has tables of three classes, and its speller writes all other words but
    the names of functions and of given kinds."""
    syntax = source("meta_file_syntax")
    words = {
        "keywords": re.findall(r'\(Keyword::\w+, b"(\w+)"\)', syntax),
        "marks": re.findall(r'\(Property::\w+, b"(\w+)"\)', syntax),
        "dimensions": re.findall(r'\(Dimension::\w+, b"(\w+)"\)', syntax),
        "functions": re.findall(r'DerivedFunc::\w+ => "([a-z_]+)"', source("meta_types")),
    }
    given = re.findall(r'word == b"([a-z_]+)"', source("meta_file_types"))
    others = set(re.findall(r'b"([a-z_]+)"', syntax)).union(given)
    words["others"] = others.difference(*words.values())
    return {name: set(it) for name, it in words.items()}


def words_of_vim():
    text = re.sub(r"\n\s*\\", "", read(EDITORS, "vim/syntax/isa.vim"))
    words = {name: set(it.split()) for name, it in re.findall(r"let s:(keywords|functions|given) = '(.*)'", text)}
    groups = {group: set(it.split()) for group, it in re.findall(r"syntax keyword (\w+) contained (.*)", text)}
    words["marks"], words["dimensions"] = groups.pop("isaMark"), groups.pop("isaDimension")
    words["others"] = set(re.findall(r"s:Any\('(\w+)'\)", text)).union(words.pop("given"), *groups.values())
    begun = {it for them in re.findall(r"s:Item\('\w+', '(.*?)'", text) for it in them.split()}
    words["others"] |= begun ^ words["keywords"]
    return words


def words_of_grammar(tree):
    words = {"keywords": set(), "marks": set(), "dimensions": set(), "functions": set(), "others": set()}
    classes = [("keyword.declaration", "keywords"), ("storage", "marks"), ("keyword.other.dimension", "dimensions")]
    classes += [("support.function", "functions"), ("", "others")]

    def walk(it):
        if isinstance(it, dict):
            found = re.match(r"\\b\(\?:([a-z_|]+)\)\\b", it.get("match") or it.get("begin") or "")
            if found:
                name = it.get("name") or it["beginCaptures"]["0"]["name"]
                words[next(where for begin, where in classes if name.startswith(begin))] |= set(found[1].split("|"))
        for part in it.values() if isinstance(it, dict) else it if isinstance(it, list) else []:
            walk(part)

    walk(tree)
    for ends in re.findall(r"\(\?=\\\\b\(\?:([a-z|]+)\)", json.dumps(tree)):
        words["others"] |= set(ends.split("|")) ^ words["keywords"]
    return words


def try_words(tally, grammar):
    if not os.path.isdir(f"{TOP}/crates"):
        print("words: not compared, because the code isn't here")
        return
    code = words_of_code()
    for who, words in [("Vim", words_of_vim()), ("VS Code", words_of_grammar(grammar.tree))]:
        bad = [f"{name}: {it}" for name in code for it in sorted(code[name] ^ words[name])]
        bad += [f"no {name} in the code" for name in code if not code[name]]
        tally.tell(f"words of the code in the file for {who}", sum(len(code[name] & words[name]) for name in code), bad)


def plain_types():
    """A file with each plain type of the code, and its places."""
    tables = re.findall(r"const (?:LANE_CODES|FIXED_ROWS|DYNAMIC_ROWS): [^=]* = \[(.*?)\];", source("meta_types"), re.DOTALL)
    lanes, fixed, dynamic = (re.findall(r'\("(\w*)", \d+\)', table) for table in tables)
    return [[f"type t = {lane}{row}", f"KKKK N   {'P' * len(lane + row)}"] for lane in lanes for row in fixed + dynamic]


def problem_matcher():
    return json.loads(read(EDITORS, "vscode/package.json"))["contributes"]["problemMatchers"][0]


def try_messages(tally, found_by_vim):
    matcher = problem_matcher()
    pattern = matcher["pattern"]

    def by_matcher(line):
        found = re.match(pattern["regexp"], line)
        if not found:
            return None
        name, number, column, level, why = (found[pattern[it]] for it in ("file", "line", "column", "severity", "message"))
        return [name, int(number), int(column or 0), level or matcher["severity"], why]

    for who, found in [("Vim", found_by_vim), ("VS Code", [by_matcher(line) for line, _ in MESSAGES])]:
        if found is not None:
            bad = [f"{line}: read as {it}" for (line, want), it in zip(MESSAGES, found) if it != want]
            tally.tell(f"messages read by {who}", len(MESSAGES) - len(bad), bad)


def messages_of_vim(items):
    levels = {"": "error", "e": "error", "w": "warning", "n": "note"}
    return [[name, line, column, levels[level], text] if valid else None for valid, name, line, column, level, text in items]


def try_patterns(tally, grammar):
    patterns = sorted({problem_matcher()["pattern"]["regexp"], *textmate.patterns_of(grammar.tree)})
    checks = [
        ("node", ["node", "-e", "for (const it of JSON.parse(process.argv[1])) { new RegExp(it, 'u'); new RegExp(it); }"]),
        ("jq", ["jq", "-n", "$ARGS.positional[0] | fromjson[] as $it | \"\" | test($it)", "--args"]),
    ]
    for program, words in checks:
        if shutil.which(program):
            done = subprocess.run([*words, json.dumps(patterns)], capture_output=True, text=True, check=False)
            bad = [done.stderr] if done.returncode else []
            tally.tell(f"regular expressions taken by {program}", 0 if bad else len(patterns), bad)


def placed(room):
    """The files of the places with their lines and letters. New files are written into the folder."""
    whole = sections()
    if os.path.isdir(f"{TOP}/crates"):
        whole.append(("new", plain_types()))
    for number, (name, lines) in enumerate(whole):
        path = os.path.join(room, f"{number}.isa") if name == "new" else os.path.join(TOP, name)
        if name == "new":
            with open(path, "w", encoding="utf-8") as file:
                file.write("".join(f"{line}\n" for line, _ in lines))
        yield path, lines


def try_vim(tally, vim, files, room, written, by_grammar):
    """Tries the colours in Vim. Returns what Vim reads in the messages."""
    seen, last = (in_vim(vim, files, room, from_end) for from_end in (False, True))
    forwards, backwards = ({it: letters(read(it), groups, letter_of_group) for it, groups in zip(files, of["files"])} for of in (seen, last))
    try_places(tally, "Vim", forwards, written)
    try_alike(tally, "characters that Vim and VS Code colour alike", forwards, by_grammar)
    try_alike(tally, "characters that Vim colours alike from the end of the file", forwards, backwards)
    bad = [f"{it} and not {wanted}" for it, wanted in zip(seen["options"], OPTIONS) if it != wanted]
    tally.tell("options of Vim", len(OPTIONS) - len(bad), bad)
    return messages_of_vim(seen["messages"])


def main():
    vim, files = sys.argv[1], sys.argv[2:]
    tally = Tally()
    grammar = textmate.Grammar(f"{EDITORS}/vscode/syntaxes/isa.tmLanguage.json")
    with tempfile.TemporaryDirectory() as room:
        written = list(placed(room))
        files = sorted({*(path for path, _ in written), *glob.glob(f"{TOP}/examples/*.isa"), *files})
        by_grammar = {it: letters(read(it), grammar.scopes(read(it)), letter_of_scope) for it in files}
        try_places(tally, "VS Code", by_grammar, written)
        messages = try_vim(tally, vim, files, room, written, by_grammar) if vim else None
    try_words(tally, grammar)
    try_messages(tally, messages)
    try_patterns(tally, grammar)
    sys.exit(1 if tally.failed else 0)


main()
