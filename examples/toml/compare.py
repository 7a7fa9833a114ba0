#!/usr/bin/env python3
"""Reads what the service of settings writes as TOML by Python's own reader, and holds it against what was declared and set.

    examples/toml/compare.py CIDERLATER

The program serves the shared settings: each name that it writes has the value that `get` tells, before and after values are set. And it
serves twenty groups of files that are made here, whose values are known. The status is 0 where all are read as they should
be, and 1 where one isn't."""
import random
import subprocess
import sys
import tempfile
import tomllib


def answers(words, text):
    run = subprocess.run(words, input=text.encode(), capture_output=True, check=True)
    return run.stdout.decode()


def told(value):
    """A value of TOML, as `get` tells it."""
    if value is True:
        return "true"
    if value is False:
        return "false"
    return str(value)


def shared(program):
    """How many values of the shared settings were compared."""
    compared = 0
    for lines in ["", "set opt_level speed\nenable is_pic\nset probestack_size_log2 255\nset enable_verifier false\n"]:
        written = answers([program, "flags"], lines + "toml\n")
        written = written[written.index("["):]
        groups = tomllib.loads(written)
        if list(groups) != ["shared"]:
            sys.exit(f"other groups: {list(groups)}")
        values = groups["shared"]
        gets = answers([program, "flags"], lines + "".join(f"get {name}\n" for name in values)).splitlines()
        gets = gets[lines.count("\n"):]
        if gets != [told(value) for value in values.values()]:
            sys.exit("a shared setting is read otherwise than it is told")
        compared += len(values)
    return compared


def made(seed):
    """A group, as it is declared, what is asked of it, and the values that it then has."""
    chance = random.Random(seed)
    lines, asked, values, booleans, turned = [f"group g{seed}"], [], {}, [], {}
    for k in range(chance.randrange(1, 40)):
        name = f"s{k}_{chance.choice(['a', 'long_name', 'x9'])}"
        kind = chance.choice(["bool", "num", "enum"])
        if kind == "bool":
            values[name] = chance.random() < 0.5
            booleans.append(name)
            lines.append(f"bool {name} = {told(values[name])}")
        elif kind == "num":
            values[name] = chance.randrange(256)
            lines.append(f"num {name} = {values[name]}")
            if chance.random() < 0.5:
                values[name] = chance.randrange(256)
                asked.append(f"set {name} {values[name]}")
        else:
            texts = [f"v{n}" for n in range(chance.randrange(1, 12))]
            values[name] = texts[0]
            lines.append(f"enum {name}({', '.join(texts)})")
            if chance.random() < 0.5:
                values[name] = chance.choice(texts)
                asked.append(f"set {name} {values[name]}")
    for k in range(chance.randrange(4)):
        named = chance.sample(booleans, min(len(booleans), 3)) + chance.sample(list(turned), min(len(turned), 1))
        turned[f"p{k}"] = {b for n in named for b in turned.get(n, {n})}
        lines.append(f"preset p{k}({', '.join(named)})")
    for preset in turned:
        if chance.random() < 0.5:
            asked.append(f"enable {preset}")
            values.update((name, True) for name in turned[preset])
    return f"g{seed}", lines, asked, values


def own(program):
    """How many values of made groups were compared."""
    compared = 0
    for seed in range(20):
        name, lines, asked, values = made(seed)
        with tempfile.NamedTemporaryFile("w", suffix=".isa") as file:
            file.write("\n".join(lines) + "\n")
            file.flush()
            written = answers([program, "-d", file.name, "flags"], "\n".join([*asked, "toml"]) + "\n").split("\n")
        if written[:len(asked)] != ["ok"] * len(asked):
            sys.exit(f"group {seed} is answered {written[:len(asked)]}")
        if tomllib.loads("\n".join(written[len(asked):])) != {name: values}:
            sys.exit(f"group {seed} is read otherwise than it was declared and set")
        compared += len(values)
    return compared


if len(sys.argv) != 2:
    sys.exit(__doc__)
print(f"{shared(sys.argv[1])} values of the shared settings and {own(sys.argv[1])} of twenty groups are read as they are")
