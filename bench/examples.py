#!/usr/bin/env python3
"""Runs the examples of the documents, and holds what a program says against what stands there: `bench/examples.py PROGRAM`.

PROGRAM is a finished ciderlater; `./test` runs this. An example is a line after `$ ` in a block `console` of README.md, docs/ or
examples/README.md. What it says stands in the lines after it, up to the next such line or the end of the block. It runs where a copy of
`examples` is, and `./run` and `ciderlater` are PROGRAM. A block `isa` is added to `my.isa`, as docs/DECLARING.md asks.
Lines that name neither `./run` nor `ciderlater` aren't run, nor is what `./run` does with words of its own, as `--prove`.
The status is 1 where an example says something else, which is told with its line, or where no example was found.
"""

import os
import re
import shutil
import subprocess
import sys
import tempfile

TOP = os.path.dirname(os.path.dirname(os.path.realpath(__file__)))


def examples(path):
    """Returns the examples of a document as (line, command, what it says), and its pieces of `my.isa` as (line, none, text), in order."""
    found, kind = [], None
    with open(path, encoding="utf-8") as file:
        for number, line in enumerate(file, 1):
            if line.startswith("```"):
                kind = None if kind else line[3:].strip()
                if kind == "isa":
                    found.append([number, None, ""])
            elif kind == "isa":
                found[-1][2] += line
            elif kind == "console" and line.startswith("$ "):
                found.append([number, line[2:].rstrip("\n"), ""])
            elif kind == "console" and found:
                found[-1][2] += line
    return found


def is_run(command):
    return re.search(r"\./run|\bciderlater\b", command) and not re.search(r"\./run --(prove|program)\b", command)


def wrong(path, program):
    """Runs the examples of a document in a folder of their own. Returns how many ran, and which lines say something else."""
    count, bad = 0, []
    with tempfile.TemporaryDirectory() as room:
        os.makedirs(f"{room}/bin")
        shutil.copytree(f"{TOP}/examples", f"{room}/examples")
        for name in (f"{room}/run", f"{room}/bin/ciderlater"):
            os.symlink(program, name)
        env = {**os.environ, "PATH": f"{room}/bin:{os.environ['PATH']}"}
        for number, command, said in examples(path):
            if command is None:
                with open(f"{room}/my.isa", "a", encoding="utf-8") as file:
                    file.write(f"\n{said}" if file.tell() else said)
            elif is_run(command):
                how = {"stdin": subprocess.DEVNULL, "stdout": subprocess.PIPE, "stderr": subprocess.STDOUT, "timeout": 120}
                says = subprocess.run(["sh", "-c", command], cwd=room, env=env, check=False, **how).stdout.decode(errors="replace")
                count += 1
                if says != said:
                    bad.append(f"{os.path.relpath(path, TOP)}:{number}: $ {command}\n{says}")
    return count, bad


def main():
    if len(sys.argv) != 2 or not os.access(sys.argv[1], os.X_OK):
        sys.exit("usage: bench/examples.py PROGRAM, a finished ciderlater")
    program = os.path.realpath(sys.argv[1])
    documents = [f"{TOP}/README.md", *(f"{TOP}/docs/{it}" for it in sorted(os.listdir(f"{TOP}/docs"))), f"{TOP}/examples/README.md"]
    ran = [wrong(path, program) for path in documents]
    bad = [it for _, them in ran for it in them]
    for it in bad:
        print(f"this example says something else:\n{it}", end="", file=sys.stderr)
    count = sum(it for it, _ in ran)
    print(f"{count} examples of the documents ran, {len(bad)} of them said something else")
    sys.exit(1 if bad or not count else 0)


main()
