"""Colours lines by a TextMate grammar as VS Code does, for the constructs that isa.tmLanguage.json uses. Others are refused."""

import json
import re

KNOWN = {"comment", "name", "match", "captures", "begin", "beginCaptures", "end", "endCaptures", "patterns"}


class Rule:
    """A rule with `match`, or with `begin` and `end`."""

    def __init__(self, it):
        unknown = set(it) - KNOWN
        if unknown or ("match" in it) == ("begin" in it) or ("begin" in it) != ("end" in it):
            raise ValueError(f"a rule of another form: {sorted(unknown) or it}")
        self.name = it.get("name")
        self.patterns = it.get("patterns", [])
        self.first = re.compile(it.get("match") or it["begin"])
        self.end = re.compile(it["end"]) if "end" in it else None
        self.captures = names_of(it.get("captures") or it.get("beginCaptures", {}))
        self.end_captures = names_of(it.get("endCaptures", {}))


def names_of(captures):
    if any(set(it) != {"name"} for it in captures.values()):
        raise ValueError(f"captures of another form: {captures}")
    return sorted((int(number), it["name"]) for number, it in captures.items())


class Grammar:
    """A grammar. `scopes` gives the innermost scope of each character of each line, or None."""

    def __init__(self, path):
        with open(path, encoding="utf-8") as file:
            self.tree = json.load(file)
        self.rules = {}

    def candidates(self, patterns):
        """The rules of patterns in order, with those that they include."""
        for it in patterns:
            if "include" in it:
                it = self.tree["repository"][it["include"][1:]]
            if "match" in it or "begin" in it:
                if id(it) not in self.rules:
                    self.rules[id(it)] = Rule(it)
                yield self.rules[id(it)]
            else:
                yield from self.candidates(it["patterns"])

    def scopes(self, text):
        stack = [Frame(None, None, 0)]
        return [self.line(it, stack) for it in text.split("\n")]

    def line(self, text, stack):
        """Colours a line, and leaves in the stack what goes on in the next one."""
        line = text + "\n"
        colours = [None] * len(line)
        for frame in stack:
            frame.entered = -1
        place = 0
        while True:
            top = stack[-1]
            found, rule = self.next(line, place, top)
            if found is None:
                paint(colours, place, len(line), top.name)
                return colours[:-1]
            paint(colours, place, found.start(), top.name)
            paint(colours, found.start(), found.end(), rule.name or top.name)
            if rule is top.rule and found.re is rule.end:
                paint_captures(colours, found, rule.end_captures)
                stack.pop()
                if found.end() == place == top.entered:
                    raise ValueError(f"a rule begins and ends at one place: {rule.first.pattern}")
            else:
                paint_captures(colours, found, rule.captures)
                if rule.end:
                    stack.append(Frame(rule, rule.name or top.name, place))
                elif found.end() == place:
                    raise ValueError(f"a match is empty: {rule.first.pattern}")
            place = found.end()

    def next(self, line, place, top):
        """The first match after a place. Of two at the same place the end is first, then the order of the patterns counts."""
        best = (None, None)
        tried = [(top.rule.end, top.rule)] if top.rule else []
        patterns = top.rule.patterns if top.rule else self.tree["patterns"]
        for pattern, rule in tried + [(it.first, it) for it in self.candidates(patterns)]:
            found = pattern.search(line, place)
            if found and (best[0] is None or found.start() < best[0].start()):
                best = (found, rule)
        return best


class Frame:
    """A rule that has begun, and the place in the line where it was looked for."""

    def __init__(self, rule, name, entered):
        self.rule, self.name, self.entered = rule, name, entered


def paint(colours, begin, end, name):
    colours[begin:end] = [name] * (end - begin)


def paint_captures(colours, found, captures):
    for number, name in captures:
        if found.start(number) >= 0:
            paint(colours, found.start(number), found.end(number), name)


def patterns_of(tree):
    """All regular expressions of a grammar."""
    if isinstance(tree, dict):
        for key, it in tree.items():
            if key in ("match", "begin", "end"):
                yield it
            yield from patterns_of(it)
    elif isinstance(tree, list):
        for it in tree:
            yield from patterns_of(it)
