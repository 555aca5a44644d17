#!/usr/bin/env python3
"""Brings the names of this repository's own definitions and lemmas to the spelling of the library.

usage: python3 tools/respell.py [--list]        at the top of the repository, once; --list prints the names and changes nothing

A definition, a field and a label is in snake case, a fact, a type and a variant in camel case. A lemma is named after its left
side, the outer call first, with a hyphen between the words of that call; its other words are joined by underscores. Goals that
the checker names, names of the library, functions of src/, strings and comments stay as they are (a comment or a page says a
name between backticks: there it is turned too).
"""

import collections
import os
import re
import sys

KIT = "/opt/rattle/rattle"
DECLARATION = re.compile(r"^(\s*)((?:pub |abbrev |unfoldable |record |data )*)([^\s(){}\[\].,;:]+)((?:\s+[({]|\s*:(?=\s)).*)$")
TOKEN = re.compile(r"[^\s(){}\[\].,;:`\"|&*+<>=!?/]+")
# words of the library that head lemmas of this repository
HEADS = {"length", "take", "drop", "cond"}
# names that hold an older word of the library
OWN = {"getD-units": "get_or-units", "getD-falling": "get_or-falling", "getD-orbit": "get_or-orbit"}
# names that are no call of a word, and those that a declaration shares a line with or a pattern binds
OWN |= {"TheBlock": "the_block", "Δ-parts": "Δ_parts", "pads-are-pads": "pads_are_pads", "pads-are_pads": "pads_are_pads"}
OWN |= {"answers-as-opens": "answers_as_opens", "answers-as_opens": "answers_as_opens"}
OWN |= {"At-reader": "AtReader", "At-door": "AtDoor", "Door-key": "DoorKey"}
OWN |= {"in-the-tag": "in_the_tag", "rest-is": "rest_is", "in-tag": "in_tag", "now-text": "now_text"}
OWN |= {"reader-meaning": "reader_meaning", "door-meaning": "door_meaning", "syndrome-of-whole": "syndrome_of-whole"}


def files(root, *endings):
    for folder, dirs, names in os.walk(root):
        dirs[:] = sorted(d for d in dirs if d not in ("out", ".git", "target"))
        for name in sorted(names):
            if name.endswith(endings):
                yield os.path.join(folder, name)


def text(path):
    with open(path, encoding="utf-8") as f:
        return f.read()


def declared(root):
    """What each name is declared as: 'word' (definition, field, label, variant), 'lemma' or 'goal'."""
    kinds = collections.defaultdict(set)
    for path in files(os.path.join(root, "crates"), ".antt"):
        for line in text(path).split("\n"):
            m = DECLARATION.match(line)
            if not m or m.group(3).startswith("--"):
                continue
            indent, marks, name, rest = m.groups()
            if "goal." in rest:
                kinds[name].add("goal")
            elif indent and not marks and not re.match(r"\s*:", rest):
                continue
            elif "abbrev" in marks or "unfoldable" in marks or "record" in marks or "data" in marks:
                kinds[name].add("word")
            elif indent:
                kinds[name].add("field" if marks else "local")
            else:
                kinds[name].add("lemma")
    for path in files(os.path.join(root, "crates"), ".rt", ".antt"):
        for alias in re.findall(r"\bas ([a-z][^\s(){}\[\].,;:]*-[^\s(){}\[\].,;:]*)", text(path)):
            kinds[alias].add("word")
    return kinds


def of_library():
    names = set()
    for path in files(KIT, ".antt"):
        for line in text(path).split("\n"):
            m = DECLARATION.match(line)
            if m and not m.group(1):
                names.add(m.group(3))
    return names


def camel(name):
    return "".join(p[:1].upper() + p[1:] for p in re.split(r"[-_]", name))


def snake(name):
    return name.replace("-", "_")


def lemma(name, words):
    """The outer word, a hyphen, then what it is applied to; words that are no calls are joined."""
    parts = name.split("-")
    known = [w for w in range(len(parts), 0, -1) if "_".join(parts[:w]) in words]
    if not known or known[0] == len(parts):
        return snake(name)
    head, rest, out, loose = "_".join(parts[: known[0]]), parts[known[0] :], [], []
    while rest:
        fits = [w for w in range(len(rest), 0, -1) if "_".join(rest[:w]) in words]
        if fits and not loose:
            out.append("_".join(rest[: fits[0]]))
            rest = rest[fits[0] :]
        else:
            loose.append(rest.pop(0))
    if loose:
        out.append("_".join(loose))
    return "-".join([head] + out)


def renamings(root):
    kinds, library = declared(root), of_library()
    odd = {n for n in kinds if ("-" in n or (n[0].isupper() and "_" in n)) and "goal" not in kinds[n] and n not in library}
    words = set(HEADS) | {snake(n) for n, k in kinds.items() if "word" in k and not n[0].isupper()}
    to = dict(OWN)
    for name in sorted(odd - OWN.keys() - set(OWN.values())):
        if name[0].isupper():
            new = camel(name)
        elif kinds[name] & {"word", "field"}:
            new = snake(name)
        else:
            new = lemma(name, words)
        if new != name:
            to[name] = new
    return to


def turn_tokens(line, to):
    return TOKEN.sub(lambda m: to.get(m.group(0), m.group(0)), line)


def turn_backticks(line, to):
    return re.sub(r"`[^`\n]*`", lambda m: turn_tokens(m.group(0), to), line)


def outside_strings(line, to):
    return "".join(p if i % 2 else turn_tokens(p, to) for i, p in enumerate(re.split(r'("(?:[^"\\]|\\.)*")', line)))


def turn_source(line, to, comment):
    at = re.search(r"(^|\s)" + comment, line)
    if at is None:
        return outside_strings(line, to)
    return outside_strings(line[: at.start()], to) + turn_backticks(line[at.start() :], to)


def main():
    root = "."
    to = renamings(root)
    back = collections.defaultdict(list)
    for old, new in to.items():
        back[new].append(old)
    seen = collections.Counter()
    for path in files(os.path.join(root, "crates"), ".antt", ".rt"):
        seen.update(set(TOKEN.findall(text(path))))
    for new, olds in sorted(back.items()):
        if len(olds) > 1:
            print("together:", " ".join(olds), "->", new)
        if seen[new]:
            print("there already:", " ".join(olds), "->", new)
    if "--list" in sys.argv:
        for old, new in sorted(to.items()):
            print(old, "->", new)
        return
    for path in files(root, ".antt", ".rt", ".edit", ".md"):
        if path.startswith("./docs/PORT"):
            continue
        was = text(path)
        if path.endswith(".md"):
            now = "\n".join(turn_backticks(line, to) for line in was.split("\n"))
        else:
            comment = "--" if path.endswith(".antt") else "//"
            now = "\n".join(turn_source(line, to, comment) for line in was.split("\n"))
        if now != was:
            with open(path, "w", encoding="utf-8") as f:
                f.write(now)
    print(len(to), "names turned")


main()
