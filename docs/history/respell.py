#!/usr/bin/env python3
"""Brings the repository's own ghost names to today's spelling: words in snake case, types and facts in upper camel case.

usage: python3 tools/respell.py [--list]      at the top of the repository, once, after the kit's port.py

An own name is one that specs/ or proofs/ define (a definition, a record, a constructor, a field, a bound name, an import under
another name); names that the checker makes, and names of the kit, keep theirs. Functions, strings and comments of src/ keep
their text, but for names in backticks. Names that would fall together with another word of the same file are printed.
"""
import collections
import os
import re
import sys

NAME = r"[A-Za-z_0-9ℤℕ']+(?:-[A-Za-z_0-9ℤℕ']+)+"
TOKEN = re.compile(r"(?<![\w'\-ℤℕ])" + NAME + r"(?![\w'\-])")
# names that would fall together with another: a Rust type, a tactic
APART = {"Least-served": "IsLeastServed", "Chosen-of": "chosen_of"}
TACTIC = {"crates/model/proofs/Share.antt": "first_able", "": "first_refusal"}
# a trait's ghost members
MEMBERS = {"afterServed": "after_served", "afterJoined": "after_joined", "afterCleared": "after_cleared"}
MEMBER = re.compile(r"(?<![\w'\-])(?:" + "|".join(MEMBERS) + r")(?![\w'\-])")


def files(ends):
    for folder, dirs, names in os.walk("crates"):
        dirs[:] = sorted(d for d in dirs if d != "out")
        for n in sorted(names):
            if n.endswith(ends):
                yield os.path.join(folder, n)


def text_of(path):
    with open(path, encoding="utf-8") as f:
        return f.read()


def goal_names(text):
    """Names in a file of answers that the checker made: those whose signature is the goal of that name."""
    return set(re.findall(r"(?m)^(?:abbrev )?(?:pub )?(\S+)\s*:\s*goal\.", text)) | set(re.findall(r"goal\.(\S+)", text))


def own_names():
    own, made = set(), set()
    for path in files(".antt"):
        text = text_of(path)
        code = re.sub(r"--.*", "", text)
        made |= goal_names(code)
        found = re.findall(r"(?m)^\s*(?:(?:abbrev|unfoldable|pub|data|record)\s+)*(" + NAME + r")\s*:", code)
        found += re.findall(r"\b(?:record|data)\s+(" + NAME + r")(?=[\s:({])", code)
        found += re.findall(r"\blet\s+(" + NAME + r")", code)
        found += re.findall(r"\bas\s+(" + NAME + r")", code)
        found += re.findall(r"[(λ;{]\s*(" + NAME + r")\s*[:.=]", code)
        own |= set(found)
    for path in files(".rt"):
        own |= set(re.findall(r"\bas\s+(" + NAME + r")\s*[,}]", text_of(path)))
    return own - made


def spelled(name):
    if name in APART:
        return APART[name]
    parts = name.split("-")
    if name[0].isupper():
        return "".join(p[0].upper() + p[1:] for p in parts)
    return "_".join(parts)


def outside_comments(path, text, turn):
    """Applies turn to all but comments; in a comment, to what stands in backticks."""
    sign = "--" if path.endswith(".antt") else "//"
    out = []
    for line in text.splitlines(keepends=True):
        at = line.find(sign) if not path.endswith(".edit") else -1
        if at < 0:
            out.append(turn(line))
        else:
            out.append(turn(line[:at]) + re.sub(r"`[^`]*`", lambda m: turn(m.group(0)), line[at:]))
    return "".join(out)


def main():
    own = own_names()
    falls = collections.defaultdict(set)
    for path in list(files((".antt", ".rt", ".edit"))):
        text = text_of(path)
        words = set(re.findall(r"[A-Za-z_0-9ℤℕ'\-]+", text))

        def one(m):
            name = m.group(0)
            if name not in own:
                return name
            if spelled(name) in words:
                falls[name].add(path)
            return spelled(name)

        def turn(part):
            # a Rust byte or a string keeps its text
            pieces = re.split(r'(b?"(?:[^"\\]|\\.)*")', part)
            for i in range(0, len(pieces), 2):
                pieces[i] = MEMBER.sub(lambda m: MEMBERS[m.group(0)], TOKEN.sub(one, pieces[i]))
            return "".join(pieces)

        new = outside_comments(path, text, turn)
        if path.startswith("crates/model/"):
            new = re.sub(r"(?<![\w'\-])first_of(?![\w'\-])", TACTIC.get(path, TACTIC[""]), new)
        if new != text and "--list" not in sys.argv:
            with open(path, "w", encoding="utf-8") as f:
                f.write(new)
    if "--list" in sys.argv:
        print(" ".join(sorted(own)))
    for name, paths in sorted(falls.items()):
        print(f"look: {name} beside {spelled(name)}: {' '.join(sorted(paths))}")


main()
