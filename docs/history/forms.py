#!/usr/bin/env python3
"""Counts the places that docs/DESIGN-PASS.md speaks of: python3 docs/src/forms.py [ROOT] [-v]

It goes by text, over crates/*/src; what it lists is looked at by hand. -v names the places."""
import collections
import glob
import os
import re
import sys

args = [a for a in sys.argv[1:] if a != "-v"]
VERBOSE = "-v" in sys.argv
ROOT = args[0] if args else os.path.join(os.path.dirname(os.path.abspath(__file__)), "..", "..")


class Function:
    def __init__(self, where, head, body):
        self.where, self.head, self.body = where, head, body
        self.name = re.search(r"fn (\w+)", head).group(1)


def files():
    for path in sorted(glob.glob(os.path.join(ROOT, "crates/*/src/**/*.rt"), recursive=True)):
        yield os.path.relpath(path, ROOT), open(path, encoding="utf-8").read()


def close(text, i):
    """The end of the block that opens at i."""
    depth = 0
    while True:
        if text[i] == "{":
            depth += 1
        elif text[i] == "}":
            depth -= 1
            if depth == 0:
                return i + 1
        i += 1


def bare(text):
    """Without comments, texts and characters, in place."""
    blank = lambda m: re.sub(r"[^\n]", " ", m.group(0))
    return re.sub(r"//[^\n]*|b?\"(\\.|[^\"\\])*\"|b?'(\\.|[^'\\])'", blank, text)


def functions():
    for path, text in files():
        text = bare(text)
        for m in re.finditer(r"\bfn \w+", text):
            i, depth = m.end(), 0
            # the clauses, then the body
            while i < len(text):
                c = text[i]
                if c in "([":
                    depth += 1
                elif c in ")]":
                    depth -= 1
                elif c == ";" and depth == 0:
                    i = None
                    break
                elif c == "{":
                    before = text[m.end():i].rstrip()
                    if re.search(r"\b(requires|ensures)\b(\s+\w+)?$", before):
                        i = close(text, i)
                        continue
                    break
                i += 1
            if i is None or i >= len(text):
                continue
            line = text.count("\n", 0, m.start()) + 1
            yield Function(f"{path}:{line}", text[m.start():i], text[i:close(text, i)])


def lines(pattern, skip=None):
    found = []
    for path, text in files():
        for n, line in enumerate(text.split("\n"), 1):
            if re.search(pattern, line) and not (skip and re.search(skip, line)):
                found.append(f"{path}:{n}: {line.strip()}")
    return found


def show(title, found):
    print(f"{len(found):4}  {title}")
    if VERBOSE:
        for f in found:
            print("        " + f)


def twins():
    """Functions whose bodies differ in types, paths, numbers and texts alone."""
    groups = collections.defaultdict(list)
    for f in functions():
        tokens = re.findall(r"\w+|[^\w\s]", f.body)
        if len(tokens) < 12:
            continue
        shape = " ".join("T" if t[0].isupper() else "N" if t[0].isdigit() else t for t in tokens)
        groups[shape].append(f"{f.where} {f.name}")
    return ["; ".join(g) for g in groups.values() if len(g) > 1]


def counted_loops():
    """Loops over a range whose number stands in brackets in the loop, and counters kept by hand."""
    found = []
    for path, text in files():
        text = bare(text)
        for m in re.finditer(r"for (\w+) in [^{]*\.\.[^{]*\{", text):
            block = text[m.end() - 1:close(text, m.end() - 1)]
            if re.search(r"\[[^\]]*\b%s\b[^\]]*\]" % m.group(1), block):
                found.append(f"{path}:{text.count(chr(10), 0, m.start()) + 1}: {m.group(0)}")
        for m in re.finditer(r"let mut (\w+)(: \w+)? = 0;", text):
            rest = text[m.end():m.end() + 900]
            if re.search(r"\[%s\][^;]*;|\b%s \+= 1;" % (m.group(1), m.group(1)), rest):
                found.append(f"{path}:{text.count(chr(10), 0, m.start()) + 1}: {m.group(0)}")
    return found


def filled_or_summed():
    """Loops over a range or a slice that fill an array, add up, look for the first, or call for each place."""
    found = []
    for f in functions():
        for m in re.finditer(r"for (\w+|\([^)]*\)) in ", f.body):
            found.append(f"{f.where} {f.name}")
    return found


def clauses():
    by = collections.defaultdict(list)
    for path, text in files():
        for m in re.finditer(r"\b(requires|ensures)\b\s*(\w+)?\s*\{", text):
            body = " ".join(text[m.end():close(text, m.end() - 1) - 1].split())
            if re.fullmatch(r"\w+ < 64", body):
                body = "PLACE < 64"
            by[m.group(1) + " " + body].append(path)
    return [f"{len(v)} x {k[:110]} ({', '.join(sorted(set(v)))})" for k, v in by.items()
            if len(v) >= 3 and not k.startswith("ensures { result")]


def travelling():
    """Two parameters (or more) that go together through three functions or more of a file."""
    by = collections.defaultdict(set)
    for f in functions():
        m = re.search(r"\((.*?)\)\s*(->|requires|ensures|$)", f.head, re.S)
        names = re.findall(r"(?:^|,)\s*(?:mut )?(\w+)\s*:", m.group(1)) if m else []
        path = f.where.rsplit(":", 1)[0]
        for i in range(len(names)):
            for j in range(i + 1, len(names)):
                by[(path, names[i], names[j])].add(f.name)
    return [f"{p}: {a}, {b} in {len(v)}: {', '.join(sorted(v))}" for (p, a, b), v in sorted(by.items()) if len(v) >= 3]


def structs():
    for path, text in files():
        text = bare(text)
        for m in re.finditer(r"\bstruct (\w+)[^;{(]*\{", text):
            yield f"{path}: {m.group(1)}", text[m.end():close(text, m.end() - 1) - 1]


print("1  Option, Result, enums")
show("own enums", lines(r"^\s*(pub(\(crate\))? )?enum "))
show("flags and small numbers as fields", lines(r"^\s*(pub(\(crate\))? )?\w+: (bool|u8),$"))
show("arms that make an Option or a Result of another", lines(
    r"(None => None|None => (return )?Err\(|Err\(\w+\) => (return )?Err\(|Err\(_\) => (None|return)|Ok\(\w+\) => (Some|Ok)\(|Ok\(_\) => None|"
    r"Some\(\w+\) => (Some|Ok)\(|Some\(\(\w+, _\)\) => Some|None => 0)"))
show("functions that answer a number for a kind or a refusal", [
    f"{f.where} {f.name}" for f in functions() if re.search(r"-> (u8|\(usize, u8\)|\(u8, u64, usize\)|Option<\(u8, u64, usize\)>)", f.head)])
print("2  twins")
show("groups of functions that differ in a type, a size or a constant", twins())
print("3  loops")
show("loops over an index, counters kept by hand", counted_loops())
show("all `for` loops, for comparison", lines(r"^\s*for .* in "))
print("4  equality, order, conversion, printing")
show("equality and order by hand", lines(r"fn (same|eq|cmp|partial_cmp|is_before|before|less)\b"))
show("conversions by hand", lines(r"fn (of|to_\w+|from_\w+|byte|number|letter|word|\w+_byte|\w+_number|\w+_out|told\w*|flag|list|plain|lengths|shown|given|parts)\b"))
show("printing by hand", lines(r"fn put_\w+\("))
print("5  facts and parameters")
show("facts in three clauses or more", clauses())
show("parameters that travel together", travelling())
print("6  buffers and arrays")
show("structs with an array and a number of what is in it", [w for w, b in structs() if re.search(r": \[[^\]]+\]", b) and re.search(r"\b(count|len|head|at): usize", b)])
show("structs with two arrays or more of one length", [
    w for w, b in structs() if any(n > 1 for n in collections.Counter(re.findall(r": \[[^;]+; (\w+)\]", b)).values())])
show("functions over a buffer and a position in it", [f"{f.where} {f.name}" for f in functions() if re.search(r"out: &mut \[u8\], at: usize", f.head)])
print("7  steps")
show("enums of steps that a function switches over", [e for e in lines(r"enum (Call|Step|\w*Step)\b")])
show("function pointers", lines(r": fn\("))
print("8  proofs")
for crate in sorted(os.listdir(os.path.join(ROOT, "crates"))):
    proofs = glob.glob(os.path.join(ROOT, "crates", crate, "proofs/**/*.antt"), recursive=True)
    size = sum(len(open(p, encoding="utf-8").read().split("\n")) - 1 for p in proofs)
    if size and VERBOSE:
        print(f"        {crate}: {len(proofs)} files, {size} lines")
every = glob.glob(os.path.join(ROOT, "crates/*/proofs/**/*.antt"), recursive=True)
print(f"{len(every):4}  proof files, {sum(len(open(p, encoding='utf-8').read().split(chr(10))) - 1 for p in every)} lines")
