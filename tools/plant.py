#!/usr/bin/env python3
"""Plants bugs in the code, one at a time, and says what refuses each.

    python3 tools/plant.py                    every bug of tools/bugs, two workers
    python3 tools/plant.py -w 1 session       the bugs of a crate, one worker
    python3 tools/plant.py -l LABEL --fresh   one bug, whatever an earlier run said

A bug takes 10 to 60 seconds, and minutes where it survives its own crate. Each worker has a copy of the repository
under --work while it runs; its checks begin with what earlier checks on this machine kept. A verdict is taken over
from an earlier run while the bug and every text that it can rest on are the same. What was printed is in WORK/log.
"""
import argparse
import hashlib
import json
import re
import shutil
import subprocess
import sys
import tempfile
import threading
from collections import Counter
from concurrent.futures import ThreadPoolExecutor
from dataclasses import dataclass, field
from pathlib import Path
from queue import SimpleQueue

ROOT = Path(__file__).resolve().parents[1]
VERDICTS = ["contract", "test", "not at all", "unfit"]
# What a check says of a fact that it could not prove, or of a text that it could not read.
TOLD = re.compile(r"note: \S+:\d+:\d+: |\S+:\d+:\d+: error")
# The second kind: a proof by hand or an import names what is gone, so no fact was found wrong.
GONE = re.compile(r"has no (field )?[`«]|can be named from here|is not in scope|no such name|unknown name|is no need of|was not admitted")
# Of a function that is itself not proved, and does not only wait for another.
UNPROVED = re.compile(r"^(?:fn|struct|impl) (\S+): (?:not proved|no proof)(?!.*(?:it calls|it passes|it waits|a call of))", re.M)


@dataclass
class Bug:
    crate: str
    label: str
    kind: str
    says: str = ""
    file: str = ""
    edits: list = field(default_factory=list)  # pairs of (old lines, new lines)
    verdict: str = ""
    where: str = ""

    def row(self):
        return f"| {self.crate} | {self.file} | {self.says} | {self.kind} | {self.verdict}{self.where and ': ' + self.where} |"


def read_bugs():
    """Every bug of tools/bugs, in the order of its files and lines."""
    bugs = []
    for path in sorted((ROOT / "tools/bugs").glob("*.txt")):
        for n, line in enumerate(path.read_text().split("\n"), 1):
            if line.startswith("bug "):
                label, kind = line[4:].split(": ")
                bugs.append(Bug(path.stem, label, kind))
            elif line.startswith("file "):
                bugs[-1].file = line[5:].strip()
            elif line[:1] == "-":
                if not bugs[-1].edits or bugs[-1].edits[-1][1]:
                    bugs[-1].edits.append(([], []))
                bugs[-1].edits[-1][0].append(line[2:])
            elif line[:1] == "+":
                bugs[-1].edits[-1][1].append(line[2:])
            elif line.strip() and not line.startswith("#"):
                if bugs[-1].says:
                    sys.exit(f"{path}:{n}: what is this line?")
                bugs[-1].says = line.strip()
    return bugs


def edited(text, bug):
    for old, new in bug.edits:
        old, new = "\n".join(old), "\n".join(new)
        if text.count(old) != 1:
            bug.verdict, bug.where = "unfit", f"its text stands {text.count(old)} times in the file"
        text = text.replace(old, new)
    return text


def reaches():
    """For each crate, those that it depends on and those that depend on it, directly or not, lowest first."""
    deps = {}
    for line in (ROOT / "crates.txt").read_text().splitlines():
        head, colon, rest = line.split("#")[0].partition(":")
        if colon:
            deps[head.split()[0]] = rest.split()
    deps = {name: [d for d in of if d in deps] for name, of in deps.items()}  # without the kit's crates
    below = {}
    for name in deps:
        below[name], todo = set(), set(deps[name])
        while todo:
            below[name] |= todo
            todo = {d for t in todo for d in deps[t]} - below[name]
    order = sorted(deps, key=lambda name: len(below[name]))
    return below, {name: [d for d in order if name in below[d]] for name in deps}


def texts(crate):
    """The files of a crate that a check, its tests or its run read."""
    folder = ROOT / "crates" / crate
    return [f for f in sorted(folder.rglob("*")) if f.is_file() and f.relative_to(folder).parts[0] not in ("out", "must-fail")]


class Book:
    """Verdicts of earlier runs, each by the bug and the texts of its crate and of those below and above it."""

    def __init__(self, path, below, above):
        self.path, self.lock = path, threading.Lock()
        self.kit = subprocess.run(["rt", "version"], capture_output=True, text=True).stdout
        self.near = {c: {c, *below[c], *above[c]} for c in below}
        self.of = {c: "".join(f"{f.relative_to(ROOT)} {f.read_bytes().hex()}\n" for f in texts(c)) for c in below}
        self.seen = json.loads(path.read_text()) if path.exists() else {}

    def key(self, bug):
        all_texts = "".join(self.of[c] for c in sorted(self.near[bug.crate]))
        return hashlib.sha256(f"{self.kit} {bug.crate} {bug.file} {bug.edits} {all_texts}".encode()).hexdigest()

    def find(self, bug):
        bug.verdict, bug.where = self.seen.get(self.key(bug), ("", ""))
        return bug.verdict

    def add(self, bug):
        with self.lock:
            self.seen[self.key(bug)] = [bug.verdict, bug.where]
            self.path.write_text(json.dumps(self.seen, indent=0))


def judged(crate, said):
    """What refused the bug, and where, by what a failed check or test of a crate printed."""
    told = [line for line in said.splitlines() if TOLD.match(line)]
    facts = [line for line in told if not GONE.search(line)]
    if "logic=not-proved" in said and (facts or not told):
        fn = UNPROVED.search(said)
        by_hand = facts and all(re.match(r"(note: )?(\./)?proofs/", line) for line in facts)
        more = " (its proof by hand)" if by_hand else ""
        return "contract", f"`{fn.group(1) if fn else '?'}`{more}" + (" (names are gone too)" if len(facts) < len(told) else "")
    failed = re.search(r"^test (\S+) \.\.\. FAILED", said, re.M)
    if failed:
        return "test", f"`{failed.group(1)}` of {crate}"
    error = re.search(r"^.*error.*$", said, re.M)
    return "unfit", (told[0] if told else error.group() if error else said[-300:])[:300]


class Worker:
    """A copy of the repository in which bugs are planted."""

    def __init__(self, home, above, log):
        self.home, self.above, self.log, self.sound = home, above, log, set()
        shutil.rmtree(home, ignore_errors=True)
        shutil.copytree(ROOT / "crates", home / "crates", ignore=shutil.ignore_patterns("out"))
        for name in ["crates.txt", "HANDLES"]:
            if (ROOT / name).exists():
                shutil.copy2(ROOT / name, home / name)

    def rt(self, crate, *words, given=b""):
        folder = self.home / "crates" / crate
        return subprocess.run(["rt", *words], cwd=folder, input=given, stdout=subprocess.PIPE, stderr=subprocess.PIPE)

    def proved(self, crate, *words):
        """Whether a check or the tests pass, and what they print."""
        done = self.rt(crate, *words)
        return done.returncode == 0, (done.stdout + done.stderr).decode(errors="replace")

    def ran(self, crate):
        """Whether a program writes what its file stdout has, and what rt prints."""
        folder = self.home / "crates" / crate
        words = (folder / "args").read_text().splitlines() if (folder / "args").exists() else []
        given = (folder / "stdin").read_bytes() if (folder / "stdin").exists() else b""
        done = self.rt(crate, "run", *(["--", *words] if words else []), given=given)
        wrote = done.returncode == 0 and done.stdout == (folder / "stdout").read_bytes()
        return wrote, done.stderr.decode(errors="replace")

    def refused(self, crate):
        """What refuses a crate as it stands here, where, and what was printed; None if nothing does."""
        folder = self.home / "crates" / crate
        well, said = self.proved(crate, "check")
        if well and any("#[test]" in f.read_text() for f in folder.glob("src/*.rt")):
            well, said = self.proved(crate, "test")
        if not well:
            return *judged(crate, said), said
        if (folder / "stdout").exists():
            well, said = self.ran(crate)
        return None if well else ("test", f"stdout of {crate}", said)

    def plant(self, bug):
        """Tries the bug in its crate, and while it survives in those above. The file is put back after it."""
        if bug.crate not in self.sound and not self.proved(bug.crate, "check")[0]:
            bug.verdict, bug.where = "unfit", "the crate is not proved without it"
            return
        self.sound.add(bug.crate)
        path = self.home / "crates" / bug.crate / bug.file
        text = path.read_text()
        path.write_text(edited(text, bug))
        found = (self.refused(crate) for crate in [bug.crate, *self.above[bug.crate]])
        bug.verdict, bug.where, said = next((it for it in found if it), ("not at all", "", ""))
        path.write_text(text)
        (self.log / f"{bug.crate}.{bug.label}").write_text(said)


def plant_all(todo, workers, book):
    free, left = SimpleQueue(), [len(todo)]
    for worker in workers:
        free.put(worker)

    def plant(bug):
        worker = free.get()
        try:
            worker.plant(bug)
        finally:
            free.put(worker)
        book.add(bug)
        left[0] -= 1
        print(f"{left[0]} left; {bug.crate}/{bug.label}: {bug.verdict} {bug.where}", file=sys.stderr, flush=True)

    with ThreadPoolExecutor(max(len(workers), 1)) as pool:
        list(pool.map(plant, todo))


def counts(bugs):
    for key in ["kind", "crate"]:
        print(f"\n| {key} | bugs | {' | '.join(VERDICTS)} |\n|---|{'---:|' * (len(VERDICTS) + 1)}")
        for value in sorted({getattr(b, key) for b in bugs}):
            of = Counter(b.verdict for b in bugs if getattr(b, key) == value)
            print(f"| {value} | {sum(of.values())} | {' | '.join(str(of[v]) for v in VERDICTS)} |")


def main():
    parser = argparse.ArgumentParser(description=__doc__, formatter_class=argparse.RawDescriptionHelpFormatter)
    parser.add_argument("crates", nargs="*")
    parser.add_argument("-l", "--label", action="append")
    parser.add_argument("-w", "--workers", type=int, default=2)
    parser.add_argument("--work", type=Path, default=Path(tempfile.gettempdir()) / "plant")
    parser.add_argument("--fresh", action="store_true", help="try every bug anew")
    parser.add_argument("--list", action="store_true", help="only say which bugs there are, and whose text does not stand once")
    args = parser.parse_args()
    bugs = [b for b in read_bugs() if (not args.crates or b.crate in args.crates) and (not args.label or b.label in args.label)]
    for bug in bugs:
        edited((ROOT / "crates" / bug.crate / bug.file).read_text(), bug)
        if args.list:
            print(f"{bug.crate}/{bug.label} ({bug.kind}): {bug.says}{bug.where and ': ' + bug.where}")
    if args.list:
        return print(f"{len(bugs)} bugs")
    log = args.work / "log"
    log.mkdir(parents=True, exist_ok=True)
    below, above = reaches()
    book = Book(args.work / "verdicts.json", below, above)
    todo = [bug for bug in bugs if not bug.verdict and (args.fresh or not book.find(bug))]
    workers = [Worker(args.work / str(n + 1), above, log) for n in range(min(args.workers, len(todo)))]
    plant_all(todo, workers, book)
    for worker in workers:
        shutil.rmtree(worker.home)
    print("| crate | file | bug | kind | refused at |\n|---|---|---|---|---|")
    for bug in bugs:
        print(bug.row())
    counts(bugs)
    of = Counter(b.verdict for b in bugs)
    print(f"\n{len(bugs)} bugs: " + ", ".join(f"{v} {of[v]}" for v in VERDICTS))
    sys.exit(of["contract"] + of["test"] < len(bugs))


if __name__ == "__main__":
    main()
