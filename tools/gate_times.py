#!/usr/bin/env python3
"""Where the gate's time goes: reads what `rt ci` prints, and prints a table, a row a crate.

  rt ci 2>&1 | tee gate.log | tools/gate_times.py

Today's `rt ci` prints no times. So the table says after how many seconds each line came: that a crate was proved,
that its tests were, and that its must-fail edits were begun. How long each of them took cannot be had: crates are
worked on side by side, and no line says when a proof begins.

  tools/gate_times.py gate.log

Of a log it only says what was done: "yes" where there was such a line.
"""
import re
import sys
import time

KINDS = {
    "kept": re.compile(r"^rt: (\w+) is kept: "),
    "proof": re.compile(r"^rt: (\w+) (?:proved|NOT PROVED)$"),
    "tests": re.compile(r"^rt: (\w+): its tests (?:are proved|NOT PROVED)"),
    "begun": re.compile(r"^rt: (\w+): trying its must-fail edits"),
    "edits": re.compile(r"^rt: must-fail (\w+)/"),
}
END = re.compile(r"^\d+ passed, \d+ failed")


def read(lines, clock):
    """For each crate and kind of line, what the clock said at each; and the last line."""
    rows, last = {}, "It has not ended."
    for line in lines:
        for kind, pattern in KINDS.items():
            if found := pattern.match(line):
                rows.setdefault(found[1], {}).setdefault(kind, []).append(clock())
        if END.match(line):
            last = line.strip()
    return rows, last


def table(rows):
    print("| Crate | Proved | Its tests proved | Edits begun | Edits tried |")
    print("|---|---:|---:|---:|---:|")
    for name, row in rows.items():
        first = lambda kind: str(row[kind][0]) if kind in row else ""
        proved = first("proof") or ("kept" if "kept" in row else "")
        print(f"| `{name}` | {proved} | {first('tests')} | {first('begun')} | {len(row.get('edits', [])) or ''} |")


def main():
    start = time.monotonic()
    if len(sys.argv) > 1:
        with open(sys.argv[1], encoding="utf-8", errors="replace") as log:
            rows, last = read(log, lambda: "yes")
        print("A log has no times: today's `rt ci` prints none. Pipe it into this script to see when each line comes.\n")
    else:
        rows, last = read(sys.stdin, lambda: round(time.monotonic() - start))
    table(rows)
    print(f"\n{last}")


if __name__ == "__main__":
    main()
