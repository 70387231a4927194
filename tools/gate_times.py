#!/usr/bin/env python3
"""The gate's time by crate, as a table for docs/BENCHMARKS.md.

    ./check | tee LOG | tools/gate_times.py

For each crate: how many seconds after the start it was proved and the first of its must-fail edits was tried, and how many edits it has.
`rt ci` prints no times, so they are those at which its lines come in; its jobs run beside each other. A crate that an earlier run on the
machine proved is marked `kept`. The last row has the whole run and all edits; the gate's own last line stands below the table."""
import re
import sys
import time


def times(lines, now=time.monotonic):
    """({crate: [proved after, edits begun after, edits]} in the order of the proofs, seconds in all, the last line)."""
    start, crates, last = now(), {}, ""
    for line in lines:
        after, last = round(now() - start), line.rstrip("\n")
        proof = re.match(r"rt: (\w+) (proved|is kept: .*)$", last)
        begun = re.match(r"rt: (\w+): trying its must-fail edits ", last)
        edit = re.match(r"rt: must-fail (\w+)/", last)
        if proof:
            crates[proof[1]] = [after if proof[2] == "proved" else "kept", "", 0]
        elif begun:
            crates[begun[1]][1] = after
        elif edit:
            crates[edit[1]][2] += 1
    return crates, round(now() - start), last


def main():
    crates, seconds, last = times(sys.stdin)
    print("| crate | proved after, s | edits begun after, s | edits |")
    print("|---|---|---|---|")
    for name, (proof, begun, edits) in crates.items():
        print(f"| `{name}` | {proof} | {begun} | {edits} |")
    print(f"| all | {seconds} | | {sum(row[2] for row in crates.values())} |")
    print(last)


if __name__ == "__main__":
    if len(sys.argv) != 1:
        sys.exit(__doc__)
    main()
