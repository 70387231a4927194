#!/usr/bin/env python3
"""checklist_plans.py: writes the plan files of crates/checklist/stdin to standard output, each behind its length in two bytes.

They are the trenches A to C, D with labels, which cannot be drawn, and the larger plans of examples/ that are named below."""
import os
import sys

from plans import D, LABELS_D, labels_record, plan_file, word

EXAMPLES = os.path.join(os.path.dirname(os.path.abspath(__file__)), "..", "examples")


def example(name):
    """The plan file of that name in examples/."""
    with open(os.path.join(EXAMPLES, name + ".plan"), "rb") as source:
        return source.read()


files = [example(name) for name in ("a", "b", "c")]
files += [plan_file(D) + labels_record(LABELS_D)]
files += [example(name) for name in ("column-12", "wheel-20", "irreducible-25", "irreducible-200")]
sys.stdout.buffer.write(b"".join(word(len(file)) + file for file in files))
