#!/usr/bin/env python3
"""trial_leaves_vectors.py: writes the vectors of crates/trial_leaves/stdin to standard output.

Each vector is a file behind its length in two bytes. They are: the four trenches, alone, with labels and with a chart; A cut
at every offset, alone and with labels and chart; every example of 01's refusal table that the leaves decide; rings and runs of
labels that wrap, empty rings, a handle beside isolated contexts; stray bytes and records at each optional place. What the
program must print for them is worked out by trial_leaves_expected.py."""
import sys

from plans import *

whole_a = plan_file(A) + labels_record(LABELS_A) + chart_record(*CHART_A)
whole_b = plan_file(B) + labels_record(LABELS_B) + chart_record(*CHART_B)
vectors = [plan_file(A), plan_file(B), plan_file(C), plan_file(D)]
vectors += [plan_file(A) + labels_record(LABELS_A), whole_a, whole_b, plan_file(D) + labels_record(LABELS_D)]
# A cut at every offset
vectors += [plan_file(A)[:k] for k in range(len(plan_file(A)))]
# 1, 2, 3
vectors += [ring_record([1, 2]), record(1, b"\x05\x00\x00"), plan_file(A, n=4), plan_file(A, n=201), plan_file(A, n=4)[:6] + b"??"]
vectors += [plan_file(A)[:6] + record(2, b"\x01") + plan_file(A)[16:], plan_file(with_ring(A, 4, [0, 1, 2, 3, 4]))]
vectors += [plan_file(A) + chart_record(*CHART_A), plan_file(A) + labels_record(LABELS_A[:-1])]
vectors += [f + tail for f in (plan_file(A), plan_file(A) + labels_record(LABELS_A), whole_a) for tail in (b"\x00", b"\x02\x00\x09\x00", record(1, b"\x05\x00"))]
# 4: an entry is the context itself, or is not below n
vectors += [plan_file(with_ring(A, 4, [0, 1, 4, 3])), plan_file(with_ring(A, 2, [3, 5, 1])), plan_file(with_ring(A, 1, [2, 65535, 0]))]
# 5: a repeat
vectors += [plan_file(with_ring(A, 0, [1, 4, 4, 3])), plan_file(with_ring(A, 4, [0, 1, 2, 0]))]
# 6: an entry that is not returned
vectors += [plan_file(with_ring(A, 0, [1, 3])), plan_file(with_ring(A, 4, []))]
# 7: A without contact 0-4
vectors += [plan_file(with_ring(with_ring(A, 0, [1, 3]), 4, [1, 2, 3]))]
# 8: a border ring begins or ends elsewhere
vectors += [plan_file(with_ring(A, 1, [4, 0, 2])), plan_file(with_ring(A, 3, [4, 2, 0]))]
# 9: a ring in another order
vectors += [plan_file(with_ring(A, 4, [1, 0, 2, 3]))]
# inner rings that begin elsewhere
vectors += [plan_file(with_ring(A, 4, r)) for r in ([1, 2, 3, 0], [2, 3, 0, 1], [3, 0, 1, 2])]
# 10: all inner darts up, runs counterclockwise, a dart up from both ends, a label that is none
vectors += [plan_file(A) + labels_record(ls) for ls in (
    [0 if l < 4 else 4 for l in LABELS_A], LABELS_A[:12] + [3, 2, 1, 0], LABELS_A[:1] + [0] + LABELS_A[2:], LABELS_A[:15] + [7], LABELS_A)]
# no bytes at all
vectors += [b""]
# A with labels and chart, cut at every offset behind the rings
vectors += [whole_a[:k] for k in range(len(plan_file(A)), len(whole_a))]
# 11: D with its labels and any chart
vectors += [plan_file(D) + labels_record(LABELS_D) + chart_record(1, 1, [(1, 1)] * 12)]
# 12: B with h = 4, and each number of A's chart changed
vectors += [plan_file(B) + labels_record(LABELS_B) + chart_record(2, 4, CHART_B[2])]
vectors += [whole_a[:k] + bytes([whole_a[k] + 1]) + whole_a[k + 1 :] for k in range(82, 106)]
# a border ring begins elsewhere, is empty, has one entry; North touches South, East touches West
vectors += [plan_file(with_ring(A, u, A[u][1:] + A[u][:1])) for u in range(4)]
vectors += [plan_file(rings) for rings in LONE_BORDERS]
vectors += [plan_file([[1, 4, 2, 3], [2, 0], [3, 4, 0, 1], [0, 4, 2], [0, 2, 3]])]
vectors += [plan_file([[1, 3], [2, 4, 3, 0], [3, 4, 1], [0, 4, 1, 2], [1, 2, 3]])]
# empty rings: all of them, and two isolated contexts beside a handle
vectors += [plan_file([[]] * 5), plan_file(HANDLE), plan_file(with_ring(HANDLE, 9, [10]))]
# inner rings that begin elsewhere, with labels: A, and a run that wraps the ring's end, at every place
vectors += [plan_file(with_ring(A, 4, turned([0, 1, 2, 3], k))) + labels_record(LABELS_A[:12] + turned([0, 1, 2, 3], k)) for k in range(4)]
vectors += [plan_file(with_ring(FAN, 6, turned(FAN[6], k))) + labels_record(LABELS_FAN[:23] + turned(LABELS_FAN[23:], k)) for k in range(5)]
# the same with 6-5 turned: 5 has no dart down
vectors += [plan_file(FAN) + labels_record(LABELS_FAN[:21] + [1, 3] + LABELS_FAN[23:27] + [3])]
# a hub of eight neighbours: its runs wrap; twice around; one label only; counterclockwise
vectors += [plan_file(WHEEL) + labels_record(with_hub(hub)) for hub in (
    [3, 0, 0, 1, 1, 2, 2, 3], [0, 1, 2, 3, 0, 1, 2, 3], [0] * 8, [3, 3, 2, 2, 1, 1, 0, 0], [0, 0, 1, 1, 2, 2, 3, 3])]
for v in vectors:
    sys.stdout.buffer.write(word(len(v)) + v)
