#!/usr/bin/env python3
"""Makes the cases of crates/step_cases: records, messages, degrees and senders (stdin), and what each step must give (stdout).

  tools/step_cases.py           write both files
  tools/step_cases.py --check   write nothing; exit 1 unless both files are what would be written
  tools/step_cases.py --list    print each case with its label and its line
  tools/step_cases.py --help    print this

What is printed comes from the step of tools/check_cases.py, which is written from 01 ("Steps") and 02 (N3) and not from the crates, and from
the three refusals below, written from 01 ("Refused because of the state") and 02 (N3). Of each case but those drawn at random the line, or
the number of the refusal, is written by hand too; the script stops if they do not agree. The format of a case is in the top comment of
crates/step_cases/src/main.rt. The cases drawn at random have a fixed seed, so every run makes the same files.
"""
import copy, os, struct

from check_cases import Process, other_step, small
from table_vectors import Draws, asked, store

HERE = os.path.join(os.path.dirname(os.path.abspath(__file__)), "..", "crates", "step_cases")
FIELDS = ("succeeding", "preceding", "subordinate", "cs", "num", "father", "second")
KINDS = {"suc": 1, "pre": 2, "ack": 3}
TOP, LOW, HIGH = 2**32 - 1, -2**31, 2**31 - 1  # the largest unsigned number, the least and the largest signed one


# ---- the answer, by 01 and 02 (N3)

def record(succeeding, preceding, subordinate, cs, num, father, second):
    x = Process()
    x.succeeding, x.preceding, x.subordinate = succeeding, preceding, subordinate
    x.cs, x.num, x.father, x.second = cs, num, father, second
    return x


def in_range(x):
    flags = (x.succeeding, x.preceding, x.subordinate)
    return all(flag in (0, 1) for flag in flags) and small(x.cs, x.second) and 0 <= x.num <= 256


def replies_in(sent):
    """Of each acknowledgement to whom it goes, its count and its second count."""
    return [tuple(rest) for what, *rest in sent if what == "ack"]


def answer(x, message, out_degree, in_degree, sender):
    """The number, the record afterwards, and what is sent. "One process's step checks 21, 25, 22"."""
    counts = message[1:] if message[0] == "ack" else ()
    if not in_range(x) or not small(*counts) or x.father > 128 or out_degree > 128 or in_degree > 128:
        return 21, x, []
    if not 1 <= sender <= 128:
        return 25, x, []
    after = copy.copy(x)
    sent = other_step(after, sender, message, out_degree, in_degree)
    if not in_range(after) or any(to == 0 or not small(*counts) for to, *counts in replies_in(sent)):
        return 22, x, []
    return 0, after, sent


def line_of(number, x, sent):
    probes = [what for what, *_ in sent if what != "ack"] or ["none"]
    replies = ["ack %d %d %d" % reply for reply in replies_in(sent)] or ["none"]
    assert len(probes) == 1 and len(replies) == 1
    values = " ".join(str(getattr(x, field)) for field in FIELDS)
    return "%d %s %s %s" % (number, values, probes[0], replies[0])


# ---- the cases

cases = []  # label, bytes, line


def pack(x, message, out_degree, in_degree, sender):
    """A probe may have counts, which nobody looks at; one without has two zeros there."""
    kind, *counts = message
    values = [getattr(x, field) for field in FIELDS] + [KINDS.get(kind, kind), *(counts or (0, 0)), out_degree, in_degree, sender]
    return struct.pack("<3Ii2IiI2i3I", *values)


def add(label, values, message, out_degree, in_degree, sender):
    x = record(*values)
    found = answer(x, message, out_degree, in_degree, sender)
    cases.append((label, pack(x, message, out_degree, in_degree, sender), line_of(*found)))
    return cases[-1][2]


def taken(label, values, message, out_degree, in_degree, sender, wanted):
    """A step that must be taken: the record afterwards, the probes and the reply, as they are printed."""
    line = add(label, values, message, out_degree, in_degree, sender)
    assert line == "0 " + wanted, (label, line)


def accepted(label, *case):
    """A step that must be taken, whatever it gives."""
    line = add(label, *case)
    assert line.startswith("0 "), (label, line)


def refused(label, number, values, message, out_degree, in_degree, sender):
    line = add(label, values, message, out_degree, in_degree, sender)
    assert line == "%d %s none none" % (number, " ".join(map(str, values))), (label, line)


SUC, PRE = ("suc",), ("pre",)
IDLE = (0, 0, 0, 0, 0, 0, 0)


def ack(count, second=0):
    return ("ack", count, second)


def rules():
    """Every way through the four rules, the second sum 0."""
    taken("suc to an idle process without successors", IDLE, SUC, 0, 4, 7, "1 0 1 0 0 7 0 suc ack 7 1 1")
    taken("suc to an idle process", IDLE, SUC, 3, 4, 7, "1 0 1 1 3 7 0 suc none")
    taken("pre to an idle process without predecessors", IDLE, PRE, 3, 0, 7, "0 1 0 0 0 7 0 pre ack 7 0 0")
    taken("pre to an idle process", IDLE, PRE, 3, 4, 7, "0 1 0 0 4 7 0 pre none")
    taken("suc to one that is succeeding, at rest", (1, 0, 1, 0, 0, 5, 0), SUC, 3, 4, 7, "1 0 1 0 0 7 0 none ack 7 0 0")
    taken("pre to one that is preceding, at rest", (0, 1, 0, 0, 0, 5, 0), PRE, 3, 4, 7, "0 1 0 0 0 7 0 none ack 7 0 0")
    taken("suc to one that is both, at rest", (1, 1, 0, 0, 0, 5, 0), SUC, 3, 4, 7, "1 1 0 0 0 7 0 none ack 7 0 0")
    taken("suc to one that is succeeding, busy: the father stays", (1, 0, 1, 1, 2, 5, 0), SUC, 3, 4, 7, "1 0 1 0 2 5 0 none ack 7 1 0")
    taken("pre to one that is preceding, busy", (0, 1, 0, -3, 2, 5, 0), PRE, 3, 4, 7, "0 1 0 0 2 5 0 none ack 7 -3 0")
    taken("suc to one that is preceding, busy", (0, 1, 0, 6, 2, 5, 0), SUC, 3, 4, 7, "1 1 0 0 5 5 0 suc ack 7 6 0")
    taken("pre to one that is succeeding, busy: a count below 0 is left", (1, 0, 1, 1, 2, 5, 0), PRE, 3, 4, 7, "1 1 0 -1 6 5 0 pre ack 7 1 0")
    taken("pre to one that is succeeding, at rest, without predecessors", (1, 0, 1, 0, 0, 5, 0), PRE, 3, 0, 7, "1 1 0 0 0 7 0 pre ack 7 -1 0")
    taken("pre to one that is succeeding, at rest", (1, 0, 1, 0, 0, 5, 0), PRE, 3, 2, 7, "1 1 0 -1 2 7 0 pre none")
    taken("suc to one that is busy but neither", (0, 0, 0, 9, 1, 5, 0), SUC, 3, 4, 7, "1 0 1 1 4 5 0 suc ack 7 9 0")
    taken("suc to one that is busy, without successors", (0, 0, 0, 9, 1, 5, 0), SUC, 0, 4, 7, "1 0 1 1 1 5 1 suc ack 7 9 0")
    taken("suc from the father itself, busy", (1, 0, 1, 2, 1, 5, 0), SUC, 3, 4, 5, "1 0 1 0 1 5 0 none ack 5 2 0")
    taken("a wrong subordinate 1 is mended", (0, 0, 1, 5, 0, 0, 0), PRE, 3, 4, 7, "0 1 0 4 4 7 0 pre none")
    taken("a wrong subordinate 0 is mended", (1, 0, 0, 5, 0, 0, 0), SUC, 3, 4, 7, "1 0 1 0 0 7 0 none ack 7 6 0")
    taken("an acknowledgement, others are out", (1, 0, 1, 1, 3, 5, 0), ack(2), 3, 4, 7, "1 0 1 3 2 5 0 none none")
    taken("the last acknowledgement", (1, 0, 1, 1, 1, 5, 0), ack(2), 3, 4, 7, "1 0 1 0 0 5 0 none ack 5 3 0")
    taken("a count below 0", (1, 1, 0, 1, 3, 5, 0), ack(-4), 3, 4, 7, "1 1 0 -3 2 5 0 none none")
    taken("the last acknowledgement, a count below 0 goes on", (1, 1, 0, 1, 1, 5, 0), ack(-4), 3, 4, 7, "1 1 0 0 0 5 0 none ack 5 -3 0")
    taken("the last acknowledgement, the sum is 0", (1, 1, 0, 4, 1, 5, 0), ack(-4), 3, 4, 7, "1 1 0 0 0 5 0 none ack 5 0 0")
    taken("an acknowledgement changes no flag", (1, 0, 0, 0, 2, 5, 0), ack(0), 3, 4, 7, "1 0 0 0 1 5 0 none none")
    taken("an acknowledgement from the father", (1, 0, 1, 0, 2, 5, 0), ack(1), 3, 4, 5, "1 0 1 1 1 5 0 none none")


def second_sums():
    """Who adds 1 to the second sum, and that it goes where cs goes (02, N3)."""
    taken("suc to one with neither successors nor predecessors", IDLE, SUC, 0, 0, 7, "1 0 1 0 0 7 0 suc ack 7 1 1")
    taken("suc to one with one successor", IDLE, SUC, 1, 4, 7, "1 0 1 1 1 7 0 suc none")
    taken("suc to one without predecessors", IDLE, SUC, 3, 0, 7, "1 0 1 1 3 7 0 suc none")
    taken("suc to one that is preceding, without successors", (0, 1, 0, 0, 0, 5, 0), SUC, 0, 4, 7, "1 1 0 0 0 7 0 suc ack 7 0 1")
    taken("suc to one that is succeeding, without successors", (1, 0, 1, 0, 0, 5, 0), SUC, 0, 4, 7, "1 0 1 0 0 7 0 none ack 7 0 0")
    taken("pre to one without successors", IDLE, PRE, 0, 4, 7, "0 1 0 0 4 7 0 pre none")
    taken("pre to one with neither successors nor predecessors", IDLE, PRE, 0, 0, 7, "0 1 0 0 0 7 0 pre ack 7 0 0")
    taken("pre to one that is succeeding, without successors", (1, 0, 1, 0, 0, 5, 0), PRE, 0, 4, 7, "1 1 0 -1 4 7 0 pre none")
    taken("pre to one that is both, without successors", (1, 1, 0, 0, 0, 5, 0), PRE, 0, 4, 7, "1 1 0 0 0 7 0 none ack 7 0 0")

    taken("suc at rest: the second sum stays", (0, 0, 0, 0, 0, 5, 3), SUC, 3, 4, 7, "1 0 1 1 3 7 3 suc none")
    taken("pre at rest: the second sum stays", (1, 0, 1, 0, 0, 5, 3), PRE, 3, 4, 7, "1 1 0 -1 4 7 3 pre none")
    taken("suc at rest, without successors: the second sum and 1 are sent", (0, 0, 0, 2, 0, 5, 3), SUC, 0, 4, 7, "1 0 1 0 0 7 0 suc ack 7 3 4")
    taken("suc at rest, the flag is set: both sums are sent", (1, 0, 1, 2, 0, 5, 6), SUC, 3, 4, 7, "1 0 1 0 0 7 0 none ack 7 2 6")
    taken("suc, busy: both sums are sent", (1, 0, 1, 2, 2, 5, 6), SUC, 3, 4, 7, "1 0 1 0 2 5 0 none ack 7 2 6")
    taken("suc, busy, cs 0", (1, 0, 1, 0, 2, 5, 6), SUC, 3, 4, 7, "1 0 1 0 2 5 0 none ack 7 0 6")
    taken("suc, busy, not succeeding: both sums are sent", (0, 1, 0, 2, 2, 5, -6), SUC, 3, 4, 7, "1 1 0 0 5 5 0 suc ack 7 2 -6")
    taken("pre, busy: both sums are sent before cs loses 1", (1, 0, 1, 2, 2, 5, 6), PRE, 3, 4, 7, "1 1 0 -1 6 5 0 pre ack 7 2 6")
    taken("suc, busy, without successors: 1 is added to what is left", (0, 0, 0, 9, 1, 5, 6), SUC, 0, 4, 7, "1 0 1 1 1 5 1 suc ack 7 9 6")
    taken("the same, preceding", (0, 1, 0, 9, 1, 5, 6), SUC, 0, 4, 7, "1 1 0 0 1 5 1 suc ack 7 9 6")

    taken("a second count, others are out", (1, 0, 1, 1, 3, 5, 4), ack(2, 3), 3, 4, 7, "1 0 1 3 2 5 7 none none")
    taken("a second count with the last acknowledgement", (1, 0, 1, 1, 1, 5, 4), ack(2, 3), 3, 4, 7, "1 0 1 0 0 5 0 none ack 5 3 7")
    taken("a second count without successors", (1, 0, 1, 1, 3, 5, 4), ack(2, 3), 0, 4, 7, "1 0 1 3 2 5 7 none none")
    taken("a second count, not succeeding, without successors", (0, 1, 0, 1, 3, 5, 4), ack(2, 3), 0, 4, 7, "0 1 0 3 2 5 7 none none")
    taken("the same with the last acknowledgement", (0, 1, 0, 1, 1, 5, 4), ack(2, 3), 0, 4, 7, "0 1 0 0 0 5 0 none ack 5 3 7")
    taken("a second count below 0", (1, 0, 1, 1, 3, 5, 1), ack(2, -4), 3, 4, 7, "1 0 1 3 2 5 -3 none none")
    taken("a second count below 0 goes on", (1, 0, 1, 1, 1, 5, 1), ack(2, -4), 3, 4, 7, "1 0 1 0 0 5 0 none ack 5 3 -3")
    taken("both sums become 0", (1, 0, 1, 4, 1, 5, -4), ack(-4, 4), 3, 4, 7, "1 0 1 0 0 5 0 none ack 5 0 0")


def ranges():
    """The last value in and the first out of each range, and the ends of the machine's numbers."""
    base = dict(zip(FIELDS, (1, 0, 1, 1, 3, 5, 0)))

    def with_field(field, value):
        return tuple({**base, field: value}.values())

    for field, inside, outside in (
        ("succeeding", (0, 1), (2, TOP)),
        ("preceding", (0, 1), (2, TOP)),
        ("subordinate", (0, 1), (2, TOP)),
        ("cs", (-128, 128), (-129, 129, LOW, HIGH)),
        ("num", (1, 256), (257, TOP)),
        ("father", (0, 128), (129, TOP)),
        ("second", (-128, 128), (-129, 129, LOW, HIGH)),
    ):
        for value in inside:
            accepted("%s is %d" % (field, value), with_field(field, value), ack(0), 3, 4, 7)
        for value in outside:
            refused("%s is %d" % (field, value), 21, with_field(field, value), ack(0), 3, 4, 7)
            refused("%s is %d, with a probe" % (field, value), 21, with_field(field, value), SUC, 3, 4, 7)
    zero = (1, 0, 1, 0, 3, 5, 0)
    for count in (-128, 128):
        taken("a count of %d" % count, zero, ack(count), 3, 4, 7, "1 0 1 %d 2 5 0 none none" % count)
        taken("a second count of %d" % count, zero, ack(0, count), 3, 4, 7, "1 0 1 0 2 5 %d none none" % count)
    for count in (-129, 129, LOW, HIGH):
        refused("a count of %d" % count, 21, zero, ack(count), 3, 4, 7)
        refused("a second count of %d" % count, 21, zero, ack(0, count), 3, 4, 7)
        refused("a count and a second count of %d" % count, 21, zero, ack(count, count), 3, 4, 7)
        taken("the counts of a suc probe, %d, are not looked at" % count, zero, ("suc", count, count), 3, 4, 7, "1 0 1 0 3 5 0 none ack 7 0 0")
        taken("the counts of a pre probe, %d, are not looked at" % count, zero, ("pre", count, count), 3, 4, 7, "1 1 0 -1 7 5 0 pre ack 7 0 0")
    taken("out-degree 128", IDLE, SUC, 128, 4, 7, "1 0 1 1 128 7 0 suc none")
    taken("in-degree 128", IDLE, PRE, 3, 128, 7, "0 1 0 0 128 7 0 pre none")
    for message in (SUC, PRE, ack(0)):
        for degree in (129, TOP):
            refused("%s, out-degree %d" % (message[0], degree), 21, zero, message, degree, 4, 7)
            refused("%s, in-degree %d" % (message[0], degree), 21, zero, message, 3, degree, 7)
        for sender in (1, 128):
            accepted("%s, sender %d" % (message[0], sender), zero, message, 3, 4, sender)
        for sender in (0, 129, TOP):
            refused("%s, sender %d" % (message[0], sender), 25, zero, message, 3, 4, sender)
    taken("sender 128 becomes the father", IDLE, SUC, 3, 4, 128, "1 0 1 1 3 128 0 suc none")


def past_the_range():
    """22, for each value that a step can take out of its range, with the last that it cannot beside it."""
    taken("num becomes 256 by successors", (0, 0, 0, 0, 200, 5, 0), SUC, 56, 4, 7, "1 0 1 1 256 5 0 suc ack 7 0 0")
    refused("num would become 257 by successors", 22, (0, 0, 0, 0, 200, 5, 0), SUC, 57, 4, 7)
    taken("num becomes 256 by predecessors", (0, 0, 0, 0, 200, 5, 0), PRE, 4, 56, 7, "0 1 0 0 256 5 0 pre ack 7 0 0")
    refused("num would become 257 by predecessors", 22, (0, 0, 0, 0, 200, 5, 0), PRE, 4, 57, 7)
    refused("num would become 384", 22, (0, 0, 0, 0, 256, 5, 0), SUC, 128, 4, 7)
    taken("num 256, a flag that is set", (1, 0, 1, 0, 256, 5, 0), SUC, 128, 4, 7, "1 0 1 0 256 5 0 none ack 7 0 0")
    refused("num would become -1", 22, (1, 0, 1, 0, 0, 5, 0), ack(1), 3, 4, 7)
    refused("num would become -1, all values 0", 22, IDLE, ack(0), 3, 4, 7)
    taken("cs becomes 128 by a count", (1, 0, 1, 100, 3, 5, 0), ack(28), 3, 4, 7, "1 0 1 128 2 5 0 none none")
    refused("cs would become 129 by a count", 22, (1, 0, 1, 100, 3, 5, 0), ack(29), 3, 4, 7)
    refused("cs would become 256 by a count", 22, (1, 0, 1, 128, 3, 5, 0), ack(128), 3, 4, 7)
    taken("cs becomes -128 by a count", (1, 0, 1, -100, 3, 5, 0), ack(-28), 3, 4, 7, "1 0 1 -128 2 5 0 none none")
    refused("cs would become -129 by a count", 22, (1, 0, 1, -100, 3, 5, 0), ack(-29), 3, 4, 7)
    refused("cs would become -256 by a count", 22, (1, 0, 1, -128, 3, 5, 0), ack(-128), 3, 4, 7)
    taken("128 is sent on", (1, 0, 1, 100, 1, 5, 0), ack(28), 3, 4, 7, "1 0 1 0 0 5 0 none ack 5 128 0")
    refused("129 would be sent on", 22, (1, 0, 1, 100, 1, 5, 0), ack(29), 3, 4, 7)
    taken("-128 is sent on", (1, 0, 1, -100, 1, 5, 0), ack(-28), 3, 4, 7, "1 0 1 0 0 5 0 none ack 5 -128 0")
    refused("-129 would be sent on", 22, (1, 0, 1, -100, 1, 5, 0), ack(-29), 3, 4, 7)
    taken("cs becomes 128 by becoming subordinate", (0, 0, 0, 127, 0, 5, 0), SUC, 3, 4, 7, "1 0 1 128 3 7 0 suc none")
    refused("cs would become 129 by becoming subordinate", 22, (0, 0, 0, 128, 0, 5, 0), SUC, 3, 4, 7)
    refused("129 would be sent by becoming subordinate", 22, (0, 0, 0, 128, 0, 5, 0), SUC, 0, 4, 7)
    taken("cs becomes -128 by being subordinate no more", (1, 0, 1, -127, 0, 5, 0), PRE, 3, 4, 7, "1 1 0 -128 4 7 0 pre none")
    refused("cs would become -129 by being subordinate no more", 22, (1, 0, 1, -128, 0, 5, 0), PRE, 3, 4, 7)
    refused("-129 would be sent by being subordinate no more", 22, (1, 0, 1, -128, 0, 5, 0), PRE, 3, 0, 7)
    taken("128 is acknowledged before a count is gained", (0, 0, 0, 128, 2, 5, 0), SUC, 3, 4, 7, "1 0 1 1 5 5 0 suc ack 7 128 0")
    taken("-128 is acknowledged before a count is lost", (1, 0, 1, -128, 2, 5, 0), PRE, 3, 4, 7, "1 1 0 -1 6 5 0 pre ack 7 -128 0")
    refused("an acknowledgement to father 0", 22, (1, 0, 1, 1, 1, 0, 0), ack(1), 3, 4, 7)
    taken("no acknowledgement, father 0", (1, 0, 1, 1, 2, 0, 0), ack(1), 3, 4, 7, "1 0 1 2 1 0 0 none none")
    taken("a probe, father 0, busy", (1, 0, 1, 1, 2, 0, 0), SUC, 3, 4, 7, "1 0 1 0 2 0 0 none ack 7 1 0")


def second_sums_past_the_range():
    """22 by the second sum alone, and where cs and the second sum stand at ends of their ranges."""
    taken("the second sum becomes 128 by a second count", (1, 0, 1, 0, 3, 5, 100), ack(0, 28), 3, 4, 7, "1 0 1 0 2 5 128 none none")
    refused("the second sum would become 129 by a second count", 22, (1, 0, 1, 0, 3, 5, 100), ack(0, 29), 3, 4, 7)
    refused("the second sum would become 256 by a second count", 22, (1, 0, 1, 0, 3, 5, 128), ack(0, 128), 3, 4, 7)
    taken("the second sum becomes -128 by a second count", (1, 0, 1, 0, 3, 5, -100), ack(0, -28), 3, 4, 7, "1 0 1 0 2 5 -128 none none")
    refused("the second sum would become -129 by a second count", 22, (1, 0, 1, 0, 3, 5, -100), ack(0, -29), 3, 4, 7)
    refused("the second sum would become -256 by a second count", 22, (1, 0, 1, 0, 3, 5, -128), ack(0, -128), 3, 4, 7)
    taken("128 is sent on as second count", (1, 0, 1, 0, 1, 5, 100), ack(0, 28), 3, 4, 7, "1 0 1 0 0 5 0 none ack 5 0 128")
    refused("129 would be sent on as second count", 22, (1, 0, 1, 0, 1, 5, 100), ack(0, 29), 3, 4, 7)
    taken("-128 is sent on as second count", (1, 0, 1, 0, 1, 5, -100), ack(0, -28), 3, 4, 7, "1 0 1 0 0 5 0 none ack 5 0 -128")
    refused("-129 would be sent on as second count", 22, (1, 0, 1, 0, 1, 5, -100), ack(0, -29), 3, 4, 7)
    taken("128 is sent as second count, without successors", (0, 0, 0, 0, 0, 5, 127), SUC, 0, 4, 7, "1 0 1 0 0 7 0 suc ack 7 1 128")
    refused("129 would be sent as second count, without successors", 22, (0, 0, 0, 0, 0, 5, 128), SUC, 0, 4, 7)
    refused("the same, preceding", 22, (0, 1, 0, 0, 0, 5, 128), SUC, 0, 4, 7)
    taken("the second sum is -128, without successors", (0, 0, 0, 0, 0, 5, -128), SUC, 0, 4, 7, "1 0 1 0 0 7 0 suc ack 7 1 -127")
    taken("the second sum is 128, with successors", (0, 0, 0, 0, 0, 5, 128), SUC, 3, 4, 7, "1 0 1 1 3 7 128 suc none")
    taken("the second sum is 128, without successors, succeeding", (1, 0, 1, 0, 0, 5, 128), SUC, 0, 4, 7, "1 0 1 0 0 7 0 none ack 7 0 128")
    taken("the second sum is 128, without successors, a pre probe", (0, 0, 0, 0, 0, 5, 128), PRE, 0, 4, 7, "0 1 0 0 4 7 128 pre none")
    taken("128 is sent as second count before 1 is added", (0, 0, 0, 0, 2, 5, 128), SUC, 0, 4, 7, "1 0 1 1 2 5 1 suc ack 7 0 128")
    taken("cs -128 and the second sum 128 are sent", (1, 0, 1, -128, 2, 5, 128), SUC, 3, 4, 7, "1 0 1 0 2 5 0 none ack 7 -128 128")
    taken("both sums become 128", (1, 0, 1, 100, 3, 5, 0), ack(28, 128), 3, 4, 7, "1 0 1 128 2 5 128 none none")
    refused("both sums would become 129", 22, (1, 0, 1, 128, 3, 5, 128), ack(1, 1), 3, 4, 7)
    refused("cs would become 129, the second sum -127", 22, (1, 0, 1, 128, 3, 5, -128), ack(1, 1), 3, 4, 7)
    refused("cs would become 127, the second sum -129", 22, (1, 0, 1, 128, 3, 5, -128), ack(-1, -1), 3, 4, 7)


def orders():
    """Two or three rows met at once: the first of 21, 25, 22 is given."""
    for message, values in (
        (ack(1), IDLE),
        (SUC, (0, 0, 0, 0, 256, 5, 0)),
        (ack(0), (1, 0, 1, 1, 1, 0, 0)),
        (ack(0, 1), (1, 0, 1, 0, 3, 5, 128)),
    ):
        refused("22 alone", 22, values, message, 128, 4, 7)
        refused("25 and 22", 25, values, message, 128, 4, 0)
        refused("21 and 22", 21, values, message, 128, 129, 7)
        refused("21, 25 and 22", 21, values, message, 128, 129, 129)
    refused("21 and 25", 21, (2, 0, 0, 0, 0, 0, 0), SUC, 3, 4, 0)
    refused("21 by a count, and 25", 21, (1, 0, 1, 0, 3, 5, 0), ack(129), 3, 4, 129)
    refused("21 by a second count, and 25", 21, (1, 0, 1, 0, 3, 5, 0), ack(0, 129), 3, 4, 129)
    refused("21 by a second sum, and 25", 21, (1, 0, 1, 0, 3, 5, -129), SUC, 3, 4, 0)
    refused("21 by a second sum, and 22", 21, (1, 0, 1, 0, 0, 5, 129), ack(0), 3, 4, 7)


def drawn(rng):
    """Values within their ranges and just past them, and among them many that lie at an end."""

    def value(low, high, past):
        at = rng.between(0, 9)
        if at == 0:
            return low + rng.between(0, 1)
        if at == 1:
            return high - rng.between(0, 1)
        if at == 2 and past and rng.between(0, 5) == 0:
            return high + 1
        return rng.between(low, high)

    for number in range(400):
        past = number % 4 == 0
        values = [value(0, 1, past) for _ in range(3)]
        values += [value(-128, 128, past), value(0, 256 if past else 130, past), value(0, 128, past), value(-128, 128, past)]
        message = (SUC, PRE, ack(value(-128, 128, past), value(-128, 128, past)))[rng.between(0, 2)]
        out_degree = value(0, 128, past) if rng.between(0, 2) else 0
        add("drawn %d" % number, values, message, out_degree, value(0, 128, past), value(0 if past else 1, 128, past))


def make():
    rules()
    second_sums()
    ranges()
    past_the_range()
    second_sums_past_the_range()
    orders()
    drawn(Draws(21))
    for kind in (0, 4, TOP):
        cases.append(("another kind", pack(record(*IDLE), (kind,), 3, 4, 7), "no such case"))
    stdin = b"".join(data for _, data, _ in cases)
    stdout = "".join(line + "\n" for _, _, line in cases)
    # and at the end a case that is not whole
    return {"stdin": stdin + bytes(51), "stdout": (stdout + "input ends early\n").encode()}


def main():
    word = asked(__doc__, "--check", "--list")
    files = make()
    if word == "--list":
        for number, (label, data, line) in enumerate(cases, 1):
            print("%d %s: %s" % (number, label, line))
        return
    store(HERE, files, word == "--check")
    print("%d cases, %d bytes in, %d bytes out" % (len(cases), len(files["stdin"]), len(files["stdout"])))


if __name__ == "__main__":
    main()
