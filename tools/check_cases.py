#!/usr/bin/env python3
"""Makes the cases of crates/check_cases: inputs of the check program (stdin), and what it must print for each (stdout); and the one
input of each crate that runs the check program itself, with what it must print: knot_check_longest, knot_check_too_long, knot_check_most.

  tools/check_cases.py           write all these files
  tools/check_cases.py --check   write nothing; exit 1 unless the files are what would be written
  tools/check_cases.py --list    print each case and each such input with its label and its lines
  tools/check_cases.py --print   read one input of the check program and print what it must print
  tools/check_cases.py --planted write nothing; say of each planted mistake in the fixed order how many cases print other lines by it; exit 1
                                 if there is a mistake that none finds
  tools/check_cases.py --help    print this

What is printed comes from the run below, which is written from 01 ("Run and links", "Steps", "The check program") and 02 (N1, N3, N4, N11)
and not from the crates, and from the reader of tools/table_vectors.py. Each case names by hand what must be among its lines; the script stops
if it is not. At the end of a run the lines are held to a graph search, too, and to those of the same input in the order before N11, which may
differ in `own` lines only. The format of a case is in the top comment of crates/check_cases/src/main.rt. The cases drawn at random have a
fixed seed, so every run makes the same files.
"""
import collections, os, sys

from table_vectors import Draws, Table, asked, fields_of, latest_first, rows_met, shuffled, some_waits, store, words

CRATES = os.path.join(os.path.dirname(os.path.abspath(__file__)), "..", "crates")
LONGEST = 20480
MOST_DELIVERIES = 2048
BEFORE_TABLE = 4  # bytes: the start process and the edition
EDITIONS = (1, 2)


# ---- a run, by 01 and 02 (N3)

class Process:
    def __init__(self):
        self.succeeding = self.preceding = self.subordinate = self.cs = self.num = self.father = self.second = 0


def small(*counts):
    """In cs's range, which both sums and both counts have."""
    return all(-128 <= count <= 128 for count in counts)


def own(out_degree):
    """What a process adds to its second sum by itself: 1 if it waits for nobody."""
    return 1 if out_degree == 0 else 0


def gain(x, count, second):
    """An acknowledgement is received."""
    x.cs += count
    x.second += second
    x.num -= 1


def passed_on(x):
    """The two counts of an acknowledgement that a process other than the start sends: both sums, which become 0."""
    counts = x.cs, x.second
    x.cs = x.second = 0
    return counts


def other_step(x, p, message, out_degree, in_degree):
    """The step of a process other than the start, with record x, on a message from p. It gives what is sent, in order."""
    sent = []
    if message[0] == "ack":
        gain(x, *message[1:])
    else:
        # rule 1
        if x.num == 0:
            x.father = p
        else:
            sent.append(("ack", p, *passed_on(x)))
        # rule 2
        if message[0] == "suc" and not x.succeeding:
            x.succeeding = 1
            x.second += own(out_degree)
            sent.append(("suc",))
            x.num += out_degree
        if message[0] == "pre" and not x.preceding:
            x.preceding = 1
            sent.append(("pre",))
            x.num += in_degree
        # rule 3
        new = 1 if x.succeeding and not x.preceding else 0
        x.cs += new - x.subordinate
        x.subordinate = new
    # rule 4
    if x.num == 0:
        sent.append(("ack", x.father, *passed_on(x)))
    return sent


class NothingWaits(Exception):
    """24, "nothing waits on that link, or on any when running on": only a mistake in the fixed order meets it here."""


class Run:
    def __init__(self, n, waits, start, edition):
        self.n, self.waits, self.start, self.edition, self.deliveries = n, waits, start, edition, 0
        self.process = {p: Process() for p in range(1, n + 1)}
        self.successors = {p: sorted(b for a, b in waits if a == p) for p in range(1, n + 1)}
        self.predecessors = {p: sorted(a for a, b in waits if b == p) for p in range(1, n + 1)}
        self.link = {}
        for a, b in waits:
            self.link[a, b] = collections.deque()
            self.link[b, a] = collections.deque()
        s = self.process[start]
        s.succeeding = s.preceding = 1
        s.num = self.broadcast(start, "suc") + self.broadcast(start, "pre")
        s.second = own(len(self.successors[start]))

    def over(self):
        return self.process[self.start].num == 0

    def send(self, a, b, message):
        self.link[a, b].append(message)
        assert len(self.link[a, b]) <= 4, "a fifth message"

    def broadcast(self, p, kind):
        to = self.successors[p] if kind == "suc" else self.predecessors[p]
        for q in to:
            self.send(p, q, (kind,))
        return len(to)

    def acknowledge(self, p, to, *counts):
        assert to != 0 and small(*counts)
        self.send(p, to, ("ack", *counts))

    def receive(self, i, p, message):
        x = self.process[i]
        if i != self.start:
            for what, *to in other_step(x, p, message, len(self.successors[i]), len(self.predecessors[i])):
                if what == "ack":
                    self.acknowledge(i, *to)
                else:
                    self.broadcast(i, what)
        elif message[0] == "ack":
            gain(x, *message[1:])
        else:
            self.acknowledge(i, p, 0, 0)
        assert 0 <= x.num <= 256 and small(x.cs, x.second)

    def deliver(self, a, b):
        if not self.link[a, b]:
            raise NothingWaits
        message = self.link[a, b].popleft()
        self.deliveries += 1
        self.receive(b, a, message)
        return message

    def pick(self, a, b):
        """The message, or the number of the refusal."""
        if (a, b) not in self.link:
            return 25
        if self.over():
            return 23
        if not self.link[a, b]:
            return 24
        return self.deliver(a, b)

    def waiting(self):
        """The links with a message."""
        return [link for link, messages in self.link.items() if messages]

    def escape(self):
        """02, N1: the lowest-numbered process with subordinate 1, and 0 only where there is none."""
        return min((p for p, x in self.process.items() if x.subordinate == 1), default=0)

    def knot(self):
        """The verdict by the edition named at start: the second asks in addition that the start waits for somebody."""
        return self.process[self.start].cs == 0 and (self.edition == 1 or len(self.successors[self.start]) > 0)

    def returned(self):
        """02, N3: "The report marks returned if the start's second sum is 0, else held", under either edition."""
        return self.process[self.start].second == 0


# ---- orders of running on: for a run, the links of its deliveries, each asked for when the one before it was made

def by_receiver(sender, receiver):
    """02, N11: "The fixed order becomes lowest receiver first and then lowest sender.\""""
    return receiver, sender


def by_sender(sender, receiver):
    """01, before N11: "lowest sender first and then lowest receiver among links with a message\""""
    return sender, receiver


def lowest(links, key):
    if not links:
        raise NothingWaits
    return min(links, key=lambda link: key(*link))


def lowest_first(key):
    """The order that takes the lowest link with a message, by a key of sender and receiver."""
    def order(run):
        while True:
            yield lowest(run.waiting(), key)
    return order


fixed_order = lowest_first(by_receiver)
order_before = lowest_first(by_sender)


def closure(first, neighbours):
    """The first ones, and all that arcs lead to from them."""
    met, rest = set(first), list(first)
    while rest:
        for q in neighbours[rest.pop()]:
            if q not in met:
                met.add(q)
                rest.append(q)
    return met


def hold_to_search(run):
    """What 01 says of the end of a check, by a graph search; that escape is the lowest way out (02, N1); the second sums and the mark
    (02, N3: "returned exactly if every process reachable from the start, itself included, waits for somebody"); and the verdict by the
    edition (02, N4: "in addition, at least one process must be reachable by one arc or more")."""
    reached = closure([run.start], run.successors)
    reaching = closure([run.start], run.predecessors)
    knot = reached <= reaching
    if run.edition == 2:
        by_one_arc_or_more = closure(run.successors[run.start], run.successors)
        knot = knot and len(by_one_arc_or_more) > 0
    assert run.knot() == knot
    assert run.escape() == min(reached - reaching, default=0)
    wait_for_somebody = {a for a, b in run.waits}
    assert run.returned() == (reached <= wait_for_somebody)
    d = 2 * sum(a in reached for a, b in run.waits) + 2 * sum(b in reaching for a, b in run.waits)
    assert run.deliveries == d
    assert not any(run.link.values())
    for p, x in run.process.items():
        assert x.succeeding == (p in reached) and x.preceding == (p in reaching) and x.num == 0
        assert x.subordinate == (p in reached - reaching)
        assert x.cs == (len(reached - reaching) if p == run.start else 0)
        assert x.second == (len(reached - wait_for_somebody) if p == run.start else 0)


# ---- the check program of 01

def field(data, at):
    return data[at] + 256 * data[at + 1]


def table_end(n, m):
    return BEFORE_TABLE + 4 + 4 * n + 8 * m


def input_number(data):
    if len(data) > LONGEST:
        return 13
    if len(data) < BEFORE_TABLE or len(data) - BEFORE_TABLE < 4:
        return 1
    n, m = fields_of(data[BEFORE_TABLE:])[:2]
    if not (1 <= n <= 128 and m <= 512):
        return 2
    end = table_end(n, m)
    if len(data) < end:
        return 3
    if (len(data) - end) % 4:
        return 12
    rows = rows_met(data[BEFORE_TABLE:end])
    if rows:
        return min(rows)
    if not 1 <= field(data, 0) <= n:
        return 8
    if field(data, 2) not in EDITIONS:
        return 30
    return 0


def begun(data):
    """The run of an accepted input, before its picks."""
    n, _, _, arcs = fields_of(data[BEFORE_TABLE:])
    return Run(n, [(arc[0], arc[1]) for arc in arcs], field(data, 0), field(data, 2))


def message_text(message):
    return " ".join(str(part) for part in message)


def printed(data, order=fixed_order):
    number = input_number(data)
    if number:
        return ["refused %d" % number]
    run, lines = begun(data), []
    for at in range(table_end(run.n, len(run.waits)), len(data), 4):
        a, b = field(data, at), field(data, at + 2)
        answer = run.pick(a, b)
        text = "refused %d" % answer if isinstance(answer, int) else message_text(answer)
        lines.append("pick %d %d %s" % (a, b, text))
    chosen = order(run)
    while not run.over():
        a, b = next(chosen)
        lines.append("own %d %d %s" % (a, b, message_text(run.deliver(a, b))))
    hold_to_search(run)
    for p, x in run.process.items():
        lines.append("process %d %d %d %d %d %d %d" % (p, x.succeeding, x.preceding, x.subordinate, x.cs, x.num, x.second))
    verdict = "knot" if run.knot() else "none"
    mark = "returned" if run.returned() else "held"
    lines += ["over %d" % run.deliveries, "verdict %s" % verdict, "outside %d" % run.process[run.start].cs]
    return lines + ["escape %d" % run.escape(), "mark %s" % mark]


# ---- the cases

cases = []  # label, bytes, lines


def is_own(line):
    return line.startswith("own ")


def held(label, data, wanted):
    """What the program must print, which must hold these lines, in this order. In the order before N11 it would print the same, each line at
    its place, but for `own` lines (02, N11: "only `own` lines, fathers, spent runs and what follows these until both runs are over can
    differ"; the program prints no father, and its running on ends over)."""
    lines = printed(data)
    rest = iter(lines)
    assert all(line in rest for line in wanted), (label, wanted, lines)
    before = printed(data, order_before)
    assert len(lines) == len(before) and all(new == old or is_own(new) and is_own(old) for new, old in zip(lines, before)), label
    return lines


def add(label, data, *wanted):
    """A case whose lines must hold these, in this order."""
    cases.append((label, data, held(label, data, wanted)))


def refused(label, data, number):
    add(label, data, "refused %d" % number)
    assert len(cases[-1][2]) == 1


def check(start, n, waits, picks=(), order=latest_first):
    """An input under the first edition."""
    return words([start, 1]) + Table(n, waits, order).bytes() + words([end for pick in picks for end in pick])


def under(edition, data):
    """The same input under another edition."""
    return data[:2] + words([edition]) + data[4:]


def under_both(label, data, *wanted):
    """A case under each edition. All that is printed is the same, but the verdict may differ."""
    ends = []
    for edition in EDITIONS:
        add("%s, edition %d" % (label, edition), under(edition, data), *wanted)
        ends.append([line for line in cases[-1][2] if not line.startswith("verdict ")])
    assert ends[0] == ends[1], label


def judged(label, data, outside, sinks, first, second, *wanted):
    """A case under each edition, with the start's sums: outside, and how many that are reachable from it, itself included, wait for nobody
    (sinks), by which the mark goes; and with the verdict under the first edition and under the second."""
    mark = "held" if sinks else "returned"
    under_both(label, data, *wanted, "outside %d" % outside, "mark %s" % mark)
    for (_, _, lines), verdict in zip(cases[-2:], (first, second)):
        assert "process %d 1 1 0 %d 0 %d" % (field(data, 0), outside, sinks) in lines, label
        assert "verdict %s" % verdict in lines, label


def path(*processes):
    """Each waits for the one after it."""
    return list(zip(processes, processes[1:]))


def refusals(edition):
    """Each is met before 30, so the number is the same under any edition."""
    def wrong(label, data, number):
        refused("%s, edition %d" % (label, edition), data, number)

    def raw(start, *fields):
        return words([start, edition, *fields])

    one = under(edition, check(1, 2, [(1, 2)]))
    for length in range(len(one)):
        wrong("the first %d bytes of an input" % length, one[:length], 1 if length < 8 else 3)
    for left in (1, 2, 3):
        wrong("%d bytes left over" % left, one + bytes(left), 12)
        wrong("%d bytes left after a pick" % left, one + words([1, 2]) + bytes(left), 12)
    wrong("N 0", raw(1, 0, 0), 2)
    wrong("N 129", raw(1, 129, 0) + bytes(4 * 129), 2)
    wrong("M 513", raw(1, 1, 513) + bytes(4 + 8 * 513), 2)
    wrong("N 0 before a start of 0", raw(0, 0, 0), 2)
    wrong("too few bytes before a wrong end of an arc", raw(1, 1, 1, 1, 1, 9, 9), 3)
    wrong("bytes left over before a wrong end of an arc", raw(1, 1, 1, 1, 1, 9, 9, 0, 0) + b"\0", 12)
    wrong("an arc's end over N", raw(1, 2, 1, 1, 0, 0, 1, 1, 3, 0, 0), 4)
    wrong("an arc's end 0", raw(1, 2, 1, 1, 0, 0, 1, 0, 2, 0, 0), 4)
    wrong("a first over M", raw(1, 2, 1, 2, 0, 0, 1, 1, 2, 0, 0), 5)
    wrong("a next over M", raw(1, 2, 1, 1, 0, 0, 1, 1, 2, 2, 0), 5)
    wrong("a chain that meets an arc twice", raw(1, 2, 1, 1, 0, 0, 1, 1, 2, 1, 0), 6)
    wrong("a chain that misses its arc", raw(1, 2, 1, 0, 0, 0, 1, 1, 2, 0, 0), 6)
    wrong("a chain that meets a foreign arc", raw(1, 2, 1, 1, 0, 1, 1, 1, 2, 0, 0), 6)
    wrong("two arcs alike", under(edition, check(1, 2, [(1, 2), (1, 2)])), 7)
    wrong("start 0", under(edition, check(0, 2, [(1, 2)])), 8)
    wrong("start over N", under(edition, check(3, 2, [(1, 2)])), 8)
    wrong("start 65,535", under(edition, check(65535, 2, [(1, 2)])), 8)
    wrong("two arcs alike before a start of 0", under(edition, check(0, 2, [(1, 2), (1, 2)])), 7)


def lengths():
    """The ends of what is read, and inputs of zeros, whose edition is wrong, too."""
    one = check(1, 2, [(1, 2)])
    refused("20,481 bytes", one + bytes(20481 - len(one)), 13)
    refused("20,479 bytes", one + bytes(20479 - len(one)), 12)
    for length in range(8):
        refused("%d bytes of nothing" % length, bytes(length), 1)
    refused("8 bytes of nothing", bytes(8), 2)
    refused("20,481 bytes of nothing", bytes(20481), 13)


def wrong_editions():
    """30 (02, N4). In 256 and 512 the high byte is an edition, in 257 and 258 the low byte is."""
    example = check(1, 2, [(1, 2)], [(1, 2)])
    for edition in (0, 3, 255, 256, 257, 258, 512, 65535):
        refused("edition %d" % edition, under(edition, example), 30)
    refused("edition 0 with a start that waits for nobody", under(0, check(1, 1, [])), 30)
    refused("edition 3 with a start of 2", under(3, check(2, 2, [(1, 2)])), 30)
    refused("start 0 and edition 0", under(0, check(0, 2, [(1, 2)])), 8)
    refused("start 65,535 and edition 65,535", under(65535, check(65535, 2, [(1, 2)])), 8)
    refused("start 2 and edition 1 of one process, which the other way about would be right", check(2, 1, []), 8)


def rows():
    """The rows of "Checks at the start from process 1", with the verdicts under both editions and the start's second sum."""
    for n, waits, d, first, second, outside, sinks in (
        (1, [], 0, "knot", "none", 0, 1),
        (1, [(1, 1)], 4, "knot", "knot", 0, 0),
        (2, [(1, 2)], 2, "none", "none", 1, 1),
        (2, [(2, 1)], 2, "knot", "none", 0, 1),
        (2, [(1, 2), (2, 1)], 8, "knot", "knot", 0, 0),
        (3, [(1, 2), (2, 3), (3, 1)], 12, "knot", "knot", 0, 0),
        (3, [(1, 2), (2, 1), (2, 3)], 10, "none", "none", 1, 1),
        (3, [(1, 2), (2, 3), (3, 2)], 6, "none", "none", 2, 0),
    ):
        judged("N %d, waits %s" % (n, waits), check(1, n, waits), outside, sinks, first, second, "over %d" % d)


def every_small_table():
    """Every set of waits of 1 and of 2 processes, from each of them, and how many are knots: under the first edition as many as 02 (N12)
    says, under the second fewer by those in which the start waits for nobody. And how many are returned: of 2 processes the 4 in which the
    start waits for itself alone, and the 6 in which it waits for the other, which waits for somebody."""
    for n, first, second, returned in ((1, 2, 2 - 1, 1), (2, 12, 12 - 4, 4 + 6)):
        pairs = [(a, b) for a in range(1, n + 1) for b in range(1, n + 1)]
        for start in range(1, n + 1):
            ends = []
            for chosen in range(2 ** len(pairs)):
                waits = [pair for k, pair in enumerate(pairs) if chosen >> k & 1]
                under_both("N %d, waits %s, from %d" % (n, waits, start), check(start, n, waits))
                ends.append(["verdict knot" in lines for _, _, lines in cases[-2:]] + ["mark returned" in cases[-1][2]])
            assert [sum(column) for column in zip(*ends)] == [first, second, returned]


def editions():
    """Starts that the second edition judges otherwise, and some like them that it does not."""
    judged("a start that waits for nobody, for which others wait", check(4, 7, [(1, 4), (2, 4), (3, 1), (5, 6), (6, 5), (6, 1), (7, 7)]),
           0, 1, "knot", "none", "over 12")
    judged("a start that waits for nobody and for which nobody waits", check(2, 3, [(1, 3), (3, 1)]), 0, 1, "knot", "none", "over 0")
    judged("loops at those that wait for the start", check(1, 3, [(2, 2), (2, 1), (3, 3), (3, 2)]), 0, 1, "knot", "none", "over 8")
    judged("a loop at the start, for which another waits", check(3, 5, [(3, 3), (1, 3), (2, 4)]), 0, 0, "knot", "knot", "over 6")
    judged("a loop at the start and a way out", check(1, 2, [(1, 1), (1, 2)]), 1, 1, "none", "none", "over 6")


def picks():
    judged("the example of 01", check(1, 2, [(1, 2)], [(1, 2)]), 1, 1, "none", "none",
           "pick 1 2 suc", "own 2 1 ack 1 1", "process 1 1 1 0 1 0 1", "process 2 1 0 1 0 0 0")
    judged("the same wait from 2", check(2, 2, [(1, 2)], [(2, 1), (1, 2), (2, 1)]), 0, 1, "knot", "none",
           "pick 2 1 pre", "pick 1 2 ack 0 0", "pick 2 1 refused 23")
    judged("an empty link", check(1, 2, [(1, 2)], [(2, 1)]), 1, 1, "none", "none", "pick 2 1 refused 24")
    judged("a link twice", check(1, 2, [(1, 2)], [(1, 2), (1, 2)]), 1, 1, "none", "none", "pick 1 2 suc", "pick 1 2 refused 24")
    ends = [(0, 0), (0, 1), (1, 0), (1, 1), (2, 2), (1, 3), (3, 1), (65535, 65535), (257, 2)]
    judged("picks that name no link", check(1, 2, [(1, 2)], ends), 1, 1, "none", "none", *["pick %d %d refused 25" % pick for pick in ends])
    judged("picks after the end", check(1, 2, [(1, 2)], [(1, 2), (2, 1), (1, 2), (2, 1), (1, 1)]), 1, 1, "none", "none",
           "pick 2 1 ack 1 1", "pick 1 2 refused 23", "pick 2 1 refused 23", "pick 1 1 refused 25")
    judged("a start without waits is over at once", check(2, 3, [(1, 3)], [(1, 3), (2, 1)]), 0, 1, "knot", "none",
           "pick 1 3 refused 23", "pick 2 1 refused 25", "over 0")
    judged("a loop by picks", check(1, 1, [(1, 1)], [(1, 1)] * 5), 0, 0, "knot", "knot",
           "pick 1 1 suc", "pick 1 1 pre", "pick 1 1 ack 0 0", "pick 1 1 ack 0 0", "pick 1 1 refused 23")
    both = [(1, 2), (2, 1)]
    judged("both probes before the acknowledgements", check(1, 2, both, [(1, 2), (1, 2), (2, 1), (2, 1)]), 0, 0, "knot", "knot",
           "pick 1 2 suc", "pick 1 2 pre", "pick 2 1 ack 1 0", "own 2 1 ack -1 0")
    fork = [(1, 2), (1, 3)]
    judged("two acknowledgements", check(1, 3, fork, [(1, 2), (1, 3), (2, 1), (3, 1)]), 2, 2, "none", "none",
           "pick 2 1 ack 1 1", "pick 3 1 ack 1 1")
    judged("the same, the other way about", check(1, 3, fork, [(1, 2), (1, 3), (3, 1), (2, 1)]), 2, 2, "none", "none",
           "pick 3 1 ack 1 1", "pick 2 1 ack 1 1")


def marks():
    """Where the mark does not follow the verdict, and what the second sums count (02, N3)."""
    # no knot, yet returned: the start leads only to knots that it is not in
    judged("a way to one that waits for itself alone", check(1, 2, [(1, 2), (2, 2)]), 1, 0, "none", "none")
    judged("ways to two knots", check(3, 5, [(3, 1), (1, 2), (2, 1), (3, 4), (4, 5), (5, 4)]), 4, 0, "none", "none")
    judged("a knot that the start is not in, and one that waits for nobody, which it does not reach",
           check(1, 6, path(1, 2, 3, 2) + [(4, 1), (4, 5), (6, 5)]), 2, 0, "none", "none")
    judged("a knot that the start is not in, and a way out beside it", check(1, 4, path(1, 2, 3, 2) + [(1, 4)]), 3, 1, "none", "none")
    judged("a way out of the knot that the start is not in", check(1, 4, path(1, 2, 3, 2) + [(3, 4)]), 3, 1, "none", "none")

    # a knot and returned, though some wait for nobody: the start does not reach them
    judged("those that wait for nobody are not reached", check(2, 6, [(2, 3), (3, 2), (1, 2), (1, 4), (5, 4)]), 0, 0, "knot", "knot")

    judged("one process that waits for nobody, reached on two ways", check(1, 4, path(1, 2, 4) + path(1, 3, 4)), 3, 1, "none", "none",
           "own 4 2 ack 1 1", "own 4 3 ack 0 0")
    judged("the same, from a circle", check(1, 4, path(1, 2, 3, 1) + [(1, 4), (2, 4), (3, 4)]), 1, 1, "none", "none")
    judged("three that wait for nobody, each reached on two ways", check(1, 6, [(a, b) for a in (2, 3) for b in (4, 5, 6)] + [(1, 2), (1, 3)]),
           5, 3, "none", "none")
    judged("a start that waits for nobody and is waited for on two ways", check(4, 4, path(1, 2, 4) + path(1, 3, 4)), 0, 1, "knot", "none")

    # 2 waits for 4 and 5, 3 waits for 2
    ways = [(1, 2), (1, 3), (3, 2), (2, 4), (2, 5)]
    judged("both sums go to the one that probes 2 a second time", check(1, 5, ways, [(1, 2), (2, 4), (4, 2), (1, 3), (3, 2), (2, 3)]),
           4, 2, "none", "none", "pick 4 2 ack 1 1", "pick 3 2 suc", "pick 2 3 ack 2 1", "own 3 1 ack 3 1", "own 2 1 ack 1 1")
    judged("both sums go to the father", check(1, 5, ways, [(1, 2), (2, 4), (4, 2), (2, 5), (5, 2), (2, 1)]),
           4, 2, "none", "none", "pick 5 2 ack 1 1", "pick 2 1 ack 3 2", "own 2 3 ack 0 0", "own 3 1 ack 1 0")
    # 2 is in a circle with the start, 3 waits for nobody
    circle = [(1, 2), (2, 1), (2, 3)]
    judged("the sums of 2 are 0 and 1", check(1, 3, circle, [(1, 2), (1, 2), (2, 3), (3, 2), (2, 1), (2, 1), (2, 1)]), 1, 1, "none", "none",
           "pick 3 2 ack 1 1", "pick 2 1 suc", "pick 2 1 ack 1 0", "pick 2 1 pre", "own 2 1 ack 0 1")


def random_picks(rng, n, waits, count):
    """Some that name links, some that name none."""
    drawn = []
    for _ in range(count):
        if waits and rng.between(0, 9):
            a, b = waits[rng.between(0, len(waits) - 1)]
            drawn.append((a, b) if rng.between(0, 1) else (b, a))
        else:
            drawn.append((rng.between(0, n + 1), rng.between(0, n + 1)))
    return drawn


def random_cases(rng):
    for number in range(60):
        n = rng.between(1, 9)
        waits = some_waits(rng, n, rng.between(0, min(n * n, 14)))
        under_both("drawn %d" % number, check(rng.between(1, n), n, waits, random_picks(rng, n, waits, rng.between(0, 24)), shuffled(rng)))


def large(rng):
    add("a ring of 128", check(128, 128, path(*range(1, 129), 1)), "over 512", "verdict knot", "mark returned")
    add("a path of 128 from its first", check(1, 128, path(*range(1, 129))),
        "process 1 1 1 0 127 0 1", "verdict none", "outside 127", "escape 2", "mark held")
    judged("1 waits for all the others of 128", check(1, 128, [(1, p) for p in range(2, 129)]), 127, 127, "none", "none", "over 254")
    add("1 waits for 128, and 128 for all the others", check(1, 128, [(1, 128)] + [(128, p) for p in range(2, 128)]),
        "own 128 1 ack 127 126", "process 1 1 1 0 127 0 126", "mark held")
    between = range(3, 127)
    add("1 waits for all between 3 and 126, and these wait for 127: counts far below 0 with second counts",
        check(128, 128, [(128, 1), (127, 128), (3, 2)] + [(1, p) for p in between] + [(p, 127) for p in between]),
        "own 1 3 ack 125 0", "own 127 3 ack -123 1", "process 128 1 1 0 1 0 1", "mark held")
    judged("all the others of 128 wait for 77", check(77, 128, [(p, 77) for p in range(1, 129) if p != 77]), 0, 1, "knot", "none", "over 254")
    judged("all of 128 wait for 77", check(77, 128, [(p, 77) for p in range(1, 129)]), 0, 0, "knot", "knot", "over 258")
    judged("1 and 128 wait for each other, from 1", check(1, 128, [(1, 128), (128, 1)]), 0, 0, "knot", "knot", "over 8")
    judged("1 and 128 wait for each other, from 128", check(128, 128, [(1, 128), (128, 1)]), 0, 0, "knot", "knot", "over 8")
    full = some_waits(rng, 128, 512)
    add("128 processes, 512 waits", check(1, 128, full, random_picks(rng, 128, full, 40)))
    loop = check(1, 1, [(1, 1)])
    add("20,480 bytes, the longest that is accepted", loop + words([1, 1]) * ((20480 - len(loop)) // 4), "pick 1 1 suc", "over 4")
    assert len(cases[-1][1]) == 20480


def first_reached(lines):
    """The receivers of suc probes, in the order in which each got its first."""
    deliveries = [line.split() for line in lines if line.endswith(" suc")]
    return list(dict.fromkeys(int(receiver) for _, _, receiver, _ in deliveries))


def ways_out(label, data, *out):
    """A case with these ways out, in the order in which they are first reached; escape is the lowest of them, or 0 if there is none."""
    lowest = min(out, default=0)
    add(label, data, *["process %d 1 0 1 0 0 0" % p for p in sorted(out)], "outside %d" % len(out), "escape %d" % lowest)
    assert [p for p in first_reached(cases[-1][2]) if p in out] == list(out), label


def reached_last(label, data, *out):
    """The same for several ways out, of which the lowest is first reached last."""
    ways_out(label, data, *out)
    assert len(out) > 1 and out[-1] == min(out), label


def escapes():
    """Which process escape names (02, N1)."""
    reached_last("a path 1, 4, 3, 2 from 1", check(1, 4, path(1, 4, 3, 2)), 4, 3, 2)
    reached_last("a path 5 to 1 from 5", check(5, 5, path(5, 4, 3, 2, 1)), 4, 3, 2, 1)
    reached_last("a path 3, 6, 5, 4, 2, 1 from 3, which is in the middle of the numbers", check(3, 6, path(3, 6, 5, 4, 2, 1)), 6, 5, 4, 2, 1)
    falling = [p for p in range(128, 0, -1) if p != 77]
    reached_last("a path of 128 from 77, the others falling", check(77, 128, path(77, *falling)), *falling)

    fork = [(1, 2), (1, 3), (1, 4)]
    ways_out("a fork in the fixed order", check(1, 4, fork), 2, 3, 4)
    reached_last("picks to the highest first", check(1, 4, fork, [(1, 4), (1, 3), (1, 2)]), 4, 3, 2)
    reached_last("the same, each acknowledged before the next is reached", check(1, 4, fork, [(1, 4), (4, 1), (1, 3), (3, 1), (1, 2), (2, 1)]), 4, 3, 2)
    reached_last("the same from 4, which has the highest number", check(4, 4, [(4, 1), (4, 2), (4, 3)], [(4, 3), (4, 2), (4, 1)]), 3, 2, 1)

    # 1 and 2 stand in a circle with 5, so they are succeeding and not subordinate; 3 is preceding only; 4 is neither
    circle = path(5, 1, 2, 5) + [(3, 5)]
    reached_last("lower ones that are succeeding and not subordinate", check(5, 8, circle + path(2, 8, 7, 6)), 8, 7, 6)
    reached_last("the same, by picks", check(5, 8, circle + [(5, 6), (5, 7), (5, 8)], [(5, 1), (5, 8), (5, 7), (5, 6)]), 8, 7, 6)
    ways_out("the same without a way out", check(5, 8, circle))
    # 2 is subordinate from its suc probe to its pre probe
    reached_last("a lower one that is subordinate for a time", check(1, 4, [(1, 2), (2, 1)] + path(1, 4, 3), [(1, 2)]), 4, 3)

    ways_out("one way out, which is the first process", check(2, 3, [(2, 3), (3, 2), (3, 1)]), 1)
    ways_out("one way out, which is the last of 128", check(1, 128, path(*range(1, 128), 1) + [(64, 128)]), 128)
    ways_out("no way out of a circle of all", check(2, 4, path(1, 2, 3, 4, 1)))
    ways_out("no way out, and lower ones that the start does not reach", check(3, 4, [(1, 3), (1, 2), (3, 4), (4, 3)]))


def in_orders(rng, name, data, *wanted):
    """One check, all its deliveries by picks, in orders of every kind: all that is printed of its end is the same (02, N1: "two installations
    named different ones for equal runs"; N4: "the end state is still one for all orders"), the second sums and the mark with it. And once
    without picks, which prints what the picks of the fixed order do (02, N11)."""
    ends, lines = set(), {}
    for label, choose in (
        ("lowest receiver first", lambda links: lowest(links, by_receiver)),
        ("lowest sender first", lambda links: lowest(links, by_sender)),
        ("highest link first", max),
        ("drawn", lambda links: rng.sample(links, 1)[0]),
        ("drawn again", lambda links: rng.sample(links, 1)[0]),
    ):
        run, picks = begun(data), []
        while not run.over():
            picks.append(choose(sorted(run.waiting())))
            run.deliver(*picks[-1])
        add("%s, %s" % (name, label), data + words([end for pick in picks for end in pick]), *wanted)
        lines[label] = cases[-1][2]
        ends.add(text(cases[-1][2][len(picks):]))
    assert len(ends) == 1
    add("%s, no picks" % name, data, *wanted)
    assert [line.replace("own", "pick") for line in cases[-1][2]] == lines["lowest receiver first"], name
    assert lines["lowest receiver first"] != lines["lowest sender first"], name


def orders(rng):
    in_orders(rng, "one check", check(4, 7, path(4, 1, 4) + path(4, 7, 6, 2, 6) + path(1, 5, 3) + [(6, 5)]), "process 4 1 1 0 5 0 1",
              "outside 5", "escape 2", "mark held")
    in_orders(rng, "a start that waits for nobody, edition 2", under(2, check(3, 6, path(1, 2, 3) + path(6, 5, 4, 6) + [(4, 3), (5, 1)])),
              "verdict none", "outside 0", "escape 0", "mark held")
    in_orders(rng, "a knot, edition 2", under(2, check(2, 5, path(2, 4, 5, 2) + [(1, 4), (5, 4), (3, 3)])),
              "verdict knot", "outside 0", "escape 0", "mark returned")
    in_orders(rng, "knots that the start is not in", check(5, 6, path(5, 2, 5) + path(2, 6, 3, 6) + path(5, 4, 4) + [(1, 5)]),
              "process 5 1 1 0 3 0 0", "verdict none", "outside 3", "escape 3", "mark returned")
    in_orders(rng, "three that wait for nobody", check(2, 7, path(2, 4, 2) + path(4, 1, 3) + path(2, 6, 7) + [(6, 3), (2, 5), (4, 5), (1, 7)]),
              "process 2 1 1 0 5 0 3", "verdict none", "outside 5", "escape 1", "mark held")


# ---- the fixed order (02, N11)

def owned(label, data, *own):
    """A case of which every `own` line is named."""
    add(label, data)
    assert [line[4:] for line in cases[-1][2] if is_own(line)] == list(own), (label, cases[-1][2])


def receivers():
    """Which receiver is the lowest, from one delivery to the next."""
    owned("one busy sender, 1, and many receivers: each acknowledges before the next is reached", check(1, 6, [(1, p) for p in range(2, 7)]),
          "1 2 suc", "2 1 ack 1 1", "1 3 suc", "3 1 ack 1 1", "1 4 suc", "4 1 ack 1 1", "1 5 suc", "5 1 ack 1 1", "1 6 suc", "6 1 ack 1 1")
    owned("the same from 6: all are reached before it hears", check(6, 6, [(6, p) for p in range(1, 6)]),
          "6 1 suc", "6 2 suc", "6 3 suc", "6 4 suc", "6 5 suc", "1 6 ack 1 1", "2 6 ack 1 1", "3 6 ack 1 1", "4 6 ack 1 1", "5 6 ack 1 1")
    owned("the same from 3", check(3, 5, [(3, p) for p in (1, 2, 4, 5)]),
          "3 1 suc", "3 2 suc", "1 3 ack 1 1", "2 3 ack 1 1", "3 4 suc", "4 3 ack 1 1", "3 5 suc", "5 3 ack 1 1")
    owned("a lower receiver gets a message while a higher one waits", check(3, 4, [(3, 2), (3, 4), (2, 1)]),
          "3 2 suc", "2 1 suc", "1 2 ack 1 1", "2 3 ack 2 1", "3 4 suc", "4 3 ack 1 1")
    owned("the same twice, one below the other", check(4, 5, [(4, 3), (4, 5), (3, 2), (2, 1)]),
          "4 3 suc", "3 2 suc", "2 1 suc", "1 2 ack 1 1", "2 3 ack 2 1", "3 4 ack 3 1", "4 5 suc", "5 4 ack 1 1")
    owned("a lower receiver gets a message by a pick while a higher one waits", check(1, 4, [(1, 4), (4, 2), (1, 3)], [(1, 4)]),
          "4 2 suc", "1 3 suc", "3 1 ack 1 1", "2 4 ack 1 1", "4 1 ack 2 1")


def senders():
    """Which sender to the lowest receiver is the lowest."""
    owned("three senders to one receiver, which is the lowest", check(1, 5, [(p, 1) for p in range(2, 6)], [(1, 5), (1, 3), (1, 4)]),
          "3 1 ack 0 0", "4 1 ack 0 0", "5 1 ack 0 0", "1 2 pre", "2 1 ack 0 0")
    owned("the same, which is the highest", check(1, 5, [(1, p) for p in (2, 3, 4)] + [(p, 5) for p in (2, 3, 4)]),
          "1 2 suc", "1 3 suc", "1 4 suc", "2 5 suc", "5 2 ack 1 1", "2 1 ack 2 1", "3 5 suc", "5 3 ack 0 0", "3 1 ack 1 0",
          "4 5 suc", "5 4 ack 0 0", "4 1 ack 1 0")
    owned("a lower sender to the same receiver gets its message while a higher one waits",
          check(7, 7, path(7, 5, 3, 2) + path(7, 6, 3), [(7, 6), (7, 5)]),
          "5 3 suc", "3 2 suc", "2 3 ack 1 1", "6 3 suc", "3 5 ack 2 1", "3 6 ack 0 0", "5 7 ack 3 1", "6 7 ack 1 0")
    owned("two senders to the lowest receiver, which gets a message again after both",
          check(2, 3, [(1, 2), (2, 1), (3, 1)], [(2, 1), (1, 2), (2, 1), (1, 3)]),
          "2 1 ack 0 0", "3 1 ack 0 0", "1 2 ack 1 0", "1 2 pre", "2 1 ack 0 0", "1 2 ack -1 0")


def refilled():
    """Loops, and links that fall empty and are filled again."""
    owned("a loop at the start, between a lower receiver and a higher one", check(2, 3, [(2, 2), (2, 1), (2, 3)]),
          "2 1 suc", "1 2 ack 1 1", "2 2 suc", "2 2 pre", "2 2 ack 0 0", "2 2 ack 0 0", "2 3 suc", "3 2 ack 1 1")
    owned("a loop at another process, which is probed along it and by others", check(3, 3, [(3, 1), (3, 2), (2, 2), (1, 2)]),
          "3 1 suc", "1 2 suc", "2 2 suc", "2 2 ack 1 0", "2 1 ack 1 0", "3 2 suc", "1 3 ack 2 0", "2 3 ack 0 0")
    owned("both links of two processes fall empty again and again", check(1, 2, [(1, 2), (2, 1)]),
          "1 2 suc", "2 1 suc", "1 2 pre", "2 1 ack 1 0", "2 1 pre", "1 2 ack 0 0", "1 2 ack 0 0", "2 1 ack -1 0")
    owned("a pick takes one of two messages", check(1, 2, [(1, 2), (2, 1)], [(1, 2)]),
          "2 1 suc", "1 2 pre", "2 1 ack 1 0", "2 1 pre", "1 2 ack 0 0", "1 2 ack 0 0", "2 1 ack -1 0")
    owned("picks empty both links and fill them again", check(1, 2, [(1, 2), (2, 1)], [(1, 2), (2, 1), (1, 2), (1, 2)]),
          "2 1 ack 1 0", "2 1 pre", "1 2 ack 0 0", "2 1 ack -1 0")
    owned("picks empty the link to the lowest receiver", check(2, 3, [(2, 1), (2, 3)], [(2, 1), (1, 2)]), "2 3 suc", "3 2 ack 1 1")


def around_64(rng):
    """The first and the last of 64, 65 and 128 processes, and those around 64, as senders and receivers."""
    for n in (64, 65, 128):
        few = [p for p in (1, 64, 65, 128) if p <= n]
        more = [p for p in (1, 2, 63, 64, 65, 66, 127, 128) if p <= n]
        for hub in few:
            low, high = [p for p in more if p < hub], [p for p in more if p > hub]
            owned("%d of %d waits for %s" % (hub, n, low + high), check(hub, n, [(hub, p) for p in low + high]),
                  *["%d %d suc" % (hub, p) for p in low], *["%d %d ack 1 1" % (p, hub) for p in low],
                  *[line for p in high for line in ("%d %d suc" % (hub, p), "%d %d ack 1 1" % (p, hub))])
            owned("%s wait for %d of %d, and all acknowledge before it hears" % (low + high, hub, n),
                  check(hub, n, [(p, hub) for p in low + high], [(hub, p) for p in reversed(low + high)]),
                  *["%d %d ack 0 0" % (p, hub) for p in low + high])
            add("all of %s wait for all of them, from %d of %d" % (few, hub, n), check(hub, n, [(a, b) for a in few for b in few]),
                "over %d" % (4 * len(few) ** 2), "verdict knot")
        pairs = [(a, b) for a in more for b in more]
        add("all of %s wait for all of them, from %d" % (more, n), check(n, n, pairs), "over %d" % (4 * len(pairs)), "verdict knot")
        for number in range(6):
            waits = rng.sample(pairs, rng.between(4, 16))
            drawn = random_picks(rng, n, waits, 10 * (number % 3))
            add("drawn %d among %s of %d" % (number, more, n), check(waits[0][number % 2], n, waits, drawn, shuffled(rng)))


# ---- mistakes in the fixed order, each of which some case finds

def passed_over(end, p):
    """Sender (0) or receiver (1) p is passed over as long as a message waits on a link of another."""
    return lowest_first(lambda *link: (link[end] == p, by_receiver(*link)))


def receivers_from(step):
    """The search begins so many past the receiver of the last delivery, and at the first only if that was in vain."""
    def order(run):
        last = 0
        while True:
            links = run.waiting()
            link = lowest([link for link in links if link[1] >= last + step] or links, by_receiver)
            last = link[1]
            yield link
    return order


def senders_from_the_last(run):
    """For each receiver the search begins at the sender of its last delivery, and at the first only if that was in vain."""
    last = {}
    while True:
        receiver = lowest(run.waiting(), by_receiver)[1]
        links = [link for link in run.waiting() if link[1] == receiver]
        link = lowest([link for link in links if link[0] >= last.get(receiver, 0)] or links, by_receiver)
        last[receiver] = link[0]
        yield link


def same_link(run):
    """The same link until it is empty."""
    while True:
        link = lowest(run.waiting(), by_receiver)
        yield link
        while run.link[link]:
            yield link


def remembering(follow, begin=Run.waiting):
    """The fixed order by the links that are remembered to hold a message: follow changes them after a delivery, by the links, the one that it
    came on, whether that fell empty, and what was sent, message by link."""
    def order(run):
        held = set(begin(run))
        while True:
            link = lowest(held, by_receiver)
            before = {other: len(messages) - (other == link) for other, messages in run.link.items()}
            yield link
            sent = {other: list(messages)[before[other]:] for other, messages in run.link.items() if len(messages) > before[other]}
            held = follow(held, link, before[link] == 0, sent)
    return order


def at_the_start(run):
    return Run(run.n, run.waits, run.start, run.edition).waiting()


def followed(held, link, fell_empty, sent):
    return held - ({link} if fell_empty else set()) | set(sent)


def without_sent(kinds):
    """What is sent of these kinds is not remembered."""
    return remembering(lambda held, link, fell_empty, sent: followed(
        held, link, fell_empty, {to for to, messages in sent.items() if any(message[0] not in kinds for message in messages)}))


def mistakes():
    planted = {
        "lowest sender first, as before N11": order_before,
        "the highest sender of the lowest receiver": lowest_first(lambda a, b: (b, -a)),
        "the highest receiver first": lowest_first(lambda a, b: (-b, a)),
        "receivers over 64 first": lowest_first(lambda a, b: (b <= 64, b, a)),
        "senders over 64 first": lowest_first(lambda a, b: (b, a <= 64, a)),
        "receiver 128 first": lowest_first(lambda a, b: (b % 128, a)),
        "sender 128 first": lowest_first(lambda a, b: (b, a % 128)),
        "the search begins at the last receiver": receivers_from(0),
        "receivers in turn": receivers_from(1),
        "the search begins at a receiver's last sender": senders_from_the_last,
        "one link until it is empty": same_link,
        "a link is taken after it fell empty": remembering(lambda held, link, fell_empty, sent: held | set(sent)),
        "a link is passed over after a delivery on it": remembering(lambda held, link, fell_empty, sent: held - {link} | set(sent)),
        "a receiver is passed over after one of its links fell empty": remembering(
            lambda held, link, fell_empty, sent: {other for other in held if not fell_empty or other[1] != link[1]} | set(sent)),
        "a link that fell empty in the delivery that filled it again is passed over": remembering(
            lambda held, link, fell_empty, sent: (held | set(sent)) - ({link} if fell_empty else set())),
        "what picks took and sent is not remembered": remembering(followed, at_the_start),
        "probes are not remembered": without_sent(("suc", "pre")),
        "pre probes are not remembered": without_sent(("pre",)),
        "acknowledgements are not remembered": without_sent(("ack",)),
    }
    for p in (1, 64, 65):
        planted["receiver %d is passed over" % p] = passed_over(1, p)
        planted["sender %d is passed over" % p] = passed_over(0, p)
    return planted


def finds(data, lines, order):
    """Whether the program would print other lines in this order; where nothing waits it would print a refusal."""
    try:
        return printed(data, order) != lines
    except NothingWaits:
        return True


def try_mistakes():
    """How many cases find each; gives whether every mistake is found. First no case finds one in the order by what is remembered right."""
    inputs = [(data, lines) for _, data, lines in cases if any(is_own(line) for line in lines)]
    assert not any(finds(data, lines, remembering(followed)) for data, lines in inputs)
    found = {label: sum(finds(data, lines, order) for data, lines in inputs) for label, order in mistakes().items()}
    for label, count in found.items():
        print("%4d of %d cases with own lines: %s" % (count, len(inputs), label))
    print("%d of %d planted mistakes found" % (sum(count > 0 for count in found.values()), len(found)))
    return all(found.values())


# ---- inputs of the check program itself, each with a crate of its own

def longest():
    """The longest input that is accepted. All deliveries but one by picks, in an order drawn at random; picks of every empty link (24) and
    of pairs that have no link (25); the last delivery; and then picks of every link, again and again (23), to the last byte."""
    rng = Draws(20478)
    n, start = 9, 4
    waits = some_waits(rng, n, 20)
    run = begun(check(start, n, waits))
    links = sorted(run.link)
    accepted = []
    while not run.over():
        accepted.append(rng.sample([link for link in links if run.link[link]], 1)[0])
        run.deliver(*accepted[-1])
    none = [(a, b) for a in range(n + 2) for b in range(n + 2) if (a, b) not in run.link] + [(start + 256, 1), (65535, 65535)]
    empty = [link for link in links if link != accepted[-1]]
    picks = accepted[:-1] + empty + none + accepted[-1:]
    room = (LONGEST - len(check(start, n, waits))) // 4
    picks += [links[k % len(links)] for k in range(room - len(picks))]
    data = check(start, n, waits, picks, shuffled(rng))
    lines = held("longest", data, ["pick %d %d refused 24" % link for link in empty] + ["pick %d %d refused 25" % pair for pair in none]
                 + ["pick %d %d refused 23" % picks[-1], "over %d" % len(accepted), "verdict none", "mark held"])
    assert len(data) == LONGEST and sum(line.startswith("pick ") for line in lines) == len(picks)
    assert sum(line.endswith(" refused 23") for line in lines) > 4000 and not any(is_own(line) for line in lines)
    return data, lines


def too_long():
    """The input above and one pick more: a whole number of picks, and its first 20,480 bytes are accepted."""
    data = longest()[0] + words([1, 2])
    return data, held("too long", data, ["refused 13"])


def most():
    """As many deliveries as a run can count, all of them the program's own: 128 processes in a ring, 512 waits, no picks; under the second
    edition."""
    waits = [(p, (p + step - 1) % 128 + 1) for step in (1, 5, 25, 60) for p in range(1, 129)]
    data = under(2, check(77, 128, waits, (), shuffled(Draws(2048))))
    lines = held("most", data, ["over %d" % MOST_DELIVERIES, "verdict knot", "mark returned"])
    assert sum(is_own(line) for line in lines) == MOST_DELIVERIES
    return data, lines


def programs():
    """For each crate its label, its input and its lines."""
    return {
        "knot_check_longest": ("20,480 bytes, the longest that is accepted", *longest()),
        "knot_check_too_long": ("20,484 bytes", *too_long()),
        "knot_check_most": ("2,048 deliveries", *most()),
    }


def text(lines):
    return "".join(line + "\n" for line in lines)


def make():
    rng = Draws(2002)
    for edition in (1, 2, 3):
        refusals(edition)
    lengths()
    wrong_editions()
    rows()
    every_small_table()
    editions()
    marks()
    picks()
    random_cases(rng)
    large(rng)
    escapes()
    orders(Draws(1))
    receivers()
    senders()
    refilled()
    around_64(Draws(11))
    stdin = b"".join(words([len(data)]) + data for _, data, _ in cases)
    stdout = "".join("case %d\n%s" % (number, text(lines)) for number, (_, _, lines) in enumerate(cases, 1))
    # and at the end a case that is not whole
    return {"stdin": stdin + words([9]) + bytes(5), "stdout": (stdout + "input ends early\n").encode()}


def main():
    word = asked(__doc__, "--check", "--list", "--print", "--planted")
    if word == "--print":
        sys.stdout.write(text(printed(sys.stdin.buffer.read())))
        return
    files, alone = make(), programs()
    if word == "--list":
        for name, (label, data, lines) in [*enumerate(cases, 1), *alone.items()]:
            print("%s, %d bytes, %s:" % (name, len(data), label))
            for line in lines:
                print("    " + line)
        return
    if word == "--planted":
        sys.exit(not try_mistakes())
    store(os.path.join(CRATES, "check_cases"), files, word == "--check")
    print("%d cases, %d bytes in, %d bytes out" % (len(cases), len(files["stdin"]), len(files["stdout"])))
    for name, (label, data, lines) in alone.items():
        store(os.path.join(CRATES, name), {"stdin": data, "stdout": text(lines).encode()}, word == "--check")
        print("%s: %d bytes in, %d lines out" % (name, len(data), len(lines)))


if __name__ == "__main__":
    main()
