#!/usr/bin/env python3
"""Makes the vectors of crates/table_vectors: the cases (stdin) and what the program must print for them (stdout).

  tools/table_vectors.py           write both files
  tools/table_vectors.py --check   write nothing; exit 1 unless both files are what would be written
  tools/table_vectors.py --list    print each case with its label and its lines
  tools/table_vectors.py --help    print this

What is printed comes from the reader, the writer and the walks below, which are written from 01 ("Wait table" and "Refused because of the
input") and not from the crates. A reader here finds every row that the bytes meet, and the lowest is the answer; a writer here
takes the arcs of a chain as a whole, the latest first; a walk here takes the whole chain of an accepted table as a list, and the list must
hold each arc of its process once and nothing else. Each case says by hand which number it must give, and which rows it must
meet; the script stops if they do not agree. The format of a case is in the top comment of crates/table_vectors/src/main.rt.
The cases drawn at random have a fixed seed, so every run makes the same files.
"""
import copy, itertools, os, sys

HERE = os.path.join(os.path.dirname(os.path.abspath(__file__)), "..", "crates", "table_vectors")
MARK = 165
FEW = 16
OUT, IN = 0, 1  # a chain; also the place of its first field in a process record, and of its end in an arc record
NEXT = 2  # NEXT + c is the place of a chain's next field in an arc record


def word(v):
    return bytes([v % 256, v // 256])


def words(values):
    return b"".join(word(v) for v in values)


class Draws:
    """Numbers drawn at random from a fixed seed, the same with every Python (`random` promises that of no draw from a list)."""

    def __init__(self, seed):
        self.state = seed

    def between(self, low, high):
        self.state = (self.state * 6364136223846793005 + 1442695040888963407) % 2**64
        return low + (self.state >> 33) % (high - low + 1)

    def sample(self, values, count):
        values = list(values)
        for i in range(count):
            j = self.between(i, len(values) - 1)
            values[i], values[j] = values[j], values[i]
        return values[:count]


# ---- tables

class Table:
    """The fields of a table: firsts[p - 1] is first-out, first-in, and arcs[k - 1] is from, to, next-out, next-in."""

    def __init__(self, n, waits, order):
        """The table of n processes and these waits; order(c, p, own) gives the chain of p from its own arcs, which rise."""
        self.n = n
        self.firsts = [[0, 0] for _ in range(n)]
        self.arcs = [[a, b, 0, 0] for a, b in waits]
        for c in (OUT, IN):
            for p in range(1, n + 1):
                self.put_chain(c, p, order(c, p, self.own(c, p)))

    def own(self, c, p):
        return [k for k, arc in enumerate(self.arcs, 1) if arc[c] == p]

    def chain(self, c, p):
        met, k = [], self.firsts[p - 1][c]
        while k:
            met.append(k)
            k = self.arcs[k - 1][NEXT + c]
        return met

    def put_chain(self, c, p, chain):
        for k, after in zip([0] + chain, chain + [0]):
            if k == 0:
                self.firsts[p - 1][c] = after
            else:
                self.arcs[k - 1][NEXT + c] = after

    def bytes(self):
        fields = [self.n, len(self.arcs)] + [v for f in self.firsts for v in f] + [v for a in self.arcs for v in a]
        return words(fields)


def latest_first(c, p, own):
    return own[::-1]


def shuffled(rng):
    return lambda c, p, own: rng.sample(own, len(own))


def with_arc(table, k, place, value):
    """The bytes of a table with one field of arc k changed."""
    table = copy.deepcopy(table)
    table.arcs[k - 1][place] = value
    return table.bytes()


def with_first(table, p, c, value):
    """The bytes of a table with one first field of process p changed."""
    table = copy.deepcopy(table)
    table.firsts[p - 1][c] = value
    return table.bytes()


# ---- the reader of 01

def fields_of(data):
    """N, M, and the process records and arc records that lie wholly within the bytes."""
    value = lambda at: data[at] + 256 * data[at + 1]
    n, m = value(0), value(2)
    firsts, arcs, at = [], [], 4
    while len(firsts) < n and at + 4 <= len(data):
        firsts.append([value(at), value(at + 2)])
        at += 4
    while len(firsts) == n and len(arcs) < m and at + 8 <= len(data):
        arcs.append([value(at + 2 * i) for i in range(4)])
        at += 8
    return n, m, firsts, arcs


def chain_faults(arcs, c, p, first):
    """How the chain of p from that first arc goes wrong. A number that is no arc ends it here: row 5 has that."""
    faults, met, k = set(), set(), first
    while 1 <= k <= len(arcs):
        if k in met:
            faults.add("twice")
            break
        if arcs[k - 1][c] != p:
            faults.add("foreign")
            break
        met.add(k)
        k = arcs[k - 1][NEXT + c]
    if met != {k for k, arc in enumerate(arcs, 1) if arc[c] == p}:
        faults.add("missed")
    return faults


def rows_met(data):
    """The rows 1 to 7 that the bytes meet. Rows 4 to 7 look at the records that are there."""
    if len(data) < 4:
        return {1}
    n, m, firsts, arcs = fields_of(data)
    rows = set()
    if not (1 <= n <= 128 and m <= 512):
        rows.add(2)
    if len(data) != 4 + 4 * n + 8 * m:
        rows.add(3)
    if any(not 1 <= end <= n for arc in arcs for end in arc[:2]):
        rows.add(4)
    if any(link > m for record in firsts for link in record) or any(link > m for arc in arcs for link in arc[2:]):
        rows.add(5)
    if any(chain_faults(arcs, c, p, record[c]) for p, record in enumerate(firsts, 1) for c in (OUT, IN)):
        rows.add(6)
    if len({tuple(arc[:2]) for arc in arcs}) < len(arcs):
        rows.add(7)
    return rows


def reading_line(data):
    rows = rows_met(data)
    if rows:
        return "read refused %d" % min(rows)
    return "read accepted %d %d" % fields_of(data)[:2]


# ---- the walk of 01

CHAINS = ((OUT, "out"), (IN, "in"))
MOST = 513


def chain_of(data, c, p):
    """The arcs of one chain of an accepted table, as a list."""
    _, _, firsts, arcs = fields_of(data)
    chain, k = [], firsts[p - 1][c]
    while k:
        chain.append(k)
        k = arcs[k - 1][NEXT + c]
    assert sorted(chain) == [k for k, arc in enumerate(arcs, 1) if arc[c] == p]
    return chain


def walk_line(data, c, name, p):
    """The walk along a chain of p: "checks 1 to 7, then 8 for that process, and stands at the chain's first arc, or 0 if it has none"."""
    rows = rows_met(data)
    number = min(rows) if rows else 0 if 1 <= p <= fields_of(data)[0] else 8
    chain = [] if number else chain_of(data, c, p)
    line = "%s %d:" % (name, p)
    if number:
        line += " refused %d" % number
    for arc, after in zip(chain or [0], chain[1:] + ["end"]):
        line += " %d>%s" % (arc, after)
    return line


def walk_lines(data):
    """Of an accepted table every process, 0 and N + 1; of a refused one, which refuses every opening alike, process 1."""
    some = [1] if rows_met(data) else range(fields_of(data)[0] + 2)
    return [walk_line(data, c, name, p) for p in some for c, name in CHAINS]


def step_from(data, c, k):
    """On any bytes: "from an arc number that is 0, over M or past the lent bytes it gives the end"."""
    if len(data) < 4:
        return "end"
    n, m = data[0] + 256 * data[1], data[2] + 256 * data[3]
    record = data[4 + 4 * n + 8 * (k - 1):][:8] if 1 <= k <= m else b""
    if len(record) < 8:
        return "end"
    after = record[4 + 2 * c] + 256 * record[5 + 2 * c]
    return str(after) if after else "end"


def step_lines(data):
    said = min(data[2] + 256 * data[3], MOST) if len(data) >= 4 else 0
    numbers = list(range(said + 2)) + [65535, 2**64 - 1]
    return ["next %s: %s" % (name, " ".join(step_from(data, c, k) for k in numbers)) for c, name in CHAINS]


def read_lines(data):
    return [reading_line(data)] + walk_lines(data) + step_lines(data)


# ---- the writer of 01

WRITER_ORDER = [10, 2, 4, 7, 11]


def writer_rows(n, entries, space):
    m = len(entries) // 2
    waits = list(zip(entries[0::2], entries[1::2]))
    rows = set()
    if len(entries) % 2:
        rows.add(10)
    if not (1 <= n <= 128 and m <= 512):
        rows.add(2)
    if any(not 1 <= end <= n for wait in waits for end in wait):
        rows.add(4)
    if len(set(waits)) < m:
        rows.add(7)
    if space < 4 + 4 * n + 8 * m:
        rows.add(11)
    return rows


def adler(data):
    a, b = 1, 0
    for byte in data:
        a = (a + byte) % 65521
        b = (b + a) % 65521
    return 65536 * b + a


def write_lines(n, entries, space):
    rows = writer_rows(n, entries, space)
    if rows:
        return ["write refused %d kept" % min(rows, key=WRITER_ORDER.index)]
    waits = list(zip(entries[0::2], entries[1::2]))
    table = Table(n, waits, latest_first).bytes()
    output = table + bytes([MARK]) * (space - len(table))
    lines = ["write %d kept" % len(table), reading_line(table)]
    if len(waits) <= FEW:
        lines += ["arc %d: %d %d" % (k, a, b) for k, (a, b) in enumerate(waits, 1)] + walk_lines(table)
    return lines + ["sum %d" % adler(output)]


# ---- the cases

cases = []  # label, kind, bytes, lines


def add(label, kind, data, lines):
    cases.append((label, kind, data, lines))


def read(label, data, number, *also):
    """A table that must give this number, 0 if it is accepted. With `also`, it must meet those rows too; without, it meets no other."""
    rows = rows_met(data)
    wanted = {number, *also} - {0}
    assert rows == wanted, (label, rows, wanted)
    assert number == min(rows, default=0), (label, rows)
    add(label, "R", data, read_lines(data))


def write(label, n, entries, space, number, *also):
    rows = writer_rows(n, entries, space)
    wanted = {number, *also} - {0}
    assert rows == wanted, (label, rows, wanted)
    assert number == min(rows, key=WRITER_ORDER.index, default=0), (label, rows)
    add(label, "W", words([n, space] + entries), write_lines(n, entries, space))


def flat(waits):
    return [end for wait in waits for end in wait]


def some_waits(rng, n, m):
    return rng.sample([(a, b) for a in range(1, n + 1) for b in range(1, n + 1)], m)


def sizes(rng):
    read("N 1, M 0", Table(1, [], latest_first).bytes(), 0)
    read("N 128, M 0", Table(128, [], latest_first).bytes(), 0)
    read("N 1, M 1, a loop", Table(1, [(1, 1)], latest_first).bytes(), 0)
    read("N 128, M 512", Table(128, some_waits(rng, 128, 512), latest_first).bytes(), 0)
    read("N 23, M 512, long chains", Table(23, some_waits(rng, 23, 512), shuffled(rng)).bytes(), 0)
    read("loops at every process", Table(5, [(p, p) for p in range(1, 6)], latest_first).bytes(), 0)
    read("loops among other waits", Table(3, [(1, 2), (2, 2), (2, 1), (1, 1), (3, 3)], shuffled(rng)).bytes(), 0)
    read("all waits of 3", Table(3, [(a, b) for a in (1, 2, 3) for b in (3, 2, 1)], shuffled(rng)).bytes(), 0)
    read("N 0, M 0", Table(0, [], latest_first).bytes(), 2)
    read("N 129, M 0", Table(129, [], latest_first).bytes(), 2)
    read("N 129, M 2", Table(129, [(129, 1), (1, 129)], latest_first).bytes(), 2)
    read("N 23, M 513", Table(23, some_waits(rng, 23, 513), latest_first).bytes(), 2)
    read("N 65535, M 0, 4 bytes", words([65535, 0]), 2, 3)
    read("N 1, M 65535, 4 bytes", words([1, 65535]), 2, 3)
    read("N 256, its low byte 0", words([256, 0]), 2, 3)
    read("M 768, its low byte 0", words([1, 768, 0, 0]), 2, 3)


def small_table():
    return Table(2, [(1, 2), (2, 1)], latest_first)


def lengths():
    for length in range(4):
        read("%d bytes" % length, bytes(length), 1)
    whole = small_table().bytes()
    for length in range(len(whole)):
        data = whole[:length]
        number = 1 if length < 4 else 3
        # the records that a cut leaves may meet a later row too
        read("the first %d of %d bytes" % (length, len(whole)), data, number, *(rows_met(data) - {number}))
    read("the whole of them", whole, 0)
    read("one byte too many", whole + b"\0", 3)
    read("one arc record too many", whole + bytes(8), 3)
    read("M one too small", words([2, 1]) + whole[4:], 3, 5)
    read("N one too small", words([1, 2]) + whole[4:], 3, 4, 6)
    # four arcs, the last of which has a next arc on both chains: no step may be made from it if it is over M or cut
    whole = Table(2, [(1, 1), (1, 2), (2, 1), (2, 2)], latest_first).bytes()
    read("M one too small, four arcs", words([2, 3]) + whole[4:], 3, 5, 6)
    for length in range(len(whole) - 16, len(whole)):
        data = whole[:length]
        read("the first %d of %d bytes" % (length, len(whole)), data, 3, *(rows_met(data) - {3}))


def single_rows():
    t = small_table()
    for c, name in ((OUT, "from"), (IN, "to")):
        for k in (1, 2):
            # the chain that held the arc must not hold it any more, so that row 6 is not met
            loose = Table(2, [(1, 2), (2, 1)], lambda d, p, own: [] if d == c and k in own else own)
            for value in (0, 3, 256, 65535):
                read("%s of arc %d is %d" % (name, k, value), with_arc(loose, k, c, value), 4)
    three = Table(3, [(1, 2), (2, 1)], latest_first)
    for c, name in ((OUT, "out"), (IN, "in")):
        for value in (3, 256, 65535):
            read("next-%s of the last arc is %d" % (name, value), with_arc(t, 2, NEXT + c, value), 5)
            read("first-%s of a process with no arc is %d" % (name, value), with_first(three, 3, c, value), 5)
    for waits in ([(1, 2), (1, 2)], [(1, 1), (1, 2), (1, 1)], [(2, 1), (1, 2), (2, 2), (1, 2)]):
        read("two arcs alike among %s" % waits, Table(2, waits, latest_first).bytes(), 7)
    read("three arcs alike", Table(2, [(1, 2)] * 3, latest_first).bytes(), 7)
    read("ends that differ by their order only", Table(2, [(1, 2), (2, 1)], latest_first).bytes(), 0)


def chain_cases():
    """Row 6, for both chains of one table: 1 has three arcs, 2 has two, 3 has one and 4 has none."""
    for c, name in ((OUT, "out"), (IN, "in")):
        waits = [(1, 1), (1, 2), (2, 1), (1, 3), (3, 3), (2, 2)]
        if c == IN:
            waits = [(b, a) for a, b in waits]
        t = Table(4, waits, latest_first)
        a, b, x = t.chain(c, 1), t.chain(c, 2), t.chain(c, 3)[0]

        def one(label, faults, *edits):
            """An edit is a process and its new first arc, or 0, an arc and its new next arc."""
            edited = copy.deepcopy(t)
            for p, k, value in edits:
                if p:
                    edited.firsts[p - 1][c] = value
                else:
                    edited.arcs[k - 1][NEXT + c] = value
            found = set()
            for p in range(1, 5):
                found |= chain_faults(edited.arcs, c, p, edited.firsts[p - 1][c])
            assert found == faults, (label, found)
            read("%s-chain: %s" % (name, label), edited.bytes(), 6)

        twice, foreign, missed = "twice", "foreign", "missed"
        one("the last arc leads back to itself", {twice}, (0, a[2], a[2]))
        one("the last arc leads back to the first", {twice}, (0, a[2], a[0]))
        one("the last arc leads back to the second", {twice}, (0, a[2], a[1]))
        one("the only arc leads back to itself", {twice}, (0, x, x))
        one("two arcs in a cycle, a third missed", {twice, missed}, (0, a[1], a[0]))
        one("runs into the head of another's chain", {foreign}, (0, a[2], b[0]))
        one("runs into the tail of another's chain", {foreign}, (0, a[2], b[1]))
        one("leaves for another's chain midway", {foreign, missed}, (0, a[0], b[0]))
        one("begins with another's head", {foreign, missed}, (2, 0, a[0]))
        one("begins with another's tail", {foreign, missed}, (2, 0, a[2]))
        one("a process with no arc begins with another's", {foreign}, (4, 0, x))
        one("two heads exchanged", {foreign, missed}, (1, 0, b[0]), (2, 0, a[0]))
        one("two tails exchanged", {foreign, missed}, (0, a[1], b[1]), (0, b[0], a[2]))
        one("two chains lead into each other", {foreign}, (0, a[2], b[0]), (0, b[1], a[0]))
        one("a head of 0", {missed}, (3, 0, 0))
        one("a head of 0, of three arcs", {missed}, (1, 0, 0))
        one("the first arc is missed", {missed}, (1, 0, a[1]))
        one("the second arc is missed", {missed}, (0, a[0], a[2]))
        one("the last arc is missed", {missed}, (0, a[1], 0))
        one("the second arc is missed and leads to itself", {missed}, (0, a[0], a[2]), (0, a[1], a[1]))
        one("all heads 0", {missed}, (1, 0, 0), (2, 0, 0), (3, 0, 0))
    t = Table(2, [(1, 2), (2, 1)], latest_first)
    t.firsts = [f[::-1] for f in t.firsts]
    read("first-out and first-in exchanged", t.bytes(), 6)
    t = Table(3, [(1, 2), (1, 3), (2, 3)], latest_first)
    t.arcs = [[f, to, i, o] for f, to, o, i in t.arcs]
    read("next-out and next-in exchanged", t.bytes(), 6)


def alike(t):
    t.arcs[5][1] = t.arcs[4][1]  # 5-1 and 5-3 become alike
    for p in (1, 3):
        t.put_chain(IN, p, t.own(IN, p))


def from_0(t):
    t.arcs[0][0] = 0  # 1-2 is the only arc from 1
    t.firsts[0][OUT] = 0


def to_over_n(t):
    t.arcs[3][1] = t.n + 1  # 4-5 is the only arc to 5
    t.firsts[4][IN] = 0


def first_over_m(t):
    t.firsts[5][OUT] = 7  # 6 has no arc


def next_over_m(t):
    t.arcs[1][NEXT + OUT] = 7  # 2-3 is the only arc from 2


def out_cycle(t):
    t.arcs[2][NEXT + OUT] = 3  # 3-4 is the only arc from 3


def in_cycle(t):
    t.arcs[2][NEXT + IN] = 3  # and the only arc to 4


# for each row from 4 to 7, edits of one table (6 processes, 6 arcs) that each make it meet just that row, and that do not disturb
# each other if row 7's comes first
EDITS = {7: [alike], 4: [from_0, to_over_n], 5: [first_over_m, next_over_m], 6: [out_cycle, in_cycle]}


def pairs_of_rows():
    def made(edits, n=6):
        t = Table(n, [(1, 2), (2, 3), (3, 4), (4, 5), (5, 1), (5, 3)], latest_first)
        for edit in edits:
            edit(t)
        return t.bytes()

    single = [(row, edit) for row in EDITS for edit in EDITS[row]]
    read("rows 2 and 3", made([], n=129) + b"\0", 2, 3)
    for row, edit in single:
        read("row %d alone, %s" % (row, edit.__name__), made([edit]), row)
        read("rows 2 and %d, %s" % (row, edit.__name__), made([edit], n=129), 2, row)
        read("rows 3 and %d, %s" % (row, edit.__name__), made([edit]) + b"\0", 3, row)
    for (first, edit), (second, other) in itertools.combinations(single, 2):
        if first != second:
            low, high = sorted((first, second))
            read("rows %d and %d, %s, %s" % (low, high, edit.__name__, other.__name__), made([edit, other]), low, high)
    every = [EDITS[row][-1] for row in EDITS]
    read("rows 5 to 7", made([alike, next_over_m, in_cycle]), 5, 6, 7)
    read("rows 4 to 7", made(every), 4, 5, 6, 7)
    read("rows 3 to 7", made(every) + b"\0", 3, 4, 5, 6, 7)
    read("rows 2 to 7", made(every, n=129) + b"\0", 2, 3, 4, 5, 6, 7)
    read("rows 2 and 4, N 0", words([0, 1, 1, 1, 0, 0]), 2, 4)
    read("rows 2 and 3, M 513", words([1, 513, 0, 0]), 2, 3)


def large_faults(rng):
    waits = some_waits(rng, 23, 512)
    t = Table(23, waits, shuffled(rng))
    chain = t.chain(IN, 23)
    read("N 23, M 512: an in-chain leads back to its middle", with_arc(t, chain[-1], NEXT + IN, chain[9]), 6)
    waits = some_waits(rng, 128, 511)
    read("N 128, M 512: arc 512 is like arc 1", Table(128, waits + waits[:1], shuffled(rng)).bytes(), 7)
    t = Table(23, some_waits(rng, 22, 100) + [(23, 23)], latest_first)
    read("the last field of the last arc is over M", with_arc(t, 101, NEXT + IN, 102), 5)


def shuffles(rng):
    for n, m in [(1, 1), (2, 3), (2, 4), (3, 5), (3, 9), (4, 7), (5, 12), (6, 20), (7, 49), (9, 30), (12, 40), (17, 60), (40, 80), (64, 100)]:
        for _ in range(2):
            waits = some_waits(rng, n, m)
            read("N %d, M %d, chains in any order" % (n, m), Table(n, waits, shuffled(rng)).bytes(), 0)


def field_changes(rng):
    """One field of a small table changed at random: the reader above says what it must give."""
    for _ in range(120):
        n = rng.between(1, 4)
        m = rng.between(0, min(6, n * n))
        data = bytearray(Table(n, some_waits(rng, n, m), shuffled(rng)).bytes())
        at = 2 * rng.between(2, len(data) // 2 - 1)
        data[at] = rng.between(0, max(n, m) + 1)
        rows = rows_met(bytes(data))
        read("N %d, M %d, one field changed" % (n, m), bytes(data), min(rows, default=0), *rows)


def writes(rng):
    ring = flat([(1, 2), (2, 3), (3, 1)])
    length = 4 + 4 * 3 + 8 * 3
    write("N 1, M 0, exactly long enough", 1, [], 8, 0)
    write("N 1, M 0, one byte short", 1, [], 7, 11)
    write("N 1, M 0, no output", 1, [], 0, 11)
    write("N 128, M 0, bytes past the table", 128, [], 600, 0)
    write("a loop", 1, [1, 1], 16, 0)
    write("a ring, exactly long enough", 3, ring, length, 0)
    write("a ring, one byte short", 3, ring, length - 1, 11)
    for past in (1, 2, 7, 8, 100):
        write("a ring, %d bytes past the table" % past, 3, ring, length + past, 0)
    write("all waits of 4", 4, flat([(a, b) for a in range(1, 5) for b in range(1, 5)]), 4700, 0)
    write("one process waits for all", 9, flat([(5, b) for b in range(1, 10)]), 4 + 36 + 72, 0)
    write("all wait for one process", 9, flat([(a, 5) for a in range(9, 0, -1)]), 4 + 36 + 72 + 3, 0)
    write("ends 128", 128, [128, 128, 1, 128, 128, 1], 4 + 512 + 24, 0)
    for n, m in [(2, 2), (3, 5), (5, 16), (5, 17), (20, 90)]:
        write("N %d, M %d at random" % (n, m), n, flat(some_waits(rng, n, m)), 4 + 4 * n + 8 * m + rng.between(0, 9), 0)
    full = flat(some_waits(rng, 128, 512))
    write("N 128, M 512, exactly long enough", 128, full, 4612, 0)
    write("N 128, M 512, one byte short", 128, full, 4611, 11)
    write("N 23, M 512, bytes past the table", 23, flat(some_waits(rng, 23, 512)), 4700, 0)

    write("one entry", 2, [1], 100, 10)
    write("five entries", 3, ring[:5], 100, 10)
    write("N 0", 0, [], 100, 2)
    write("N 129", 129, [129, 1], 4700, 2)
    write("N 65535", 65535, [], 65535, 2, 11)
    over = flat(some_waits(rng, 128, 513))
    write("M 513", 128, over, 4700, 2)
    for place, value in ((0, 0), (1, 0), (2, 4), (3, 4), (4, 256), (5, 65535)):
        bad = list(ring)
        bad[place] = value
        write("entry %d is %d" % (place, value), 3, bad, 100, 4)
    write("two pairs alike", 3, [1, 2, 1, 2], 100, 7)
    write("the first and the last pair alike", 3, ring + [1, 2], 100, 7)
    write("pairs that differ by their order only", 3, [1, 2, 2, 1], 100, 0)
    write("M 512, the last pair is like the first", 128, full[:1022] + full[:2], 4700, 7)
    write("M 512, the last entry is 129", 128, full[:1023] + [129], 4700, 4)

    # 3 processes, or 129; entries that meet the rows; an output that does or does not suffice
    for first, second in itertools.combinations(WRITER_ORDER, 2):
        rows = {first, second}
        n = 129 if 2 in rows else 3
        entries = [1, 2, 2, 3]
        if 4 in rows:
            entries += [0, 3]
        if 7 in rows:
            entries += [1, 2]
        if 10 in rows:
            entries += [3]
        need = 4 + 4 * n + 8 * (len(entries) // 2)
        write("rows %d and %d" % (first, second), n, entries, need - (1 if 11 in rows else 0), first, second)
    write("rows 10 and 2, M 513", 128, over + [1], 4700, 10, 2)
    write("rows 2 and 4, M 513", 128, over[:1025] + [129], 4700, 2, 4)
    write("rows 2 and 7, M 513", 128, over[:1024] + over[:2], 4700, 2, 7)
    write("rows 2 and 11, M 513", 128, over, 4619, 2, 11)
    write("all five rows", 129, [0, 1, 0, 1, 1], 0, 10, 2, 4, 7, 11)
    write("the odd entry alone is 0", 3, [1, 2, 0], 100, 10)


def forms():
    """The program's own answers to what is no case of reading or writing."""
    for length in range(4):
        add("W of %d bytes" % length, "W", bytes(length), ["no such case"])
    add("W of 5 bytes", "W", bytes(5), ["no such case"])
    add("another kind, no bytes", "X", b"", ["no such case"])
    add("another kind, the bytes of a table", "r", small_table().bytes(), ["no such case"])


def make():
    rng = Draws(1982)
    sizes(rng)
    lengths()
    single_rows()
    chain_cases()
    pairs_of_rows()
    large_faults(rng)
    shuffles(rng)
    field_changes(rng)
    writes(rng)
    forms()
    stdin = b"".join(kind.encode() + word(len(data)) + data for _, kind, data, _ in cases)
    stdout = "".join(line + "\n" for _, _, _, lines in cases for line in lines)
    # and at the end a case that is not whole
    return {"stdin": stdin + b"R" + word(9) + bytes(5), "stdout": (stdout + "input ends early\n").encode()}


def store(folder, files, only_check):
    """Writes the files, or stops unless they are there as they would be written."""
    for name, data in files.items():
        path = os.path.join(folder, name)
        if only_check:
            with open(path, "rb") as f:
                if f.read() != data:
                    sys.exit("%s is not what this script makes" % os.path.relpath(path))
        else:
            with open(path, "wb") as f:
                f.write(data)


def asked(doc, *words):
    """The word that the script was given, None if there was none. --help prints what the script says of itself; any word but these stops it."""
    given = sys.argv[1:]
    if given in (["-h"], ["--help"]):
        print(doc.strip())
        sys.exit()
    if len(given) > 1 or any(word not in words for word in given):
        print("%s: '%s' is not known; --help says what is" % (os.path.basename(sys.argv[0]), " ".join(given)), file=sys.stderr)
        sys.exit(2)
    return given[0] if given else None


def main():
    word = asked(__doc__, "--check", "--list")
    files = make()
    if word == "--list":
        for number, (label, kind, data, lines) in enumerate(cases, 1):
            print("%d %s, %d bytes, %s:" % (number, kind, len(data), label))
            for line in lines:
                print("    " + line)
        return
    store(HERE, files, word == "--check")
    print("%d cases, %d bytes in, %d bytes out" % (len(cases), len(files["stdin"]), len(files["stdout"])))


if __name__ == "__main__":
    main()
