#!/usr/bin/env python3
"""Makes the calls of crates/export_cases: every export with its arguments by position (stdin), and what must come back (stdout).

  tools/export_cases.py            write both files
  tools/export_cases.py --check    write nothing; exit 1 unless both files are what would be written
  tools/export_cases.py --list     print each call with its arguments and its line
  tools/export_cases.py --planted  write nothing; say of each call how many rearrangements of its parameters of one type there are, and how many print
                                   another line; exit 1 if one does not
  tools/export_cases.py --help     print this

The order of the parameters is that of include/pickledune.h. What is printed comes from the run of tools/check_cases.py, the step of
tools/step_cases.py and the tables of tools/table_vectors.py, and from what is below, all written from 01, 02 (N5, N13) and docs/LAYOUT.md and not
from the crates. The line of each call is written by hand too; the script stops if they do not agree, and if two parameters of one type can be
exchanged in a declaration and all lines stay. The format of a call is in the top comment of crates/export_cases/src/main.rt.
"""
import itertools, os, re, struct, sys

from check_cases import Run, by_receiver, lowest
from declarations import HEADER, in_c, text_of
from step_cases import FIELDS, KINDS, answer, record
from table_vectors import WRITER_ORDER, Table, asked, chain_of, fields_of, latest_first, rows_met, step_from, store, writer_rows

HERE = os.path.join(os.path.dirname(os.path.abspath(__file__)), "..", "crates", "export_cases")
NUMBERS = 18  # of a call
TABLE_BYTES, AREA_WORDS = 96, 256  # what the program has
ORDER = list(in_c(text_of(HEADER)))  # the calls, in the order of the header
SLICES = ("table", "list", "out", "area")
ELEMENTS = ("table_bytes", "entries", "out_bytes", "words")


def parameters_of(call):
    """The names and types of what is given by number, in the order of the header."""
    return [(name, kind) for name, kind in in_c(text_of(HEADER))[call][0] if name not in SLICES]


PARAMETERS = {call: parameters_of(call) for call in ORDER}


def defined(name):
    """A number of the header."""
    return int(re.search(r"^#define PICKLEDUNE_%s (\d+)$" % name, text_of(HEADER), flags=re.M)[1])


# ---- what a call gives, by 01 and 02: what it returns, and the values of its references by name; what is not named there is 0

class Lent:
    """What the program lends: the bytes of its table, and the run in its area, with the table that it was started on."""

    def __init__(self):
        self.table, self.run, self.started = bytes(TABLE_BYTES), None, b""


def version(lent):
    return defined("VERSION"), {}


def layout(lent):
    return defined("LAYOUT"), {}


def read_table(lent, table_bytes, **_):
    data = lent.table[:table_bytes]
    rows = rows_met(data)
    if rows:
        return min(rows), {}
    n, m = fields_of(data)[:2]
    return 0, {"n": n, "m": m}


def write_table(lent, n, entries, out_bytes, behind, **_):
    listed = behind[:entries]
    rows = writer_rows(n, listed, out_bytes)
    if rows:
        return min(rows, key=WRITER_ORDER.index), {}
    table = Table(n, list(zip(listed[0::2], listed[1::2])), latest_first).bytes()
    lent.table = table + lent.table[len(table):]
    return 0, {"length": len(table)}


def open_walk(lent, table_bytes, chain, process, **_):
    data = lent.table[:table_bytes]
    rows = rows_met(data)
    if rows:
        return min(rows), {}
    if not 1 <= process <= fields_of(data)[0]:
        return 8, {}
    return 0, {"arc": (chain_of(data, 0 if chain == 0 else 1, process) or [0])[0]}


def next_arc(lent, table_bytes, chain, arc):
    after = step_from(lent.table[:table_bytes], 0 if chain == 0 else 1, arc)
    return 0 if after == "end" else int(after), {}


def area_words(n, m):
    return 8 * n + 20 * m + 16


def start(lent, table_bytes, start, edition, words):
    data = lent.table[:table_bytes]
    rows = rows_met(data)
    if rows:
        return min(rows), {}
    n, m, _, arcs = fields_of(data)
    if not 1 <= start <= n:
        return 8, {}
    if edition not in (1, 2):
        return 30, {}
    if words < area_words(n, m):
        return 9, {}
    lent.run, lent.started = Run(n, [(a, b) for a, b, _, _ in arcs], start, edition), data
    return 0, {}


def is_formed(lent, words):
    """Whether the words hold a run: nothing but these calls wrote them, so that only their number can be wrong."""
    return lent.run is not None and words >= area_words(lent.run.n, len(lent.run.waits))


def pick(lent, words, to, place, **given):
    """02, N5: the message at a place of the link, 1 for the oldest, is taken out of the middle. 21, 25, 23, 24, 31."""
    a, b, run = given["from"], to, lent.run
    if not is_formed(lent, words):
        return 21, {}
    if (a, b) not in run.link:
        return 25, {}
    if run.over():
        return 23, {}
    if not run.link[a, b]:
        return 24, {}
    if not 1 <= place <= len(run.link[a, b]):
        return 31, {}
    message = run.link[a, b][place - 1]
    del run.link[a, b][place - 1]
    run.deliveries += 1
    run.receive(b, a, message)
    count, second = message[1:] or (0, 0)
    return 0, {"kind": KINDS[message[0]], "count": count, "second": second}


def ran(run, k, chosen):
    made = 0
    while made < k and not run.over():
        run.deliver(*chosen())
        made += 1
    return 0, {"over": int(run.over()), "made": made}


def run_on(lent, words, k, **_):
    if not is_formed(lent, words):
        return 21, {}
    return ran(lent.run, k, lambda: lowest(lent.run.waiting(), by_receiver))


def run_shuffled(lent, words, k, seed, **_):
    """02, N13: the state begins as the seed, is changed before each delivery (Marsaglia's xorshift32), and modulo the number of links with a message
    picks the link, counted from 0 in the fixed order. 21, 37."""
    if not is_formed(lent, words):
        return 21, {}
    if seed == 0:
        return 37, {}
    state = [seed]

    def chosen():
        x = state[0]
        x ^= x << 13 & 0xFFFFFFFF
        x ^= x >> 17
        x ^= x << 5 & 0xFFFFFFFF
        state[0] = x
        links = sorted(lent.run.waiting(), key=lambda link: by_receiver(*link))
        return links[x % len(links)]
    return ran(lent.run, k, chosen)


def report(lent, words, **_):
    run = lent.run
    if not is_formed(lent, words):
        return 21, {}
    if not run.over():
        return 26, {}
    outside = run.process[run.start].cs
    return 0, {"deliveries": run.deliveries, "knot": int(run.knot()), "outside": outside, "escape": run.escape(), "returned": int(run.returned())}


def read_record(lent, words, process, **_):
    if not is_formed(lent, words):
        return 21, {}
    if process not in lent.run.process:
        return 25, {}
    return 0, {field: getattr(lent.run.process[process], field) for field in FIELDS}


def step(lent, kind, count, second_count, out_degree, in_degree, sender, **given):
    before = record(*(given[field] for field in FIELDS))
    names = {number: name for name, number in KINDS.items()}
    if kind not in names:
        return 21, {field: getattr(before, field) for field in FIELDS}
    message = (names[kind], count, second_count) if kind == KINDS["ack"] else (names[kind],)
    number, after, sent = answer(before, message, out_degree, in_degree, sender)
    values = {field: getattr(after, field) for field in FIELDS}
    for what, *rest in sent:
        if what == "ack":
            values["reply_to"], values["reply_count"], values["reply_second"] = rest
        else:
            values["probes"] = KINDS[what]
    return number, values


CALLS = dict(zip(ORDER, (version, layout, read_table, write_table, open_walk, next_arc, start, pick, run_on, run_shuffled, report, read_record, step)))


# ---- the words of an area, by docs/LAYOUT.md

def message_word(message):
    """"1 a suc probe, 2 a pre probe, 256 + c + 512 · (256 + d) an acknowledgement\""""
    return KINDS[message[0]] if message[0] != "ack" else 256 + message[1] + 512 * (256 + message[2])


def words_of(lent):
    run = lent.run
    words = [defined("LAYOUT"), run.start, run.deliveries, run.edition] + [0] * 10
    words += [lent.started[at] + 256 * lent.started[at + 1] for at in range(0, len(lent.started), 2)]
    for x in run.process.values():
        words += [x.succeeding + 2 * x.preceding + 4 * x.subordinate, x.cs, x.num, x.father, x.second, 0]
    for a, b in run.waits:
        is_used = a != b and (b, a) not in run.waits
        for messages in (run.link[a, b], run.link[b, a] if is_used else ()):
            codes = [message_word(message) for message in messages]
            words += codes + [0] * (8 - len(codes))
    assert len(words) == area_words(run.n, len(run.waits))
    return words


# ---- one call, and all

BEFORE, SIGNED_BEFORE = 4000000001, 1000000001  # what the program's references hold before a call that only stores through them


def given_to(call, numbers):
    """The arguments by position: these numbers, and at the places of such references what they hold."""
    rest = list(numbers)
    for name, kind in PARAMETERS[call]:
        is_stored = kind.startswith("*") and not (call == "pickledune_step" and name in FIELDS)
        yield (SIGNED_BEFORE if kind == "*mut i32" else BEFORE) if is_stored else rest.pop(0)
    assert not rest, (call, numbers)


def made(lent, call, numbers, behind, order):
    """The line of a call with these numbers, its parameters being in that order."""
    given = dict(zip((name for name, _ in order), given_to(call, numbers)))
    if call == "pickledune_write_table":
        given["behind"] = behind
    number, values = CALLS[call](lent, **given)
    after = [str(values.get(name, 0)) for name, kind in order if kind.startswith("*")]
    return " ".join([call[len("pickledune_"):], str(number)] + after)


def words_line(lent, count):
    words = words_of(lent) if lent.run else []
    return " ".join(["words"] + ["%d:%d" % (place, word) for place, word in enumerate(words[:count]) if word])


calls = []  # the call, or "words"; its numbers, in the order of the header; the entries behind them; its line by hand


def lines(orders=PARAMETERS):
    """What all calls print, if their parameters had these orders."""
    lent = Lent()
    for call, numbers, behind, _ in calls:
        yield words_line(lent, *numbers) if call == "words" else made(lent, call, numbers, behind, orders[call])


def add(wanted, *given, behind=()):
    """A call whose line must be this one, with these arguments by position."""
    call = "words" if wanted.startswith("words") else "pickledune_" + wanted.split(" ")[0]
    calls.append((call, given, behind, wanted))


def pack(call, numbers, behind):
    values = [ORDER.index(call) + 1 if call in ORDER else len(ORDER) + 1, *numbers, *behind]
    return struct.pack("<%dI" % NUMBERS, *values, *[0] * (NUMBERS - len(values)))


# ---- the calls

# 3 and 1 wait for each other, 1 for 4, 4 and 3 for 5, who waits for nobody; 6 waits for 2, who waits for itself.
N, WAITS = 6, [(3, 1), (1, 3), (1, 4), (4, 5), (3, 5), (6, 2), (2, 2)]
M, LENGTH, WORDS = 7, 84, 204


def tables():
    ends = [end for wait in WAITS for end in wait]
    add("version %d" % defined("VERSION"))
    add("layout 2")
    add("read_table 2 0 0", 28)
    add("write_table 10 0", N, 13, TABLE_BYTES, behind=ends)
    add("write_table 11 0", N, 14, LENGTH - 1, behind=ends)
    add("write_table 4 0", 5, 14, TABLE_BYTES, behind=ends)
    add("write_table 0 84", N, 14, TABLE_BYTES, behind=ends)
    add("read_table 0 6 7", LENGTH)
    add("read_table 3 0 0", LENGTH - 1)
    # the chains of 1, out: arcs 3 and 2; in: arc 1
    add("open 0 3", LENGTH, 0, 1)
    add("open 0 1", LENGTH, 1, 1)
    add("open 0 0", LENGTH, 0, 5)
    add("open 8 0", LENGTH, 1, 7)
    add("open 3 0", LENGTH - 1, 1, 1)
    add("next 2", LENGTH, 0, 3)
    add("next 0", LENGTH, 0, 2)
    add("next 4", LENGTH, 1, 5)
    add("next 0", LENGTH, 1, 3)


def on_record(p, *values):
    add("read_record 0 " + " ".join(map(str, values)), WORDS, p)


def picks():
    """A check at 3, by picks: of links with two messages, and of acknowledgements with two counts."""
    add("start 8", LENGTH, 7, 1, WORDS)
    add("start 30", LENGTH, 1, 3, WORDS)
    add("start 9", LENGTH, 3, 1, WORDS - 1)
    add("run_on 21 0 0", WORDS, 5)
    add("start 0", LENGTH, 3, 1, WORDS)
    add("words 0:2 1:3 3:1 14:6 15:7", 16)
    add("report 26 0 0 0 0 0", WORDS)
    add("report 21 0 0 0 0 0", WORDS - 1)
    add("pick 21 0 0 0", WORDS - 1, 3, 1, 2)
    add("pick 25 0 0 0", WORDS, 1, 2, 3)
    add("pick 24 0 0 0", WORDS, 1, 3, 2)
    add("pick 31 0 0 0", WORDS, 3, 1, 4)
    add("pick 0 2 0 0", WORDS, 3, 1, 2)
    add("pick 0 1 0 0", WORDS, 3, 1, 1)
    on_record(1, 1, 1, 0, 0, 3, 3, 0)
    add("pick 0 1 0 0", WORDS, 1, 4, 1)
    on_record(4, 1, 0, 1, 1, 1, 1, 0)
    add("pick 0 1 0 0", WORDS, 4, 5, 1)
    add("pick 0 3 1 1", WORDS, 5, 4, 1)
    add("pick 0 3 2 1", WORDS, 4, 1, 1)
    on_record(1, 1, 1, 0, 2, 2, 3, 1)
    on_record(5, 1, 0, 1, 0, 0, 4, 0)
    on_record(3, 1, 1, 0, 0, 3, 0, 0)
    on_record(2, 0, 0, 0, 0, 0, 0, 0)
    add("read_record 25 0 0 0 0 0 0 0", WORDS, 7)
    add("read_record 21 0 0 0 0 0 0 0", WORDS - 1, 1)
    add("words ", WORDS)
    add("run_on 0 0 3", WORDS, 3)
    add("words ", WORDS)
    add("run_on 0 1 5", WORDS, 2048)
    add("pick 23 0 0 0", WORDS, 3, 1, 2)
    add("report 0 14 0 2 4 0", WORDS)
    on_record(3, 1, 1, 0, 2, 0, 0, 1)
    add("words ", WORDS)


def seeds():
    """A check at 6 under edition 2: in no knot, but returned. Then one at 5, who waits for nobody: in a knot by edition 1, and held."""
    add("start 0", LENGTH, 6, 2, WORDS)
    add("run_shuffled 21 0 0", WORDS - 1, 3, 2026)
    add("run_shuffled 37 0 0", WORDS, 5, 0)
    add("run_shuffled 0 0 3", WORDS, 3, 2026)
    add("words ", WORDS)
    add("run_shuffled 0 1 1", WORDS, 2048, 7)
    add("report 0 4 0 1 2 1", WORDS)
    add("start 0", LENGTH, 5, 1, WORDS)
    add("run_shuffled 0 0 2", WORDS, 2, 5)
    add("words ", WORDS)
    add("run_shuffled 0 0 5", WORDS, 5, 2)
    add("words ", WORDS)
    add("run_on 0 1 3", WORDS, 9)
    add("report 0 10 1 0 0 0", WORDS)
    add("start 0", LENGTH, 2, 1, WORDS)
    add("words ", WORDS)


def steps():
    busy = (1, 0, 1, 5, 3, 9, 2)
    add("step 0 1 1 0 -1 11 9 0 2 12 5 2", *busy, 2, 0, 0, 6, 8, 12)
    add("step 0 1 1 0 0 13 9 0 1 12 5 2", 0, 1, 0, 5, 7, 9, 2, 1, 0, 0, 6, 8, 12)
    add("step 0 1 0 1 6 7 12 2 1 0 0 0", 0, 0, 0, 5, 0, 9, 2, 1, 0, 0, 7, 8, 12)
    add("step 0 1 0 1 9 2 10 3 0 0 0 0", 1, 0, 1, 5, 3, 10, 2, 3, 4, 1, 6, 8, 12)
    add("step 0 1 0 1 0 0 10 0 0 10 9 3", 1, 0, 1, 5, 1, 10, 2, 3, 4, 1, 6, 8, 12)
    add("step 21 1 0 1 5 3 9 2 0 0 0 0", *busy, 4, 1, 2, 6, 8, 12)
    add("step 21 1 0 1 5 3 9 2 0 0 0 0", *busy, 3, 129, 2, 6, 8, 12)
    add("step 25 1 0 1 5 3 9 2 0 0 0 0", *busy, 3, 1, 2, 6, 8, 0)
    add("step 22 1 0 1 128 3 9 2 0 0 0 0", 1, 0, 1, 128, 3, 9, 2, 3, 1, 2, 6, 8, 12)


def all_lines():
    """The lines, each of them as it is written by hand; of the words of an area not all are."""
    found = list(lines())
    for (_, _, _, wanted), line in zip(calls, found):
        assert line == wanted or wanted == "words " and line.startswith(wanted), (wanted, line)
    return found


# ---- parameters in another order

def rearranged(call):
    """The orders in which two or more parameters of one type stand at each other's places."""
    order = PARAMETERS[call]
    kinds = {kind for name, kind in order}
    for kind in sorted(kinds):
        places = [at for at, (name, other) in enumerate(order) if other == kind and name not in ELEMENTS]
        for other in itertools.permutations(places):
            if list(other) != places:
                changed = list(order)
                for at, came in zip(places, other):
                    changed[at] = order[came]
                yield changed


def try_orders(found):
    """Of each call: how many rearrangements there are, and which of them print the same."""
    for call in ORDER:
        missed, tried = [], 0
        own = [one for one in calls if one[0] == call]
        for order in rearranged(call):
            tried += 1
            if call == "pickledune_step":  # it has no state: its own calls suffice
                is_same = all(made(Lent(), call, numbers, behind, order) == wanted for _, numbers, behind, wanted in own)
            else:
                is_same = all(new == old for new, old in zip(lines({**PARAMETERS, call: order}), found))
            if is_same:
                missed.append([name for name, _ in order])
        yield call, tried, missed


def make():
    tables()
    picks()
    seeds()
    steps()
    found = all_lines()
    stdin = b"".join(pack(call, numbers, behind) for call, numbers, behind, _ in calls)
    # a call that there is not, and at the end one that is not whole
    stdin += struct.pack("<%dI" % NUMBERS, 15, *[0] * (NUMBERS - 1)) + bytes(4 * NUMBERS - 1)
    return {"stdin": stdin, "stdout": "".join(line + "\n" for line in found + ["no such call", "input ends early"]).encode()}, found


def main():
    word = asked(__doc__, "--check", "--list", "--planted")
    files, found = make()
    if word == "--list":
        for number, ((call, numbers, behind, _), line) in enumerate(zip(calls, found), 1):
            print("%d %s(%s)%s: %s" % (number, call, ", ".join(map(str, numbers)), " with %s" % (behind,) if behind else "", line))
        return
    tried = list(try_orders(found))
    if word == "--planted":
        for call, count, missed in tried:
            print("%s: %d of %d rearrangements print another line" % (call, count - len(missed), count))
    left = [(call, order) for call, _, missed in tried for order in missed]
    if left:
        sys.exit("\n".join("%s with its parameters in the order %s prints the same" % (call, ", ".join(order)) for call, order in left))
    if word != "--planted":
        store(HERE, files, word == "--check")
        print("%d calls, %d bytes in, %d bytes out" % (len(calls), len(files["stdin"]), len(files["stdout"])))


if __name__ == "__main__":
    main()
