#!/usr/bin/env python3
"""Compares the declarations of the C interface, call by call: names, order and types of the parameters, and the type that is returned.

  tools/declarations.py             compare those of include/pickledune.h, which hosts in C are compiled with, of crates/pickledune_c/src/lib.rt,
                                    which the archive is made from, and of hosts/rust/pickledune/src/declared.rs, which the Rust side calls it by
  tools/declarations.py --compiled  compare the header with what the compiler makes of the library (standard input: what
                                    head -n 9999 DIR/Rattle-pickledune_c-proofs/*/Code/Mir.antt prints after rt check --generated DIR in
                                    crates/pickledune_c, DIR being an empty folder, named by its whole path): the number, the order and the widths
                                    of the parameters, what is a pointer, and whether it is written
  tools/declarations.py --bindgen   compare the header as bindgen reads it (standard input: what bindgen include/pickledune.h prints) with
                                    what the Rust side declares
  tools/declarations.py --planted   compare nothing; exchange each two parameters of a call in each of the three files in turn, and exit 1 if the
                                    comparison does not tell one of these
  tools/declarations.py --help      print this

It prints a line for each difference, and exits 1 if there is one. In C a slice is a pointer and, right behind it, the number of its elements, which
has no name in lib.rt; a reference is a pointer.
"""
import os, re, sys

from table_vectors import asked

ROOT = os.path.join(os.path.dirname(os.path.abspath(__file__)), "..")
HEADER, LIBRARY, WRAPPER = "include/pickledune.h", "crates/pickledune_c/src/lib.rt", "hosts/rust/pickledune/src/declared.rs"
C_TYPES = {"uint8_t": "u8", "uint16_t": "u16", "uint32_t": "u32", "int32_t": "i32", "size_t": "usize"}
BITS = {"u8": 8, "u16": 16, "u32": 32, "i32": 32, "usize": 64}
COUNT = None  # the name, in lib.rt, of the number of a slice's elements


def text_of(path):
    with open(os.path.join(ROOT, path), encoding="utf-8") as f:
        return f.read()


def split(parameters):
    return [part.strip() for part in parameters.split(",") if part.strip()]


# ---- each way of writing declarations: call -> (parameters, returned), a parameter being its name and its type, as *mut u32

def c_parameter(part):
    const, kind, pointer, name = re.fullmatch(r"(const )?(\w+) (\*?)(\w+)", part).groups()
    assert pointer or not const, part
    return name, ("*const " if const else "*mut " if pointer else "") + C_TYPES[kind]


def in_c(text):
    """Declarations begin a line with the type that is returned, so that the functions with `static inline` before it are none."""
    text = re.sub(r"/\*.*?\*/", "", text, flags=re.S)
    found = re.findall(r"^(\w+) (pickledune_\w+)\(([^()]*)\);", text, flags=re.M)
    return {call: ([] if parts == "void" else [c_parameter(part) for part in split(parts)], C_TYPES[kind]) for kind, call, parts in found}


def rattle_parameter(part):
    name, lent, kind = re.fullmatch(r"(\w+): (&mut |&)?(\[?\w+\]?)", part).groups()
    pointer = {None: "", "&": "*const ", "&mut ": "*mut "}[lent]
    if kind.startswith("["):
        return [(name, pointer + kind[1:-1]), (COUNT, "usize")]
    return [(name, pointer + kind)]


def in_rattle(text):
    text = re.sub(r"//.*", "", text)
    found = re.findall(r'#\[unsafe\(no_mangle\)\]\npub extern "C" fn (\w+)\(([^()]*)\) -> (\w+)', text)
    assert len(found) == text.count("no_mangle")
    return {call: ([one for part in split(parts) for one in rattle_parameter(part)], kind) for call, parts, kind in found}


def rust_parameter(part):
    name, pointer, kind = re.fullmatch(r"(\w+) ?: ?(?:\* ?(const|mut) )?(\w+)", " ".join(part.split())).groups()
    return name, ("*%s " % pointer if pointer else "") + rust_type(kind)


def rust_type(kind):
    return C_TYPES.get(kind, kind)


def in_rust(text):
    """Also what bindgen prints, which may keep the name of a C type, and sets blanks otherwise where there is no rustfmt."""
    found = re.findall(r"\bpub fn (pickledune_\w+)\s*\(([^()]*)\)\s*->\s*(\w+)\s*;", text)
    return {call: ([rust_parameter(part) for part in split(parts)], rust_type(kind)) for call, parts, kind in found}


# ---- what the compiler makes

def shape(kind):
    """What is left of a type in compiled code: its width, and of a pointer what it leads to and whether that is written."""
    pointer, _, to = kind.rpartition(" ")
    return (pointer and pointer[1:] + " ") + str(BITS[to])


def shapes(declared):
    parameters, returned = declared
    return [shape(kind) for _, kind in parameters], shape(returned)


def compiled(text):
    """From the locals of each export: the first is what is returned, then come the parameters. A slice is a struct of a pointer and a number."""
    width = r"\(Syntax\.ty_int Syntax\.w(?P<%s>\d+)\)"
    lent = r"\(Syntax\.ty_ref \(Syntax\.named \d+\) Syntax\.(?P<%s>imm|mut) " + width + r"\)"
    slice_name = r"\(List\.◌∷◌ 38 \(List\.◌∷◌ 91 \(List\.◌∷◌ 93 List\.\[\]\)\)\)"  # &[]
    kinds = (width % "n", lent % ("r", "to"),
             r"\(Syntax\.ty_struct %s \(Syntax\.tcons %s \(Syntax\.tcons %s Syntax\.tnil\)\)\)" % (slice_name, lent % ("s", "of"), width % "c"))
    one = re.compile(r"\(?List\.◌∷◌ \(Syntax\.local (?:%s) Syntax\.value_local\) " % "|".join(kinds))
    pointer = {"imm": "const ", "mut": "mut "}
    found = {}
    parts = re.split(r"==> \S*/(pickledune_\w+)/Code/Mir\.antt <==", text)
    for call, printed in zip(parts[1::2], parts[2::2]):
        printed = " ".join(printed.split())
        made, at = [], re.search(r"\blocals = (?=List)", printed).end()
        for _ in range(int(re.search(r"\bparams = (\d+);", printed)[1]) + 1):
            local = one.match(printed, at)
            at = local.end()
            if local["n"]:
                made.append(local["n"])
            elif local["r"]:
                made.append(pointer[local["r"]] + local["to"])
            else:
                made += [pointer[local["s"]] + local["of"], local["c"]]
        found[call] = (made[1:], made[0])
    return found


# ---- comparing

def agree(one, other):
    """Whether two declarations do, the number of a slice's elements having a name in C and in Rust alone."""
    (ours, returned), (theirs, given) = one, other
    same = all(a[1] == b[1] and (a[0] == b[0] or COUNT in (a[0], b[0])) for a, b in zip(ours, theirs))
    return returned == given and len(ours) == len(theirs) and same


def written(declared):
    parameters, returned = declared
    return "(%s) -> %s" % (", ".join(p if isinstance(p, str) else "%s: %s" % (p[0] or "its elements", p[1]) for p in parameters), returned)


def differences(name, ours, other, theirs, same=agree):
    lines = []
    for call in sorted(ours.keys() | theirs.keys()):
        if call not in ours or call not in theirs:
            lines.append("%s: only in %s" % (call, name if call in ours else other))
        elif not same(ours[call], theirs[call]):
            lines.append("%s differs:\n  %s %s\n  %s %s" % (call, name, written(ours[call]), other, written(theirs[call])))
    return lines


def between_all(header, library, wrapper):
    return differences(HEADER, header, LIBRARY, library) + differences(HEADER, header, WRAPPER, wrapper)


def told(lines, calls, what):
    """The end of a comparison that should have found nothing."""
    if lines or not calls:
        sys.exit("\n".join(lines or ["no declaration was found"]))
    print("%d calls, %s" % (calls, what))


def try_exchanges(*declared):
    """Exchanges each two parameters of a call in one of the files, those of one type and others."""
    tried = 0
    for at, calls in enumerate(declared):
        for call, (parameters, returned) in calls.items():
            for i in range(len(parameters)):
                for j in range(i):
                    moved = list(parameters)
                    moved[i], moved[j] = moved[j], moved[i]
                    if moved == parameters:
                        continue  # two numbers of elements, which have no name in lib.rt: nothing changed
                    changed = list(declared)
                    changed[at] = {**calls, call: (moved, returned)}
                    if not between_all(*changed):
                        sys.exit("not told: %s and %s of %s, exchanged in %s" % (*(moved[k][0] for k in (i, j)), call, (HEADER, LIBRARY, WRAPPER)[at]))
                    tried += 1
    print("%d exchanges of two parameters, each of them told" % tried)


def main():
    word = asked(__doc__, "--compiled", "--bindgen", "--planted")
    header, library, wrapper = in_c(text_of(HEADER)), in_rattle(text_of(LIBRARY)), in_rust(text_of(WRAPPER))
    if word == "--compiled":
        ours = {call: shapes(one) for call, one in header.items()}
        told(differences(HEADER, ours, "compiled", compiled(sys.stdin.read()), same=lambda a, b: a == b), len(ours), "compiled as the header has them")
    elif word == "--bindgen":
        told(differences("bindgen", in_rust(sys.stdin.read()), WRAPPER, wrapper), len(wrapper), "read by bindgen as the Rust side declares them")
    elif word == "--planted":
        try_exchanges(header, library, wrapper)
    else:
        told(between_all(header, library, wrapper), len(header), "the same in %s, %s and %s" % (HEADER, LIBRARY, WRAPPER))


if __name__ == "__main__":
    main()
