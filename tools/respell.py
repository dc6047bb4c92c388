#!/usr/bin/env python3
"""Spells the names that the repository's own specs/ and proofs/ declare in snake case: definitions, lemmas, fields and constructors. Types, facts that
are spelled as types, and modules keep their upper camel case, and so does every name of the library and of src/.

  tools/respell.py           in the repository, after port.py of the kit: rewrites .antt and .rt files below crates/ in place, once
  tools/respell.py --list    print each name with what it becomes, and change nothing
  tools/respell.py --help    print this

A name that a file imports from a library stays in that file. It exits 1, with nothing written, if two names fall together.
"""
import collections, glob, os, re, sys

WORD = r"[^\s(){}.;,@\"«»\[\]\\]+"
TOKEN = re.compile(r"\"(?:[^\"\\]|\\.)*\"|«[^»]*»|" + WORD)
DECLARED = re.compile(r"^(\s*)((?:(?:abbrev|unfoldable|pub|private|mutual|open|module _)\s+)*)(data\s+|record\s+)?(" + WORD + r"(?:\s+" + WORD + r")*)((?:\s*[({][^:]*:[^)}]*[)}])*)\s*:(?!=)")
CLAUSE = re.compile(r"^\s*(ghost|requires|ensures)\b|^\s*//")
# Where two names would fall together, the definition takes the plain spelling, and the other name is this.
TWINS = {
    "area-length": "area_length_is",
    "at-start": "at_the_start",
    "both_small": "both_small_parts",
    "counted-down": "counted_down_is",
    "counted-up": "counted_up_is",
    "counts_of": "counts_as",
    "counts-small": "counts_small_met",
    "ends-right": "ends_right_is",
    "firsts-right": "firsts_right_is",
    "in-range": "in_range_is",
    "link-right": "link_right_parts",
    "links-to": "links_to_is",
    "next-arc": "next_arc_is",
    "nexts-right": "nexts_right_is",
    "num-suffices": "num_suffices_is",
    "pick-room": "pick_room_is",
    "probes-by": "probes_by_is",
    "ran-made": "ran_made_is",
    "record-place": "in_record_place",
    "reply-fits": "reply_fits_is",
    "shuffled-order": "shuffled_order_is",
    "sizes-right": "sizes_right_is",
    "slot-word": "slot_word_is",
    "start-in": "start_is_in",
    "table-length": "table_length_is",
    "replyCounts": "counts_replied",
    "replyTo": "reply_receiver",
    "with_at": "with_at_is",
}


def own_crates():
    return {os.path.basename(os.path.dirname(os.path.dirname(p))) for p in glob.glob("crates/*/src/")}


def texts():
    for path in sorted(glob.glob("crates/**/*", recursive=True)):
        if path.endswith((".antt", ".rt", ".edit")) and "/out/" not in path:
            with open(path, encoding="utf-8") as f:
                yield path, f.read()


def declared(text):
    """The names that a file of specs/ or proofs/ declares, each with whether it is a type."""
    for line in text.split("\n"):
        if line.strip().startswith(("--", "use ", "λ", "let ", "|", "pub use", "module ", "in ", "open ")):
            continue
        m = DECLARED.match(line)
        if m and " : tie." not in line and "→ statement M" not in line:
            for name in m[4].split():
                yield name, bool(m[3])


def spelled(name):
    if name in TWINS:
        return TWINS[name]
    if name[:1].isupper() or not name[:1].isalpha():
        return name
    name = re.sub(r"(?<=[a-z0-9])[A-Z](?=[a-z0-9]|$|-)", lambda m: "_" + m[0].lower(), name)
    return name.replace("-", "_")


def imported(text, crates):
    """The names that a file imports from libraries."""
    found = set()
    for m in re.finditer(r"\buse\s+([^\s;{]+?)\.?\{([^}]*)\}", text):
        parts = m[1].split(".")
        if parts[0] == "Rattle" and len(parts) > 1 and parts[1] in crates:
            continue
        found |= {n.strip().split(" as ")[-1] for n in m[2].split(",")}
    return found


def turned(path, text, table, keep):
    def one(m):
        word = m[0]
        return word if word in keep else table.get(word, word)

    if not path.endswith(".rt"):
        return TOKEN.sub(one, text)
    lines, clause = [], False
    for line in text.split("\n"):
        clause = bool(CLAUSE.match(line)) or (clause and not re.match(r"^\{|^\s*(pub |fn |let |use )", line))
        lines.append(TOKEN.sub(one, line) if clause else line)
    return "\n".join(lines)


def main():
    if sys.argv[1:] not in ([], ["--list"]):
        print(__doc__)
        return sys.argv[1:] != ["--help"]
    crates = own_crates()
    files = list(texts())
    names = {}
    for path, text in files:
        if path.endswith(".antt"):
            for name, is_type in declared(text):
                names[name] = names.get(name, False) or is_type
    table = {n: spelled(n) for n in names if spelled(n) != n}
    bad = False
    met = collections.defaultdict(set)
    for n in names:
        met[table.get(n, n)].add(n)
    for new, olds in sorted(met.items()):
        if len(olds) > 1:
            print("fall together: %s <- %s" % (new, ", ".join(sorted(olds))))
            bad = True
    for path, text in files:
        lib = imported(text, crates)
        words = set(TOKEN.findall(text))
        for n in words & table.keys():
            if n not in lib and table[n] in lib:
                print("meets a library's name: %s of %s: %s" % (n, path, table[n]))
                bad = True
    if sys.argv[1:] == ["--list"]:
        for n in sorted(table):
            print(n, table[n])
        return 0
    if bad:
        return 1
    for path, text in files:
        new = turned(path, text, table, imported(text, crates))
        if new != text:
            with open(path, "w", encoding="utf-8") as f:
                f.write(new)
    print("%d names" % len(table))
    return 0


if __name__ == "__main__":
    sys.exit(main())
