#!/usr/bin/env python3
"""Spells the names that this repository declares in specs/ and proofs/ as today's Rattle does: words in snake case.

usage: python3 tools/respell.py [--look]     at the top, once, on the tree that port.py made

It renames definitions, lemmas, fields and constructors in .antt files, clauses and comments of .rt files, must-fail edits and the
pages. A name that Rattle makes (a goal of a function's proof) keeps its dashes, and so does a name of a library. --look writes
nothing and lists names that fall together.
"""

import collections
import os
import re
import sys

DECLARED = re.compile(
    r"^\s*(?:unfoldable\s+|abbrev\s+)?(?:pub\s+)?(?:unfoldable\s+|abbrev\s+)?(?:data\s+|record\s+)?"
    r"([^\s:(){}]+(?: [^\s:(){}]+)*)(?:\s+\([^)]*\)|\s+\{[^}]*\})*\s*:\s*(.*)$"
)
MADE = re.compile(r"(tie|goal|given|need)\.")
STOPS = r"\s(){}\[\];,.\"`|@«»⌜⌝"
TOKEN = re.compile(rf"[^{STOPS}]+")
WORD = re.compile(r"[A-Za-z][A-Za-z0-9_'₀-₉→≢≡≤-]*")

# A name that would fall together with another: a lemma named as its function takes `_lem`, a field the words in another order.
CHOSEN = {
    "walked-of": "walked_of_lem",
    "good-ask": "ask_is_good",
    "noRoom": "no_room_number",
    "pair-slot": "pair_slot_lem",
    "capped-value": "capped_value_lem",
    "booking-of": "booking_of_lem",
    "no-rows": "no_rows_lem",
    "contact-line": "contact_line_lem",
    "range-line": "range_line_lem",
    "with-book": "book_beside",
    "ask-by": "ask_by_lem",
    "most-chain": "most_chain_lem",
    "lowest-from": "lowest_from_lem",
    "worked-back": "worked_back_lem",
    "first-from": "first_from_lem",
    "line-end": "line_end_lem",
    "judged-named": "judged_named_lem",
    "cause-from": "cause_from_lem",
    # one file has a lemma of its own under this name, which others take from a library
    "and-false": "and-false",
}
# in prose the figure's own name
PROSE = {"last-call"}


def files(*endings):
    for top in ("crates",):
        for folder, dirs, names in os.walk(top):
            dirs[:] = sorted(d for d in dirs if d != "out")
            for n in sorted(names):
                if n.endswith(endings):
                    yield os.path.join(folder, n)


def pages():
    yield "README.md"
    for folder, _, names in os.walk("docs"):
        for n in sorted(names):
            if n.endswith(".md"):
                yield os.path.join(folder, n)


def read(p):
    with open(p, encoding="utf-8") as f:
        return f.read()


def snake(name):
    parts = []
    for p in name.split("-"):
        if p[:1].islower():
            p = re.sub(r"(?<=[a-z0-9'])([A-Z])", lambda m: "_" + m.group(1).lower(), p)
        parts.append(p)
    return "_".join(parts)


def code_and_comment(line):
    at = line.find("--")
    return (line, "") if at < 0 else (line[:at], line[at:])


def declared():
    own, made, library = collections.defaultdict(set), set(), set()
    for p in files(".antt"):
        for line in read(p).split("\n"):
            line, _ = code_and_comment(line)
            m = DECLARED.match(line)
            if m:
                for n in m.group(1).split():
                    (made.add(n) if MADE.match(m.group(2)) else own[n].add(p))
            m = re.match(r"\s*(?:pub )?use (\S+?)\.\{(.*)\}", line)
            if m and not re.match(r"Rattle\.(%s)\." % "|".join(sorted(os.listdir("crates"))), m.group(1)):
                library.update(x.strip().split(" as ")[0] for x in m.group(2).split(","))
    return own, made, library


def renames():
    own, made, library = declared()
    new = {n: CHOSEN.get(n, snake(n)) for n in own}
    return own, made, library, {a: b for a, b in new.items() if a != b}


def turn(text, new):
    return TOKEN.sub(lambda m: new.get(m.group(0), m.group(0)), text)


def turn_antt(text, new):
    out = []
    for line in text.split("\n"):
        code, comment = code_and_comment(line)
        out.append(turn(code, new) + turn_page(comment, new, everywhere=True))
    return "\n".join(out)


def turn_rt(text, new):
    """Clauses, imports of ghost names and comments: Rust's own names have neither capitals within nor dashes."""
    return WORD.sub(lambda m: new.get(m.group(0), m.group(0)), text)


def turn_page(text, new, everywhere=False):
    new = {a: b for a, b in new.items() if a not in PROSE}
    if everywhere:
        return WORD.sub(lambda m: new.get(m.group(0), m.group(0)), text)
    return re.sub(r"`[^`\n]+`", lambda m: WORD.sub(lambda w: new.get(w.group(0), w.group(0)), m.group(0)), text)


def look(own, made, library, new):
    for a in sorted(new):
        if a in made:
            print("a goal has the name too:", a)
        if a in library:
            print("a library has the name too:", a)
        if new[a] in library:
            print("a library has the new name:", a, new[a])
    back = collections.defaultdict(set)
    for a in own:
        back[new.get(a, a)].add(a)
    for b, many in sorted(back.items()):
        if len(many) > 1:
            print("fall together:", b, sorted(many))
    for p in files(".antt"):
        words = set(TOKEN.findall("\n".join(code_and_comment(l)[0] for l in read(p).split("\n"))))
        for a in sorted(words & new.keys()):
            if new[a] in words:
                print(f"{p}: {a} meets {new[a]}")
    for p in files(".antt", ".rt"):
        for line in read(p).split("\n"):
            at = line.find("--" if p.endswith(".antt") else "//")
            if at >= 0:
                for w in WORD.findall(re.sub(r"`[^`]+`", "", line[at:])):
                    if w in new and "-" in w:
                        print(f"in words: {p}: {w}: {line.strip()[:100]}")


def main(argv):
    own, made, library, new = renames()
    print(f"{len(own)} names declared, {len(new)} renamed")
    if argv == ["--look"]:
        return look(own, made, library, new)
    for p in files(".antt"):
        text = read(p)
        turned = turn_antt(text, new)
        if turned != text:
            with open(p, "w", encoding="utf-8") as f:
                f.write(turned)
    for p in files(".rt", ".edit"):
        text = read(p)
        turned = turn_rt(text, new)
        if turned != text:
            with open(p, "w", encoding="utf-8") as f:
                f.write(turned)
    for p in pages():
        text = read(p)
        turned = turn_page(text, new)
        if turned != text:
            with open(p, "w", encoding="utf-8") as f:
                f.write(turned)


main(sys.argv[1:])
