#!/usr/bin/env python3
"""Spells the repository's own definitions and lemmas as the kit's library spells its own: words in snake case, a prime as an apostrophe.

usage: python3 tools/respell.py [--list]

Run once at the top of the repository, after /opt/rattle/port/port.py. A name that a file of specs/ or proofs/ declares (the answers of a
function's own proof aside, which Rattle names) turns in all of them, and in the clauses, ghost items and comments of src/. A capital
inside a word becomes an underscore and a small letter, and so does a dash between two words. Types and modules keep their spelling, a
dash beside a symbol stays, since it joins two names, and so does whatever the kit declares. A lemma that would meet a definition's name
ends in `_lem`, as in the kit. --list prints the table and writes nothing.
"""
import os
import re
import sys

WORD = r'[^\s(){}.;,@"«»]+'
SPOKEN = r'[^\s(){}.;,@"«»`:]+'
SIGNATURE = re.compile(rf"^ *(?:\| *)?(?:(?:pub|abbrev|unfoldable|pattern|ruleset) )*((?:{WORD} )*?{WORD})(?: [({{].*[)}}])? :(?= |$)")
HEAD = re.compile(rf"^ *(?:(?:pub|abbrev) )*(?:data|record|module) ({WORD})")
USE = re.compile(r"^\s*(?:pub )?(?:ghost )?use ([^\s;{]+)(?:\.\{([^}]*)\})?")
OWN_PROOF = re.compile(r"/proofs/.+/(Proof|Answers|Invariants)\.antt$")
KIT = re.compile(r"Rattle\.(std|core|std_alloc|std_collections|std_heap|std_io|libc|io|os)\b")
LETTER = r"[\w'′₀-₉^²]"
# Where two names would fall together, or a name falls to a word of the language or of the kit.
CHOSEN = {
    "rightHand": "right_hand_side",
    "right-hand": "right_hand",
    "rowTold": "told_of_row",
    "At-part": "AtPart",
    "soFar": "so_far_of",
    "partOf": "part_by_index",
    "partOf-phi": "part_by_index_phi",
    "partOf-psi": "part_by_index_psi",
}
# What a comment means by its usual spelling.
ENGLISH = {"right-hand"}


def files(*ends):
    for folder, dirs, names in os.walk("crates"):
        dirs[:] = sorted(d for d in dirs if d not in ("out", "must-fail"))
        for name in sorted(names):
            if name.endswith(ends):
                yield os.path.join(folder, name)


def text_of(path):
    with open(path, encoding="utf-8") as it:
        return it.read()


def is_own(module):
    return module.startswith("Rattle.") and not KIT.match(module)


def declared():
    """Names that the repository declares, and those that it takes from the kit."""
    own, made, kit = set(), set(), set()
    for path in files(".antt", ".rt"):
        lines = text_of(path).split("\n") + [""]
        for line, next_line in zip(lines, lines[1:]):
            use = USE.match(line)
            if use:
                if not is_own(use[1]):
                    kit.update(item.split(" as ")[0].strip() for item in (use[2] or "").split(","))
            elif path.endswith(".antt") and not line.lstrip().startswith("--"):
                found = SIGNATURE.match(line)
                if found:
                    is_made = OWN_PROOF.search(path) and re.search(r"\btie\.|\bstatement\b", line + next_line)
                    (made if is_made else own).update(found[1].split(" "))
    return own - made, kit


def respelled(name):
    out = ""
    parts = re.split(r"(-)", name)
    for i, part in enumerate(parts):
        if part == "-":
            before, after = parts[i - 1], parts[i + 1]
            whole = before and after and re.search(LETTER + "$", before) and re.match(LETTER, after)
            out += "_" if whole else "-"
        else:
            out += part
    if not re.match(r"[A-ZΑ-Ω][a-z]", out):
        out = re.sub(r"(?<=[a-z])([A-Z])(?=[a-z])", lambda m: "_" + m[1].lower(), out)
        out = re.sub(r"(?<=[a-z])(?=[A-ZΦΨℤℕ])", "_", out)
    return out.replace("′", "'")


def table():
    own, kit = declared()
    turned = {}
    for name in sorted(own - kit):
        new = CHOSEN.get(name, respelled(name))
        if new != name:
            turned[name] = new
    kept = own - set(turned)
    # definitions first: what has no dash
    taken = {}
    for name in sorted(turned, key=lambda n: ("-" in n, n)):
        new = turned[name]
        if new in taken or new in kept or new in kit:
            if name not in CHOSEN and "-" in name:
                new = turned[name] = new + "_lem"
            if new in taken or new in kept or new in kit:
                print(f"respell: {name} meets {taken.get(new, 'a name that stays')} as {new}", file=sys.stderr)
        taken[new] = name
    return turned


COMMENT = re.compile(r"(?:(?<=\s)|^)(?:--|//)(?=\s)[^\n]*", re.M)


def turn(text, turned):
    """A text with its names turned; a comment keeps its words."""
    out, at = [], 0
    plain = {name: new for name, new in turned.items() if name not in ENGLISH}
    for m in COMMENT.finditer(text):
        out += [re.sub(WORD, lambda w: turned.get(w[0], w[0]), text[at:m.start()]), re.sub(SPOKEN, lambda w: plain.get(w[0], w[0]), m[0])]
        at = m.end()
    return "".join(out) + re.sub(WORD, lambda w: turned.get(w[0], w[0]), text[at:])


# What a comment's line or a piece of code is split into, so that words of Rust stay.
CLAUSE = re.compile(r"\b(?:requires|ensures|invariant|decreases)\b[^{;\n]*\{")


def turn_source(text, turned):
    """The ghost items, clauses and comments of a .rt file."""
    out, at = [], 0
    spans = [m.span() for m in re.finditer(r"//[^\n]*|^\s*(?:pub )?ghost use [^;]*;", text, re.M)]
    for m in CLAUSE.finditer(text):
        depth, end = 1, m.end()
        while depth and end < len(text):
            depth += {"{": 1, "}": -1}.get(text[end], 0)
            end += 1
        spans.append((m.end(), end))
    spans.sort()
    for start, end in spans:
        if start < at:
            continue
        out += [text[at:start], turn(text[start:end], turned)]
        at = end
    return "".join(out) + text[at:]


def main():
    if sys.argv[1:] not in ([], ["--list"]):
        sys.exit(__doc__)
    if os.path.exists("docs/PORT.md"):
        sys.exit("respell: this tree is spelled already, and today's proofs name goals that would turn with it")
    turned = table()
    if "--list" in sys.argv:
        for name in sorted(turned):
            print(f"{name}\t{turned[name]}")
        return
    for path in files(".antt", ".rt"):
        old = text_of(path)
        new = turn(old, turned) if path.endswith(".antt") else turn_source(old, turned)
        if new != old:
            with open(path, "w", encoding="utf-8") as it:
                it.write(new)


if __name__ == "__main__":
    main()
