#!/usr/bin/env python3
"""Brings the repository's own definitions and lemmas to one spelling: words in snake case, types in camel case.

usage: python3 tools/respell.py [FOLDER]      once, at the top of a repository that the kit's own script has just turned

It goes by text. A name is the repository's own where specs/ or proofs/ declare it; what a file takes from a library, what the check names
(goals, invariants, measures) and what Rust declares stay. Comments' code spans, pages and must-fail edits turn with the code. A name whose
new spelling stands in a file already is shown, since two names would fall together there. A second run turns nothing.
"""
import os
import re
import sys

NAME = r"[^\s(){}.;,@\"«»:=\\|\[\]`]+"
DECLARED = re.compile(r"(?m)^[ \t]*(?:\||(?:abbrev|unfoldable|pub)[ \t]+)*(" + NAME + r")[ \t]*:(?![:=])([^\n]*)")
HEADED = re.compile(r"\b(?:data|record)\s+(" + NAME + r")\s*(?=[({:]|where)")
USE = re.compile(r"(?m)^(?:ghost )?use ([^\n;]*)")
TOKEN = re.compile(r"[A-Za-z_][A-Za-z0-9_'′₂-]*[A-Za-z0-9_'′₂]|[A-Za-z_]")
LIBRARY = re.compile(r"Rattle\.(?:std|core)\b|borrow\.|logic\.|mathlib\.|native\.|Prim\.")
MADE = re.compile(r"\.(?:Goals|Given|Needs)(?:\b|$)")
# spelled by hand: a type that began small, a lemma named after a library's word, and lemmas that would get the name of what they are about
BY_HAND = {
    "leftBehind": "LeftBehind",
    "getD-views": "views_index",
    "bit-and": "bit_of_and",
    "bit-or": "bit_of_or",
    "by-start": "decomposed_by_start",
    "by_part": "decomposed_by_part",
    "by_digits": "refused_by_digits",
    "byte-read": "byte_reads",
    "word_read": "word_reads",
    "operand_read": "operand_reads",
    "definition-read": "definition_reads",
    "end_read": "end_line_reads",
    "branch-lits": "branch_lits_are",
    "heads-literals": "heads_literals_bound",
    "heads-worth": "heads_worth_is",
    "literal-worth": "literal_worth_is",
    "same-literal": "same_literal_is",
    "is-at": "is_at_decided",
    "decompose-in": "decompose_in_written",
    "kept-after": "kept_after_worth",
    "or-add": "or_add_made",
    "or-define": "or_define_made",
}
# what the check names in every crate
OURS_NOT = re.compile(r"(?:invariant|decreases|returns|loop|bounds|slice-bounds|overflow|in|then|else|if|Inv)-")


def odd(name):
    return "-" in name or "′" in name or (name[0].islower() and re.search(r"[a-z0-9][A-Z]", name))


def turned(name):
    if name in BY_HAND:
        return BY_HAND[name]
    name = name.replace("′", "'")
    if name[0].isupper():
        first, *rest = name.split("-")
        return first + "".join(w[:1].upper() + w[1:] for w in rest)
    name = re.sub(r"([a-z0-9])([A-Z])", lambda m: m.group(1) + "_" + m.group(2).lower(), name)
    return name.replace("-", "_").lower()


def read(path):
    with open(path, encoding="utf-8") as f:
        return f.read()


def files(root, *endings):
    for folder, dirs, names in os.walk(root):
        dirs[:] = sorted(d for d in dirs if d not in ("out", ".git", "target"))
        for n in sorted(names):
            if n.endswith(endings):
                yield os.path.join(folder, n)


def bare(text):
    return re.sub(r"--[^\n]*", "", text)


def own_names(root):
    names = set(BY_HAND)
    for path in files(os.path.join(root, "crates"), ".antt"):
        text = bare(read(path))
        made = os.path.basename(path) in ("Answers.antt", "Invariants.antt", "Proof.antt")
        for m in DECLARED.finditer(text):
            name, is_a = m.group(1), m.group(2)
            if made and (re.match(r"\s*(?:goal|need|given)\.", is_a) or OURS_NOT.match(name) or name.endswith("-spec")):
                continue
            if odd(name):
                names.add(name)
        for m in HEADED.finditer(text):
            if odd(m.group(1)):
                names.add(m.group(1))
    return names


def taken(text):
    """What a file takes from a library or from what the check makes, by name."""
    out = set()
    for m in USE.finditer(text):
        line = m.group(1)
        if LIBRARY.match(line) or MADE.search(line.split("{")[0]):
            out |= set(TOKEN.findall(line.split("{", 1)[1] if "{" in line else ""))
    return out


def local_names(text):
    """What a file binds by itself, by let, where, a lambda or an argument."""
    found = set(re.findall(r"\blet ([A-Za-z][^\s:=.]*)", text))
    for m in re.finditer(r"λ ([^.]*)\.", text):
        found |= set(TOKEN.findall(re.sub(r":[^)]*", "", m.group(1))))
    for m in re.finditer(r"[({]([A-Za-z][^():{}→]*) : ", text):
        found |= set(m.group(1).split())
    return {n for n in found if odd(n) and TOKEN.fullmatch(n)}


def turn(text, names, stay):
    def one(m):
        word = m.group(0)
        if word in stay or word not in names:
            return word
        before = text[: m.start()]
        if re.search(r"\b(?:goal|need|given)\.$", before):
            return word
        return turned(word)

    return TOKEN.sub(one, text)


def spans(text, names):
    return re.sub(r"`[^`\n]*`", lambda m: turn(m.group(0), names, ()), text)


def main(argv):
    root = os.path.abspath(argv[0] if argv else ".")
    names = own_names(root)
    if not names - set(BY_HAND):
        print("respell: no name has the old spelling: nothing to do")
        return
    for path in files(root, ".antt", ".rt", ".edit", ".md"):
        text = read(path)
        if path.endswith(".md"):
            new = spans(text, names)
        else:
            here = names | (local_names(bare(text)) if path.endswith(".antt") else set())
            stay = taken(text)
            new = turn(text, here, stay)
            words = set(TOKEN.findall(bare(text)))
            for n in sorted(here - stay):
                if n in words and turned(n) in words:
                    print(f"look: {os.path.relpath(path, root)}: {n} and {turned(n)} fall together")
        if new != text:
            with open(path, "w", encoding="utf-8") as f:
                f.write(new)
    everywhere = {}
    for n in sorted(names):
        everywhere.setdefault(turned(n), []).append(n)
    for to, froms in everywhere.items():
        if len(froms) > 1:
            print(f"look: {froms} are all {to} now")
    print(f"respell: {len(names)} names")


if __name__ == "__main__":
    main(sys.argv[1:])
