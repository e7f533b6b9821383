#!/usr/bin/env python3
"""Spells the definitions and lemmas of crates/ as today's Rattle does: in snake case, with `_` between words.

usage: python3 tools/respell.py [--list]     at the top, once, on what port.py left; --list only prints the names, old and new

It goes over specs/*.antt and proofs/*.antt for what they define (a definition, a lemma, a field, a constructor), and over every
.antt and .rt file of crates/ for where it is named. Names of src/, of types and of what the check makes stay, and so do strings and comments.
"""
import glob
import re
import sys

# Where the plain respelling falls together with another name, or is a word of Rattle's. A lemma that would have its
# function's name gets _lem.
OTHER = {"isOk": "answers_ok", "oneLine": "is_one_line", "in-range": "in_range_lem", "beforeThe33rd": "before_the_33rd", "getD-within": "get_or_within"}
# The same of names that port.py had turned already, each in its file.
TURNED = {
    "crates/model/proofs/Places.antt": {"same_way": "same_way_lem"},
    "crates/model/proofs/Texts.antt": {"one_more": "one_more_lem"},
    "crates/simulator/proofs/Batches.antt": {"one_more": "one_more_lem"},
}
# A string, a comment, or a word.
TOKEN = re.compile(r"\"(?:\\.|[^\"\\\n])*\"|(?:(?<=\s)|^)(?:--|//)[^\n]*|[^\s(){}\[\].,;\"⟨⟩«»`]+", re.M)


def files():
    return sorted(glob.glob("crates/*/specs/*.antt") + glob.glob("crates/*/proofs/**/*.antt", recursive=True) + glob.glob("crates/*/src/**/*.rt", recursive=True))


def defined(path):
    """The names that a file of definitions or lemmas gives, at the margin and inside: each stands before a colon at the head of a line."""
    for line in open(path, encoding="utf-8"):
        got = re.match(r"\s*(?:(?:abbrev|unfoldable|data|record|ruleset|pub) )*([^\s(){}:,.\[\]]+)(?: [({][^:]*)? :(?: |$)", line)
        if got and not line.lstrip().startswith(("--", "use ")):
            yield got.group(1)


def snake(name):
    name = re.sub(r"(?<=[a-z0-9])(?=[A-Z])|(?<=[A-Z])(?=[A-Z][a-z])", "_", name)
    return name.replace("-", "_").lower()


def wanted(name):
    """Whether the name is one of words, and not yet in snake case."""
    return bool(re.fullmatch(r"[a-z][A-Za-z0-9_'-]*", name)) and snake(name) != name


def renames():
    every = {n for path in glob.glob("crates/*/specs/*.antt") + glob.glob("crates/*/proofs/*.antt") for n in defined(path)}
    made = set()
    for path in glob.glob("crates/*/proofs/*/**/*.antt", recursive=True):
        made.update(re.findall(r"goal\.([^\s(){}\[\].,;]+)", open(path, encoding="utf-8").read()))
    falls = lambda n: "-" in n and any(snake(o) == snake(n) for o in every - {n})
    return {n: OTHER.get(n, snake(n) + "_lem" * falls(n)) for n in every - made if wanted(n)}


def main(argv):
    to = renames()
    if argv == ["--list"]:
        for n in sorted(to):
            print(n, to[n])
        return
    for path in files():
        text = open(path, encoding="utf-8").read()
        here = TURNED.get(path, {}) | to
        new = TOKEN.sub(lambda t: here.get(t.group(), t.group()), text)
        if new != text:
            open(path, "w", encoding="utf-8").write(new)


if __name__ == "__main__":
    main(sys.argv[1:])
