#!/usr/bin/env python3
"""Brings the repository's own definitions and lemmas to the spelling of today's Rattle: words in snake case, types and modules in camel case.

usage: tools/respell.py [--table FILE]        at the top of the repository, once, right after port.py

A name that specs/ or proofs/ declare is respelled wherever it stands: in .antt files, in clauses and `ghost use` items of .rt files, in code spans of their
comments, and in the must-fail edits. `tableOf` becomes `table_of`, `level-start` becomes `level_start`. Where a definition and a lemma fall together, as `leastIn`
and `least-in`, the lemma gets `_lem`. A name that a file imports from a library keeps its spelling there. Types, functions of src/, strings and labels that Rattle
makes stay. --table also writes the rows, old name and new, to FILE.
"""
import collections
import glob
import re
import sys

WORD = re.compile(r'[^\s(){}.;,@"«»]+')
QUIET = re.compile(r'"(?:[^"\\\n]|\\.)*"|(?<![^\s(){}.;,@"«»])--[^\n]*|\{-.*?-\}', re.S)
SPAN = re.compile(r"`[^`\n]+`")
DECLARED = re.compile(r"(?m)^ *(?:(?:pub|abbrev|unfoldable|pattern|ruleset|record|data) )*([^\s(){}.;,@\"«»]+)(?: \{[^{}\n]*\})*(?: [({][^=\n]*)? [:=]")
USE = re.compile(r"\buse ([^\s;{]+?)\.?(?:\{([^}]*)\})", re.M)
RUST = re.compile(r"//[^\n]*|/\*.*?\*/|[bc]?\"(?:\\.|[^\"\\])*\"", re.S)
# Names that Rattle makes for goals and steps; a proof's own answers are named after them.
MADE = re.compile(r"\+.*|(loop|if|returns|in|then|else|match|invariant|decreases|overflow|Need|bounds|slice_bounds)-.*")
NO_NAMES = set("let in where module use elim unfolding | → _ λ".split())
LIBRARIES = set("std core borrow io".split())


def in_snake_case(name):
    words = re.sub(r"(?<=[a-z0-9])[A-Z]", lambda m: "_" + m[0].lower(), name)
    return re.sub(r"(?<=[a-z])ℤ", "_ℤ", words).replace("-", "_")


def is_ours(path):
    steps = path.split(".")
    return steps[0] == "Rattle" and len(steps) > 1 and steps[1] not in LIBRARIES


def read(path):
    with open(path, encoding="utf-8") as f:
        return f.read()


def table(files):
    declared, brought, bound = set(), collections.defaultdict(set), set()
    for path in files:
        code = QUIET.sub(" ", read(path))
        is_answer = MADE.fullmatch if path.endswith("/Proof.antt") else lambda it: None
        declared.update(it for it in DECLARED.findall(code) if it not in NO_NAMES and not is_answer(it))
        for where, items in USE.findall(code):
            if not is_ours(where):
                brought[path].update(WORD.findall(items))
        bare = re.sub(r"\.[^\s(){}.;,@\"«»]+", " ", re.sub(r"(?m)^ *(pub )?use .*$", "", code))
        bound.update(WORD.findall(bare))
    turned = {it: in_snake_case(it) for it in declared if not it[0].isupper()}
    of_camel = {new: old for old, new in turned.items() if old != new and "-" not in old and not old.islower()}
    rows = {}
    for old, new in turned.items():
        # The definition keeps the plain name; a lemma that would have it ends in _lem.
        is_second = of_camel.get(new, old) != old or "-" in old and new in declared
        rows[old] = new + "_lem" if is_second else new
    for new in of_camel:
        # A bound variable of that spelling would hide the definition.
        if new in bound and new not in rows:
            rows[new] = new + "_h"
    together = collections.Counter(rows.values())
    for old, new in sorted(rows.items()):
        if together[new] > 1:
            print(f"look: {old} falls together with another name as {new}")
    return {old: new for old, new in rows.items() if old != new}, brought


class Turner:
    def __init__(self, rows, kept, in_rust):
        self.rows, self.kept, self.in_rust = rows, kept, in_rust

    def words(self, text):
        def one(m):
            # A spelling that a definition takes over may be a function's too: that stays, in Rust and behind a dot.
            plain = "-" not in m[0] and m[0].islower()
            stays = m[0] in self.kept or plain and (self.in_rust or text[m.start() - 1 : m.start()] == ".")
            return m[0] if stays else self.rows.get(m[0], m[0])

        return WORD.sub(one, text)

    def spans(self, text):
        part = re.compile(r"[^\s(){}.;,@\"«»`]+")
        return SPAN.sub(lambda s: part.sub(lambda m: m[0] if m[0] in self.kept else self.rows.get(m[0], m[0]), s[0]), text)


def between(pattern, text, inside, outside):
    out, at = [], 0
    for m in pattern.finditer(text):
        out += [outside(text[at : m.start()]), inside(m[0])]
        at = m.end()
    return "".join(out + [outside(text[at:])])


def of_kind(path, text, turner):
    quoted = lambda t: t if t.rstrip().endswith('"') else turner.spans(t)
    if path.endswith(".rt"):
        return between(RUST, text, quoted, turner.words)
    return between(QUIET, text, quoted, turner.words)


def edit(text, turner):
    """An edit's texts are of the file that it names; its words are respelled alike."""
    return "".join(turner.words(line) if line.startswith(("old:", "new:")) else line for line in text.splitlines(True))


def main(args):
    files = sorted(it for it in glob.glob("crates/*/*/**/*.antt", recursive=True) if "/out/" not in it)
    rows, brought = table(files)
    if args[:1] == ["--table"]:
        with open(args[1], "w", encoding="utf-8") as f:
            f.writelines(f"{old}\t{new}\n" for old, new in sorted(rows.items()))
    sources = sorted(it for it in glob.glob("crates/*/src/**/*.rt", recursive=True))
    changed = 0
    for path in files + sources + sorted(glob.glob("crates/*/must-fail/**/*.edit", recursive=True)):
        old = read(path)
        turner = Turner(rows, brought.get(path, set()), not path.endswith(".antt"))
        new = edit(old, turner) if path.endswith(".edit") else of_kind(path, old, turner)
        if new != old:
            changed += 1
            with open(path, "w", encoding="utf-8") as f:
                f.write(new)
    print(f"{len(rows)} names, {changed} files")


if __name__ == "__main__":
    main(sys.argv[1:])
