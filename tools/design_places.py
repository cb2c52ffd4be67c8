#!/usr/bin/env python3
"""Lists the places that docs/DESIGN-PASS.md counts, point by point: python3 tools/design_places.py [--count] [POINT..]

Each line is a place: crate, file, line and what stands there. It reads crates/*/src (and, for point 8, crates/*/proofs) as text and judges nothing."""
import pathlib
import re
import sys
from collections import defaultdict

ROOT = pathlib.Path(__file__).resolve().parent.parent
FILES = sorted(ROOT.glob("crates/*/src/*.rt"))
GRIDS = {"tables.rt"}


def lines(path):
    return path.read_text(encoding="utf-8").split("\n")


def place(path, n, what):
    return f"{path.relative_to(ROOT)}:{n + 1}: {what.strip()}"


def matching(regex):
    """The lines of code, or of comments, that the expression finds."""
    find = re.compile(regex)
    return [place(p, i, x) for p in FILES if p.name not in GRIDS for i, x in enumerate(lines(p)) if find.search(x)]


def functions():
    """Each function: file, line, name, parameters, clauses and body."""
    for path in FILES:
        if path.name in GRIDS:
            continue
        text = path.read_text(encoding="utf-8")
        for m in re.finditer(r"^( *)(?:#\[[^\]]*\]\n *)*(?:pub )?(?:extern \"C\" )?fn (\w+)(?:<[^(]*>)?\(", text, re.M):
            depth, at = 1, m.end()
            while depth:
                depth += {"(": 1, ")": -1}.get(text[at], 0)
                at += 1
            parameters = text[m.end() : at - 1]
            close = re.compile("^" + m[1] + r"\}|\{\}$", re.M).search(text, at)
            rest = text[at : close.end() if close else len(text)]
            start = re.search("^" + m[1] + r"\{", rest, re.M)
            head, body = (rest[: start.start()], rest[start.start() :]) if start else rest.split("{", 1)
            names = [re.sub(r"\s+", " ", it).strip() for it in re.split(r",(?![^<(\[]*[>)\]])", parameters) if it.strip()]
            yield path, text.count("\n", 0, m.start(2)), m[2], names, head, body


def enums():
    out = []
    for path in FILES:
        text = path.read_text(encoding="utf-8")
        for m in re.finditer(r"^(?:pub )?enum (\w+)[^{]*\{([^}]*)\}", text, re.M):
            variants = ", ".join(re.sub(r"\s+", " ", it).strip() for it in re.split(r",\n", m[2]) if it.strip() and "//" not in it)
            out.append(place(path, text.count("\n", 0, m.start()), f"{m[1]}: {variants}"))
    return out


def twins():
    """Functions whose bodies are alike once names, types, numbers and strings are taken away."""
    keep = set("let mut if else match while for in return loop break fn as impl self".split())
    alike = defaultdict(list)
    for path, n, name, _, _, body in functions():
        code = re.sub(r"//.*", "", body)
        code = re.sub(r'b?"(?:\\.|[^"\\])*"', "S", code)
        code = re.sub(r"\b\w+\b", lambda m: m[0] if m[0] in keep else "N", code)
        code = re.sub(r"\s+", "", code).replace(",)", ")").replace(",}", "}")
        if len(code) > 12:
            alike[code].append(place(path, n, name))
    return [" = ".join(them) for them in alike.values() if len(them) > 1]


def together():
    """Sets of at least three parameters, by name and type, that stand in at least three functions."""
    seen = defaultdict(list)
    for path, n, name, parameters, _, _ in functions():
        parameters = [it for it in parameters if ":" in it]
        for i in range(len(parameters)):
            for j in range(i + 3, len(parameters) + 1):
                seen[tuple(parameters[i:j])].append(f"{path.parent.parent.name}::{name}")
    big = [(k, v) for k, v in seen.items() if len(v) >= 3]
    kept = [(k, v) for k, v in big if not any(set(k) < set(o) and len(w) >= len(v) for o, w in big)]
    return [f"{len(v)} functions: {', '.join(k)}: {', '.join(v)}" for k, v in sorted(kept, key=lambda kv: -len(kv[1]))]


def repeated():
    """Facts that stand in the requires of at least three functions."""
    seen = defaultdict(set)
    for path, n, name, _, head, _ in functions():
        for clause in re.findall(r"requires[^{]*\{(.*?)\}(?=\s*(?:requires|ensures|$))", head, re.S):
            for fact in re.split(r" × ", re.sub(r"\s+", " ", clause)):
                fact = re.sub(r"\.(now|old|new)\b", "", fact.strip().strip("()"))
                if fact:
                    seen[fact].add(f"{path.parent.parent.name}::{name}")
    return [f"{len(v)} contracts: {k}: {', '.join(sorted(v))}" for k, v in sorted(seen.items(), key=lambda kv: -len(kv[1])) if len(v) >= 3]


def wide():
    """Functions with at least four slices, and rows of at least three arrays made one below the other."""
    out = [
        place(path, n, f"{name}: {sum('[' in it for it in parameters)} slices")
        for path, n, name, parameters, _, _ in functions()
        if sum("[" in it for it in parameters) >= 4
    ]
    for path in FILES:
        row = 0
        for i, x in enumerate([*lines(path), ""]):
            if re.search(r"let mut \w+ = \[0\w+; ", x):
                row += 1
                continue
            if row >= 3:
                out.append(place(path, i - row, f"{row} arrays made in a row"))
            row = 0
    return out


def proofs():
    return [str(it.relative_to(ROOT)) for it in sorted(ROOT.glob("crates/*/proofs/**/Proof.antt"))]


POINTS = {
    "1a own enums": enums,
    "1b flags with a value beside": lambda: matching(r"^\s*(pub )?\w+: bool,|\w+: bool[,)]"),
    "1c numbers for refusals and kinds": lambda: matching(r"number: [1-9]|\b(No|Refused|refuse)\([1-9]|^ +[0-9]+ => (Kind|print_bytes|wave_files)|=> [0-9]+,"),
    "1d a number that means none": lambda: matching(
        r"^ *// (?=.*(, or (n\b|0\b|the length|the second's length|how many places|how many numbers|their number)|0 where|0 for the|place behind the last where|the answer is w))"
    ),
    "2 twins": twins,
    "3a while loops": lambda: matching(r"^\s*('\w+: )?(while|loop)\b"),
    "3b loops over a range": lambda: matching(r"^\s*('\w+: )?for .* in .*\.\."),
    "4 conversions, comparisons and defaults by hand": lambda: matching(
        r"fn (numbers_of|code|code_of|kind_of_code|answered|decision_of|seat_answer|same|empty|signed|minus|new|larger|smaller|lesser|less|is_digit)\b"
    ),
    "5a parameters together": together,
    "5b facts repeated": repeated,
    "6 slices and arrays side by side": wide,
    "7 switches": lambda: matching(r"^\s*match (house|query|number|sheet|state|kind)\b|if turned"),
    "8 proofs that walk the code": proofs,
    "kept, with a reason": lambda: matching(r"// stays:"),
}


def main():
    words = sys.argv[1:]
    count = "--count" in words
    words = [it for it in words if it != "--count"]
    for title, find in POINTS.items():
        if words and not any(title.startswith(it) for it in words):
            continue
        found = find()
        print(f"{title}: {len(found)}")
        if not count:
            for it in found:
                print("    " + it)


main()
