#!/usr/bin/env python3
"""Prints what differs between two checkouts, old and new side by side: python3 tools/old_and_new.py OLD [NEW]

Of functions the signature with its clauses; of specs/ and of the theorem files of proofs/ each definition whole, and of each theorem the statement. What
differs in space alone does not count. It reads text and judges nothing."""
import pathlib
import re
import sys

CALL = {"Answers.antt", "Invariants.antt", "Proof.antt"}
HEAD = re.compile(r"^(\s*)(abbrev |unfoldable |opaque )?(pub )?(record |data )?([^\s:()={},]+)((?: [({][^:]*?)?) :(?: |$)")


def squeeze(text):
    return re.sub(r"\s+", " ", text).strip().replace(",)", ")").replace("( ", "(").replace(", )", ")")


def functions(root):
    out = {}
    for path in sorted(root.glob("crates/*/src/*.rt")):
        if path.name == "tables.rt":
            continue
        text = path.read_text(encoding="utf-8")
        crate = path.relative_to(root / "crates").parts[0]
        owner = ""
        for m in re.finditer(r"^(?:impl\b(?:<[^>]*>)? (?:[^\n]* for )?(\w+)[^\n]*\{|\}|( *)(pub )?(?:extern \"C\" )?fn (\w+))", text, re.M):
            if m[1]:
                owner = m[1] + "::"
            elif not m[4]:
                owner = ""
            else:
                body = re.compile("^" + m[2] + r"\{|[^{]\{$|\{\}$", re.M)
                depth, at = 0, text.index("(", m.end())
                while True:
                    depth += {"(": 1, ")": -1}.get(text[at], 0)
                    at += 1
                    if not depth:
                        break
                rest = text[at:]
                stop = re.search(r"^" + m[2] + r"\{$", rest, re.M)
                line = rest.split("\n", 1)[0]
                end = at + len(line) - 1 if line.rstrip().endswith("{") else at + (stop.start() if stop else len(rest))
                said = text[m.start() : end].strip()
                module = "" if path.stem in ("lib", "main") else path.stem + "::"
                key = f"{crate}::{module}{owner if m[2] else ''}{m[4]}"
                out[key] = ("public" if m[3] or 'extern "C"' in m[0] else "private", said)
    for path in sorted(root.glob("crates/*/src/*.rt")):
        text = path.read_text(encoding="utf-8")
        crate = path.relative_to(root / "crates").parts[0]
        for m in re.finditer(r"^(?:#\[[^\n]*\n)*pub (struct|enum|type|const|static) (\w+)[^\n{;]*(?:\{\n.*?^\}|[^\n]*;)", text, re.M | re.S):
            if path.name != "tables.rt":
                module = "" if path.stem in ("lib", "main") else path.stem + "::"
                out[f"{crate}::{module}{m[2]}"] = ("public", m[0].strip())
        for m in re.finditer(r"^impl[^\n]* (Model|From<.*>|From<[^\n]*) for (\w+)[^\n]*\{.*?^\}", text, re.M | re.S):
            out[f"{crate}::{m[2]} ({m[1]})"] = ("public", m[0].strip())
    return out


def laws(root):
    out = {}
    for path in sorted(root.glob("crates/*/**/*.antt")):
        parts = path.relative_to(root / "crates").parts
        if "out" in parts or parts[1] not in ("specs", "proofs") or path.name in CALL or path.name == "Lib.antt":
            continue
        lines = path.read_text(encoding="utf-8").split("\n")
        i = 0
        while i < len(lines):
            m = HEAD.match(lines[i])
            if not m or lines[i].lstrip().startswith(("--", "use ", "|")):
                i += 1
                continue
            j = i + 1
            whole = bool(m[2] or m[4])
            name = m[5]
            while j < len(lines) and lines[j].strip():
                s = lines[j]
                deeper = len(s) - len(s.lstrip()) > len(m[1])
                if not whole and (s.startswith(m[1] + name + " ") or s.startswith(m[1] + "unfolding")):
                    break
                if not deeper and HEAD.match(s):
                    break
                if not deeper and s.lstrip().startswith(("module", "--")):
                    break
                j += 1
            out.setdefault(f"{parts[0]} {name}", []).append(("/".join(parts[1:]), "\n".join(lines[i:j]).strip()))
            i = j
    return out


def show(name, old, new):
    print(f"{name}\n")
    for mark, it in (("-", old), ("+", new)):
        for x in it if isinstance(it, list) else [it]:
            print("\n".join(f"    {mark} {line}" for line in x.split("\n")))
    print()


def main():
    old = pathlib.Path(sys.argv[1]).resolve()
    new = pathlib.Path(sys.argv[2] if len(sys.argv) > 2 else ".").resolve()
    a, b = functions(old), functions(new)
    print("### Functions, types and constants\n")
    for k in sorted({*a, *b}):
        if k in a and k in b and squeeze(a[k][1]) != squeeze(b[k][1]) and "public" in (a[k][0], b[k][0]):
            show(f"`{k}`", a[k][1], b[k][1])
    gone = [k for k in a if k not in b and a[k][0] == "public"]
    fresh = [k for k in b if k not in a and b[k][0] == "public"]
    print("### Public in the old code alone\n")
    for k in gone:
        show(f"`{k}`", a[k][1], [])
    print("### Public in the new code alone\n")
    for k in fresh:
        show(f"`{k}`", [], b[k][1])
    a, b = laws(old), laws(new)
    print("### Definitions and theorems\n")
    for k in sorted(a):
        if k in b:
            x, y = {squeeze(t) for _, t in a[k]}, {squeeze(t) for _, t in b[k]}
            if not x <= y:
                show(f"`{k}` ({a[k][0][0]})", [t for _, t in a[k] if squeeze(t) not in y], [t for _, t in b[k] if squeeze(t) not in x])
    print("### Definitions and laws in the old files alone\n")
    for k in sorted(a):
        if k not in b:
            show(f"`{k}` ({a[k][0][0]})", [t for _, t in a[k]], [])


main()
