"""Writes the constants of the form reader, from the forms in crates/forms/specs/Forms.antt that crates/read_form/specs/Kinds.antt lists. In the root:

    python3 scripts/grid_tables.py

It writes src/tables.rt of crates/read_form, crates/grid_ours and crates/grid_partner. States and classes are numbered as crates/read_form/specs/Grid.antt
numbers them, and the check proves that the tables are those that Grid.antt computes.
"""
import pathlib
import re

CRATES = pathlib.Path(__file__).resolve().parent.parent / "crates"
forms_text = (CRATES / "forms/specs/Forms.antt").read_text()
kinds_text = (CRATES / "read_form/specs/Kinds.antt").read_text()
UNPRINTABLE, LINE_FEED, OTHER, CLASSES, NUMBERS = "\0", "\n", "!", 32, 8
KINDS = ["Unprintable", "Note", "Sheet", "Unit", "Rule", "Other"]


def pieces(name):
    """A form: its words, "number" and "any_bytes"."""
    definition = re.search(r"^%s =(.*?)\n\n" % name, forms_text + "\n\n", re.S | re.M).group(1)
    return [w or p for w, p in re.findall(r'text "([^"]*)"|(number|any_bytes)', definition)]


def of_house(name, house):
    """A form's name: itself, or what a form by the house is for this one."""
    return re.search(r"^%s %s = (\w+)" % (name, house), forms_text, re.M).group(1) if name.endswith("_of") else name


def shapes(house):
    return [(kind, of_house(name, house)) for kind, name in re.findall(r"shape (\w+) \(?(\w+)(?: h\))?", kinds_text.split("shapes_of h =")[1].split("\n\n")[0])]


def signs(name):
    """A form sign by sign: bytes, "digit" and then "more" for a number, "free" for any bytes."""
    kept = {"number": ("digit", "more"), "any_bytes": ("free",)}
    return tuple(s for p in pieces(name) for s in kept.get(p, p))


def sample(name):
    return "".join({"number": "0", "any_bytes": ""}.get(p, p) for p in pieces(name))


def over(ways, byte):
    """The ways that go on over a printable byte; a way is its kind and the signs that are left."""
    out = []
    for kind, left in ways:
        while left[:1] == ("more",) and byte != "0":
            left = left[1:]
        if left[:1] in (("more",), ("free",)):
            out.append((kind, left))
        elif left and left[0] == ("digit" if byte == "0" else byte):
            out.append((kind, left[1:]))
    return tuple(out)


def ended(ways):
    """What a line is that ends here: the first way that nothing need follow."""
    return next((kind for kind, left in ways if all(s in ("more", "free") for s in left)), "Other")


def follows(state, byte):
    if state in KINDS:
        return state
    if byte == LINE_FEED:
        return "Unprintable" if state == UNPRINTABLE else ended(state)
    return UNPRINTABLE if UNPRINTABLE in (state, byte) else over(state, byte)


def in_number(state):
    return state != UNPRINTABLE and state[:1] != () and state[0][1][:1] == ("more",)


def states(house):
    """Ended lines, numbers that have begun, where no form goes on, where a byte was not printable, and what else is reached."""
    start = tuple((kind, signs(name)) for kind, name in shapes(house))
    reached = [start]
    for _, name in shapes(house):
        state = start
        for byte in sample(name):
            state = follows(state, byte)
            if state not in reached:
                reached.append(state)
    numbers = [state for state in reached if in_number(state)]
    numbers += [(("Other", ("more",)),)] * (NUMBERS - len(numbers))
    return KINDS + numbers + [(), UNPRINTABLE] + [state for state in reached if not in_number(state)]


HOUSES = {"Ours": "grid_ours", "Partner": "grid_partner"}
STATES = max(len(states(house)) for house in HOUSES)
shown = dict.fromkeys("".join(sample(name) for house in HOUSES for _, name in shapes(house)))
classes = [UNPRINTABLE, LINE_FEED, OTHER] + list(shown)
classes += [UNPRINTABLE] * (CLASSES - len(classes))


def class_of(b):
    byte = LINE_FEED if b == 10 else UNPRINTABLE if not 32 <= b <= 126 else "0" if chr(b).isdigit() else chr(b)
    return classes.index(byte if byte in classes else OTHER)


def rows(numbers):
    """Strings of CLASSES bytes."""
    return ["".join("\\x%02x" % n for n in numbers[i : i + CLASSES]) for i in range(0, len(numbers), CLASSES)]


def write(path, text):
    (CRATES / path).write_text(text)


def grid(house):
    """The states' rows, one after the other, as many as the house with more states has."""
    found = states(house)
    padded = found + [()] * (STATES - len(found))
    return [found.index(follows(state, byte)) for state in padded for byte in classes]


write(
    "read_form/src/tables.rt",
    '// The class of each byte, made by scripts/grid_tables.py.\npub const CLASS_OF: [u8; 256] = *b"\\\n    %s";\n'
    % "\\\n    ".join(rows([class_of(b) for b in range(256)])),
)
for house, crate in HOUSES.items():
    write(
        crate + "/src/tables.rt",
        "// What may follow what: a row for each state, a column for each class, made by scripts/grid_tables.py.\nuse read_form::Grid;\n\n"
        "pub const TABLE: Grid = [\n%s];\n" % "".join('    *b"%s",\n' % row for row in rows(grid(house))),
    )
