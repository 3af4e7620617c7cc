#!/usr/bin/env python3
"""Counts the places of src/ that docs/DESIGN-PASS.md speaks of: python3 tools/places.py [FOLDER] [POINT]

FOLDER is a checkout (this one). With a POINT, 1 to 7, each place is printed too.
"""
import pathlib
import re
import sys

NAMES = re.compile(r"[A-Za-z_]\w*|\d\w*|\S")
PLAIN = set("fn pub let mut if else match return while loop for in as true false struct enum impl use mod const self Self crate".split())


def sources(top):
    return sorted(pathlib.Path(top).glob("crates/*/src/*.rt"))


def line_of(text, at):
    return text.count("\n", 0, at) + 1


def bare(text):
    """The code without comments and ghost lines, line for line."""
    out = []
    for line in text.split("\n"):
        out.append("" if line.lstrip().startswith(("//", "ghost use", "#[", "#!")) else line.split(" // ")[0])
    return "\n".join(out)


def functions(text):
    """(name, line, head, body) of each function; the body from its brace on."""
    code = bare(text)
    for m in re.finditer(r"^( *)(?:pub )?(?:extern \"C\" )?fn (\w+)", code, re.M):
        brace = code.find("\n" + m.group(1) + "{\n", m.start())
        inline = re.search(r" \{\n", code[m.start():])
        if inline and (brace < 0 or m.start() + inline.start() < brace) and "ensures" not in code[m.start(): m.start() + inline.start()]:
            brace = m.start() + inline.start()
        end = code.find("\n" + m.group(1) + "}", brace)
        if brace > 0 and end > 0:
            yield m.group(2), line_of(code, m.start()), code[m.start():brace], code[brace:end]


def hits(top, pattern):
    for path in sources(top):
        code = bare(path.read_text())
        for m in re.finditer(pattern, code, re.M):
            yield f"{path}:{line_of(code, m.start())}: {m.group(0).strip().splitlines()[0]}"


def point1(top):
    """Own enums with a Refused or Done, answers beside values, arms that only hand a refusal on, 0 or a bool for one, bytes for kinds."""
    yield from hits(top, r"enum \w+ \{[^}]*\b(?:Refused\(Refusal\)|Done),[^}]*\}")
    yield from hits(top, r"struct \w+ \{[^}]*\banswer: Answer\b[^}]*\}")
    yield from hits(top, r"\w+::Refused\(\w+\) => (?:\{\s*return )?\w+::Refused\(\w+\)")
    yield from hits(top, r"^pub fn \w+\([^)]*&mut[^)]*\) -> bool")
    yield from hits(top, r"^ *(?:_|Err\(_\)|(?:Ok\()?\w+::\w+(?:\(\w+\))?\)?) => 0,")
    yield from hits(top, r"^    pub (?:cipher|steps|kind|tag): u8,")
    yield from hits(top, r"^(?:pub )?fn \w+\([gt]: usize\) -> [A-Z]\w+")


def point2(top):
    """Functions with the same code but for names, types and numbers, of 24 words or more."""
    seen = {}
    for path in sources(top):
        for name, line, head, body in functions(path.read_text()):
            names, words = {}, []
            for w in NAMES.findall(head.split("requires")[0].split("ensures")[0] + body):
                if re.match(r"[A-Za-z_\d]", w) and w not in PLAIN:
                    w = names.setdefault(w, f"n{len(names)}") if not w[0].isdigit() else "0"
                words.append(w)
            if len(words) >= 24:
                seen.setdefault(" ".join(words), []).append(f"{path}:{line}: {name}")
    for places in seen.values():
        if len(places) > 1:
            yield from places


def point3(top):
    """Loops that are no `for`."""
    yield from hits(top, r"^ *(?:while|loop)\b[^\n]*")


def point4(top):
    """Bytes of numbers written out, and copies, comparisons, least values and wider numbers by hand."""
    yield from hits(top, r"^(?! *(?:ensures|requires|×))[^\n]*(?:/ \d+ % 256|% 256\) as u8|% 65536\) as u16|\* 256 \+|\* 65536 \+|as u16\) \* 256)[^\n]*")
    yield from hits(top, r"^(?:pub )?fn (?:wide|lesser|up_to_64|copy|clear|blanks|is_equal|same|one|whole|number_in|from_bytes|to_bytes)\b")


def point5(top):
    """Facts of `requires` and runs of three parameters that stand in three functions or more of a crate."""
    for crate in sorted({p.parent.parent for p in sources(top)}):
        facts, runs = {}, {}
        for path in sorted(crate.glob("src/*.rt")):
            for name, line, head, body in functions(path.read_text()):
                m = re.search(r"requires \{(.*?)\}\s*(?:ensures|requires|$)", head, re.S)
                for fact in (m.group(1).split("×") if m else []):
                    facts.setdefault(" ".join(fact.split()).strip("() "), []).append(name)
                args = re.search(r"\((.*?)\)\s*(?:->|requires|ensures|$)", head, re.S)
                args = [a.strip().split(":")[0] for a in (args.group(1).split(",") if args else []) if ":" in a]
                for i in range(len(args) - 2):
                    runs.setdefault(", ".join(args[i: i + 3]), []).append(name)
        for kind, table in (("fact", facts), ("parameters", runs)):
            for text, names in table.items():
                if len(names) > 2:
                    yield f"{crate}: {kind} {text}: {len(names)} functions"


def point6(top):
    """Structs with a buffer and a length beside it, and rooms that are lent apart."""
    yield from hits(top, r"struct \w+ \{[^}]*: \[u8; \d+\],[^}]*\blen: usize\b[^}]*\}")
    yield from hits(top, r"^ +head: &(?:mut )?\[u16\],")
    yield from hits(top, r"^fn add\(s: &\[u8\], i: usize, head:[^\n]*|^pub fn fill\(s: &\[u8\], head:[^\n]*")


def point7(top):
    """Parameters that say which step to run."""
    yield from hits(top, r"\b(?:ahead|first|last|wanted|sealing): bool\b")


POINTS = [point1, point2, point3, point4, point5, point6, point7]

if __name__ == "__main__":
    args = sys.argv[1:]
    top = args.pop(0) if args and not args[0].isdigit() else "."
    for number, point in enumerate(POINTS, 1):
        if args and args[0] != str(number):
            continue
        places = list(point(top))
        print(f"{number}: {len(places)}  {point.__doc__}")
        if args:
            print("\n".join("  " + place for place in places))
