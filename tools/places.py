#!/usr/bin/env python3
"""Lists places in src/ that an older language may have left: a line each, and how many there are of each sort.

    tools/places.py [FOLDER]

A line is a candidate that a reader has to judge; docs/DESIGN-PASS.md says what became of each.
"""
import collections
import pathlib
import re
import sys

top = pathlib.Path(sys.argv[1] if len(sys.argv) > 1 else ".")
files = sorted(top.glob("crates/*/src/*.rt"))
lines = [(f.relative_to(top), n + 1, line)
         for f in files for n, line in enumerate(f.read_text().split("\n")) if not line.lstrip().startswith("//")]


def show(title, found):
    print(f"== {title}: {len(found)}")
    for line in found:
        print("  " + line)


def search(title, pattern):
    show(title, [f"{f}:{n}: {line.strip()}" for f, n, line in lines if re.search(pattern, line)])


KEPT = set("if else match for in while loop return let mut ref fn Some None Ok Err as matches".split())


def functions():
    """Each function's place, name and body."""
    for f in files:
        text = f.read_text()
        for m in re.finditer(r"\bfn (\w+)", text):
            brace = text.find("{\n", m.end())
            clause = text.find("\n{\n", m.end())
            indented = text.find("\n    {\n", m.end())
            starts = [s for s in (clause + 1 if clause >= 0 else -1, indented + 5 if indented >= 0 else -1, brace) if s >= 0]
            if not starts:
                continue
            begin = min(starts)
            if re.search(r";\n", text[m.end():begin]):
                continue  # a trait's method without a body
            depth, i = 0, begin
            while i < len(text):
                depth += {"{": 1, "}": -1}.get(text[i], 0)
                i += 1
                if depth == 0:
                    break
            yield f"{f.relative_to(top)}:{text.count(chr(10), 0, m.start()) + 1}", m.group(1), text[begin:i]


def shape(body):
    """The body with names, numbers and texts left out."""
    body = re.sub(r"//[^\n]*", "", body)
    tokens = re.findall(r"\w+|b?\"[^\"]*\"|[^\s\w]", body)
    return " ".join(t if not re.match(r"\w|b?\"", t) or t in KEPT else "_" for t in tokens if t != ",")


def twins():
    groups = collections.defaultdict(list)
    for place, name, body in functions():
        s = shape(body)
        if s.count(" ") >= 14:
            groups[s].append(f"{place} {name}")
    return [" | ".join(g) for g in groups.values() if len(g) > 1]


def repeated():
    found = collections.Counter()
    for _, _, line in lines:
        m = re.match(r"\s+(requires|ensures) ?(\w*) ?\{ (.*) \}$", line)
        if m and (m.group(1) == "requires" or m.group(2) in ("stays", "ready", "inside", "kept")):
            found[re.sub(r"\b(self|desk|answerer|shelf|work|buffer|steps)\.(old|new|now|entry)", r"\1", m.group(3))] += 1
    return [f"{n} {clause}" for clause, n in found.most_common() if n > 2]


search("1a, cases of an enum that say absence, refusal or no more than done",
       r"^ +(Neither|Over|Refuse|Done|Unordered|Open),$|^ +Refused\(")
rewrapped = [f"{f}:{n}: {line.strip()}" for f, n, line in lines
             if re.search(r"(None|Err\(_\)) => (None|return None|Err\(|return Err\()|Err\((\w+)\) => Err\(", line)]
rewrapped += [f"{f}:{n}: {line.strip()}" for (f, n, line), (_, _, then) in zip(lines, lines[1:])
              if re.search(r"let (Some|Ok)\(.* else \{$", line) and re.search(r"return (None|Err\(.*\));$", then)]
show("1b, an Option or a Result taken apart to be wrapped again", rewrapped)
search("1c, numbers of kinds and refusals by hand", r"fn (number|from_number)\(|\.number\(\)|KindSet \{ bits: 0")
show("2, functions of one shape, but for names, numbers and texts", twins())
search("3, loops over numbers, and loops that count by hand", r"for \w+ in [^{]*\.\.[^{]*\{|\bwhile ")
search("4, equality, order, names, conversions and printing by hand",
       r"fn (same\w*|equal_ends|kind_name|op_name|number|from_number|as_number|figure_char|placed|float_bits|name|larger|ieee)\b"
       r"|macro_rules!|^impl fmt::Display")
show("5, clauses that ask the same in three functions or more", repeated())
search("6, arrays in fields, and lengths beside a buffer",
       r"^    (pub )?\w+: (\[.*; \w+\]|&'a mut \[.*\]|usize),?$")
search("7, enums that say which step to run, and switches on them",
       r"enum (Form|Task|FnBuiltin|FnAssign|Arithmetic|FloatArithmetic|Logic|RangeKind|TextRule|TextKind|Comparison)\b"
       r"|fn (select_in|operator|left|right|satisfied|compute\w*|decide|choose)\b")
