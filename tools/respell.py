#!/usr/bin/env python3
"""Gives the repository's own definitions and lemmas the spelling of today's Rattle: words in snake case, types and facts in camel case.

usage: python3 tools/respell.py      at the top, once, after the toolchain's own port script

A name is taken from its declaration in specs/ or proofs/, so functions of src/ keep theirs. Where two names would fall together, the
lemma's gets `_lem`. Pages (README.md, docs/) are respelt between backquotes alone.
"""
import glob
import os
import re

# names that would fall together with another: the lemma's gets _lem
APART = {
    "assigned-in": "assigned_in_lem",
    "in-row": "in_row_lem",
    "is-kind": "is_kind_lem",
    "nan-bits": "nan_bits_lem",
    "of-kind": "of_kind_lem",
    "posted-at": "posted_at_lem",
    "told_at": "told_at_lem",
    "with-text": "with_text_lem",
}
DECLARED = re.compile(r"^\s*(?:abbrev |unfoldable |pub )*([^\s:(){}\[\]λ,;=]+(?: [^\s:(){}\[\]λ,;=.]+)*) : ")
TOKEN = re.compile(r"\.?[A-Za-z_][A-Za-z0-9_'₀-₉-]*")
# what the toolchain's script has respelt already, for the pages
PORTED = """add-ok after-next alike-is all-left all-listed all-more all-set as-long as-rows asBool asFloat asInt assign-other at-all at-most
at-ok at-x behind-more below-more bind-ok bits-below bits-fit bits-none both-of bytes-read data-of end-read far-none fields-at
fields-within fieldsOf filled-within fine-bind float-ok float-read floatOf formOf fresh-on gap-by getD-rows has-left has-right held-gives
heldAt in-buffer in-left in-right inRow int-ok is-false is-number is-true isNumber isZero kept-on kindOf length-pairs load-gives
load-step local-typed logicOf low-byte low-or named-more named-none no-number no-place no-row no-slot no-truth no-value no-zero
none-left none-of none-tail not-same nth-left nth-right ofSome one-less one-of one-on orElse placedAt plain-ok put-is quotientOf
rangeOf record-of rowOf run-by run-of same-by shiftedLeft shiftedRight shown-by sideOf size-none slot-ok stored-short sumOf take-next
taken-at taken-more textOf told-none told-str typed-at valueOf walk-fine whole-set zero-bits zero-is one-field""".split()


def respelt(name):
    if name[0].isupper():
        return "".join(part[0].upper() + part[1:] for part in name.split("-"))
    return re.sub(r"(?<=[a-z0-9])([A-Z])", lambda m: "_" + m.group(1).lower(), name).replace("-", "_")


def files(*endings):
    for path in sorted(glob.glob("crates/*/**/*", recursive=True)):
        if path.endswith(endings) and "/out/" not in path and os.path.isfile(path):
            yield path


def declared():
    names = set()
    for path in files(".antt"):
        if "/specs/" in path or "/proofs/" in path:
            for line in open(path, encoding="utf-8"):
                m = DECLARED.match(line)
                if m and ": goal." not in line and not line.lstrip().startswith("--"):
                    names.update(m.group(1).split())
    table = {n: respelt(n) for n in names if re.match(r"[A-Za-z]", n) and respelt(n) != n}
    table.update(APART)
    return table


def turned(text, table):
    def one(m):
        t = m.group(0)
        if t[0] == ".":
            # a field keeps what its record calls it; a step named after a function of src/ has that function's spelling
            return "." + (respelt(t[1:]) if t[1:] in table and t[1:] not in ("told_at",) else t[1:])
        return table.get(t, t)

    return TOKEN.sub(one, text)


def main():
    table = declared()
    old, new = set(table), list(table.values())
    for name in sorted(set(new)):
        if new.count(name) > 1:
            raise SystemExit(f"fall together as {name}: {sorted(n for n in old if table[n] == name)}")
    for path in files(".antt", ".rt", ".edit"):
        text = open(path, encoding="utf-8").read()
        to = turned(text, table)
        if to != text:
            open(path, "w", encoding="utf-8").write(to)
    table.update({n: respelt(n) for n in PORTED})
    for path in ["README.md", *sorted(glob.glob("docs/*.md"))]:
        if os.path.exists(path) and not path.endswith("docs/PORT.md"):
            text = open(path, encoding="utf-8").read()
            to = re.sub(r"`[^`\n]+`", lambda m: turned(m.group(0), table), text)
            if to != text:
                open(path, "w", encoding="utf-8").write(to)


if __name__ == "__main__":
    main()
