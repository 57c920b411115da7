#!/usr/bin/env python3
"""Operator cases: makes them, and compares two lists of answers to them.

    tools/cases.py make SEED COUNT        every operator at every pair of kinds, COUNT random cases, a twentieth as many of floats that
                                          are about equal, some hundred with long texts and some thousand damaged lines
    tools/cases.py telling                the fixed list of telling cases
    tools/cases.py compare CASES ORIGINAL OURS [MARKED]
                                          ORIGINAL has the original's answers (`norow`, `err TAB name`, `kind TAB value`), OURS
                                          those of the program `cases`. Each of ours has to be the one that `required` gives: the
                                          original's, or the one that a departure fixes (docs/DIFFERENCES.md), which is counted
                                          under that departure. Any other answer is printed. MARKED, where given, is written: for
                                          each case the original's answer and, where ours has to be another, why, and which.
    tools/cases.py calls PROGRAM CASES ORIGINAL
                                          asks PROGRAM, c/calls.c with the C functions, for each pair of kinds and each pair of floats
                                          among the cases, and holds what it gives against the answers required of them

A case is `apply|assign TAB operator TAB kind TAB value TAB kind TAB value TAB string limit TAB blob limit`. Files are read byte by
byte (as latin-1), since a damaged line may have any.
"""
import itertools, math, operator, random, re, struct, subprocess, sys

KINDS = ["unit", "bool", "int", "float", "char", "str", "blob", "excl", "incl"]
OPS = ["+", "-", "*", "/", "%", "**", "<<", ">>", "&", "|", "^", "==", "!=", "<", "<=", ">", ">=", "..", "..="]
SIX = OPS[11:17]
IEEE = dict(zip(SIX, [operator.eq, operator.ne, operator.lt, operator.le, operator.gt, operator.ge]))
# An operator that does not assign may stand in an assigning case. It has no row there.
FORMS = [("apply", o) for o in OPS] + [("assign", o + "=") for o in OPS[:11]] + [("assign", o) for o in OPS[11:]]
# The pairs of kinds for which an operator other than the six comparisons has a row, and the ranges.
PAIRS = [
    ("int", "int"), ("float", "float"), ("float", "int"), ("int", "float"), ("bool", "bool"),
    ("str", "str"), ("str", "char"), ("char", "str"), ("char", "char"), ("unit", "str"), ("str", "unit"),
    ("blob", "blob"), ("blob", "char"), ("blob", "int"), ("blob", "str"), ("int", "unit"), ("unit", "int"),
    ("excl", "excl"), ("excl", "incl"), ("incl", "excl"), ("incl", "incl"),
]  # fmt: skip
# Those that make a text, by + or +=.
RANGED = [("int", "int"), ("int", "unit"), ("unit", "int")]
TEXTS = [(j, k) for j, k in PAIRS if j in ("str", "char", "blob")] + [("unit", "str")]
LEAST, GREATEST = -(2**63), 2**63 - 1
EPSILON = 2.0**-52
NUMBERS = {"overflow": 6, "zerodiv": 7, "remainder": 8, "negexp": 9, "toolarge": 10}
MOST = 65536  # bytes of a text, and of the buffer of the program `cases`
LONGEST = 270000  # bytes of a line


# ---- values

def bits(x):
    return "%016x" % struct.unpack(">Q", struct.pack(">d", x))[0]


def float_of(digits):
    return struct.unpack(">d", bytes.fromhex(digits))[0]


INFINITIES = [bits(math.inf), bits(-math.inf)]
# A NaN may come with any sign and payload, quiet or not.
NANS = ["7ff8000000000000", "7ff8000000000001", "fff8000000000000", "7ff0000000000001", "ffffffffffffffff"]


def in_int(n):
    return max(LEAST, min(GREATEST, n))


def some_int(r):
    n = r.choice([
        r.randint(-9, 9), r.randint(-70, 70), r.randint(LEAST, GREATEST), LEAST, GREATEST, 2**32, 2**53 + 1,
        2 ** r.randint(0, 62), -(2 ** r.randint(0, 63)),
    ])  # fmt: skip
    return in_int(n + r.randint(-1, 1))


def some_float(r):
    near = r.choice([0.0, 1.0, 25.4, 1000.0, 1e-200, 2.0**-538, float(some_int(r))])
    return r.choice([
        lambda: bits(near),
        lambda: bits(near + r.randint(-3, 3) * EPSILON * max(1.0, abs(near))),
        lambda: bits(near * (1 + r.randint(-4, 4) * EPSILON / 2)),
        lambda: "%016x" % r.getrandbits(64),
        lambda: r.choice(INFINITIES + NANS + ["8000000000000000", "0000000000000001"]),
    ])()


def some_char(r):
    while True:
        c = r.choice([r.randint(32, 126), r.randint(0, 0x7FF), r.randint(0, 0x10FFFF)])
        if not 0xD800 <= c <= 0xDFFF:
            return chr(c)


def some_value(kind, r):
    if kind == "unit":
        return ""
    if kind == "bool":
        return r.choice(["true", "false"])
    if kind == "int":
        return str(some_int(r))
    if kind == "float":
        return some_float(r)
    if kind == "char":
        return some_char(r).encode().hex()
    if kind == "str":
        return "".join(some_char(r) for _ in range(r.choice([0, 1, 1, 2, 3, 8]))).encode().hex()
    if kind == "blob":
        return r.randbytes(r.choice([0, 1, 2, 3, 9])).hex()
    a, b = some_int(r), some_int(r)
    return "%d,%d" % (a, r.choice([a, b]))


def value_beside(kind, v, r):
    """a value that comparing has to look at closely beside v, of its kind"""
    if kind != "float":
        return v
    x = float_of(v)
    return bits(x + r.randint(-5, 5) * EPSILON / 2 * (abs(x) if r.random() < 0.8 else 1.0))


def long_text(kind, n, r):
    """n bytes, for a str of chars of one to four bytes"""
    if kind == "blob":
        return r.randbytes(n).hex()
    part = "".join(some_char(r) for _ in range(r.randint(1, 50))).encode()
    text = part * (n // len(part))
    return (text + b"-" * (n - len(text))).hex()


def case(form, op, j, v, k, w, string=0, blob=0):
    return "\t".join([form, op, j, v, k, w, str(string), str(blob)])


# ---- lists of cases

def every_pair(r):
    for form, op in FORMS:
        for j, k in itertools.product(KINDS, KINDS):
            yield case(form, op, j, some_value(j, r), k, some_value(k, r))


def random_cases(r, count):
    limits = [0, 0, 1, 2, 3, 4, 5, 8]
    for _ in range(count):
        form, op = r.choice(FORMS)
        j, k = r.choice(PAIRS) if r.random() < 0.9 else (r.choice(KINDS), r.choice(KINDS))
        v, w = some_value(j, r), some_value(k, r)
        if j == k and r.random() < 0.3:
            w = value_beside(j, v, r)
        yield case(form, op, j, v, k, w, r.choice(limits), r.choice(limits))


def close_cases(r, count):
    """floats compared, and an int beside a float, that stand as close to each other as the tolerance, or about so"""
    for _ in range(count):
        x = r.choice([
            lambda: 2.0 ** r.randint(-60, 62),
            lambda: 2.0 ** r.randint(-1074, 1023),
            lambda: r.choice([0.0, -0.0, 1e-200, 2.0**-538, 2.0**-562]),
            lambda: float(in_int(r.randint(-(2**53), 2**53) << r.randint(0, 10))),
            lambda: r.uniform(-1000.0, 1000.0),
        ])()  # fmt: skip
        x = r.choice([x, -x])
        y = x + r.randint(-6, 6) * EPSILON / 2 * r.choice([abs(x), abs(x), 1.0])
        (j, v), (k, w) = [r.choice([("int", str(int(z))), ("float", bits(z))]) if z == in_int(int(z)) else ("float", bits(z)) for z in r.choice([(x, y), (y, x)])]
        if "float" in (j, k):
            yield case("apply", r.choice(SIX), j, v, k, w)


def long_cases(r, count):
    """long texts: new ones of about as many bytes as there may be, or as a limit allows, and long ones compared"""
    for _ in range(count):
        j, k = r.choice(TEXTS)
        total = r.choice([MOST + r.randint(-3, 3), r.randint(1000, 2 * MOST), 2 * MOST, MOST])
        v, w = some_value(j, r), some_value(k, r)
        if j in ("str", "blob") and k in ("str", "blob"):
            first = min(MOST, r.choice([r.randint(0, total), total // 2, r.randint(0, 4), total]))
            v = long_text(j, first, r)
            w = long_text(k, min(MOST + r.randint(0, 1), total - first), r)
        elif j in ("str", "blob"):
            v = long_text(j, min(total, MOST) - r.randint(0, 4), r)
        elif k in ("str", "blob"):
            w = long_text(k, min(total, MOST) - r.randint(0, 4), r)
        limits = [0, 0, MOST, MOST + r.randint(-3, 3), max(0, total + r.randint(-3, 3))]
        form, op = r.choice([("apply", "+"), ("assign", "+=")])
        yield case(form, op, j, v, k, w, r.choice(limits), r.choice(limits))
    for _ in range(count // 10):
        kind, n = r.choice(["str", "blob"]), r.randint(MOST - 100, MOST)
        v = long_text(kind, n, r)
        w = r.choice([v, v[:-2] + "2e" if v.endswith("2d") else v, v[: 2 * (n - 100)] if kind == "blob" else v, long_text(kind, n, r)])
        yield case("apply", r.choice(SIX), *r.choice([(kind, v, kind, w), (kind, w, kind, v)]))


def damaged_lines(r, count):
    """cases with a field more or less, or with a byte or a field changed; some are still cases"""
    odd = ["\t", "\r", "0", "1", "-", "=", "+", ",", "f", "F", "x", " ", "\0", "\xff", "\xc3"]
    for line in random_cases(r, count):
        fields = line.split("\t")
        i, n = r.randrange(len(fields)), r.randrange(len(line) + 1)
        yield r.choice([
            lambda: "\t".join(fields[:i] + fields[i + 1 :]),
            lambda: "\t".join(fields[:i] + [r.choice(odd)] + fields[i:]),
            lambda: "\t".join(fields[:i] + [r.choice(fields + KINDS + OPS)] + fields[i + 1 :]),
            lambda: "\t".join(fields[:i] + [fields[i] + r.choice(odd)] + fields[i + 1 :]),
            lambda: "\t".join(fields[:i] + [r.choice(odd) + fields[i]] + fields[i + 1 :]),
            lambda: line[:n] + r.choice(odd) + line[n + 1 :],
            lambda: line[:n],
        ])()


def make(seed, count):
    r = random.Random(seed)
    yield from every_pair(r)
    yield from random_cases(r, count)
    yield from close_cases(r, count // 20)
    yield from long_cases(r, 300)
    yield from damaged_lines(r, 5000)


def telling():
    r = random.Random(7)
    yield from telling_rows(r)
    yield from telling_floats(r)
    yield from telling_ints()
    yield from telling_texts()
    yield from telling_lines()
    yield from telling_long()


def telling_rows(r):
    """the six comparisons at every pair of kinds; the other operators where one of them has a row, and at a few pairs beside"""
    others = sorted(set(itertools.product(KINDS, KINDS)) - set(PAIRS))
    for form, op in FORMS:
        if form == "apply" and op in SIX:
            pairs = list(itertools.product(KINDS, KINDS))
        elif op in OPS[11:]:
            pairs = [(j, k) for j, k in RANGED if form == "apply"] + r.sample(PAIRS, 4)
        else:
            pairs = PAIRS + r.sample(others, 6)
        for j, k in pairs:
            yield case(form, op, j, some_value(j, r), k, some_value(k, r))
    for op in ("&", "|", "^") + tuple(SIX):
        for v, w in itertools.product(("false", "true"), repeat=2):
            yield case("apply", op, "bool", v, "bool", w)
            if op in ("&", "|", "^"):
                yield case("assign", op + "=", "bool", v, "bool", w)
    for k in ("str", "blob"):
        for v, w in (("", ""), ("6162", "6162"), ("6162", "6163"), ("61", "6162"), ("6162", ""), ("c3a9", "c3aa")):
            for op in SIX:
                yield case("apply", op, k, v, k, w)
    for a, b in ((0, 5), (5, 0), (LEAST, GREATEST)):
        for j, k in itertools.product(("excl", "incl"), repeat=2):
            for op in ("==", "!="):
                yield case("apply", op, j, "%d,%d" % (a, b), k, "%d,%d" % (a, b))
                yield case("apply", op, j, "%d,%d" % (a, b), k, "%d,%d" % (a, a))


def telling_floats(r):
    e = EPSILON
    pairs = [
        (0.0, e), (0.0, 2 * e), (1 - e, 1.0), (1 - e / 2, 1.0), (1 - 1.5 * e, 1.0), (1.0, 1 + e), (1.0, 1 + 2 * e), (-1.0, -1 - e),
        (1e-200, 2e-200), (1e-200, -1e-130), (1e-200, -1e-120), (1000.0, 1000.0 + 2**-43), (25.3 + 0.1, 25.4), (0.0, -0.0), (e, -5e-324),
    ]  # fmt: skip
    specials = INFINITIES + NANS[:1]
    for x, y in [(bits(a), bits(b)) for a, b in pairs] + [(s, t) for s in specials for t in specials + [bits(0.0), bits(-0.0), bits(1.0)]]:
        for op in SIX:
            yield case("apply", op, "float", x, "float", y)
            yield case("apply", op, "float", y, "float", x)
    # a NaN with a payload, or of the other sign
    for x in NANS[1:]:
        for op in SIX + OPS[:5]:
            yield case("apply", op, "float", x, "float", bits(0.0))
            yield case("apply", op, "int", "0", "float", x)
            yield case("apply", op, "float", x, "int", "0")
            yield case("apply", op, "float", x, "float", x)
        for op in OPS[:5]:
            yield case("assign", op + "=", "float", x, "int", "1")
    # an int beside a float is rounded, a half to even
    for n in (0, 1, -7, 2**53, 2**53 + 1, 2**53 + 2, 2**53 + 3, -(2**53) - 1, 2**54 + 2, GREATEST, GREATEST - 512, LEAST, LEAST + 1):
        for op in SIX:
            yield case("apply", op, "int", str(n), "float", bits(float(n)))
            yield case("apply", op, "float", bits(float(n)), "int", str(n))
        for op in OPS[:5]:
            for x in (bits(0.5), bits(-1e300), some_float(r)):
                yield case("apply", op, "int", str(n), "float", x)
                yield case("apply", op, "float", x, "int", str(n))
                yield case("assign", op + "=", "float", x, "int", str(n))
        yield case("assign", "+=", "int", str(n), "float", bits(1.0))


def telling_ints():
    for x, y in [(1, 4294967295), (1, 4294967296), (2, 62), (2, 63), (-2, 63), (-2, 64), (0, 0), (0, -1), (3, 39), (3, 40), (10, LEAST)]:
        yield case("apply", "**", "int", str(x), "int", str(y))
        yield case("assign", "**=", "int", str(x), "int", str(y))
    for x in (1, -1, 5, -3, GREATEST, LEAST):
        for y in (0, 1, 63, 64, 65, -1, -63, -64, -65, 2**32, -(2**32), GREATEST, LEAST):
            yield case("apply", "<<", "int", str(x), "int", str(y))
            yield case("apply", ">>", "int", str(x), "int", str(y))
    for op in ("/", "%"):
        for x, y in [(7, 2), (-7, 2), (7, -2), (1, 0), (LEAST, -1), (LEAST, 1), (0, 0)]:
            yield case("apply", op, "int", str(x), "int", str(y))
    for op, x, y in [("+", GREATEST, 1), ("+", GREATEST, 0), ("-", LEAST, 1), ("*", 2**32, 2**31), ("*", 2**32, -(2**31)), ("*", LEAST, -1)]:
        yield case("apply", op, "int", str(x), "int", str(y))
        yield case("assign", op + "=", "int", str(x), "int", str(y))


def telling_texts():
    """each with no limit and with limits at its size; the other kind's limit is 1, to be left out of account"""
    texts = ["", "61", "6162", "616263", "61626364", "c3a9", "e282ac", "f09f9880"]
    of_kind = {"str": texts, "blob": texts, "char": ["61", "c3a9", "e282ac", "f09f9880"], "int": ["0", "255", "256", "-1"], "unit": [""]}
    for form, op in (("apply", "+"), ("assign", "+=")):
        for j, k in TEXTS:
            for v, w in itertools.product(of_kind[j], of_kind[k]):
                n = len(v) // 2 + (1 if k == "int" else len(w) // 2)
                for limit in sorted({0, max(0, n - 1), n, n + 1}):
                    limits = (1, limit) if j == "blob" else (limit, 1)
                    yield case(form, op, j, v, k, w, *limits)
    # limits that are no more than numbers
    for limit in (2**16, 2**31, 2**32, GREATEST):
        yield case("apply", "+", "str", "6162", "str", "63", limit, limit)
        yield case("assign", "+=", "blob", "6162", "blob", "63", limit, limit)
    for op in SIX:
        for v, w in itertools.product(["61", "c3a9"], texts):
            yield case("apply", op, "char", v, "str", w)
            yield case("apply", op, "str", w, "char", v)


def telling_lines():
    """lines that are no cases, or name what there is not, or have values that cannot be read"""
    good = ["apply", "+", "int", "1", "int", "2", "0", "0"]

    def with_field(i, field):
        return "\t".join(good[:i] + [field] + good[i + 1 :])

    # 11
    yield ""
    for n in range(1, 8):
        yield "\t".join(good[:n])
    yield "\t".join(good + [""])
    yield "\t".join(good + ["0"])
    yield "\t".join([""] + good)
    yield "\t" * 7
    for name in ("", "Apply", "apply ", " apply", "assig", "assignn"):
        yield with_field(0, name)
    yield "\t".join(good).replace("\t", " ")
    # 1, and 5 where an operator that does not assign is asked to
    for op in ("", "=", "+=", "-=", "**=", "+ ", "++", "===", "...", "<>", "plus"):
        yield with_field(1, op)
    for op in ("+", "-", "**", "^", "=", "===", "==="):
        yield case("assign", op, "int", "1", "int", "2")
    for op in OPS[11:]:
        yield case("assign", op, "int", "1", "int", "2")
    for kind in ("", "Int", "int ", "number", "string", "range"):
        yield with_field(2, kind)
        yield with_field(4, kind)
    yield "\t".join(["apply", "?", "number", "x", "int", "x", "x", "x"])
    yield "\t".join(["apply", "+", "int", "x", "number", "2", "0", "0"])
    # 2
    for v in ("", "+1", "01", "-0", "1.0", "1 ", "\r", "9223372036854775808", "-9223372036854775809", "0x1", "1,2"):
        yield with_field(3, v)
        yield with_field(5, v)
    for limit in ("", "-1", "01", "+1", "1.5", "9223372036854775808", "0\r", "x"):
        yield with_field(6, limit)
        yield with_field(7, limit)
    for kind, v in [
        ("unit", "0"), ("unit", " "), ("bool", ""), ("bool", "True"), ("bool", "1"),
        ("float", ""), ("float", "1.0"), ("float", "3FF0000000000000"), ("float", "3ff000000000000"), ("float", "3ff00000000000000"), ("float", "nan"),
        ("char", ""), ("char", "6162"), ("char", "c3"), ("char", "eda080"), ("char", "f4908080"), ("char", "c080"), ("char", "61 "),
        ("str", "6"), ("str", "6G"), ("str", "C3A9"), ("str", "ff"), ("str", "61c3"), ("str", "80"), ("str", "eda080"), ("str", "c0af"), ("str", "f5808080"), ("str", "a"), ("str", "\xc3\xa9"),
        ("blob", "f"), ("blob", "FF"), ("blob", "0x"), ("blob", "f f"),
        ("excl", ""), ("excl", "1"), ("excl", "1,"), ("excl", ",1"), ("excl", "1,2,3"), ("excl", "01,2"), ("incl", "1;2"), ("incl", "1..2"),
    ]:  # fmt: skip
        yield case("apply", "==", kind, v, "unit", "")
        yield case("apply", "==", "unit", "", kind, v)


def telling_long():
    """the longest texts and lines; no more than a few, since they are long"""
    a = "61"
    yield case("apply", "+", "str", a * 65530, "str", "e282ac" * 2)
    yield case("apply", "+", "str", a * 65530, "str", "e282ac" * 2 + a)
    yield case("apply", "+", "str", a * 65530, "str", "e282ac" * 2 + a, 65536)
    yield case("apply", "+", "str", a * MOST, "str", a * MOST)
    yield case("assign", "+=", "blob", "ff" * MOST, "int", "0")
    yield case("assign", "+=", "blob", "ff" * 65534, "char", "e282ac", 0, 65536)
    yield case("apply", "!=", "str", a * 65537, "unit", "")
    around = len(case("apply", "==", "str", "", "unit", ""))
    yield case("apply", "==", "str", "6" * (LONGEST - around), "unit", "")
    yield case("apply", "==", "str", "6" * (LONGEST + 1 - around), "unit", "")


# ---- what has to be answered

INT = re.compile("0|-?[1-9][0-9]{0,18}")
PAIRS_OF_DIGITS = re.compile("(?:[0-9a-f]{2})*")


def is_int(v):
    return bool(INT.fullmatch(v)) and LEAST <= int(v) <= GREATEST


def is_utf8(digits):
    try:
        return len(bytes.fromhex(digits).decode())
    except UnicodeDecodeError:
        return None


def is_value(kind, v):
    if kind == "unit":
        return v == ""
    if kind == "bool":
        return v in ("true", "false")
    if kind == "int":
        return is_int(v)
    if kind == "float":
        return bool(re.fullmatch("[0-9a-f]{16}", v))
    if kind in ("excl", "incl"):
        ends = v.split(",")
        return len(ends) == 2 and all(map(is_int, ends))
    if not PAIRS_OF_DIGITS.fullmatch(v):
        return False
    return kind == "blob" or (is_utf8(v) == 1 if kind == "char" else is_utf8(v) is not None)


def unreadable(line):
    """what a line is refused with before any operator is asked, and why"""
    fields = line.split("\t")
    if len(line) > LONGEST or len(fields) != 8 or fields[0] not in ("apply", "assign"):
        return "no\t11", "line: no case"
    form, op, j, v, k, w, string, blob = fields
    if (form, op) not in FORMS or j not in KINDS or k not in KINDS:
        return "no\t1", "line: unknown operator or kind"
    if not all(is_int(n) and int(n) >= 0 for n in (string, blob)) or not is_value(j, v) or not is_value(k, w):
        return "no\t2", "line: unreadable value or limit"
    return None


def is_left_out(form, op, j, k):
    """whether it is a row of the original that is left out"""
    if form == "apply":
        return (op == "**" and (j, k) in (("float", "float"), ("float", "int"), ("int", "float"))) or (op == "-" and j == "str" and k in ("str", "char"))
    return (op == "**=" and j == "float" and k in ("float", "int")) or (op == "-=" and j == "str" and k in ("str", "char"))


def truth(b):
    return "bool\ttrue" if b else "bool\tfalse"


def compared(op, x, y, as_original):
    """a comparison of two floats"""
    if x != x or y != y:
        return truth(op == "!="), "NaN"
    if math.inf in (abs(x), abs(y)):
        return truth(IEEE[op](x, y)), "infinity"
    m = 1.0 if x * y == 0 else max(abs(x), abs(y))
    if (op == ">=" and (x - y) / m == -EPSILON) or (op == "<=" and (y - x) / m == -EPSILON):
        return truth(True), "edge of =="
    return as_original, None


def required(line, original):
    """the answer that a line must have, and the reason for it where it may be another than the original's"""
    refused = unreadable(line)
    if refused:
        return refused
    form, op, j, v, k, w, string, blob = line.split("\t")
    if any(kind in ("str", "blob") and len(x) > 2 * MOST for kind, x in ((j, v), (k, w))):
        return "no\t2", "operand over 65536 bytes"
    if is_left_out(form, op, j, k):
        return "no\t5", "row left out: " + ("float **" if op.startswith("**") else "str -")
    if form == "apply" and op in SIX and (j, k) in (("float", "float"), ("float", "int"), ("int", "float")):
        return compared(op, *(float_of(x) if kind == "float" else float(int(x)) for kind, x in ((j, v), (k, w))), original)
    if form == "apply" and op in ("==", "!=") and {j, k} == {"excl", "incl"}:
        return truth(op == "!="), "== of unequal ranges"
    kind, _, text = original.partition("\t")
    if kind in ("str", "blob"):
        size, limit = len(text) // 2, int(blob if j == "blob" else string)
        if (form, op, k) == ("assign", "+=", "char") and j in ("char", "blob") and 0 < limit < size:
            return "no\t10", "size of %s += char" % j
        if size > MOST:
            return "no\t25", "room for a text"
    return original, None


def translated(answer):
    """an answer of the original, with refusals as numbers"""
    word = answer.split("\t")
    if answer == "norow":
        return "no\t5"
    return "no\t%d" % NUMBERS[word[1]] if word[0] == "err" and word[1] in NUMBERS else answer


def shortened(answer):
    kind, _, text = answer.partition("\t")
    return answer if len(text) <= 1000 else "%s of %d bytes" % (kind, len(text) // 2)


def compare(cases, original, ours, marked=None):
    out = open(marked, "w", encoding="latin-1") if marked else None
    total, unread, differences, counts, bad = 0, 0, 0, {}, 0
    for lines in zip(*(open(name, encoding="latin-1", newline="\n") for name in (cases, original, ours)), strict=True):
        line, theirs, given = (x.removesuffix("\n") for x in lines)
        total += 1
        theirs = translated(theirs)
        answer, why = required(line, theirs)
        is_line = why is not None and why.startswith("line: ")
        if is_line:
            unread += 1
            theirs = "-"
        elif answer != theirs:
            differences += 1
        if answer != theirs:
            counts[why] = counts.get(why, 0) + 1
        if given != answer:
            bad += 1
            if bad <= 20:
                print("%s\n  original: %s\n  required: %s%s\n  ours:     %s" % (line[:300], theirs[:300], answer[:300], " (%s)" % why if why else "", given[:300]))
        if out:
            out.write((theirs if answer == theirs else "%s\t# %s, here %s" % (shortened(theirs), why, answer)) + "\n")
    print("%d lines: %d cases, %d differences from the original; %d that are no readable case" % (total, total - unread, differences, unread))
    for why in sorted(counts):
        print("  %-34s %d" % (why, counts[why]))
    print("%d not explained" % bad)
    return 1 if bad else 0


# which comparisons hold at each order: less, equal, greater, unordered
HOLD = [{"!=", "<", "<="}, {"==", "<=", ">="}, {"!=", ">", ">="}, {"!="}]


def calls(cases, original):
    """the calls of the C functions that the cases stand for, each with what the required answers of these cases say of it"""
    asked = {}
    for line, theirs in zip(*(open(name, encoding="latin-1", newline="\n") for name in (cases, original)), strict=True):
        line, theirs = line.removesuffix("\n"), translated(theirs.removesuffix("\n"))
        if unreadable(line):
            continue
        form, op, j, v, k, w, _, _ = line.split("\t")
        answer = required(line, theirs)[0]
        if answer != "no\t2":
            number = OPS.index(op if form == "apply" or op in OPS[11:] else op.removesuffix("="))
            call = "%s %d %d %d" % ("select" if form == "apply" else "assign", number, KINDS.index(j), KINDS.index(k))
            asked.setdefault(call, set()).add(answer.partition("\t")[0] if not answer.startswith("no") else answer)
        if form == "apply" and op in SIX and (j, k) == ("float", "float"):
            asked.setdefault("compare %s %s" % (v, w), set()).add((op, answer))
    return asked


def fits(call, number, said):
    """whether a number that a C function gave is what the answers say"""
    if call.startswith("compare"):
        return 0 <= number <= 3 and all(answer == truth(op in HOLD[number]) for op, answer in said)
    if "no\t5" in said:
        return number == -5 and len(said) == 1
    return number >= 0 and all(answer.startswith("no") or number >> KINDS.index(answer) & 1 for answer in said)


def compare_calls(program, cases, original):
    asked = calls(cases, original)
    given = subprocess.run([program], input="".join(call + "\n" for call in asked), stdout=subprocess.PIPE, text=True, check=True).stdout.split()
    wrong = [(call, n, said) for (call, said), n in zip(asked.items(), given, strict=True) if not fits(call, int(n), said)]
    for call, n, said in wrong[:20]:
        print("%s\n  gives %s\n  cases: %s" % (call, n, sorted(said)))
    compared = sum(call.startswith("compare") for call in asked)
    print("through C: %d selections and %d comparisons, %d that the cases contradict" % (len(asked) - compared, compared, len(wrong)))
    return 1 if wrong else 0


if __name__ == "__main__":
    args = sys.argv[1:]
    sys.stdout.reconfigure(encoding="latin-1", newline="\n")
    if args[:1] == ["make"] and len(args) == 3:
        for line in make(int(args[1]), int(args[2])):
            print(line)
    elif args == ["telling"]:
        for line in telling():
            print(line)
    elif args[:1] == ["compare"] and len(args) in (4, 5):
        sys.exit(compare(*args[1:]))
    elif args[:1] == ["calls"] and len(args) == 4:
        sys.exit(compare_calls(*args[1:]))
    else:
        sys.exit(__doc__)
