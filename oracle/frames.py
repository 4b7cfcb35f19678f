#!/usr/bin/env python3
"""Writes the texts of `run_frames` and what is expected of them: its own reader of section 7, by a regular expression for each kind of line, and
its own exhaustive test.
    python3 oracle/frames.py forms > crates/run_frames/data/forms
    python3 oracle/frames.py lots > crates/run_frames/data/lots
    python3 oracle/frames.py expected > crates/run_frames/stdout"""
import itertools
import math
import random
import re
import struct
import sys

from discriminant import added, coordinates, right_count

FIRST = ["a10400", "a2000000ffff", "a2010000ffff", "a2020001ffff", "a2030001ffff", "a300014000000000000000", "a300024020000000000000",
         "a300034024000000000000", "a301024018000000000000", "a301034020000000000000", "a302034000000000000000", "af"]


def text(lines):
    return "".join(line + "\n" for line in lines)


def lot(n, strata=0, value=lambda i, j: "%016x" % (0x4000000000000000 + (i << 44) + (j << 36))):
    """The frames of a lot of n samples: header, samples, pairs, end."""
    head = "a1%02x%02x" % (n, strata)
    samples = ["a2%02x%04x%04x" % (k, k % 3, 7 + k % 2) for k in range(n)]
    pairs = ["a3%02x%02x%s" % (i, j, value(i, j)) for i in range(n) for j in range(i + 1, n)]
    return [head] + samples + pairs + ["af"]


def four(labels, strata=None, value=None, more=()):
    """The example's distances with these labels; other samples are at distance 3 of all."""
    near = {(int(f[2:4], 16), int(f[4:6], 16)): f[6:] for f in FIRST[5:-1]}
    labels = list(labels) + list(more)
    n = len(labels)
    given = strata is not None
    strata = list(strata if given else ()) + [0xffff] * n
    samples = ["a2%02x%04x%04x" % (k, labels[k], strata[k]) for k in range(n)]
    pairs = ["a3%02x%02x%s" % (i, j, value or near.get((i, j), "4008000000000000")) for i in range(n) for j in range(i + 1, n)]
    return text(["a1%02x%02x" % (n, given)] + samples + pairs + ["af"])


def scattered(labels, strata=None, apart=0):
    """Enough samples for discriminant scores: uneven distances, longer between labels by `apart`."""
    bits = lambda i, j: "%016x" % struct.unpack(">Q", struct.pack(">d", 1 + (31 * i + 17 * j) % 23 / 7 + apart * (labels[i] != labels[j])))
    frames = lot(len(labels), int(strata is not None), bits)
    for k, label in enumerate(labels):
        frames[1 + k] = "a2%02x%04x%04x" % (k, label, strata[k] if strata else 0xffff)
    return text(frames)


def two(bits):
    return text(["a10201", "a2000001000f", "a2010002ffff", "a30001" + bits, "af"])


def mixed(s):
    return "".join(c.upper() if k % 3 else c for k, c in enumerate(s))


def forms():
    """How a text is written: its bytes, its lines, n, and frames in their order."""
    random.seed(7)
    example = text(FIRST)
    yield "example", example
    yield "no final line feed", example[:-1]
    yield "two final line feeds", example + "\n"
    yield "upper case", example.upper()
    yield "mixed case", mixed(example)
    yield "empty", ""
    yield "one line feed", "\n"
    yield "an empty line between", example.replace("af", "\naf")
    yield "a line feed in front", "\n" + example
    yield "carriage returns", example.replace("\n", "\r\n")
    yield "a space in front", " " + example
    yield "a space behind", example.replace("af\n", "af \n")
    yield "a space between digits", example.replace("a10400", "a1 0400")
    yield "a tab", example.replace("a10400", "a1\t400")
    yield "the bytes 1 and 127", example.replace("a10400", "a1\x01\x7f00")
    yield "bytes above 127", example.replace("a10400", "a1\u00e900")
    yield "the byte before 0", example.replace("a10400", "a1/400")
    yield "the byte after 9", example.replace("a10400", "a1:400")
    yield "the byte before A", example.replace("a10400", "a1@400")
    yield "the byte after F", example.replace("a10400", "a1G400")
    yield "the byte before a", example.replace("a10400", "a1`400")
    yield "the byte after f", example.replace("a10400", "a1g400")
    yield "a prefix 0x", example.replace("a10400", "a10x400")
    for n in (0, 1, 2, 3):
        yield "n = %d" % n, text(lot(n))
        yield "n = %d with strata" % n, text(lot(n, 1))
    yield "strata neither 00 nor 01", text(lot(2, 2))
    yield "strata ff", text(lot(2, 255))
    yield "n = 32", text(lot(32))
    big = lot(32)
    pairs = big[33:-1]
    random.shuffle(pairs)
    yield "n = 32, pairs in another order", text(big[:33] + pairs + ["af"])
    yield "n = 33", text(lot(33))
    yield "n = 255", text(["a1ff00", "af"])
    yield "no frames but the end", text(["af"])
    yield "no header", text(FIRST[1:])
    yield "a1 twice", text(FIRST[:1] + FIRST)
    yield "a1 among samples", text(FIRST[:3] + FIRST[:1] + FIRST[3:])
    yield "a1 too short", text(["a1000", "af"])
    yield "a1 too long", text(["a100000", "af"])
    yield "a2 out of order", text(FIRST[:1] + [FIRST[2], FIRST[1]] + FIRST[3:])
    yield "a2 twice", text(FIRST[:2] + FIRST[1:])
    yield "a2 missing", text(FIRST[:1] + FIRST[2:])
    yield "a2 too many", text(FIRST[:5] + ["a2040001ffff"] + FIRST[5:])
    yield "a2 without a stratum", text(FIRST[:1] + ["a2000000"] + FIRST[2:])
    yield "a pair missing", text(FIRST[:6] + FIRST[7:])
    yield "a pair twice", text(FIRST[:6] + FIRST[5:])
    yield "a pair in place of another", text(FIRST[:6] + [FIRST[5]] + FIRST[7:])
    yield "a pair turned round", text(FIRST[:5] + ["a301004000000000000000"] + FIRST[6:])
    yield "i = j", text(FIRST[:5] + ["a300004000000000000000"] + FIRST[6:])
    yield "j beyond n", text(FIRST[:5] + ["a300044000000000000000"] + FIRST[6:])
    yield "i and j beyond n", text(FIRST[:5] + ["a304054000000000000000"] + FIRST[6:])
    yield "pairs in another order", text(FIRST[:5] + FIRST[5:-1][::-1] + ["af"])
    yield "a pair among samples", text(FIRST[:4] + FIRST[5:6] + FIRST[4:5] + FIRST[6:])
    yield "15 digits", text(FIRST[:5] + ["a30001400000000000000"] + FIRST[6:])
    yield "17 digits", text(FIRST[:5] + ["a3000140000000000000000"] + FIRST[6:])
    yield "a line of 200 digits", text(FIRST[:5] + ["a30001" + "4" * 194] + FIRST[6:])
    yield "a line of one digit", text(FIRST[:5] + ["a"] + FIRST[5:])
    yield "another kind", text(FIRST[:5] + ["a400014000000000000000"] + FIRST[6:])
    yield "an answer's kind", text(["b10400"] + FIRST[1:])
    yield "af missing", text(FIRST[:-1])
    yield "af missing, no final line feed", text(FIRST[:-1])[:-1]
    yield "af twice", text(FIRST + ["af"])
    yield "af with a number", text(FIRST[:-1] + ["af00"])
    yield "af, then a digit", example + "0"
    yield "af, then a space", example + " "
    yield "af, then the lot again", example + example
    yield "af first", text(["af"] + FIRST)
    yield "two texts on one line", example.replace("\n", "")


def lots():
    """What a lot holds: distances, labels, strata."""
    yield "NaN", two("7ff8000000000000")
    yield "a signalling NaN", two("7ff0000000000001")
    yield "a negative NaN", two("fff8000000000001")
    yield "infinity", two("7ff0000000000000")
    yield "minus infinity", two("fff0000000000000")
    yield "-1", two("bff0000000000000")
    yield "-0.0", two("8000000000000000")
    yield "0.0", two("0000000000000000")
    yield "the smallest subnormal", two("0000000000000001")
    yield "the largest subnormal", two("000fffffffffffff")
    yield "the smallest normal", two("0010000000000000")
    yield "2^20", two("4130000000000000")
    yield "the f64 after 2^20", two("4130000000000001")
    yield "the largest f64", two("7fefffffffffffff")
    yield "labels 0, 1, 0, 1", four((0, 1, 0, 1))
    yield "labels 0, 1, 1, 0", four((0, 1, 1, 0))
    yield "labels 65534 and 3", four((65534, 65534, 3, 3))
    yield "labels 0, 0, 1", text(["a10300", "a2000000ffff", "a2010000ffff", "a2020001ffff"] + [f for f in FIRST[5:-1] if f[4:6] != "03"] + ["af"])
    yield "one label", four((2, 2, 2, 2))
    yield "no labels", four((65535,) * 4)
    yield "all distances 0", four((0, 0, 1, 1), value="0" * 16)
    yield "all distances -0.0", four((0, 0, 1, 1), value="8" + "0" * 15)
    yield "all distances 2^20", four((0, 0, 1, 1), value="4130000000000000")
    yield "all distances above 2^20", four((0, 0, 1, 1), value="4130000000000001")
    yield "all distances the smallest subnormal", four((0, 0, 1, 1), value="0" * 15 + "1")
    yield "all distances 1/3", four((0, 0, 1, 1), value="3fd5555555555555")
    yield "strata 0, 0, 1, 1", four((0, 0, 1, 1), (0, 0, 1, 1))
    yield "strata 0, 1, 0, 1", four((0, 0, 1, 1), (0, 1, 0, 1))
    yield "strata 5, 5, 5, 5", four((0, 0, 1, 1), (5, 5, 5, 5))
    yield "strata 9, 9, 9, none", four((0, 0, 1, 1), (9, 9, 9, 65535))
    yield "strata 9, none, 9, none", four((0, 0, 1, 1), (9, 65535, 9, 65535))
    yield "strata 0, 1, 1, 2", four((0, 0, 1, 1), (0, 1, 1, 2))
    yield "strata not given", four((0, 0, 1, 1)).replace("a2000000ffff", "a20000000001")
    yield "a sample with no label", four((0, 0, 1, 1), more=(65535,))
    yield "a label held once", four((0, 0, 1, 1), more=(7,))
    yield "a label held once, no label, strata", four((0, 0, 1, 1), (1, 1, 1, 2, 2, 2), more=(7, 65535))
    yield "a distance of a sample not kept is NaN", four((0, 0, 1, 1), more=(7,)).replace("a303044008000000000000", "a303047ff8000000000000")
    yield "NaN, and af missing", two("7ff8000000000000").replace("af\n", "")
    yield "an assignment", scattered((0, 0, 0, 1, 1, 1))
    yield "an assignment, strata, no label", scattered((0, 1, 0, 65535, 1, 0, 1), (4, 4, 4, 4, 4, 2, 2), 2)
    yield "an assignment to three groups", scattered((0, 0, 1, 1, 2, 2, 0, 1))
    yield "8 and 8", scattered((0,) * 8 + (1,) * 8)
    yield "9 and 9", four([k % 2 for k in range(18)])
    yield "5 pairs, a negative distance", four([k // 2 for k in range(10)]).replace("a308094008", "a30809c008")


def large():
    """Texts that `run_frames` makes itself."""
    yield "1 MiB of the byte 0", "\0" * 2**20
    yield "1 MiB of the digit 0", "0" * 2**20


KINDS = {"a1": r"a1(..)(..)", "a2": r"a2(..)(....)(....)", "a3": r"a3(..)(..)(.{16})", "af": r"af"}


def frame(line):
    if not re.fullmatch(r"[0-9a-f]+", line, re.A):
        return None
    for kind, form in KINDS.items():
        m = re.fullmatch(form, line)
        if m:
            return (kind,) + tuple(int(g, 16) for g in m.groups())
    return None


def read(t):
    """(n, strata given, labels, strata, bits) or None."""
    t = t.lower() if not re.search("[^\x00-\x7f]", t) else t
    if t.endswith("\n"):
        t = t[:-1]
    fs = [frame(line) for line in t.split("\n")]
    if None in fs or fs[0][0] != "a1" or fs[0][1] > 32 or fs[0][2] > 1:
        return None
    n = fs[0][1]
    if len(fs) != 1 + n + n * (n - 1) // 2 + 1 or fs[-1] != ("af",):
        return None
    samples, pairs = fs[1:1 + n], fs[1 + n:-1]
    if any(f[0] != "a2" or f[1] != k for k, f in enumerate(samples)):
        return None
    if any(f[0] != "a3" for f in pairs) or {(f[1], f[2]) for f in pairs} != {(i, j) for i in range(n) for j in range(i + 1, n)}:
        return None
    bits = [0] * 1024
    for f in pairs:
        bits[f[1] * n + f[2]] = bits[f[2] * n + f[1]] = f[3]
    return n, fs[0][2], [f[2] for f in samples] + [0] * (32 - n), [f[3] for f in samples] + [0] * (32 - n), bits


def told(t):
    r = read(t)
    if r is None:
        return " refused 0c"
    n, given, labels, strata, bits = r
    bits = [0x7ff8000000000000 if b % 2**63 > 0x7ff0000000000000 else b for b in bits]
    h = 1
    for x in labels + strata + bits:
        h = (h << 5) % 2**64 ^ h >> 59 ^ x
    words = ["%02x" % n] + ["strata"] * given + ["%04x %04x" % (labels[k], strata[k]) for k in (0, 1)]
    return "".join(" " + w for w in words + ["%016x" % b for b in bits[:4]] + ["%016x" % h])


def judged(t):
    """What is printed of a text."""
    r = read(t)
    if r is None:
        return "bf0c\n"
    n, given, labels, strata, bits = r
    d = [struct.unpack(">d", struct.pack(">Q", b))[0] for b in bits[:n * n]]
    labels = labels[:n]
    if not all(0 <= x <= 2.0**20 for x in d):
        return "bf03\n"
    held = [k for k in range(n) if labels[k] != 65535 and labels.count(labels[k]) > 1]
    names = sorted({labels[k] for k in held})
    m, g = len(held), len(names)
    if g < 2:
        return "bf05\n"
    own = tuple(names.index(labels[k]) for k in held)
    where = [(0, 0) if not given else (1, k) if strata[k] == 65535 else (0, strata[k]) for k in held]
    groups = [[k for k in range(m) if where[k] == s] for s in sorted(set(where))]
    count = 1
    for ks in groups:
        count *= math.factorial(len(ks))
        for x in range(g):
            count //= math.factorial(sum(own[k] == x for k in ks))
    if count > 20000:
        return "bf08\n"
    square = [[d[a * n + b] * d[a * n + b] for b in held] for a in held]
    f, z, below = statistics(own, square, m, g)
    ways = set()
    for parts in itertools.product(*[list(arrangements([own[k] for k in ks])) for ks in groups]):
        way = [None] * m
        for ks, part in zip(groups, parts):
            for k, x in zip(ks, part):
                way[k] = x
        ways.add(tuple(way))
    assert len(ways) == count
    each = [statistics(way, square, m, g) for way in ways]
    xs = coordinates(d, n, 8)
    xs = [xs[k] for k in held]
    rights = [right_count(xs, way, g) for way in ways]
    informs = sum(len(ks) for ks in groups if len({own[k] for k in ks}) > 1)
    once = any(x != 65535 and labels.count(x) == 1 for x in labels)
    small = min(own.count(x) for x in range(g)) < 5
    warnings = once + 2 * (given and informs == 0) + 4 * (informs / m < 0.5 and informs > 0) + 8 * small + 16 * below
    return ("b1%02x%02x%08x\n" % (m, g, count) + tested("b2", f, hits(f, [w[0] for w in each])) + tested("b3", z, hits(z, [w[1] for w in each]))
            + "b4%02x\n" % warnings + assigned(right_count(xs, own, g), rights))


def arrangements(labels):
    """Each order of the labels, equal ones counted once."""
    if not labels:
        yield ()
    for x in sorted(set(labels)):
        rest = list(labels)
        rest.remove(x)
        for more in arrangements(rest):
            yield (x,) + more


def quotient(a, b):
    """None where it is not finite."""
    if a is None or b is None or b == 0:
        return None
    return a / b if math.isfinite(a / b) else None


def statistics(way, square, m, g):
    """Location F, dispersion F, None where not finite, and whether some dispersion value is below 0. Weights are 1."""
    groups = [[k for k in range(m) if way[k] == x] for x in range(g)]
    total = added(added(square[a][b] for b in range(a + 1, m)) for a in range(m)) / m
    within = added(added((square[a][b] for a in ks for b in ks if b > a), 0.0) / len(ks) for ks in groups)
    f = quotient((total - within) / (g - 1), within / (m - g))
    z, below = [0.0] * m, False
    for ks in groups:
        inside = added((square[a][b] for a in ks for b in ks), 0.0)
        for a in ks:
            v = added(square[a][b] for b in ks) / len(ks) - inside / (2.0 * len(ks) * len(ks))
            below = below or v < 0
            z[a] = math.sqrt(max(v, 0.0))
    grand = added(z) / m
    means = [added(z[k] for k in ks) / len(ks) for ks in groups]
    between = added(len(ks) * ((mean - grand) * (mean - grand)) for ks, mean in zip(groups, means))
    inner = added((z[k] - means[way[k]]) * (z[k] - means[way[k]]) for k in range(m))
    return f, quotient(between / (g - 1), inner / (m - g)), below


def hits(f, others):
    return sum(o is None or f is not None and o >= f - 1e-12 * abs(f) for o in others)


def tested(kind, f, hits):
    state, b = (0, 0) if f is None else (1, struct.unpack(">Q", struct.pack(">d", f))[0])
    return "%s%02x%016x%08x\n" % (kind, state, b, hits)


def assigned(right, others):
    if right is None:
        return "b5020000000000\n"
    return "b501%02x%08x\n" % (right, sum(o is not None and o >= right for o in others))


def verdict(kept, ways, f, hits, assigned):
    return "b1%02x02%08x\n" % (kept, ways) + tested("b2", f, hits) + tested("b3", None, ways) + "b408\n" + assigned


if sys.argv[1:] == ["expected"]:
    for name, t in itertools.chain(forms(), lots(), large()):
        print(name + told(t))
        sys.stdout.write(judged(t))
    print(verdict(4, 6, 32.0, 2, assigned(None, [])) + verdict(32, 20000, -0.0, 10, assigned(31, [31] * 19999)) + "bf01\nbf0b\nbf0c")
else:
    texts = list({"forms": forms, "lots": lots}[sys.argv[1]]())
    for name, t in texts:
        assert "|" not in name + t and "#" not in name + t
    whole = "".join(name + "|" + t + "#" for name, t in texts)
    assert len(whole.encode()) <= 65536  # what `run_frames` reads of a file
    sys.stdout.write(whole)
