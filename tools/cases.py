#!/usr/bin/env python3
"""An independent translator, and the cases that the programs `cases` and `worked` are held to.

It follows docs/ and shares no code with the crates. `python3 tools/cases.py crates/cases`
writes crates/cases/stdin, the schedule files of all cases, and crates/cases/stdout, what this
translator makes of them; `python3 tools/cases.py worked crates/worked` likewise the worked lines of
each encoder. `python3 tools/cases.py translate < FILE` translates one file, and
`python3 tools/cases.py sizes` holds the sizes that docs/encoders.md gives against this translator's lists.

A case in stdin: the name's length (2 bytes, high byte first), the name, the file's length (2 bytes),
the file.
"""
import math
import random
import struct
import sys

INPUT, LINES, TERMS, TEXT, CLAUSES = 8192, 24, 512, 24576, 4000
DIRECT, ORDER, NUMBERS = 12, 16384, 60000


class Refused(Exception):
    pass


def refuse(number, layer, place, offset):
    raise Refused(f"refused {number} {layer} {place} {offset}\n")


class Reader:
    def __init__(self, data):
        self.data, self.at = data, 0

    def record(self, due):
        """The mark and the body of the next record, and its offset."""
        at, data = self.at, self.data
        sizes = {b"CH": 2, b"LN": 6, b"TM": 6, b"EN": 0}
        mark = data[at:at + 2]
        if len(mark) < 2:
            refuse(17, "file", at, at)
        if mark not in due:
            refuse(18, "file", at, at)
        body = data[at + 2:at + 2 + sizes[mark]]
        if len(body) < sizes[mark]:
            refuse(17, "file", at, at)
        self.at = at + 2 + len(body)
        return mark, body, at


def read(data):
    """The number of variables, and the lines as (relation, bound, [(weight, literal)])."""
    reader = Reader(data)
    _, body, at = reader.record([b"CH"])
    (variables,) = struct.unpack(">H", body)
    if not 1 <= variables <= 256:
        refuse(1, "book", 0, at)
    lines, used = [], 0
    while True:
        mark, body, at = reader.record([b"LN", b"EN"])
        if mark == b"EN":
            if reader.at != len(data):
                refuse(19, "file", reader.at, reader.at)
            return variables, lines
        relation, count, bound = struct.unpack(">BBi", body)
        if not 1 <= relation <= 5:
            refuse(2, "lines", 0, at)
        if abs(bound) > 1_000_000:
            refuse(3, "lines", 0, at)
        if count > 64:
            refuse(4, "lines", 0, at)
        terms = []
        for _ in range(count):
            _, body, where = reader.record([b"TM"])
            weight, literal = struct.unpack(">ih", body)
            terms.append((weight, literal, where))
        for i, (weight, literal, where) in enumerate(terms, 1):
            if literal == 0 or abs(literal) > variables:
                refuse(5, "lines", i, where)
            if abs(weight) > 10_000:
                refuse(6, "lines", i, where)
        if len(lines) == LINES or used + count > TERMS:
            refuse(7, "book", len(lines), at)
        used += count
        lines.append((relation, bound, [(w, l) for w, l, _ in terms]))


def normal(variables, line):
    """(exact, bound, [(weight, literal)]) with positive weights by rising variable."""
    relation, bound, terms = line
    if relation == 4:
        relation, bound = 1, bound + 1
    if relation == 5:
        relation, bound = 2, bound - 1
    if relation == 2:
        relation, bound, terms = 1, -bound, [(-w, l) for w, l in terms]
    net = {}
    for w, l in terms:
        if l > 0:
            net[l] = net.get(l, 0) + w
        else:
            net[-l] = net.get(-l, 0) - w
            bound -= w
    out = []
    for v in sorted(net):
        if net[v] > 0:
            out.append((net[v], v))
        elif net[v] < 0:
            out.append((-net[v], -v))
            bound -= net[v]
    if bound < 0:
        return (False, 0, out) if relation == 1 else (False, 1, [])
    return relation == 3, bound, out


def tighten(form):
    exact, bound, terms = form
    impossible = (False, 1, [])
    total = sum(w for w, _ in terms)
    if bound == 0 and (not terms or not exact):
        return False, 0, []
    if total < bound:
        return impossible
    if not exact:
        terms = [(min(w, bound), l) for w, l in terms]
    divisor = math.gcd(*(w for w, _ in terms))
    if exact and bound % divisor:
        return impossible
    return exact, -(-bound // divisor), [(w // divisor, l) for w, l in terms]


def least_sets(weights, bound):
    """The sets of places, by rising mask, that no assignment meeting the bound can all miss, none to spare."""
    n = len(weights)
    for mask in range(1 << n):
        inside = [i for i in range(n) if mask >> i & 1]
        out = sum(weights) - sum(weights[i] for i in inside)
        if out < bound and all(out + weights[i] >= bound for i in inside):
            yield inside


def direct(form):
    exact, bound, terms = form
    weights = [w for w, _ in terms]
    clauses = [[terms[i][1] for i in s] for s in least_sets(weights, bound)]
    if exact:
        clauses += [[-terms[i][1] for i in s] for s in least_sets(weights, sum(weights) - bound)]
    return clauses


def order(form, first):
    """The clauses of a counter matrix whose entries are numbered from `first`, row by row."""
    exact, bound, terms = form
    columns = bound + 1 if exact else bound

    def entry(i, j):
        if j <= 0:
            return True
        return first + (i - 1) * columns + j - 1 if i else False

    def negated(part):
        return not part if isinstance(part, bool) else -part

    clauses = []

    def give(*parts):
        if not any(p is True for p in parts):
            clauses.append([p for p in parts if p is not False])

    for i, (weight, literal) in enumerate(terms, 1):
        for j in range(1, columns + 1):
            give(negated(entry(i - 1, j)), entry(i, j))
            give(-literal, negated(entry(i - 1, j - weight)), entry(i, j))
            give(literal, entry(i - 1, j), negated(entry(i, j)))
            give(entry(i - 1, j - weight), negated(entry(i, j)))
    give(entry(len(terms), bound))
    if exact:
        give(negated(entry(len(terms), bound + 1)))
    return clauses


def write(form, taken, number):
    """The line's clauses, and how many numbers are taken then."""
    exact, bound, terms = form
    if len(terms) <= DIRECT:
        return direct(form), taken
    takes = len(terms) * (bound + 1 if exact else bound)
    if takes > ORDER:
        refuse(10, "book", number, 0)
    if taken + takes > NUMBERS:
        refuse(11, "book", number, 0)
    return order(form, taken + 1), taken + takes


def translate(data):
    try:
        variables, lines = read(data[:INPUT])
        text, count, taken = "", 0, variables
        for number, line in enumerate(lines, 1):
            clauses, taken = write(tighten(normal(variables, line)), taken, number)
            rows = "".join("".join(f"{l} " for l in c) + "0\n" for c in clauses)
            if len(text) + len(rows) > TEXT or count + len(clauses) > CLAUSES:
                refuse(15, "sheet", count, 0)
            text, count = text + rows, count + len(clauses)
        return f"p cnf {taken} {count}\n{text}"
    except Refused as r:
        return str(r)


# ---- the cases

def ch(n):
    return b"CH" + struct.pack(">H", n)


def ln(relation, bound, terms=(), count=None):
    head = b"LN" + struct.pack(">BBi", relation, len(terms) if count is None else count, bound)
    return head + b"".join(b"TM" + struct.pack(">ih", w, l) for w, l in terms)


EN = b"EN"
EXAMPLE = ch(3) + ln(1, 4, [(1, 1), (2, 2), (3, 3)]) + EN


def cut_and_marks():
    yield "the example", EXAMPLE
    for k in range(len(EXAMPLE)):
        yield f"cut after {k} bytes", EXAMPLE[:k]
    for at in (0, 4, 12, 20, 28, 36):
        for mark in (b"CH", b"LN", b"TM", b"EN", b"ch", b"\0\0", b"LM", b"MN", b"TN", b"EM"):
            yield f"mark {mark!r} at {at}", EXAMPLE[:at] + mark + EXAMPLE[at + 2:]
    for tail in (b"\0", b"E", b"EN", b"LN\x01\0\0\0\0\0EN"):
        yield f"{len(tail)} bytes after the last record", EXAMPLE + tail
    yield "no lines", ch(1) + EN
    yield "variables only", ch(1)


def ranges():
    one = [(1, 1)]
    for n in (0, 1, 2, 255, 256, 257, 65535):
        yield f"{n} variables", ch(n) + EN
    for r in (0, 1, 2, 3, 4, 5, 6, 255):
        yield f"relation {r}", ch(1) + ln(r, 1, one) + EN
    for b in (-2**31, -1_000_001, -1_000_000, -1, 0, 1, 1_000_000, 1_000_001, 2**31 - 1):
        for r in (1, 2, 3, 4, 5):
            yield f"relation {r}, bound {b}", ch(2) + ln(r, b, [(1, 1), (1, 2)]) + EN
    for k in (0, 12, 63, 64, 65, 255):
        yield f"{k} terms on one variable", ch(1) + ln(1, 1, one * k) + EN
        yield f"{k} terms announced, none there", ch(1) + ln(1, 1, [], k) + EN
    for l in (-32768, -257, -256, -255, -1, 0, 1, 255, 256, 257, 32767):
        yield f"literal {l} of 256", ch(256) + ln(1, 1, [(1, l)]) + EN
    for l in (-4, -3, 0, 3, 4):
        yield f"literal {l} of 3", ch(3) + ln(1, 1, [(1, 1), (1, l)]) + EN
    for w in (-2**31, -10_001, -10_000, -1, 0, 1, 10_000, 10_001, 2**31 - 1):
        yield f"weight {w}", ch(2) + ln(1, 1, [(1, 1), (w, 2)]) + EN
    for w in (-10_000, 10_000):
        for b in (-1_000_000, 1_000_000):
            for r in (1, 2, 3, 4, 5):
                for l in (1, -1):
                    yield f"64 times {w} on {l}, relation {r}, bound {b}", ch(1) + ln(r, b, [(w, l)] * 64) + EN


def forms():
    yield "a negative weight", ch(2) + ln(1, 1, [(1, 1), (-2, 2)]) + EN
    yield "both signs of a variable", ch(2) + ln(2, 2, [(3, 1), (2, -1), (1, 2)]) + EN
    yield "cancelled to nothing", ch(1) + ln(1, 1, [(1, 1), (1, -1)]) + EN
    yield "exactly below 0", ch(1) + ln(3, -1, [(1, 1)]) + EN
    yield "weights with a divisor", ch(3) + ln(1, 9, [(6, 1), (4, 2), (4, 3)]) + EN
    yield "a divisor that does not divide", ch(2) + ln(3, 5, [(6, 1), (4, 2)]) + EN
    yield "a divisor that divides", ch(2) + ln(3, 4, [(6, 1), (4, 2)]) + EN
    yield "a weight above the bound", ch(3) + ln(1, 2, [(9, 1), (1, 2), (1, 3)]) + EN
    yield "a weight above an exact bound", ch(2) + ln(3, 2, [(3, 1), (1, 2)]) + EN
    yield "13 terms that everything meets", ch(13) + ln(1, 0, [(1, v) for v in range(1, 14)]) + EN
    yield "13 terms that nothing meets", ch(13) + ln(1, 14, [(1, v) for v in range(1, 14)]) + EN
    yield "exactly, sum below the bound", ch(2) + ln(3, 9, [(1, 1), (1, 2)]) + EN
    yield "exactly 0", ch(2) + ln(3, 0, [(1, 1), (1, 2)]) + EN
    yield "exactly all", ch(2) + ln(3, 2, [(1, 1), (1, 2)]) + EN
    for r in (1, 2, 3, 4, 5):
        for b in (-1, 0, 1, 2):
            yield f"no terms, relation {r}, bound {b}", ch(1) + ln(r, b) + EN
    for k in (11, 12, 13, 64):
        yield f"{k} terms, any one", ch(64) + ln(1, 1, [(1, v) for v in range(1, k + 1)]) + EN
        yield f"{k} terms, then a fault of the file", ch(64) + ln(1, 1, [(1, v) for v in range(1, k + 1)]) + b"XX"
    yield "13 terms of which one cancels", ch(64) + ln(1, 2, [(1, v) for v in range(1, 14)] + [(1, -13)]) + EN
    long = ln(1, 1, [(1, v) for v in range(1, 14)])
    yield "the second of two lines has 13 terms", ch(64) + ln(1, 1, [(1, 1)]) + long + EN


def matrices():
    """Lines of more than 12 terms, which take auxiliaries."""
    thirteen = [(1 + v % 3, v if v % 4 else -v) for v in range(1, 14)]
    for r in (1, 3):
        for b in (1, 2, 7, 26, 27):
            yield f"13 terms, relation {r}, bound {b}", ch(13) + ln(r, b, thirteen) + EN
    for r, b in ((2, 20), (4, 3), (5, 22)):
        yield f"13 terms, relation {r}", ch(20) + ln(r, b, thirteen) + EN
    ones = [(1, v) for v in range(1, 65)]
    heavy = [(1 + v % 2 * 9_999, v) for v in range(1, 14)]
    yield "13 terms exactly 0", ch(13) + ln(3, 0, thirteen) + EN
    yield "13 heavy terms, one column", ch(13) + ln(1, 1, heavy) + EN
    yield "two lines of 13 terms number on", ch(13) + ln(1, 3, thirteen) + ln(3, 2, thirteen) + EN
    between = ln(1, 3, thirteen) + ln(1, 1, [(1, 1)]) + ln(1, 2, thirteen)
    yield "a line without auxiliaries between two with", ch(13) + between + EN
    odd = [(3, v) for v in range(1, 64)] + [(1, 64)]
    for b in (128, 130, 131, 191):
        yield f"64 terms of 3 but one, at least {b}", ch(64) + ln(1, b, odd) + EN
    wide = [(5, v) for v in range(1, 64)] + [(1, 64)]
    for r, b in ((1, 256), (1, 257), (3, 254), (3, 255), (3, 256)):
        yield f"64 terms in or out of reach, relation {r}, bound {b}", ch(64) + ln(r, b, wide) + EN
    yield "a fault of the file after a line out of reach", ch(64) + ln(1, 257, wide) + b"XX"
    unfit = ln(1, 2, thirteen) + ln(1, 256, wide)
    yield "a line in reach whose clauses do not fit, after one that does", ch(64) + unfit + EN
    yield "at least 3 of 64", ch(64) + ln(1, 3, ones) + EN


def limits():
    one = ln(1, 1, [(1, 1)])
    for k in (23, 24, 25):
        yield f"{k} lines", ch(1) + one * k + EN
        yield f"{k} lines without terms", ch(1) + ln(1, 0) * k + EN
    full = ln(1, 0, [(0, 1)] * 64)
    for k in (0, 1):
        yield f"512 terms and {k} more", ch(1) + full * 8 + ln(1, 0, [(1, 1)] * k) + EN
    yield "510 terms and 3 more", ch(1) + full * 7 + ln(1, 0, [(1, 1)] * 62) + ln(1, 0, [(1, 1)] * 3) + EN
    yield "the 25th line cut short", ch(1) + one * 24 + ln(1, 1, [], 1) + b"TM"
    yield "the 25th line with a bad literal", ch(1) + one * 24 + ln(1, 1, [(1, 2)]) + EN
    six = ln(1, 6, [(1, v) for v in range(1, 12)])
    for k in (1, 2, 3):
        yield f"{k} lines of 462 clauses of six", ch(11) + six * k + EN
    exact = ln(3, 6, [(1, v) for v in range(1, 12)])
    yield "an exact line whose second half does not fit", ch(12) + six + exact * 2 + EN
    wide = ln(1, 7, [(1, -v) for v in range(244, 256)])
    yield "more text in one line than there is room", ch(256) + wide + EN


def printed(line):
    return len(translate(ch(256) + line + EN).split("\n", 1)[1])


def exact_room():
    """A text that fills its memory to the last byte, and the same with one byte more in the last row."""
    units = {4: 9, 5: 99, 6: 100, 7: -100}
    sixes = ln(1, 7, [(1, v) for v in range(100, 112)])
    few = (ln(1, n // 2 + 1, [(1, v) for v in range(10, 10 + n)]) for n in range(1, 11))
    smaller = sorted(((printed(l), l) for l in few), reverse=True)
    data, left = ch(256) + sixes, TEXT - printed(sixes)
    while left > 6:
        size, line = next((size, line) for size, line in smaller if left - size >= 4)
        data, left = data + line, left - size
    for over in (-1, 0, 1):
        if left + over in units:
            yield f"text with {over} bytes over its memory", data + ln(1, 1, [(1, units[left + over])]) + EN


def two_faults():
    bad = [(10_001, 0)]
    yield "no variables and a bad mark after", ch(0) + b"XX"
    yield "bad relation and bad bound and 65 terms", ch(1) + ln(0, 2_000_000, [], 65)
    yield "bad bound and 65 terms", ch(1) + ln(1, 2_000_000, [], 65)
    yield "65 terms and no term there", ch(1) + ln(1, 0, [], 65)
    yield "bad relation, cut short after it", ch(1) + ln(9, 0, [], 1)
    yield "bad literal and bad weight in one term", ch(1) + ln(1, 0, bad) + EN
    yield "bad weight, then a bad literal", ch(1) + ln(1, 0, [(10_001, 1), (1, 2)]) + EN
    yield "bad literal, then a bad weight", ch(1) + ln(1, 0, [(1, 2), (10_001, 1)]) + EN
    yield "bad literal, but the next term is cut short", ch(1) + ln(1, 0, [(1, 2)], 2) + b"TM\0"
    yield "bad literal, but the next mark is wrong", ch(1) + ln(1, 0, [(1, 2)], 2) + b"LN" + bytes(6)
    yield "bad literal in a whole line, then a wrong mark", ch(1) + ln(1, 0, [(1, 2)]) + b"XX"
    yield "a wrong mark where the record is cut short too", ch(1) + b"TM"
    yield "one byte where a mark is due", ch(1) + b"X"
    yield "a second CH", ch(1) + ch(1) + EN
    long = ln(1, 1, [(1, v) for v in range(1, 14)])
    yield "13 terms in line 1, a bad relation in line 2", ch(13) + long + ln(0, 0) + EN
    yield "13 terms in line 1, bytes after the end", ch(13) + ln(1, 1, [(1, v) for v in range(1, 14)]) + EN + b"!"


def random_file(rng):
    n = rng.choice((1, 2, 3, 5, 9, 30, 256))
    out = ch(n)
    for _ in range(rng.randrange(5)):
        k = rng.choice((0, 1, 2, 3, 4, 6, 8, 11))
        big = rng.choice((1, 3, 9, 10_000))
        terms = []
        for _ in range(k):
            terms.append((rng.randint(-big, big), rng.choice((1, -1)) * rng.randint(1, n)))
        total = sum(abs(w) for w, _ in terms)
        out += ln(rng.randint(1, 5), rng.randint(-total - 2, total + 2), terms)
    return out + EN


def random_cases():
    rng = random.Random(20)
    for i in range(150):
        yield f"random file {i}", random_file(rng)
    for i in range(100):
        data = bytearray(random_file(rng))
        for _ in range(rng.choice((1, 1, 2))):
            data[rng.randrange(len(data))] = rng.choice((0, 1, 0x7F, 0x80, 0xFF, rng.randrange(256)))
        yield f"damaged file {i}", bytes(data)


def random_matrices():
    """Files of one or two lines of 11 to 15 terms, light enough to be written."""
    rng = random.Random(21)
    for i in range(40):
        n = rng.randint(11, 20)
        out = ch(n)
        for _ in range(rng.randint(1, 2)):
            names = rng.sample(range(1, n + 1), rng.randint(11, min(n, 15)))
            terms = [(rng.choice((1, 1, 2)), rng.choice((v, -v))) for v in names]
            out += ln(rng.choice((1, 3, 4)), rng.randint(-2, 4), terms)
        yield f"random matrices {i}", out + EN


def cases():
    ends = (limits, exact_room, two_faults)
    for group in (cut_and_marks, ranges, forms, matrices, *ends, random_cases, random_matrices):
        yield from group()


# ---- lines by encoder

ROOM = 65_536


def ones(n):
    return [(1, v) for v in range(1, n + 1)]


def worked_lines():
    """(encoder, exact, bound, first auxiliary, terms): the worked lines of the encoders' tables, and more."""
    small = [(1, 1), (2, 2)]
    yield "direct", False, 4, 4, [(1, 1), (2, 2), (3, 3)]
    yield "direct", True, 1, 3, small
    yield "order", False, 2, 3, [(2, 1), (1, 2)]
    for encoder in ("direct", "order"):
        for exact in (False, True):
            for bound in range(6):
                yield encoder, exact, bound, 3, small
                yield encoder, exact, bound, 3, [(2, -1), (1, 2)]
            for bound in (0, 1, 2):
                yield encoder, exact, bound, 1, []
                yield encoder, exact, bound, 2, [(1, 1)]
    for bound in (0, 1, 6, 7, 12, 13):
        yield "direct", False, bound, 13, ones(12)
        yield "direct", True, bound, 13, ones(12)
    yield "direct", False, 1, 14, ones(13)
    for exact, bound in ((False, 256), (False, 257), (True, 255), (True, 256)):
        yield "order", exact, bound, 65, ones(64)
    yield "order", False, 256, 66, ones(65)
    yield "order", False, 20, 65, ones(64)
    yield "order", False, 1, 59_936, ones(64)
    yield "order", False, 1, 59_937, ones(64)
    yield "order", False, 1, 59_938, ones(64)
    for n in (11, 12, 13, 14):
        yield "by-terms", False, 2, n + 1, ones(n)
        yield "by-terms", True, 2, n + 1, ones(n)
    rng = random.Random(22)
    for _ in range(120):
        n = rng.randint(1, 7)
        terms = [(rng.randint(1, 5), rng.choice((v, -v))) for v in range(1, n + 1)]
        exact, bound = rng.random() < 0.5, rng.randint(0, sum(w for w, _ in terms) + 1)
        yield "direct", exact, bound, n + 1, terms
        yield "order", exact, bound, n + rng.randint(1, 9), terms


def encoded(encoder, exact, bound, first, terms):
    """What an encoder puts of a line into a text of so much room, or why it does not."""
    few = len(terms) <= DIRECT
    if encoder == "direct" or encoder == "by-terms" and few:
        if not few:
            return "out of reach\n"
        clauses = direct((exact, bound, terms))
    else:
        if len(terms) * (bound + 1 if exact else bound) > ORDER:
            return "out of reach\n"
        clauses = order((exact, bound, terms), first)
    rows = "".join("".join(f"{l} " for l in c) + "0\n" for c in clauses)
    if len(rows) > ROOM or any(abs(l) > NUMBERS for c in clauses for l in c):
        return "refused by the sheet, which holds 0\n"
    return rows


def write_worked(folder):
    rows, expected = [], []
    for encoder, exact, bound, first, terms in worked_lines():
        words = [encoder, "exactly" if exact else "least", bound, first, *(x for t in terms for x in t)]
        rows.append(" ".join(map(str, words)))
        expected.append(f"# {rows[-1]}\n{encoded(encoder, exact, bound, first, terms)}")
    with open(f"{folder}/stdin", "w") as f:
        f.write("".join(r + "\n" for r in rows))
    with open(f"{folder}/stdout", "w") as f:
        f.write("".join(expected))
    print(f"{len(rows)} lines, {sum(map(len, expected))} bytes out")


def sizes():
    """Holds the numbers of clauses that docs/encoders.md gives against the lists made here."""
    rng = random.Random(5)
    for _ in range(3000):
        weights = [rng.randint(1, 6) for _ in range(rng.randint(1, 5))]
        bound, exact = rng.randint(0, 14), rng.random() < 0.5
        form = exact, bound, [(w, v) for v, w in enumerate(weights, 1)]
        columns = bound + 1 if exact else bound
        many = 2 * columns + sum(3 * columns + max(0, columns - w) for w in weights[1:]) + (bound > 0) + exact
        assert len(order(form, len(weights) + 1)) == many <= 4 * len(weights) * columns + 2, form
    for terms in range(1, 13):
        for bound in range(1, terms + 1):
            form = False, bound, [(1, v) for v in range(1, terms + 1)]
            assert len(direct(form)) == math.comb(terms, bound - 1), form


def main():
    if sys.argv[1] == "translate":
        sys.stdout.write(translate(sys.stdin.buffer.read()))
        return
    if sys.argv[1] == "sizes":
        sizes()
        return
    if sys.argv[1] == "worked":
        write_worked(sys.argv[2])
        return
    folder = sys.argv[1]
    given, expected = bytearray(), []
    for name, data in cases():
        label = name.encode()
        given += struct.pack(">H", len(label)) + label + struct.pack(">H", len(data)) + data
        expected.append(f"# {name}\n{translate(data)}")
    with open(f"{folder}/stdin", "wb") as f:
        f.write(given)
    with open(f"{folder}/stdout", "w") as f:
        f.write("".join(expected))
    print(f"{len(expected)} cases, {len(given)} bytes in, {sum(map(len, expected))} bytes out")


main()
