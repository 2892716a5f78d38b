#!/usr/bin/env python3
"""Checks what prove_pass printed, working every line out apart from it in exact fractions (Python's own).

    python3 tools/exact_passes.py crates/prove_pass/stdin crates/prove_pass/stdout

Every denial must be the expected one; every pair must have the expected ends (the exponential liquid's, and what is made of it,
the printed ones), hold its exact figure and be as narrow as promised. The pairs of points and ranges must hold the exact figures of
several lists of values that the rows hold.
"""
import sys
from fractions import Fraction as Q
from math import ceil, floor, isqrt

STEP = 10**8


def outward(x):
    return floor(x), ceil(x)


def narrow(pair, x, width):
    low, high = pair
    assert low <= x <= high and high - low <= width, (pair, x)
    return pair


def fits(least, x, most):
    return least <= x <= most


def counts(n, td, tp):
    return abs(td - tp) * n <= tp


def first_out(ranges):
    """The place of the first figure out of its range, or 0."""
    for place, (least, x, most) in enumerate(ranges, 1):
        if not fits(least, x, most):
            return place
    return 0


class Vessel:
    """A pipe prover (5 figures) or a compact prover (6)."""

    def __init__(self, figures):
        self.figures, self.compact = figures, len(figures) == 6
        v0, d, s, e, *alphas = figures
        ranges = [(10**4, v0, 2 * 10**7), (100, d, 15000), (10, s, 500), (10**5, e, 250000)]
        ranges += [(0, alphas[0], 6000), (0, alphas[1], 3000)] if self.compact else [(0, alphas[0], 3000)]
        self.place = first_out(ranges)

    def ask(self, fields):
        """(exact, pair), or the field at fault."""
        v0, d, s, e, *alphas = self.figures
        tv, pv, td = fields[3], fields[4], fields[5]
        for field, ok in (4, fits(-1000, tv, 5000)), (5, fits(0, pv, 10000)), (6, not self.compact or fits(-1000, td, 5000)):
            if not ok:
                return field
        warm, rod = Q(tv, 100) - 20, Q(td, 100) - 20
        unit = Q(1, 10**8)
        if self.compact:
            cold = v0 * 1000 * (1 + alphas[0] * unit * warm) * (1 + alphas[1] * unit * rod)
        else:
            cold = v0 * 1000 * (1 + 3 * alphas[0] * unit * warm)
        cps = 1 + Q(95, 100) * Q(pv, 1000) * d / (e * s)
        if self.compact:  # the volume at no pressure is rounded to millionths of a microlitre first
            pair = floor(floor(cold * 10**6) * cps / 10**6), ceil(ceil(cold * 10**6) * cps / 10**6)
        else:
            pair = outward(cold * cps)
        return cold * cps, narrow(pair, cold * cps, 200 * pair[0] // 10**9 + 3)


def exponential_sum(x):
    total, term = Q(0), Q(1)
    for k in range(21):
        total += term
        term = term * x / (k + 1)
    return total


class Liquid:
    """A linear liquid (2 figures) or an exponential one (4)."""

    def __init__(self, figures):
        self.figures, self.linear = figures, len(figures) == 2
        if self.linear:
            self.place = first_out([(0, figures[0], 2000), (0, figures[1], 5000)])
            return
        r, k0, k1, k2 = figures
        self.place = first_out([(60000, r, 120000), (0, k0, 3 * 10**7), (0, k1, 10**4), (-340000, k2, 0)])
        if not self.place:
            self.r = Q(r, 100)
            self.b = Q(k0, 10**4) / self.r**2 + Q(k1, 10**4) / self.r + Q(k2, 10**8)
            self.place = 0 if fits(Q(1, 10**4), self.b, Q(2, 1000)) else 5

    def density(self, t, p):
        d = self.b * (t - 15)
        g = Q(1, 1000) * exponential_sum(Q(-162080, 10**5) + Q(21592, 10**8) * t + Q(870960) / self.r**2 + Q(42092, 10) * t / self.r**2)
        return exponential_sum(-d * (1 + Q(8, 10) * d)) / (1 - g * p)

    def ask(self, fields, got=None):
        """(exact, pair), or the field at fault; an exponential liquid's pair is the program's own, checked to be as promised."""
        tv, pv, tp, pp = fields[3], fields[4], fields[6], fields[7]
        for field, ok in (4, fits(-1000, tv, 5000)), (5, fits(0, pv, 10000)), (7, fits(-1000, tp, 5000)), (8, fits(0, pp, 10000)):
            if not ok:
                return field
        tv, tp, pv, pp = Q(tv, 100), Q(tp, 100), Q(pv, 1000), Q(pp, 1000)
        if self.linear:
            exact = 1 + Q(self.figures[0], 10**6) * (tp - tv) + Q(self.figures[1], 10**6) * (pv - pp)
            return exact, narrow(outward(exact * STEP), exact * STEP, 1)
        exact = self.density(tv, pv) / self.density(tp, pp)
        return exact, narrow(got or outward(exact * STEP), exact * STEP, 40)


def read_pairs(got):
    """The pairs of an answer that was printed, by name."""
    pairs = {}
    for row in got:
        words = row.split()
        numbers = [i for i, w in enumerate(words) if w.lstrip("-").isdigit()]
        if len(numbers) == 2 and numbers[1] == numbers[0] + 1:
            pairs[" ".join(words[: numbers[0]])] = int(words[numbers[0]]), int(words[numbers[1]])
    return pairs


def meter_fault(n, td, tp):
    for field, ok in (1, fits(1100, n, 800000)), (2, fits(1, td, 6 * 10**8)), (3, fits(1, tp, 6 * 10**8)):
        if not ok:
            return field
    return 0 if counts(n, td, tp) else 3


def prover_mass(vessel, liquid, fields, got):
    """(exact, pair, rows), or device and field."""
    asked = vessel.ask(fields)
    if isinstance(asked, int):
        return 1, asked
    for field, ok in (7, fits(-1000, fields[6], 5000)), (8, fits(0, fields[7], 10000)), (9, fits(60000, fields[8], 120000)):
        if not ok:
            return 2, field
    carried = liquid.ask(fields, got.get("carry factor"))
    if isinstance(carried, int):
        return 4, carried
    rho = fields[8]
    (volume, v), (factor, c) = asked, carried
    pair = v[0] * rho * c[0] // 10**13, -(-v[1] * rho * c[1] // 10**13)
    if pair[0] < 10**7 or pair[1] > 3 * 10**10:
        return 5, 0
    exact = volume * rho * factor / 10**5
    narrow(pair, exact, pair[0] // 500000 + 6)
    return exact, pair, [("volume", v, volume, v[1] - v[0], "µl"), ("carry factor", c, factor * STEP, 40, "steps")]


def master_mass(km, fields):
    td, nm, tm = fields[1], fields[9], fields[10]
    for field, ok in (2, fits(1, td, 6 * 10**8)), (10, fits(1100, nm, 800000)), (11, fits(1, tm, 6 * 10**8)):
        if not ok:
            return 3, field
    if not counts(nm, td, tm):
        return 3, 11
    exact = Q(nm * td, tm) / (Q(km) / 10**4) * 10**9  # tonnes to milligrams
    pair = outward(exact)
    if pair[0] < 10**7 or pair[1] > 3 * 10**10:
        return 5, 0
    return exact, pair, []


def sheet(kc, fields, weighed):
    n, td, tp = fields[:3]
    fault = meter_fault(n, td, tp)
    if fault:
        return ["denied 4 field %d" % fault]
    if len(weighed) == 2:
        return ["denied 5 device %d field %d" % weighed]
    m0, reference, rows = weighed
    count = Q(n * td, tp)
    m = count / (Q(kc) / 10**4) * 10**9
    mass = outward(m)
    mf = floor(Q(STEP * reference[0], mass[1])), ceil(Q(STEP * reference[1], mass[0]))
    if mf[0] < 9 * 10**7 or mf[1] > 11 * 10**7:
        return ["denied 6"]
    k = floor(Q(STEP * mass[0], reference[1])), ceil(Q(STEP * mass[1], reference[0]))
    rows = rows + [
        ("count", outward(count * 10**4), count * 10**4, 1, "ten-thousandths of a pulse"),
        ("meter mass", mass, m, 1, "mg"),
        ("reference mass", reference, m0, reference[1] - reference[0], "mg"),
        ("K", k, m / m0 * STEP, 300, "steps of the set factor"),
        ("MF", mf, m0 / m * STEP, 300, "steps"),
        ("F", (mf[0] - STEP, mf[1] - STEP), (m0 / m - 1) * STEP, 300, "steps"),
    ]
    return ["sheet"] + ["  %s %d %d %s" % (name, *narrow(pair, x, width), unit) for name, pair, x, width, unit in rows]


SIZES = {"pipe": 5, "compact": 6, "linear": 2, "exponential": 4}


def line(text, got):
    word, *rest = text.split(" ")
    kinds = word.split("-")
    if word == "master":
        figures = 2
    elif all(k in SIZES for k in kinds) and len(kinds) <= 2:
        figures = sum(SIZES[k] for k in kinds) + (len(kinds) == 2)
    else:
        return ["?"]
    if len(rest) != figures + 11:
        return ["?"]
    numbers = [int(w) for w in rest]
    f, fields = numbers[:figures], numbers[figures:]
    pairs = read_pairs(got)
    if word == "master":
        if not fits(10**7, f[0], 10**9) or not fits(10**7, f[1], 10**9):
            return ["denied 1 place 1"]
        return sheet(f[0], fields, master_mass(f[1], fields))
    if len(kinds) == 1:
        device = Vessel(f) if word in ("pipe", "compact") else Liquid(f)
        if device.place:
            return ["denied 1 place %d" % device.place]
        if isinstance(device, Vessel):
            asked = device.ask(fields)
            return ["fault field %d" % asked] if isinstance(asked, int) else ["volume %d %d µl" % asked[1]]
        asked = device.ask(fields, pairs.get("carry factor"))
        return ["fault field %d" % asked] if isinstance(asked, int) else ["carry factor %d %d steps" % asked[1]]
    vessel, liquid = Vessel(f[1 : 1 + SIZES[kinds[0]]]), Liquid(f[1 + SIZES[kinds[0]] :])
    for place in (vessel.place, liquid.place, 0 if fits(10**7, f[0], 10**9) else 1):
        if place:
            return ["denied 1 place %d" % place]
    return sheet(f[0], fields, prover_mass(vessel, liquid, fields, pairs))


def answers(text):
    """The answers of a file that was printed: each begins with a line that is not indented."""
    blocks = []
    for row in text.splitlines():
        if row.startswith("  "):
            blocks[-1].append(row)
        else:
            blocks.append([row])
    return blocks


STUDENT = [2776, 2571, 2447, 2365, 2306, 2262, 2228, 2201, 2179, 2160, 2145, 2131, 2120, 2110, 2101, 2093]
RANGES = {"K": (90000000, 111111112), "MF": (90000000, 110000000), "F": (-10000000, 10000000)}


def holds_root(pair, square, width):
    """The pair holds the root of a square, in steps, and is as narrow as promised."""
    low, high = pair
    assert low >= 0 and Q(low) ** 2 <= square * STEP**2 <= Q(high) ** 2 and high - low <= width, (pair, float(square))


class Figures:
    """The exact figures of a point, from one list of exact values that its rows may hold."""

    def __init__(self, kind, values):
        n = len(values)
        self.mean = sum(values, Q(0)) / n
        deviation = sum(((x - self.mean) ** 2 for x in values), Q(0))
        self.scatter = deviation / (n - 1) / (1 if kind == "F" else self.mean**2)
        self.of_mean = self.scatter / n
        self.random = Q(STUDENT[n - 5], 1000) ** 2 * self.of_mean
        self.level = 1 + self.mean if kind == "F" else self.mean


def choices(rows):
    """Some of the lists of exact values that rows hold: all lower ends, all upper ends, the middles, and the ends in turn."""
    for pick in (lambda i, l, h: l, lambda i, l, h: h, lambda i, l, h: Q(l + h, 2), lambda i, l, h: (l, h)[i % 2], lambda i, l, h: (h, l)[i % 2]):
        yield [Q(pick(i, l, h)) / STEP for i, (l, h) in enumerate(rows)]


def check_point(kind, numbers, got, kept):
    rows = list(zip(numbers[::2], numbers[1::2]))
    least, most = RANGES[kind]
    good = len(numbers) % 2 == 0 and fits(5, len(rows), 20) and all(least <= l <= h <= most and h - l <= 300 for l, h in rows)
    if not good:
        assert got == ["?"], got
        return
    pairs = read_pairs(got)
    for values in choices(rows):
        f = Figures(kind, values)
        narrow(pairs["mean"], f.mean * STEP, 432)
        holds_root(pairs["S"], f.scatter, 1200)
        holds_root(pairs["S0"], f.of_mean, 520)
        holds_root(pairs["ε"], f.random, 1450)
    kept.append((kind, rows))


def check_range(limits, got, kept):
    if not fits(2, len(kept), 10) or len(limits) > 8 or not all(fits(0, g, 10**6) for g in limits):
        assert got == ["?"], got
        return
    pairs = read_pairs(got)
    for lists in zip(*[list(choices(rows)) for _, rows in kept]):
        points = [Figures(kind, values) for (kind, _), values in zip(kept, lists)]
        of_mean, random = max(p.of_mean for p in points), max(p.random for p in points)
        gap = max(abs(p.level - q.level) / (2 * (p.level + q.level)) for p, q in zip(points, points[1:]))
        systematic = Q(121, 100) * (gap**2 + sum((Q(g, STEP) ** 2 for g in limits), Q(0)))
        holds_root(pairs["S0"], of_mean, 520)
        holds_root(pairs["ε"], random, 1450)
        narrow(pairs["Θ_A"], gap * STEP, 280)
        holds_root(pairs["Θ"], systematic, 310)
        low, high = pairs["error"]
        if systematic > 64 * of_mean:
            assert Q(low) ** 2 <= systematic * STEP**2 <= Q(high) ** 2
        elif systematic < Q(64, 100) * of_mean:
            assert Q(low) ** 2 <= random * STEP**2 <= Q(high) ** 2
        else:  # 0.81(Θ + ε) against an end: (end/0.81)² against Θ² + ε² + 2·root(Θ²ε²), the root to 60 places
            scale = 10**60
            product = systematic * random
            root = Q(isqrt(product.numerator * product.denominator * scale**2), product.denominator * scale)
            least = (systematic + random + 2 * root) * STEP**2
            most = least + Q(2 * STEP**2, scale)
            assert (Q(low) / Q(81, 100)) ** 2 <= most and least <= (Q(high) / Q(81, 100)) ** 2, pairs
        if "or" not in got[-1] and "," not in got[-1]:
            assert high - low <= 1450, pairs


questions = open(sys.argv[1]).read().splitlines()
printed = answers(open(sys.argv[2]).read())
assert len(questions) == len(printed), "as many answers as lines"
kept = []
for text, got in zip(questions, printed):
    word = text.split(" ")[0]
    if word in ("point-K", "point-MF", "point-F"):
        check_point(word[6:], [int(w) for w in text.split(" ")[1:]], got, kept)
    elif word == "range":
        check_range([int(w) for w in text.split(" ")[1:]], got, kept)
        kept = []
    else:
        wanted = line(text, got)
        assert got == wanted, (text, got, wanted)
print(len(questions), "lines agree")
