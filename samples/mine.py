#!/usr/bin/env python3
"""Writes samples/mine.txt: an open pit mine in words (docs/SAMPLES.md has the form).

    python3 samples/mine.py > samples/mine.txt

Whole numbers only and a fixed seed, so that every run writes the same bytes. A unit is 5 cm: the grid is 3,277 m wide. x is east, y is north.
The contours keep document 01's limits and document 02's rule for curves; the script ends with an error where one does not.
"""

import sys

GRID = 65536
MOST_SPAN = 4096
MOST_AREAS, MOST_CORNERS, MOST_RECORDS = 64, 2048, 4096

# ---- numbers ----

TURN = 3600  # a tenth of a degree


class Random:
    """A small generator of our own: what it gives does not depend on the version of Python."""

    def __init__(self, seed):
        self.state = seed

    def below(self, many):
        self.state = (self.state * 6364136223846793005 + 1442695040888963407) % 2**64
        return (self.state >> 33) % many

    def within(self, low, high):
        return low + self.below(high - low + 1)


def sine(angle):
    """10,000 times the sine, by Bhaskara's quotient: within 17 of it."""
    angle %= TURN
    sign = 1 if angle < TURN // 2 else -1
    angle %= TURN // 2
    rise = angle * (TURN // 2 - angle)
    return sign * (4 * rise * 10000 // (4050000 - rise))


def cosine(angle):
    return sine(angle + TURN // 4)


def root(number):
    """The whole square root."""
    low, high = 0, number + 1
    while high - low > 1:
        middle = (low + high) // 2
        low, high = (middle, high) if middle * middle <= number else (low, middle)
    return low


def on_grid(point):
    return tuple(max(0, min(GRID, part)) for part in point)


def between(one, other, part, whole):
    return tuple(a + (b - a) * part // whole for a, b in zip(one, other))


# ---- contours: lists of ("corner" or "control", point) ----


def straight(points):
    return [("corner", on_grid(point)) for point in points]


def extreme(a, c, b, axis):
    return (c[axis] - a[axis]) * (b[axis] - c[axis]) < 0


def curve(a, c, b):
    """The quadratic curve from a to b by c, without a: cut until its x and y are in order and it spans at most 4,096."""
    for axis in (0, 1):
        if extreme(a, c, b, axis):
            part = abs(c[axis] - a[axis])
            whole = part + abs(c[axis] - b[axis])
            p, q = list(between(a, c, part, whole)), list(between(c, b, part, whole))
            m = list(between(p, q, part, whole))
            m[axis] = q[axis] = p[axis]
            return curve(a, tuple(p), tuple(m)) + curve(tuple(m), tuple(q), b)
    if max(abs(b[0] - a[0]), abs(b[1] - a[1])) > MOST_SPAN:
        p, q = between(a, c, 1, 2), between(c, b, 1, 2)
        m = between(p, q, 1, 2)
        return curve(a, p, m) + curve(m, q, b)
    product = (c[0] - a[0]) * (b[1] - a[1]) - (c[1] - a[1]) * (b[0] - a[0])
    if product == 0:
        return [("corner", b)]
    return [("control", c), ("corner", b)]


def rounded(points):
    """A closed line with every corner rounded: curves from middle to middle of the sides, by the corner."""
    points = [on_grid(point) for point in points]
    middles = [between(p, q, 1, 2) for p, q in zip(points, points[1:] + points[:1])]
    contour = [("corner", middles[-1])]
    for i, point in enumerate(points):
        contour += curve(middles[i - 1], point, middles[i])
    return contour


def rounded_side(points):
    """An open line with its inner corners rounded."""
    points = [on_grid(point) for point in points]
    middles = [between(p, q, 1, 2) for p, q in zip(points, points[1:])]
    side = [("corner", points[0]), ("corner", middles[0])]
    for i, point in enumerate(points[1:-1]):
        side += curve(middles[i], point, middles[i + 1])
    return side + [("corner", points[-1])]


def filleted_side(points, most):
    """An open line, straight, with a curve of at most so many units to either side of each inner corner."""
    points = [on_grid(point) for point in points]
    side = [("corner", points[0])]
    for a, point, b in zip(points, points[1:], points[2:]):
        ends = []
        for other in (a, b):
            length = root((other[0] - point[0]) ** 2 + (other[1] - point[1]) ** 2)
            ends.append(between(point, other, min(most, length // 2), length))
        side += [("corner", ends[0])] + curve(ends[0], point, ends[1])
    return side + [("corner", points[-1])]


def normal(a, b):
    """10,000 units to the left of the way from a to b."""
    length = root((b[0] - a[0]) ** 2 + (b[1] - a[1]) ** 2)
    return (a[1] - b[1]) * 10000 // length, (b[0] - a[0]) * 10000 // length


def beside(points, far):
    """The line that runs so far to the left of an open line, with mitred corners."""
    normals = [normal(a, b) for a, b in zip(points, points[1:])]
    line = []
    for (x, y), (u, v), (p, q) in zip(points, normals[:1] + normals, normals + normals[-1:]):
        whole = 10000 * 10000 + u * p + v * q
        line.append((x + (u + p) * 10000 * far // whole, y + (v + q) * 10000 * far // whole))
    return line


def ribbon(points, left, right):
    """The band between two lines beside an open line, rounded at its bends."""
    return rounded_side(beside(points, left)) + rounded_side(beside(points, right)[::-1])


def road(points, left, right):
    """The same with straights between the bends."""
    return filleted_side(beside(points, left), 1500) + filleted_side(beside(points, right)[::-1], 1500)


def rectangle(x, y, wide, high, angle=0):
    """Around (x, y), turned by an angle."""
    c, s = cosine(angle), sine(angle)
    corners = [(-wide, -high), (wide, -high), (wide, high), (-wide, high)]
    return straight([(x + (u * c - v * s) // 20000, y + (u * s + v * c) // 20000) for u, v in corners])


def square():
    """The whole grid."""
    return straight([(0, 0), (GRID, 0), (GRID, GRID), (0, GRID)])


def circle(x, y, radius):
    """Four curves."""
    r = radius
    points = [(x - r, y - r), (x + r, y - r), (x + r, y + r), (x - r, y + r)]
    return rounded(points)


# ---- shapes that are not regular ----


class Outline:
    """A closed shape around a centre: at part 1000 its rim, at lower parts shapes within it."""

    def __init__(self, random, centre, deep, wide, high, waves):
        self.centre, self.deep, self.wide, self.high = centre, deep, wide, high
        self.waves = [(n, most, random.below(TURN)) for n, most in waves]

    def reach(self, angle):
        return 1000 + sum(most * sine(n * angle + at) // 10000 for n, most, at in self.waves)

    def at(self, angle, part, own=()):
        """The point in this direction at this part, with waves of its own."""
        cx, cy = between(self.deep, self.centre, part, 1000)
        reach = self.reach(angle) + sum(most * sine(n * angle + at) // 10000 for n, most, at in own)
        x = self.wide * part // 1000 * cosine(angle) // 10000 * reach // 1000
        y = self.high * part // 1000 * sine(angle) // 10000 * reach // 1000
        return cx + x, cy + y

    def ring(self, part, many, own=(), turn=0):
        return [self.at(i * TURN // many + turn, part, own) for i in range(many)]


def ragged(random, points, most):
    return [(x + random.within(-most, most), y + random.within(-most, most)) for x, y in points]


# ---- the drawing ----


class Words:
    def __init__(self):
        self.lines, self.areas, self.corners, self.records = [], 0, 0, 0
        self.depth = 0

    def say(self, line):
        self.lines.append("  " * self.depth + line)

    def area(self, name, head, contours):
        """An area, numbered from 0 in the comment, and its contours."""
        self.say(f"# {self.areas}: {name}")
        self.say(head)
        self.areas += 1
        self.records += 1
        for contour in contours:
            check(name, contour)
            self.corners += len(contour)
            self.records += len(contour)
            words = [("control " if kind == "control" else "") + "%d,%d" % at for kind, at in contour]
            self.say("contour " + " ".join(words))

    def paint(self, name, material, colour, *contours, alpha=255, rule="non-zero"):
        self.area(name, "paint %s %d %d %d %d %d" % (rule, alpha, *colour, material), contours)

    def clip(self, name, *contours):
        """Opens a group: what stands in it shows within these contours."""
        self.delimiter("(")
        self.area(name, "clip non-zero", contours)
        self.delimiter("|")

    def delimiter(self, sign):
        if sign != "(":
            self.depth -= 1
        self.say(sign)
        self.records += 1
        if sign != ")":
            self.depth += 1

    def close(self):
        self.delimiter(")")

    def text(self):
        within = self.areas <= MOST_AREAS and self.corners <= MOST_CORNERS and self.records <= MOST_RECORDS
        assert self.depth == 0 and within, self.counts()
        return "\n".join(self.lines) + "\n"

    def counts(self):
        return f"{self.areas} areas, {self.corners} corners, {self.records} records"


def check(name, contour):
    """At least three corners; each curve between two corners, its x and y in order, over at most 4,096 units."""
    assert sum(kind == "corner" for kind, _ in contour) >= 3, name
    for i, (kind, at) in enumerate(contour):
        assert all(0 <= part <= GRID for part in at), name
        if kind == "control":
            (before, a), (behind, b) = contour[i - 1], contour[i + 1]
            assert before == behind == "corner", name
            for axis in (0, 1):
                assert min(a[axis], b[axis]) <= at[axis] <= max(a[axis], b[axis]), name
                assert abs(a[axis] - b[axis]) <= MOST_SPAN, name


def pit_shape(random):
    return Outline(random, (36800, 36600), (39800, 34600), 18800, 15600, [(2, 70), (3, 45), (5, 22)])


def ramp_line(shape):
    """The ramp: over the rim in the west, then down, once and a third round against the clock."""
    parts = [1075, 1010, 957] + [940 - 28 * i for i in range(24)]
    return [shape.at(2010 + 181 * i, part) for i, part in enumerate(parts)]


# Part of the rim at which a bench ends (crest) and the face below it ends (toe), from the top down, and the corners of these lines.
CRESTS = [1000, 872, 746, 622, 500, 380]
TOES = [part - 46 for part in CRESTS]
MANY = [24, 22, 20, 18, 15, 13]


def pit(words, random, shape, ramp):
    """The pit: a group within the pit's crest; faces and benches lie one within the other, the deepest in front."""
    waves = [[(n, most, random.below(TURN)) for n, most in ((7, 10), (9, 6 + level))] for level in range(len(CRESTS))]
    words.clip("pit crest", rounded(shape.ring(CRESTS[0], MANY[0], waves[0])))
    words.paint("haul road in the pit, the ramp", 101, (222, 212, 190), ribbon(ramp, 270, -270))
    words.paint("berm along the ramp", 151, (122, 104, 84), ribbon(ramp[2:13], 400, 270))
    works_on_benches(words, random, shape, waves)
    ore_body(words, random)
    faces_and_benches(words, shape, waves)
    words.close()
    words.paint("berm round the pit", 152, (146, 128, 100), straight(ragged(random, shape.ring(1026, 32), 60)))


def works_on_benches(words, random, shape, waves):
    sumps = [("the floor", 141, (40700, 32900), 1500, 950), ("bench 3", 142, shape.at(2790, 662), 1250, 430)]
    for name, material, centre, wide, high in sumps:
        water = Outline(random, centre, centre, wide, high, [(2, 120), (3, 80)])
        words.paint(f"sump on {name}", material, (70, 120, 150), rounded(water.ring(1000, 8)), alpha=235)

    def strip(first, last, start, sweep, steps, level, most):
        """Along a bench, between two parts of the rim, with ragged lines."""
        angles = [start + sweep * i // steps for i in range(steps + 1)]
        outer = [shape.at(angle, first, waves[level]) for angle in angles]
        inner = [shape.at(angle, last, waves[level]) for angle in reversed(angles)]
        return straight(ragged(random, outer, most) + ragged(random, inner, most))

    words.paint("shovel face 1, bench 2", 121, (176, 96, 62), strip(800, 764, 180, 520, 12, 2, 70))
    words.paint("shovel face 2, bench 4", 122, (188, 108, 66), strip(560, 516, 3130, 480, 10, 4, 60))
    words.paint("blast field on bench 1", 131, (196, 84, 76), strip(926, 890, 900, 330, 7, 1, 30), alpha=150)


def ore_body(words, random):
    """The third group: blocks of ore, seen through over faces, benches and floor."""
    middle = (40500, 35800)
    body = Outline(random, middle, middle, 11800, 4200, [(2, 90), (3, 110), (4, 50)])
    c, s = cosine(350), sine(350)

    def turned(point):
        x, y = point[0] - middle[0], point[1] - middle[1]
        return middle[0] + (x * c - y * s) // 10000, middle[1] + (x * s + y * c) // 10000

    words.clip("ore body", rounded([turned(point) for point in body.ring(1000, 16)]))
    cuts = [28000, 33600, 38700, 43900, 54000]
    lines = [[(x + random.within(-420, 420), y) for y in range(27800, 44801, 2800)] for x in cuts]
    blocks = [straight(west + east[::-1]) for west, east in zip(lines, lines[1:])]
    grades = [("low", 161, (96, 150, 84), blocks[:1]), ("high", 163, (204, 70, 50), blocks[2:3])]
    grades += [("medium", 162, (224, 160, 50), blocks[1::2])]
    for name, material, colour, parts in grades:
        words.paint(f"ore blocks of {name} grade", material, colour, *parts, alpha=100)
    words.close()


def faces_and_benches(words, shape, waves):
    words.paint("pit floor", 100, (196, 188, 176), rounded(shape.ring(TOES[-1], 12, waves[-1])))
    for level in reversed(range(1, len(CRESTS))):
        shade = 5 * level
        face = shape.ring(CRESTS[level], MANY[level], waves[level])
        words.paint(f"face {level + 1}", 111 + level, (132 - shade, 104 - shade, 80 - shade), rounded(face))
        bench = shape.ring(TOES[level - 1], MANY[level - 1], waves[level - 1])
        words.paint(f"bench {level}", 171 + level, (190 - shade, 168 - shade, 138 - shade), rounded(bench))
    # The crest clips, so the highest face may be larger than the pit.
    words.paint("face 1", 111, (132, 104, 80), square())


def buildings(words):
    offices = [(27600, 7500, 900, 320, 0), (27600, 8200, 900, 320, 0), (29000, 7850, 420, 1000, 0), (30200, 7500, 700, 360, 0)]
    words.paint("offices", 201, (72, 96, 132), *[rectangle(*o) for o in offices])
    sheds = [(32700, 8300, 1700, 900, 0), (32700, 9600, 1700, 700, 0), (35200, 9000, 900, 1500, 0)]
    words.paint("workshops", 202, (96, 84, 110), *[rectangle(*s) for s in sheds])
    tanks = [circle(x, y, 260) for x, y in ((37600, 8300), (38300, 8300), (37600, 9000), (38300, 9000))]
    words.paint("fuel tanks", 203, (226, 226, 220), *tanks)
    words.paint("weighbridge", 205, (60, 60, 64), rectangle(28420, 4900, 220, 560, 150))
    words.paint("crusher", 206, (64, 62, 70), rectangle(19300, 18300, 760, 620, 450), rectangle(18800, 17600, 420, 420, 450))
    belt = [(18700, 18100), (15900, 19500), (11300, 17900), (9100, 11600)]
    words.paint("conveyor to the plant", 207, (88, 84, 90), straight(beside(belt, 70) + beside(belt, -70)[::-1]))
    mills = [(8600, 10800, 1800, 1200, 150), (8300, 9000, 1300, 700, 150), (6900, 11900, 620, 620, 150)]
    thickeners = [circle(6300, 9800, 520), circle(6000, 8500, 520)]
    words.paint("plant: mill, flotation, thickeners", 208, (78, 104, 118), *[rectangle(*m) for m in mills], *thickeners)
    magazine = Outline(Random(3), (57600, 51900), (57600, 51900), 900, 800, [(2, 30)])
    words.paint("magazine", 209, (150, 40, 40), rectangle(57300, 52000, 420, 300, 200), rectangle(58000, 51800, 420, 300, 200))
    bund = [rounded(magazine.ring(1000, 7)), straight(magazine.ring(740, 7))]
    words.paint("bund round the magazine", 210, (120, 110, 84), *bund, rule="even-odd")


def roads(words, ramp):
    haul = [ramp[2], ramp[1], ramp[0], (17300, 25200), (17900, 22200), (19800, 20300), (19900, 18900)]
    words.paint("haul road, pit to crusher", 102, (222, 212, 190), road(haul, 270, -270))
    words.paint("berm on the bend of the haul road", 153, (122, 104, 84), road(haul[3:6], -270, -410))
    tip = [(17400, 25800), (14600, 27200), (12500, 30000), (12300, 33600), (10600, 36600), (10500, 40200), (12900, 42800)]
    words.paint("haul road, pit to tip", 103, (222, 212, 190), road(tip, 280, -280))
    words.paint("berm on the bend to the tip", 154, (122, 104, 84), road(tip[1:6], 410, 280))
    rom = [(19900, 19200), (21400, 17500), (24300, 16900), (28400, 15900), (32400, 13300), (33900, 10600)]
    words.paint("haul road, crusher to workshops", 104, (216, 206, 186), road(rom, 240, -240))
    access = [(28000, 1200), (28200, 3600), (28900, 5900), (30900, 6500), (35800, 6700), (39300, 8500), (40900, 12300), (46000, 16800)]
    access += [(54400, 19800), (58700, 25700), (59300, 40300), (57600, 50600)]
    words.paint("road for light vehicles, gate to magazine", 105, (180, 174, 166), road(access, 110, -110))
    park = [(30600, 9900), (34000, 10300), (36500, 10200), (36900, 12300), (33600, 12900), (30900, 12500)]
    words.paint("park of the trucks", 106, (204, 198, 186), straight(park))


def stockpiles(words, random):
    """The pad of the mine's ore: its piles are clipped to the pad."""
    pad = [
        (11800, 14200), (14300, 12900), (18400, 12700), (24400, 12500), (25900, 13300), (26200, 16000), (23400, 16700), (20300, 17300),
        (17800, 18700), (15700, 18900), (12500, 17200),
    ]
    words.clip("edge of the ore pad", rounded(pad))
    piles = [
        ("high grade", 221, (196, 84, 60), 13900, 15200, 1500, 1050),
        ("medium grade", 222, (214, 160, 72), 17000, 14600, 1500, 1200),
        ("low grade", 223, (182, 176, 104), 20300, 14500, 1700, 1250),
        ("oxide", 224, (168, 110, 92), 23700, 14300, 1550, 1150),
        ("blend", 225, (198, 132, 92), 16100, 17300, 1300, 900),
    ]
    for name, material, colour, x, y, wide, high in piles:
        shape = Outline(random, (x, y), (x + 140, y + 100), wide, high, [(2, 90), (3, 50), (5, 30)])
        words.paint(f"stockpile of {name}", material, colour, rounded(shape.ring(1000, 7)))
    words.paint("ore pad", 220, (200, 192, 178), square())
    words.close()


def tip(words, random):
    """The waste tip: lifts, the highest in front; its toe lies over the lease line."""
    shape = Outline(random, (9800, 47900), (11400, 46300), 9900, 8800, [(2, 60), (3, 70), (5, 40)])
    head = [shape.at(1800 + 140 * i, 694 + (20 if i % 2 else 0)) for i in range(10)]
    back = [shape.at(1800 + 140 * i, 620) for i in range(9, -1, -1)]
    words.paint("tip head, where trucks tip", 301, (170, 140, 110), straight(ragged(random, head + back, 50)))
    own = [(9, 26, random.below(TURN)), (13, 14, random.below(TURN))]
    lifts = [(430, 11, (168, 158, 146)), (690, 14, (152, 141, 128)), (980, 17, (134, 123, 110))]
    for below, (part, many, colour) in enumerate(lifts):
        low = tuple(channel - 30 for channel in colour)
        words.paint(f"tip, lift {3 - below}", 311 + below, colour, rounded(shape.ring(part, many, own)))
        words.paint(f"tip, slope of lift {3 - below}", 321 + below, low, rounded(shape.ring(part + 62, many, own)))


def tailings(words, random):
    shape = Outline(random, (51300, 9900), (52600, 9300), 8900, 4700, [(2, 40), (3, 50), (4, 30)])
    words.paint("tailings: pond", 331, (104, 152, 168), rounded(shape.ring(420, 10, [(5, 60, 400)])))
    words.paint("tailings: beach", 332, (206, 200, 190), rounded(shape.ring(880, 13)))
    words.paint("tailings: dam", 333, (150, 132, 104), rounded(shape.ring(1000, 13)))


def land(words, random):
    heaps = []
    for x, y, wide, high in ((53800, 57300, 2300, 900), (60600, 45000, 700, 2300)):
        shape = Outline(random, (x, y), (x, y), wide, high, [(2, 80), (3, 60)])
        heaps.append(rounded(shape.ring(1000, 6)))
    words.paint("heaps of topsoil", 341, (116, 92, 62), *heaps)
    grown = Outline(random, (24600, 56300), (24600, 56300), 6400, 2900, [(2, 70), (3, 60), (5, 30)])
    words.paint("old tip, sown", 342, (128, 152, 98), rounded(grown.ring(1000, 11)))
    round_pit = Outline(random, (36800, 35000), (36800, 35000), 22600, 19000, [(2, 50), (3, 40), (5, 20)])
    works = [
        (4200, 6300), (12000, 5600), (24000, 5400), (34000, 5000), (42000, 7600), (42600, 13500), (40200, 18800), (30000, 20500),
        (23800, 26200), (14800, 25600), (11800, 20800), (5400, 15200),
    ]
    words.paint("cleared ground", 343, (204, 196, 166), straight(ragged(random, round_pit.ring(1000, 30), 300)), straight(works))
    words.paint("rest of the lease", 390, (176, 182, 142), square())


LEASE = [
    (2600, 4700), (15200, 2700), (28100, 2300), (45200, 2500), (61200, 3600), (62900, 16800), (63400, 33900), (62600, 47900),
    (60300, 57800), (47100, 61900), (31200, 62400), (17300, 60900), (8600, 57200), (2900, 50300), (2100, 38600), (2300, 20400),
]


def main():
    words, random = Words(), Random(18)
    words.say("# A mine, 65,536 units of 5 cm wide: 3,277 m. Made by samples/mine.py; docs/SAMPLES.md has the form of the lines.")
    words.clip("lease line", straight(LEASE))
    buildings(words)
    shape = pit_shape(random)
    ramp = ramp_line(shape)
    roads(words, ramp)
    pit(words, random, shape, ramp)
    stockpiles(words, random)
    tip(words, random)
    tailings(words, random)
    land(words, random)
    words.close()
    sys.stdout.write(words.text())
    print(words.counts(), file=sys.stderr)


if __name__ == "__main__":
    main()
