"""The classes of cases that the comparison runs over. Case I of seed S is always the same file, so a case can be made
again from its name, which is CLASS-S-I.

A class is one of two sorts. An exhaustive one goes through a list of all its inputs, and the next seed goes on in it.
A random one gets a generator of random numbers that depends on the seed and the case alone.
"""
import itertools
import math
import random
import struct

from pictures import (
    BLOCK, BRAILLE, CIRCLE, CUSTOM, DOT, DOT_RECORD, DOTS, FILLED_LINE, FORMS, HALF_BLOCK, LABEL, LAYER, LINE, MARKER,
    MARKERS, OPENING_FORMS, POINTS, QUADRANT, RECTANGLE, RESET, SEXTANT, dot, fields, label, opening, record,
)  # fmt: skip

LARGEST = 2.0**40
SMALLEST = 5e-324
RED, GREEN, BLUE = 0xFF0000, 0x00FF00, 0x0000FF
COLOURS = (RED, GREEN, BLUE, RESET, None, 0)
# Around document 01's limits: 80 by 24 of `layout`, 200 by 100 of a canvas, and what 16 bits hold.
COLUMN_COUNTS = (0, 1, 2, 3, 4, 5, 79, 80, 81, 82, 199, 200, 201, 255, 256, 65535)
ROW_COUNTS = (0, 1, 2, 3, 23, 24, 25, 26, 99, 100, 101, 255, 256, 65535)
COLOUR_LIMITS = (0, 1, 255, 256, RESET - 1, RESET, RESET + 1, 2**31, 2**32 - 1)
CHARACTER_LIMITS = (0, 0x20, 0x7F, 0xD7FF, 0xD800, 0xDFFF, 0xE000, 0xFFFF, 0x1F600, 0x10FFFF, 0x110000, 2**32 - 1)
ODD_FLOATS = (
    math.nan, math.inf, -math.inf, -0.0, LARGEST, -LARGEST, math.nextafter(LARGEST, 0.0),
    math.nextafter(LARGEST, math.inf), math.nextafter(-LARGEST, -math.inf), SMALLEST, -SMALLEST, 1e308,
)  # fmt: skip

# A float, the next one above and the next one below.
NEIGHBOURS = (float, lambda v: math.nextafter(v, math.inf), lambda v: math.nextafter(v, -math.inf))

USUAL_RUN = 200000
SCHEDULE = []


def exhaustive(weight, inputs):
    """The class goes through the list that `inputs` makes."""

    def add(function):
        made = []

        def case(seed, nth):
            if not made:
                made.extend(inputs())
            # Steps of a prime go through the whole list, and a short run sees all its parts.
            # The next seed goes on where a usual run of this one ends.
            place = nth + seed * weight * (USUAL_RUN // len(SCHEDULE))
            return function(*made[place * 1000003 % len(made)])

        return schedule(function.__name__, weight, case)

    return add


def chosen(weight):
    """The class makes a file from random numbers."""

    def add(function):
        def case(seed, nth):
            return function(random.Random(f"{function.__name__} {seed} {nth}"))

        return schedule(function.__name__, weight, case)

    return add


def schedule(name, weight, case):
    SCHEDULE.extend((name.replace("_", "-"), case, weight, slot) for slot in range(weight))
    return case


def cases(seed, first, count):
    """The cases `first` to `first + count - 1` of a seed: names and files."""
    for number in range(first, first + count):
        turn, slot = divmod(number, len(SCHEDULE))
        name, case, weight, place = SCHEDULE[slot]
        yield f"{name}-{seed}-{number}", case(seed, turn * weight + place)


# Exhaustive classes: openings and the shape of the file.


@exhaustive(2, lambda: itertools.product(COLUMN_COUNTS, ROW_COUNTS, (None, DOT), (False, True)))
def sizes(columns, rows, marker, damaged):
    """With a damaged bound the order of 1 and 2 shows."""
    return opening(columns, rows, left=math.nan if damaged else None, marker=marker)


@exhaustive(3, lambda: ((bytes(b),) for n in range(6) for b in itertools.product((0, 1, 2, 255), repeat=n)))
def short_files(file):
    return file


@exhaustive(6, lambda: itertools.product((opening(1, 1), opening(2, 1, marker=HALF_BLOCK)), range(256), range(-1, 256)))
def short_records(start, kind, bits):
    """An opening and at most two more bytes."""
    return start + bytes([kind] if bits < 0 else [kind, bits])


PLAIN_VALUES = {"f": 0.5, "m": DOT, "h": 0x2603, "c": GREEN, "p": [(0.0, 0.0), (0.5, 0.25)], "t": b"ab", "n": 1}


def plain_fields(forms, bits):
    """The fields of a map byte, with plain values; bits without a field stand in the map alone."""
    values = [PLAIN_VALUES[form] if bits >> bit & 1 else None for bit, form in enumerate(forms)]
    return bytes([bits]) + fields(forms, values)[1:]


def shortened(file, least, how):
    """0: the file; 1: one byte less; 2: its first bytes alone; 3: one byte more."""
    return (file, file[:-1], file[:least], file + b"\0")[how]


@exhaustive(3, lambda: itertools.product(range(256), range(4)))
def opening_maps(bits, how):
    file = struct.pack("<HH", 2, 2) + plain_fields(OPENING_FORMS, bits)
    return shortened(file, 5, how)


@exhaustive(8, lambda: itertools.product((*range(11), 128, 255), range(256), range(4), (True, False)))
def record_maps(kind, bits, how, alone):
    start = opening(3, 2, right=2.0, top=1.0, marker=DOT)
    if not alone:
        start += record(LINE, 0.0, 0.0, 2.0, 1.0, RED) + record(LAYER)
    file = start + bytes([kind]) + plain_fields(FORMS.get(kind, ""), bits)
    return shortened(file, len(start) + 2, how)


@exhaustive(2, lambda: itertools.product((0, 1), (0, 1), (0, 1), (0, 1), MARKERS))
def opening_faults(size, bound, colour, marker, other):
    """Every set of faults, so that the order of the opening's refusals shows."""
    return opening(
        (2, 81)[size], 1, right=(1.0, math.inf)[bound], marker=(other, 9)[marker],
        character=(0x41, 0xD800)[marker or size], background=(RED, RESET + 1)[colour],
    )  # fmt: skip


@exhaustive(4, lambda: itertools.product(range(1, 10), (0, 1), (0, 1), (0, 1), (0, 1), (DOT, HALF_BLOCK)))
def record_faults(kind, number, colour, text, full, marker):
    """Every set of faults of a record, so that the order of its refusals shows."""
    start = opening(2, 2, right=1.0, top=1.0, marker=marker) + label(0.0, 0.0, b"") * (64 if full else 0)
    x = (0.5, math.nan)[number]
    c = (RED, 2**32 - 1)[colour]
    values = {
        LINE: (0.0, 0.0, 1.0, x, c), FILLED_LINE: (0.0, 0.0, 1.0, 1.0, x, c), RECTANGLE: (0.0, 0.0, 1.0, x, c),
        CIRCLE: (0.0, 0.0, x, c), POINTS: ([(0.0, 0.0)] * (1000 if text else 2) + [(x, 1.0)], c), LAYER: (),
        MARKER: ((5, 9)[number], (0x41, 0x110000)[colour]), LABEL: (x, 0.0, c, (b"a", b"\x1f")[text]),
        DOT_RECORD: ((1, 2)[number], (3, 4)[text], c),
    }  # fmt: skip
    return start + record(kind, *values[kind])


@exhaustive(2, lambda: itertools.product(COLOUR_LIMITS, COLOUR_LIMITS, (1, 2, 3, 4, 5, 8, 9)))
def colour_limits(background, colour, kind):
    values = {5: ([(0.0, 0.0)], colour), 8: (0.0, 0.0, colour, b"x"), 9: (0, 0, colour)}
    default = (None,) * (len(FORMS[kind]) - 1) + (colour,)
    file = opening(1, 1, right=1.0, top=1.0, marker=DOT, background=background)
    return file + record(kind, *values.get(kind, default))


@exhaustive(2, lambda: itertools.product((0, *range(1, 11), 255), CHARACTER_LIMITS, (True, False)))
def marker_limits(marker, character, at_opening):
    if at_opening:
        return opening(1, 1, marker=marker, character=character) + dot(0, 0, RED)
    return opening(1, 1) + record(MARKER, marker, character) + dot(0, 0, RED)


# Exhaustive classes: dots, lines, labels, layers.


def dot_places():
    """Every dot of small canvases, and those up to two past each edge."""
    for columns, rows, marker in itertools.product((1, 2, 3), (1, 2), MARKERS):
        across, down = DOTS[marker]
        yield from itertools.product([columns], [rows], [marker], range(columns * across + 3), range(rows * down + 3))


@exhaustive(5, dot_places)
def dots_each(columns, rows, marker, column, row):
    return opening(columns, rows, marker=marker, character=0x41) + dot(column, row, RED)


@exhaustive(3, lambda: [(m, p) for m in (BRAILLE, QUADRANT, SEXTANT) for p in range(1 << DOTS[m][0] * DOTS[m][1])])
def patterns_each(marker, pattern):
    across, down = DOTS[marker]
    places = [(bit % across, bit // across) for bit in range(across * down) if pattern >> bit & 1]
    return opening(1, 1, marker=marker) + b"".join(dot(column, row, RED) for column, row in places)


@exhaustive(3, lambda: itertools.product(COLOURS, COLOURS, (None, RED, BLUE), (0, 1, 2, 3), (None, GREEN)))
def half_block_pairs(upper, lower, below, half, background):
    """Upper and lower dot in each pair of colours, alone or over another layer."""
    file = opening(1, 1, marker=HALF_BLOCK, background=background)
    if below is not None:
        file += dot(0, 0, below) + dot(0, 1, BLUE) + record(LAYER)
    dots = [dot(0, 0, upper), dot(0, 1, lower)]
    return file + b"".join((dots, dots[::-1], dots[:1], dots[1:])[half])


def dot_pairs():
    for columns, rows, marker in ((4, 4, DOT), (2, 1, BRAILLE), (3, 2, HALF_BLOCK), (2, 1, SEXTANT), (2, 2, QUADRANT)):
        across, down = columns * DOTS[marker][0], rows * DOTS[marker][1]
        places = list(itertools.product(range(across), range(down)))
        yield from itertools.product([(columns, rows, marker, across, down)], places, places)


def unit_bounds(columns, rows, marker, across, down):
    """Bounds in which each dot has whole coordinates."""
    return opening(columns, rows, right=across - 1.0, top=down - 1.0, marker=marker)


@exhaustive(6, dot_pairs)
def lines_each(canvas, first, second):
    return unit_bounds(*canvas) + record(LINE, *map(float, first), *map(float, second), RED)


@exhaustive(6, lambda: ((*pair, fill) for pair in dot_pairs() for fill in (-1.0, 0.5, 1.0, 9.0)))
def fills_each(canvas, first, second, fill):
    return unit_bounds(*canvas) + record(FILLED_LINE, *map(float, first), *map(float, second), fill, RED)


@exhaustive(6, lambda: itertools.product((1, 2, 3, 4), (1, 2, 3), range(-1, 8), range(-1, 6), range(6), (None, GREEN)))
def labels_each(columns, rows, x, y, length, colour):
    """Labels on and between the cells of small canvases, and just outside; texts past the right edge."""
    file = opening(columns, rows, right=columns - 1.0, top=rows - 1.0, background=BLUE)
    return file + label(x / 2, y / 2, b"abcdef"[:length], colour)


@exhaustive(4, lambda: itertools.product(MARKERS, MARKERS, (0, 1, 2), (RED, RESET), (GREEN, RESET)))
def layers_each(first, second, between, one, two):
    """Two layers of each pair of markers over one cell and beside it; between them a layer, a marker or both."""
    file = opening(2, 1, marker=first, character=0x41, background=BLUE) + dot(0, 0, one) + dot(1, 0, one)
    if between != 1:
        file += record(LAYER)
    if between != 0:
        file += record(MARKER, second, 0x42)
    return file + dot(0, 1, two) + dot(0, 0, two)


def half_places():
    for columns in range(2, 10):
        yield from itertools.product([columns], range(2 * columns), (-60, 0, 30), (BRAILLE, DOT, HALF_BLOCK))


@exhaustive(3, half_places)
def halves_each(columns, half, exponent, marker):
    """The dots and the exact halves between them, in bounds of several sizes."""
    step = 2.0**exponent
    across = columns * DOTS[marker][0] - 1
    file = opening(columns, 1, right=across * step, top=1.0, marker=marker)
    # One float below and above too: below a half lies 0.49999999999999994, which the polyfill rounds up.
    return file + b"".join(record(POINTS, [(move(half / 2 * step), 0.0)], RED) for move in NEIGHBOURS)


# Random pictures. A scene is a canvas and the numbers that are of interest in it.


class Scene:
    def __init__(self, rng, marker=None, scale=None, most=(8, 4)):
        self.rng = rng
        self.columns, self.rows = rng.randint(1, most[0]), rng.randint(1, most[1])
        self.marker = marker or rng.choice(MARKERS)
        self.scale = scale or rng.choice((1.0, 1.0, 1.0, 10.0, 1e-3, 1e6, 2.0**38, 1e-300, 1e-320))
        self.left, self.right = self.side(self.columns * DOTS[self.marker][0])
        self.bottom, self.top = self.side(self.rows * DOTS[self.marker][1])

    def side(self, dots):
        """Two bounds: whole steps, one step a dot, or any."""
        rng = self.rng
        sort = rng.random()
        if sort < 0.3:
            low = rng.randint(-8, 4) * self.scale / 4
            return low, low + rng.randint(1, 12) * self.scale / 4
        if sort < 0.6:
            low = rng.choice((0.0, 0.0, -0.0, float(rng.randint(-5, 5)))) * self.scale
            return low, low + (dots - 1) * self.scale
        return tuple(sorted((rng.uniform(-1, 1) * self.scale, rng.uniform(-1, 1) * self.scale)))

    def opening(self, **changed):
        values = {
            "left": self.left, "right": self.right, "bottom": self.bottom, "top": self.top, "marker": self.marker,
            "character": self.rng.choice((0x25C6, 0x41, 0x1F600)) if self.marker == CUSTOM else None,
            "background": self.rng.choice(COLOURS),
        }  # fmt: skip
        return opening(self.columns, self.rows, **{**values, **changed})

    def x(self):
        return self.number(self.left, self.right, self.columns * DOTS[self.marker][0])

    def y(self):
        return self.number(self.bottom, self.top, self.rows * DOTS[self.marker][1])

    def number(self, low, high, dots):
        """A number inside, at, next to or outside two bounds."""
        rng = self.rng
        sort = rng.random()
        if sort < 0.35:
            return low + (high - low) * rng.random()
        if sort < 0.5:
            return low + (high - low) * rng.randint(0, 2 * dots) / (2 * max(dots - 1, 1))
        if sort < 0.6:
            return rng.choice((low, high))
        if sort < 0.68:
            return math.nextafter(rng.choice((low, high)), rng.choice((-math.inf, math.inf)))
        if sort < 0.9:
            return low + (high - low) * rng.uniform(-2, 3)
        if sort < 0.95:
            return rng.choice((0.0, -0.0, 1.0, -1.0, 0.5, SMALLEST, LARGEST, -LARGEST))
        return rng.uniform(-1, 1) * 2.0 ** rng.randint(-60, 39)

    def colour(self):
        return self.rng.choice(COLOURS) if self.rng.random() < 0.8 else self.rng.randrange(RESET)

    def length(self):
        width = abs(self.right - self.left)
        return self.rng.choice((1.0, 1.0, -1.0)) * width * self.rng.choice((0.0, 0.25, 0.5, 1.0, 1.5))

    def text(self):
        return bytes(self.rng.randrange(0x20, 0x7F) for _ in range(self.rng.choice((0, 1, 2, 3, 5, 9, 40))))

    def record(self, kind):
        """A record of this kind that is accepted, unless it is a 65th label."""
        rng = self.rng
        if kind == LINE:
            return record(LINE, self.x(), self.y(), self.x(), self.y(), self.colour())
        if kind == FILLED_LINE:
            return record(FILLED_LINE, self.x(), self.y(), self.x(), self.y(), self.y(), self.colour())
        if kind == RECTANGLE:
            return record(RECTANGLE, self.x(), self.y(), self.length(), self.length(), self.colour())
        if kind == CIRCLE:
            return record(CIRCLE, self.x(), self.y(), self.length(), self.colour())
        if kind == POINTS:
            return record(POINTS, [(self.x(), self.y()) for _ in range(rng.randrange(8))], self.colour())
        if kind == LAYER:
            return record(LAYER)
        if kind == MARKER:
            self.marker = rng.choice(MARKERS)
            return record(MARKER, self.marker, rng.choice((0x2603, 0x42)) if self.marker == CUSTOM else None)
        if kind == LABEL:
            return label(self.x(), self.y(), self.text(), self.colour())
        return self.dot()

    def dot(self):
        across, down = self.columns * DOTS[self.marker][0], self.rows * DOTS[self.marker][1]
        if self.marker == HALF_BLOCK:
            return dot(self.rng.randrange(across), self.rng.randrange(down), self.colour())
        column = self.rng.choice((self.rng.randrange(across), self.rng.randrange(3 * across + 1)))
        return dot(column, self.rng.randrange(down + 1), self.colour())

    def records(self, kinds, most):
        return b"".join(self.record(self.rng.choice(kinds)) for _ in range(self.rng.randint(1, most)))


ALL_KINDS = (LINE, LINE, FILLED_LINE, RECTANGLE, CIRCLE, POINTS, LAYER, MARKER, LABEL, DOT_RECORD, DOT_RECORD)


@chosen(14)
def mixed(rng):
    scene = Scene(rng)
    return scene.opening() + scene.records(ALL_KINDS, 12)


@chosen(6)
def lines(rng):
    scene = Scene(rng)
    return scene.opening() + scene.records((LINE,), 3)


@chosen(5)
def filled_lines(rng):
    scene = Scene(rng)
    return scene.opening() + scene.records((FILLED_LINE,), 2)


@chosen(5)
def rectangles(rng):
    scene = Scene(rng)
    return scene.opening() + scene.records((RECTANGLE,), 2)


@chosen(5)
def circles(rng):
    scene = Scene(rng)
    return scene.opening() + scene.records((CIRCLE,), 2)


def circle_point(x, y, radius, angle):
    """A circle's point as circle.rs and polyfills.rs compute it; only to choose bounds that it lies at."""
    radians = angle * (math.pi / 180.0)
    return radius * cosine(radians) + x, radius * cosine(radians - math.pi / 2.0) + y


def cosine(value):
    x = value * (struct.unpack(">d", bytes.fromhex("3FD45F306DC9C883"))[0] / 2.0)
    x -= 0.25 + math.floor(x + 0.25)
    x *= 16.0 * (abs(x) - 0.5)
    return x + 0.225 * x * (abs(x) - 1.0)


@chosen(5)
def circle_edges(rng):
    """A point of the circle lies at a bound, or one float beside it: each of its bits decides whether it shows."""
    scene = Scene(rng, marker=rng.choice((DOT, BRAILLE)), most=(3, 3))
    centre = [rng.choice((0.0, 1.0, rng.uniform(-9, 9))) for _ in range(2)]
    radius = rng.choice((1.0, 0.5, rng.uniform(0, 5)))
    x, y = circle_point(*centre, radius, rng.choice((0, 1, 30, 45, 90, 180, 270, 359, rng.randrange(360))))
    if rng.random() < 0.5:
        x, y = rng.choice(NEIGHBOURS)(x), rng.choice(NEIGHBOURS)(y)
    # Narrow bounds keep the other angles out.
    scene.left, scene.right = rng.choice(((x, x + 1e-3), (x - 1e-3, x)))
    scene.bottom, scene.top = rng.choice(((y, y + 1e-3), (y - 1e-3, y), (y - 1e-3, y + 1e-3)))
    return scene.opening() + record(CIRCLE, *centre, radius, RED)


@chosen(4)
def points(rng):
    scene = Scene(rng)
    return scene.opening() + scene.records((POINTS,), 3)


@chosen(4)
def labels(rng):
    scene = Scene(rng)
    return scene.opening() + scene.records((LABEL, LABEL, LABEL, DOT_RECORD), 8)


@chosen(3)
def label_corners(rng):
    """Labels where one column or row ends and the next begins, and one float to either side."""
    scene = Scene(rng, most=(12, 6))
    file = scene.opening()
    for _ in range(4):
        x = corner(rng, scene.left, scene.right, scene.columns)
        y = corner(rng, scene.bottom, scene.top, scene.rows)
        file += label(x, y, bytes([rng.randrange(0x21, 0x7F)]), scene.colour())
    return file


def corner(rng, low, high, count):
    return rng.choice(NEIGHBOURS)(low + (high - low) * rng.randrange(count) / max(count - 1, 1))


@chosen(5)
def layers_and_markers(rng):
    scene = Scene(rng, most=(3, 2))
    return scene.opening() + scene.records((LAYER, MARKER, DOT_RECORD, DOT_RECORD, LINE, LABEL), 16)


@chosen(4)
def half_block_colours(rng):
    scene = Scene(rng, marker=HALF_BLOCK, most=(3, 2))
    return scene.opening() + scene.records((DOT_RECORD, DOT_RECORD, LINE, LAYER, POINTS), 12)


@chosen(4)
def dots_past_the_end(rng):
    """Past the row's end a pattern or char grid paints the next row; past the last cell it ignores the dot."""
    scene = Scene(rng, marker=rng.choice((BRAILLE, DOT, BLOCK, QUADRANT, SEXTANT, CUSTOM)), most=(4, 4))
    across, down = scene.columns * DOTS[scene.marker][0], scene.rows * DOTS[scene.marker][1]
    columns = (across - 1, across, across + 1, 2 * across, across * down - 1, across * down, 2**31, 2**32 - 1)
    rows = (0, 0, down - 1, down, 2 * down, 2**32 - 1)
    return scene.opening() + b"".join(dot(rng.choice(columns), rng.choice(rows), scene.colour()) for _ in range(3))


# Random classes for the clip and for numbers at the ends of the domain.


def cuts_of(bounds, ends):
    """How many cuts document 01's clipping makes; only to choose lines that need many."""
    xmin, xmax, ymin, ymax = bounds
    x1, y1, x2, y2 = ends
    for cuts in range(9):
        one, two = sides_of(bounds, x1, y1), sides_of(bounds, x2, y2)
        if not one | two or one & two:
            return cuts
        side = (one or two) & -(one or two)
        if (x2 == x1) if side < 4 else (y2 == y1):
            return cuts
        if side < 4:
            x = xmin if side == 1 else xmax
            end = x, y1 + (y2 - y1) * (x - x1) / (x2 - x1)
        else:
            y = ymin if side == 4 else ymax
            end = x1 + (x2 - x1) * (y - y1) / (y2 - y1), y
        if one:
            x1, y1 = end
        else:
            x2, y2 = end
    return 8


def sides_of(bounds, x, y):
    """Left 1, right 2, bottom 4, top 8."""
    xmin, xmax, ymin, ymax = bounds
    return (1 if x < xmin else 2 if x > xmax else 0) | (4 if y < ymin else 8 if y > ymax else 0)


def narrow_side(rng):
    """Bounds a few floats apart, so that a cut lands outside again by its rounding."""
    low = rng.choice((0.0, 0.1, 1.0, -1.0, 2.0**20, 2.0**39, -1e-300)) * rng.uniform(0.5, 1)
    high = low
    for _ in range(rng.randint(1, 4)):
        high = math.nextafter(high, math.inf)
    return low, high if rng.random() < 0.6 else low + abs(low) * 2.0 ** -rng.randint(1, 50)


@chosen(6)
def lines_of_many_cuts(rng):
    """Of some lines the one that needs most cuts."""
    scene = Scene(rng, most=(5, 3))
    if rng.random() < 0.8:
        (scene.left, scene.right), (scene.bottom, scene.top) = narrow_side(rng), narrow_side(rng)
    if rng.random() < 0.1:
        # Between reversed bounds an end always has a side, and the eighth cut is the last.
        scene.left, scene.right = scene.right, scene.left
    bounds = scene.left, scene.right, scene.bottom, scene.top
    far = rng.choice((4.0, 2.0**30, LARGEST))
    # The far end of a line through a point near the window, and of one through its corner.
    found = [[rng.uniform(-far, far) for _ in range(4)] for _ in range(6)]
    for _ in range(6):
        x, y = rng.choice(bounds[:2]), rng.choice(bounds[2:])
        dx, dy = rng.uniform(-far, far) / 4, rng.uniform(-far, far) / 4
        found.append([max(-LARGEST, min(LARGEST, v)) for v in (x + dx, y + dy, x - dx, y - dy)])
    most = max(found, key=lambda ends: cuts_of(bounds, ends))
    kind = rng.choice((LINE, LINE, FILLED_LINE))
    fill = (scene.y(),) if kind == FILLED_LINE else ()
    return scene.opening() + record(kind, *most, *fill, RED)


@chosen(4)
def narrow_bounds(rng):
    """A width of some smallest floats, or of some floats next to a number."""
    scene = Scene(rng, most=(5, 3))
    if rng.random() < 0.5:
        low = rng.choice((0.0, -0.0, rng.randint(-3, 3) * SMALLEST))
        scene.left, scene.right = low, low + rng.randint(0, 9) * SMALLEST
    else:
        scene.left, scene.right = narrow_side(rng)
    if rng.random() < 0.5:
        scene.bottom, scene.top = narrow_side(rng)
    return scene.opening() + scene.records((LINE, POINTS, CIRCLE, LABEL, RECTANGLE, FILLED_LINE), 4)


@chosen(4)
def largest_numbers(rng):
    """Bounds and numbers at 2^40 and next to it on either side."""
    scene = Scene(rng, most=(4, 3))
    inner = math.nextafter(LARGEST, 0.0)
    scene.left, scene.right = rng.choice(((-LARGEST, LARGEST), (inner, LARGEST), (-LARGEST, -inner), (0.0, LARGEST)))
    scene.bottom, scene.top = rng.choice(((-LARGEST, LARGEST), (-inner, inner), (0.0, 1.0)))
    near = (LARGEST, -LARGEST, inner, -inner, 0.0, 1.0, scene.left, scene.right)
    over = (math.nextafter(LARGEST, math.inf), math.nextafter(-LARGEST, -math.inf))
    kind = rng.choice((LINE, FILLED_LINE, RECTANGLE, CIRCLE))
    values = [rng.choice(near) for _ in FORMS[kind][1:]]
    if rng.random() < 0.2:
        values[rng.randrange(len(values))] = rng.choice(over)
    return scene.opening() + record(kind, *values, RED) + label(rng.choice(near), rng.choice(near), b"40", None)


@chosen(5)
def odd_numbers(rng):
    """One NaN, infinity, negative zero or other odd float among plain ones."""
    scene = Scene(rng, scale=1.0, most=(4, 3))
    odd = rng.choice(ODD_FLOATS)
    sort = rng.randrange(5)
    if sort == 0:
        side = rng.choice(("left", "right", "bottom", "top"))
        return scene.opening(**{side: odd}) + scene.records((LINE, LABEL, POINTS), 3)
    if sort == 1:
        pairs = [(scene.x(), scene.y()) for _ in range(4)]
        pairs.insert(rng.randrange(5), (scene.x(), odd) if rng.random() < 0.5 else (odd, scene.y()))
        return scene.opening() + record(LAYER) + record(POINTS, pairs, RED)
    if sort == 2:
        place = (odd, scene.y()) if rng.random() < 0.5 else (scene.x(), odd)
        return scene.opening() + scene.record(LINE) + label(*place, b"odd", GREEN)
    kind = rng.choice((LINE, FILLED_LINE, RECTANGLE, CIRCLE))
    values = [scene.x() for _ in FORMS[kind][1:]]
    values[rng.randrange(len(values))] = odd
    return scene.opening() + scene.record(DOT_RECORD) + record(kind, *values, RED)


@chosen(4)
def flat_or_reversed_bounds(rng):
    """'Such bounds may be opened and draw nothing.' Labels stand in equal bounds, not in reversed ones."""
    scene = Scene(rng, most=(4, 3))
    if rng.random() < 0.7:
        scene.right = scene.left if rng.random() < 0.5 else scene.left - scene.scale
    if rng.random() < 0.5:
        scene.top = scene.bottom if rng.random() < 0.5 else scene.bottom - scene.scale
    corner = label(scene.left, scene.top, b"corner", GREEN)
    return scene.opening() + corner + scene.records((LINE, FILLED_LINE, RECTANGLE, CIRCLE, POINTS, LABEL), 5)


@chosen(3)
def next_to_bounds(rng):
    """Points at the bounds and one float to either side."""
    scene = Scene(rng)
    xs = [f(b) for b in (scene.left, scene.right) for f in NEIGHBOURS]
    ys = [f(b) for b in (scene.bottom, scene.top) for f in NEIGHBOURS]
    pairs = [(rng.choice(xs), rng.choice(ys)) for _ in range(6)]
    return scene.opening() + record(POINTS, pairs, RED) + label(rng.choice(xs), rng.choice(ys), b"ab", GREEN)


# Random classes at the limits of document 01.


@chosen(1)
def points_limit(rng):
    """About 1,000 pairs; a wrong number or colour in some, as they come before 8."""
    scene = Scene(rng, most=(3, 3))
    pairs = [(scene.x(), scene.y()) for _ in range(20)]
    count = rng.choice((998, 999, 1000, 1000, 1001, 1001, 1002, 2000, 4000))
    pairs = (pairs * 200)[:count]
    if rng.random() < 0.2:
        pairs[-1] = (math.nan, 0.0)
    colour = RESET + 1 if rng.random() < 0.2 else RED
    return scene.opening() + scene.records((DOT_RECORD, LINE), 2) + record(POINTS, pairs, colour)


@chosen(2)
def labels_limit(rng):
    """About 64 labels; the one too many may have a fault of its own, which comes before 11."""
    scene = Scene(rng, scale=1.0, most=(4, 3))
    file = scene.opening()
    for number in range(rng.choice((62, 63, 64, 64, 65, 66))):
        file += label(scene.x(), scene.y(), bytes([0x21 + number]), scene.colour())
    if rng.random() < 0.3:
        file += label(rng.choice((0.0, math.nan)), 0.0, rng.choice((b"ok", b"\x7f")), rng.choice((RED, RESET + 1)))
    return file + scene.record(LINE)


@chosen(3)
def text_limits(rng):
    """Texts about 40 bytes long, and bytes next to 20 and 7E."""
    scene = Scene(rng, scale=1.0, most=(rng.choice((4, 45)), 2))
    text = bytes(rng.randrange(0x20, 0x7F) for _ in range(rng.choice((0, 1, 38, 39, 40, 40, 41, 42, 255))))
    if text and rng.random() < 0.5:
        place = rng.choice((0, len(text) - 1, rng.randrange(len(text))))
        text = text[:place] + bytes([rng.choice((0x00, 0x1F, 0x20, 0x7E, 0x7F, 0x80, 0xFF))]) + text[place + 1 :]
    return scene.opening() + label(scene.left, scene.top, text, scene.colour())


@chosen(1)
def file_limits(rng):
    """Files of about 65,536 bytes, all records whole, or the last one cut short."""
    length = rng.choice((65534, 65535, 65536, 65536, 65537, 65538, 70000))
    file = opening(1, 1, marker=rng.choice((DOT, HALF_BLOCK)))
    if (length - len(file)) % 2:
        # The one record with an odd number of bytes: a label with an empty text and nothing else has 3.
        file += record(LABEL, None, None, None, b"")
    most = rng.choice((record(LAYER), record(LINE), dot(0, 0, RED)))
    file += most * ((length - len(file)) // len(most))
    file += record(LAYER) * ((length - len(file)) // 2)
    return file[:-1] if rng.random() < 0.3 else file


@chosen(1)
def large_canvases(rng):
    """Up to the largest that `layout` takes, and just over it."""
    scene = Scene(rng)
    sizes_near = ((80, 24), (80, 24), (80, 1), (1, 24), (79, 23), (81, 24), (80, 25), (40, 12))
    scene.columns, scene.rows = rng.choice(sizes_near)
    kinds = (LINE, FILLED_LINE, RECTANGLE, CIRCLE, POINTS, LAYER, MARKER, LABEL)
    return scene.opening() + scene.records(kinds, 20)


# Damaged copies of good files.


def good_file(seed, number):
    """A picture of some records, short enough that each of its bytes has its turn."""
    rng = random.Random(f"good {seed} {number}")
    scene = Scene(rng, most=(4, 3))
    file = scene.opening()
    while len(file) < 120:
        file += scene.record(rng.choice(ALL_KINDS))
    return file


def damaged(weight):
    """The class damages good files; it gets the random numbers, a file, and a number that counts up from 0 for it."""
    # No good file is longer: 119 bytes and a last record of at most 120.
    turns = 250

    def add(function):
        def case(seed, nth):
            number, turn = divmod(nth, turns)
            rng = random.Random(f"{function.__name__} {seed} {nth}")
            return function(rng, good_file(seed, number), turn)

        return schedule(function.__name__, weight, case)

    return add


@damaged(8)
def truncated(rng, file, turn):
    """Cut at every byte."""
    return file[: turn % (len(file) + 1)]


@damaged(8)
def flipped(rng, file, turn):
    """One bit of each byte in turn, sometimes more."""
    changed = bytearray(file)
    changed[turn % len(file)] ^= 1 << rng.randrange(8)
    for _ in range(rng.choice((0, 0, 0, 1, 3))):
        changed[rng.randrange(len(file))] ^= 1 << rng.randrange(8)
    return bytes(changed)


@damaged(5)
def inserted(rng, file, turn):
    """Bytes put in at each place in turn."""
    place = turn % (len(file) + 1)
    more = bytes(rng.choice((0, 1, 2, 9, 255, rng.randrange(256))) for _ in range(rng.choice((1, 1, 2, 4, 8))))
    return file[:place] + more + file[place:]


@damaged(4)
def removed(rng, file, turn):
    """Bytes taken out at each place in turn."""
    place = turn % len(file)
    return file[:place] + file[place + rng.choice((1, 1, 2, 4, 8)) :]


@damaged(4)
def replaced(rng, file, turn):
    """A byte at each place in turn becomes one of those that decide something."""
    changed = bytearray(file)
    changed[turn % len(file)] = rng.choice((0, 1, 5, 8, 9, 10, 0x1F, 0x20, 0x7E, 0x7F, 0x80, 0xF0, 0xFF))
    return bytes(changed)


@chosen(4)
def any_bytes(rng):
    """Bytes without order, mostly small ones, after an opening or from the start."""
    start = rng.choice((b"", opening(2, 2), opening(2, 1, right=1.0, top=1.0, marker=rng.choice(MARKERS))))
    length = rng.choice((0, 1, 2, 3, 5, 8, 13, 21, 34, 60))
    return start + bytes(rng.choice((rng.randrange(12), rng.randrange(256))) for _ in range(length))
