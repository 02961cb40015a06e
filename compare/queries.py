"""Questions for `get_point`, a canvas and a point, and lines to clip. Question I of seed S is always the same."""
import math
import random
import struct

from classes import LARGEST, ODD_FLOATS, Scene, narrow_side
from pictures import DOTS, MARKERS

QUESTION = struct.Struct("<HHddddBdd")
LINE = struct.Struct("<dddddddd")
SIZES = (1, 1, 2, 2, 3, 4, 5, 7, 10, 11, 80, 100, 199, 200)


def questions(seed, first, count):
    for number in range(first, first + count):
        rng = random.Random(f"question {seed} {number}")
        yield QUESTION.pack(*rng.choice(SORTS)(rng))


def canvas(rng):
    scene = Scene(rng)
    scene.columns, scene.rows = rng.choice(SIZES), min(rng.choice(SIZES), 100)
    if rng.random() < 0.4:
        scene.left, scene.right = scene.side(scene.columns * DOTS[scene.marker][0])
    if rng.random() < 0.15:
        scene.left, scene.right = narrow_side(rng)
    return scene


def asked(scene, x, y, /, **changed):
    values = {"columns": scene.columns, "rows": scene.rows, "left": scene.left, "right": scene.right,
              "bottom": scene.bottom, "top": scene.top, "marker": scene.marker, "x": x, "y": y}  # fmt: skip
    return {**values, **changed}.values()


def plain(rng):
    scene = canvas(rng)
    return asked(scene, scene.x(), scene.y())


def near_a_half(rng):
    """Points whose dot is about to change: a half between two dots, and some floats to either side."""
    scene = canvas(rng)
    x = near_half(rng, scene.left, scene.right, scene.columns * DOTS[scene.marker][0])
    y = near_half(rng, scene.bottom, scene.top, scene.rows * DOTS[scene.marker][1])
    return asked(scene, x, y)


def near_half(rng, low, high, dots):
    value = low + (high - low) * (rng.randrange(dots) + 0.5) / max(dots - 1, 1)
    for _ in range(rng.randrange(4)):
        value = math.nextafter(value, math.inf)
    for _ in range(rng.randrange(4)):
        value = math.nextafter(value, -math.inf)
    return value


def just_below_a_half(rng):
    """0.49999999999999994 of a step, which the polyfill rounds up."""
    scene = canvas(rng)
    dots = scene.columns * DOTS[scene.marker][0]
    return asked(scene, rng.randrange(4) + 0.49999999999999994, scene.top, left=0.0, right=max(dots - 1.0, 1.0))


def odd(rng):
    """A number of no domain, or at its end, as a bound or as the point."""
    scene = canvas(rng)
    place = rng.choice(("left", "right", "bottom", "top", "x", "y"))
    return asked(scene, scene.x(), scene.y(), **{place: rng.choice(ODD_FLOATS)})


def two_odd(rng):
    """Two faults at once, so that the order of 5 and 2 shows."""
    scene = canvas(rng)
    places = rng.sample(("left", "top", "x", "y"), 2)
    return asked(scene, scene.x(), scene.y(), **{place: rng.choice(ODD_FLOATS) for place in places})


def sizes(rng):
    scene = canvas(rng)
    columns, rows = rng.choice((0, 1, 200, 201, 65535)), rng.choice((0, 1, 100, 101, 65535))
    return asked(scene, scene.x(), scene.y(), **rng.choice(({"columns": columns}, {"rows": rows})))


def markers(rng):
    scene = canvas(rng)
    return asked(scene, scene.x(), scene.y(), marker=rng.choice((0, *MARKERS, 9, 128, 255)))


def flat(rng):
    """Equal or reversed bounds give no dot."""
    scene = canvas(rng)
    changed = {"right": rng.choice((scene.left, scene.left - scene.scale))}
    return asked(scene, scene.x(), scene.y(), **(changed if rng.random() < 0.5 else {"top": scene.bottom}))


def widest(rng):
    scene = canvas(rng)
    inner = math.nextafter(LARGEST, 0.0)
    near = (LARGEST, -LARGEST, inner, -inner, 0.0, rng.uniform(-LARGEST, LARGEST))
    return asked(scene, rng.choice(near), rng.choice(near), left=-LARGEST, right=LARGEST, bottom=-inner, top=LARGEST)


SORTS = (plain,) * 8 + (near_a_half,) * 6 + (just_below_a_half, odd, two_odd, sizes, markers, flat, widest)


# Lines to clip: bounds left, right, bottom, top, and the ends x1, y1, x2, y2.


def lines(seed, first, count):
    for number in range(first, first + count):
        rng = random.Random(f"line {seed} {number}")
        yield LINE.pack(*rng.choice(LINE_SORTS)(rng))


def around(rng, low, high):
    """A coordinate inside, outside, or at a bound or the next float."""
    width = abs(high - low) or 1.0
    value = rng.choice((low, high, rng.uniform(low, high), low - width * rng.random(), high + width * rng.random()))
    return rng.choice((value, value, math.nextafter(value, math.inf), math.nextafter(value, -math.inf)))


def ends(rng, left, right, bottom, top):
    return [around(rng, *side) for side in ((left, right), (bottom, top)) * 2]


def ordered(rng):
    bounds = (-10.0, 10.0, -5.0, 5.0)
    return (*bounds, *ends(rng, *bounds))


def narrow(rng):
    bounds = (*narrow_side(rng), *narrow_side(rng))
    return (*bounds, *ends(rng, *bounds))


def reversed_bounds(rng):
    """In reversed bounds each end always has a side, so that all eight cuts are made."""
    bounds = rng.choice(((10.0, -10.0, -5.0, 5.0), (-10.0, 10.0, 5.0, -5.0), (10.0, -10.0, 5.0, -5.0)))
    return (*bounds, *ends(rng, *bounds))


def far(rng):
    bounds = (-1.0, 1.0, -1.0, 1.0)
    return (*bounds, *(rng.uniform(-1.0, 1.0) * 10.0 ** rng.randrange(-3, 13) for _ in range(4)))


def odd_line(rng):
    values = [-10.0, 10.0, -5.0, 5.0, *ends(rng, -10.0, 10.0, -5.0, 5.0)]
    values[rng.randrange(8)] = rng.choice(ODD_FLOATS)
    return values


LINE_SORTS = (ordered,) * 4 + (narrow,) * 2 + (reversed_bounds, far, odd_line)
