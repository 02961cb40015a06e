"""Writes picture files, byte by byte as document 01 lays them out, and bundles of them."""
import struct

RESET = 16777216

BRAILLE, DOT, BLOCK, BAR, HALF_BLOCK, QUADRANT, SEXTANT, CUSTOM = range(1, 9)
MARKERS = range(1, 9)
LINE, FILLED_LINE, RECTANGLE, CIRCLE, POINTS, LAYER, MARKER, LABEL, DOT_RECORD = range(1, 10)

# Dots of a cell, across and down, by marker.
DOTS = {BRAILLE: (2, 4), DOT: (1, 1), BLOCK: (1, 1), BAR: (1, 1), HALF_BLOCK: (1, 2), QUADRANT: (2, 2), SEXTANT: (2, 3),
        CUSTOM: (1, 1)}  # fmt: skip

# The form of each field, from bit 0: f float, m marker, h character, c colour, p pairs, t text, n 4-byte number.
OPENING_FORMS = "ffffmhc"
FORMS = {LINE: "ffffc", FILLED_LINE: "fffffc", RECTANGLE: "ffffc", CIRCLE: "fffc", POINTS: "pc", LAYER: "",
         MARKER: "mh", LABEL: "ffct", DOT_RECORD: "nnc"}  # fmt: skip
NUMBERS = {"f": struct.Struct("<d"), "m": struct.Struct("<B"), "h": struct.Struct("<I"), "c": struct.Struct("<I"),
           "n": struct.Struct("<I")}  # fmt: skip


def field(form, value):
    if form == "p":
        return struct.pack("<H", len(value)) + b"".join(struct.pack("<dd", x, y) for x, y in value)
    if form == "t":
        return bytes([len(value)]) + value
    return NUMBERS[form].pack(value)


def fields(forms, values):
    """The map byte and the fields that are not None; values may end early."""
    bits = sum(1 << bit for bit, value in enumerate(values) if value is not None)
    return bytes([bits]) + b"".join(field(form, v) for form, v in zip(forms, values) if v is not None)


def opening(columns, rows, left=None, right=None, bottom=None, top=None, marker=None, character=None, background=None):
    values = (left, right, bottom, top, marker, character, background)
    return struct.pack("<HH", columns, rows) + fields(OPENING_FORMS, values)


def record(kind, *values):
    return bytes([kind]) + fields(FORMS[kind], values)


def dot(column, row, colour=None):
    return record(DOT_RECORD, column, row, colour)


def label(x, y, text, colour=None):
    return record(LABEL, x, y, colour, text)


def bundle(cases):
    """For each case: 1 byte name length, name, 4 bytes file length, file."""
    return b"".join(entry(name, file) for name, file in cases)


def entry(name, file):
    return bytes([len(name)]) + name.encode() + struct.pack("<I", len(file)) + file
