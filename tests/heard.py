"""A model of the panner on 5.1 and of the ears, written from documents 01 and 02 and not from the code.

Python's floats are f64, and struct rounds to f32. tests/ears-cases writes by it what the gate must find; tests/bearings
holds the recorded line to it, and shows by it that the old rule is found wrong. Both play the voice that stands here: the demo's hum at every 15 degrees.
"""
import math
import os
import runpy
import struct

top = os.path.dirname(os.path.dirname(os.path.abspath(__file__)))
demo = runpy.run_path(os.path.join(top, "demo", "make"))
SPEAKERS = [300, -300, 0, 0, 1100, -1100]
LFE = 3
BEARINGS = range(-165, 181, 15)
# Frames at a bearing: the filters' memory of the bearing before, 48 frames, and a whole period of the hum, 100; in whole records of 32.
AT_A_BEARING = 160


def narrow(x):
    """f64 to f32: the nearest, ties to the even one; too large gives infinity."""
    try:
        return struct.unpack(">f", struct.pack(">f", x))[0]
    except OverflowError:
        return math.copysign(math.inf, x)


def f32(x):
    if x != x:
        return bytes.fromhex("7fc00000")
    return struct.pack(">f", x)


class Fault(Exception):
    """a number of document 02, E2 and E6, and the place of the field at fault"""


def read(content):
    """the rows of a bank's bytes, of either version: azimuth, elevation, left and right taps; the first fault is raised"""
    place = 0

    def field(form, refusal, good):
        nonlocal place
        at, place = place, place + struct.calcsize(form)
        if len(content) < place:
            raise Fault(19, len(content))
        (value,) = struct.unpack(form, content[at:place])
        if not good(value):
            raise Fault(refusal, at)
        return value

    version = field(">B", 13, lambda v: v in (1, 2))
    field(">I", 14, lambda following: following == len(content) - 5)
    count = field(">H", 15, lambda n: 1 <= n <= 8)
    length = field(">H", 16, lambda n: 1 <= n <= 512)
    rows = []
    for _ in range(count):
        azimuth, elevation = field(">h", 17, lambda a: -1799 <= a <= 1800), 0
        if version == 2:
            elevation = field(">h", 20, lambda e: -900 <= e <= 900)
        if (azimuth, elevation) in [row[:2] for row in rows]:
            raise Fault(17, place - 2)
        rows.append((azimuth, elevation, *([field(">f", 18, math.isfinite) for _ in range(length)] for _ in range(2))))
    if place < len(content):
        raise Fault(14, 1)
    return rows


def apart(a, b):
    """the shorter way round between two azimuths in tenths of a degree"""
    d = (a - b) % 3600
    return min(d, 3600 - d)


def nearest(rows, speaker):
    """the row of a speaker, which stands at elevation 0: the least elevation first"""
    return min(range(len(rows)), key=lambda i: (abs(rows[i][1]), apart(rows[i][0], speaker), i))


def play(rows, frames):
    """the ears of each frame, and how many frames are unsettled"""
    length = len(rows[0][2])
    taps = [rows[nearest(rows, s)][2:] for s in SPEAKERS]
    scale = 1.0 / math.sqrt(6.0)
    past, ears, unsettled = [], [], 0
    for frame in frames:
        signals = []
        for s in range(6):
            total = 0.0
            for c in range(6):
                total = total + frame[c] * (1.0 if c == s else 0.0)
            signals.append(narrow(total))
        past.insert(0, signals)
        del past[length:]
        if any(not math.isfinite(x) for signals in past for x in signals):
            unsettled += 1
        sides = []
        for ear in range(2):
            total = 0.0
            for s in range(6):
                part = 0.0
                for k in range(length):
                    part = part + (past[k][s] if k < len(past) else 0.0) * taps[s][ear][k]
                total = total + part
            sides.append(narrow(total * scale))
        ears.append(sides)
    return ears, unsettled


def line(frames):
    return b"".join(f32(x) for frame in frames for x in frame)


def frames_of(content):
    """the whole frames of a line's bytes"""
    return [list(struct.unpack_from(">6f", content, 24 * n)) for n in range(len(content) // 24)]


def raw(ears):
    return b"".join(f32(left) + f32(right) for left, right in ears)


def raw_gain(tenths):
    """document 02, E3: cos d for d < 90, else 0"""
    return math.cos(math.radians(tenths / 10.0)) if tenths < 900 else 0.0


def old_raw_gain(tenths):
    """document 01 before E3: cos(90 - d) for d < 90, else 0"""
    return math.cos(math.radians(90.0 - tenths / 10.0)) if tenths < 900 else 0.0


def gains(azimuth, rule):
    """each speaker's share of a voice at an azimuth in tenths of a degree"""
    raw_gains = [rule(apart(azimuth, speaker)) for speaker in SPEAKERS]
    raw_gains[LFE] = 0.0
    root = math.sqrt(sum(x * x for x in raw_gains))
    return [narrow(x / root) for x in raw_gains]


def panned(asked, rule=raw_gain):
    """the line of some records"""
    out = []
    for azimuth, *samples in struct.iter_unpack(demo["RECORD"], asked):
        shares = gains(10.0 * azimuth, rule)
        out += [[narrow(x * share) for share in shares] for x in samples]
    return out


def hum_at(bearings):
    """the records of the demo's hum, steady, at one bearing after the other"""
    return demo["records"](demo["hum"], lambda n: float(bearings[n // AT_A_BEARING]), len(bearings) * AT_A_BEARING)
