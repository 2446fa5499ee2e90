#!/usr/bin/env python3
"""Draws docs/survival.svg: how many days survive a deaf arc of 0 to 40 slots, by each version of the coder. Standard library only.

    (cd crates/abi && rt lib) && python3 tools/survival.py

A day is 24 random means, some absent. The shell turns once in 80 slots; the deaf arc covers so many slots one after the other, from each of the 80
slots on, and runs on over the end. A day survives if all its means come back; the script stops if ever a wrong one does.

Version one sends each mean three times in a row, a mean in a slot: 72 of the 80 slots. Version two packs the day into 60 symbols of the field of 64 and
sends a Reed-Solomon block of 64 places, any 60 of which are enough. Version three sends a codeword of 80 places with the 60 symbols in the first 60 of
them, and cannot fill in a missing one. Version four is this coder, and every number of its lines comes from calls of the proved archive: Pack, Pick,
Systematic word, Heard, Rebuild and Unpack (m = 6, curve 0,0,1,0,0, k = 60, the 80 points of Points).

Version four is drawn for two orders of sending: places 1, 2, 3, .. as Points lists them, and each time STRIDE places further. Opposite points stand
side by side in the first order, so that an arc of 20 slots from an odd place on leaves 30 pairs of opposite points, and these are dependent. Of the
strides below 40 that reach all places, 3, 17, 27 and 39 leave dependent places at no start of such an arc, 1 at 40 of the 80, and the others at 1
to 3.
"""
import ctypes
import pathlib
import random
import subprocess
import sys

ROOT = pathlib.Path(__file__).resolve().parent.parent
ARCHIVE = ROOT / "crates/abi/out/libabi.a"
LIBRARY = ROOT / "target/libvakhudle.so"
PICTURE = ROOT / "docs/survival.svg"

FIELD, CURVE, K, HOURS = 6, (0, 0, 1, 0, 0), 60, 24
ARCS = range(41)
DAYS = 50
STRIDE = 3
ABSENT = 32767


def library():
    """The archive as a shared object."""
    if not ARCHIVE.exists():
        sys.exit("no crates/abi/out/libabi.a: run `rt lib` in crates/abi")
    command = ["gcc", "-shared", "-o", LIBRARY, "-Wl,--whole-archive", ARCHIVE, "-Wl,--no-whole-archive"]
    subprocess.run(command, check=True)
    return ctypes.CDLL(str(LIBRARY))


def lent(kind, values):
    """A buffer and its length, as two arguments."""
    values = list(values)
    return [(kind * len(values))(*values), ctypes.c_size_t(len(values))]


def byte(values):
    return lent(ctypes.c_uint8, values)


def place(values):
    return lent(ctypes.c_uint16, values)


def mean(values):
    return lent(ctypes.c_int16, values)


class Coder:
    """The exported operations over one code. A refusal is None."""

    def __init__(self):
        self.library = library()
        head = [ctypes.c_uint8(b) for b in (FIELD, *CURVE)]
        xs, ys = byte([0] * 288), byte([0] * 288)
        self.n = self.library.vakhudle_points(*head, *xs, *ys)
        self.code = [*head, *byte(xs[0][: self.n]), *byte(ys[0][: self.n]), ctypes.c_size_t(K)]
        self.work = byte([0] * 8192)

    def call(self, name, inputs, out, work):
        answer = getattr(self.library, "vakhudle_" + name)(*self.code, *inputs, *out, *(self.work if work else []))
        return None if answer < 0 else out[0][:] if answer == 0 else out[0][:answer]

    def pack(self, means):
        return self.call("pack", mean(means), byte([0] * K), False)

    def unpack(self, block):
        return self.call("unpack", byte(block), mean([0] * HOURS), False)

    def pick(self, ranked):
        return self.call("pick", place(ranked), place([0] * K), True)

    def word(self, places, message):
        return self.call("systematic_word", place(places) + byte(message), byte([0] * self.n), True)

    def heard(self, mask):
        return self.call("heard", byte(mask), place([0] * 288), False)

    def rebuild(self, places, symbols):
        return self.call("rebuild", place(places) + byte(symbols), byte([0] * self.n), True)


def mask_of(places):
    mask = [0] * 40
    for p in places:
        mask[(p - 1) // 8] |= 1 << (p - 1) % 8
    return mask


def random_day():
    return [ABSENT if random.random() < 0.05 else random.randint(-2000, 20000) for _ in range(HOURS)]


def version_one(coder, chosen, means, word, heard):
    """Slot i sends the mean with index i div 3: whether each was heard at least once."""
    told = {(slot - 1) // 3 for slot in heard}
    return all(hour in told for hour in range(HOURS))


def version_two(coder, chosen, means, word, heard):
    """The first 64 slots send a block of which any 60 places are enough."""
    return sum(slot <= 64 for slot in heard) >= K


def version_three(coder, chosen, means, word, heard):
    """The message stands in the first 60 places, and every one of them is needed."""
    return sum(place <= K for place in heard) == K


def version_four(coder, chosen, means, word, heard):
    """Whether the means come back from the heard places; a wrong codeword or mean ends the script."""
    rebuilt = coder.rebuild(heard, [word[p - 1] for p in heard])
    if rebuilt is None:
        return False
    if rebuilt != word or coder.unpack([rebuilt[p - 1] for p in chosen]) != means:
        sys.exit("a day came back wrong")
    return True


def shares(coder, stride, test):
    """For each arc the share, in percent, of days and arc starts at which a day survives the test."""
    n = coder.n
    order = [i * stride % n + 1 for i in range(n)]
    chosen = coder.pick(range(1, n + 1))
    days = [random_day() for _ in range(DAYS)]
    words = [coder.word(chosen, coder.pack(means)) for means in days]
    result = []
    for arc in ARCS:
        kept = 0
        for start in range(n):
            deaf = {order[(start + i) % n] for i in range(arc)}
            heard = coder.heard(mask_of(p for p in order if p not in deaf))
            kept += sum(test(coder, chosen, means, word, heard) for means, word in zip(days, words))
        result.append(100 * kept / (n * DAYS))
    return result


# the picture: a frame of 640 by 300 with its corner at (70, 60)
LEFT, TOP, WIDTH, HEIGHT = 70, 60, 640, 300


def across(arc):
    return LEFT + WIDTH * arc / ARCS[-1]


def down(percent):
    return TOP + HEIGHT * (1 - percent / 100)


def text(x, y, words, anchor="middle", size=13, more=""):
    return f'<text x="{x:g}" y="{y:g}" text-anchor="{anchor}" font-size="{size}"{more}>{words}</text>'


def curve(values, colour, dashes):
    points = " ".join(f"{across(a):g},{down(v):.4g}" for a, v in zip(ARCS, values))
    dots = "".join(f'<circle cx="{across(a):g}" cy="{down(v):.4g}" r="3" fill="{colour}"/>' for a, v in zip(ARCS, values))
    return f'<polyline points="{points}" fill="none" stroke="{colour}" stroke-width="2"{dashes}/>{dots}'


def drawing(lines):
    """lines: name, colour, dashes, values."""
    parts = ['<rect width="740" height="450" fill="white"/>']
    parts.append(text(LEFT + WIDTH / 2, 26, "Days of 24 hourly means that survive a deaf arc", size=18))
    parts.append(text(LEFT + WIDTH / 2, 46, f"{DAYS} random days, every start of the arc"))
    for percent in range(0, 101, 25):
        y = down(percent)
        parts.append(f'<line x1="{LEFT}" y1="{y:g}" x2="{LEFT + WIDTH}" y2="{y:g}" stroke="#ccc"/>')
        parts.append(text(LEFT - 8, y + 4, f"{percent} %", "end"))
    for arc in range(0, ARCS[-1] + 1, 5):
        x = across(arc)
        parts.append(f'<line x1="{x:g}" y1="{TOP + HEIGHT}" x2="{x:g}" y2="{TOP + HEIGHT + 5}" stroke="black"/>')
        parts.append(text(x, TOP + HEIGHT + 20, arc))
    parts.append(f'<rect x="{LEFT}" y="{TOP}" width="{WIDTH}" height="{HEIGHT}" fill="none" stroke="black"/>')
    parts.append(text(LEFT + WIDTH / 2, TOP + HEIGHT + 42, "deaf slots, one after the other, of the 80 in a turn"))
    middle = TOP + HEIGHT / 2
    parts.append(text(18, middle, "days that come back", more=f' transform="rotate(-90 18 {middle:g})"'))
    for i, (name, colour, dashes, values) in enumerate(lines):
        parts.append(curve(values, colour, dashes))
        y = TOP + 40 + 24 * i
        parts.append(f'<line x1="405" y1="{y}" x2="437" y2="{y}" stroke="{colour}" stroke-width="2"{dashes}/>')
        parts.append(text(445, y + 4, name, "start"))
    parts.append(text(LEFT + WIDTH / 2, 438, "With version four no day came back wrong: each was rebuilt whole or refused.", size=12))
    body = "\n".join(parts)
    return f'<svg xmlns="http://www.w3.org/2000/svg" viewBox="0 0 740 450" width="740" height="450" font-family="sans-serif">\n{body}\n</svg>\n'


def main():
    random.seed(1)
    coder = Coder()
    lines = [
        ("version one: each mean three times", "#909090", "", shares(coder, 1, version_one)),
        ("version two: any 60 of 64 places", "#606060", ' stroke-dasharray="2 3"', shares(coder, 1, version_two)),
        ("version three: the first 60 of 80 places", "#c09020", "", shares(coder, 1, version_three)),
        ("version four, places as Points lists them", "#b03020", "", shares(coder, 1, version_four)),
        (f"version four, {STRIDE} places further each time", "#2050a0", ' stroke-dasharray="6 4"', shares(coder, STRIDE, version_four)),
    ]
    for name, _, _, values in lines:
        print(name + ":", " ".join(f"{v:g}" for v in values))
    PICTURE.write_text(drawing(lines), encoding="utf-8")


if __name__ == "__main__":
    main()
