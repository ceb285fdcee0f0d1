"""Tapes by chance, whole and damaged."""
import math
import random
import struct

from tapes import END, FAULTY, KNOWN, NAN, collection, gp, line, load, match, point, points, tolerance, tolerance_bits

LENGTHS = ("floats1", "table1", "floats2", "table2", "first", "second", "distances")


class Tapes:
    """Draws tapes; `blobs` are more to load, beside points."""

    def __init__(self, seed, blobs=()):
        self.draw, self.blobs = random.Random(seed), list(blobs)

    def place(self):
        far = self.draw.choice([0.0, 1.0, 2.0, -3.0, 0.25, float(self.draw.randint(-9, 9))])
        axis = self.draw.randrange(3)
        return tuple(far if n == axis else 0.0 for n in range(3))

    def blob(self):
        draw, kind = self.draw, self.draw.random()
        if kind < 0.05:
            return draw.choice(FAULTY)[1]
        if kind < 0.1:
            return draw.choice([NAN, line(), line((0.0, 0.0, 0.0)), collection(), point(1e200), point(math.inf), b""])
        if kind < 0.3 and self.blobs:
            return draw.choice(self.blobs)
        if kind < 0.5:
            return points(*[self.place() for _ in range(draw.randint(1, 5))])
        one = point(*self.place(), order=draw.choice("<>"))
        return draw.choice([one, one, gp(one), gp(one, flags=3, envelope=bytes(32)), one + draw.randbytes(3), collection(one)])

    def number(self):
        return self.draw.choice([0, 1, 2, 2, 3, 255])

    def tolerance(self):
        draw = self.draw
        if draw.random() < 0.1:
            return tolerance_bits(draw.choice([0x7FF8 << 48, 0xFFFF << 48, 1 << 63, 0x7FF << 52, draw.getrandbits(64)]))
        if draw.random() < 0.04:
            return tolerance(-draw.random())
        return tolerance(draw.choice([0.0, 1.0, 2.0, 3.0, 0.5, math.sqrt(2.0), draw.random() * 12]))

    def command(self):
        kind = self.draw.random()
        if kind < 0.3:
            return load(self.number(), self.blob())
        if kind < 0.45:
            return self.tolerance()
        if kind < 0.99:
            return match(self.number(), self.number())
        return bytes([self.draw.choice([code for code in range(256) if code not in KNOWN])])

    def tape(self):
        """Most are whole; others end early, go on behind the end, or have a byte damaged."""
        draw = self.draw
        loads = [load(number, self.blob()) for number in (0, 1, 2, 3, 255) if draw.random() < 0.9]
        whole = b"".join(loads + [self.command() for _ in range(draw.choice([0, 1, 2, 4, 8, 16]))]) + END
        harm = draw.random()
        if harm < 0.1:
            return whole[:draw.randrange(len(whole))]
        if harm < 0.2:
            return whole + draw.randbytes(draw.randint(1, 9))
        if harm < 0.4:
            at = draw.randrange(len(whole))
            return whole[:at] + draw.choice([draw.randbytes(1), bytes([whole[at] ^ 1 << draw.randrange(8)]), b"", b"\3", END]) + whole[at + 1:]
        if harm < 0.42:
            return draw.randbytes(draw.randint(0, 40))
        return whole

    def lent(self):
        """Lengths of the workspaces and of the lists, mostly enough."""
        draw = self.draw
        return [draw.choice([most] * 30 + [0, 1, draw.randint(0, most)]) for most in (64, 32, 64, 32)] + [
            draw.choice([16, 16, 8, 4, 2, 1, 0]) for _ in range(3)]

    def calls(self, count):
        for _ in range(count):
            yield self.tape(), self.lent()


def shapes(seed, count):
    """Lines and faces, for those who measure them."""
    draw = random.Random(seed)
    for _ in range(count):
        middle = [draw.uniform(-3, 3) for _ in range(3)]
        places = [tuple(m + draw.uniform(-1, 1) for m in middle) for _ in range(draw.randint(2, 5))]
        if draw.random() < 0.6:
            yield line(*places)
        else:
            ring = b"".join(struct.pack("<3d", *place) for place in places + places[:1])
            yield struct.pack("<BIII", 1, 1003, 1, len(places) + 1) + ring
