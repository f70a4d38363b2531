"""Recordings for the comparison, each with a name. The same ones at every run."""
import random
import struct

MARK = b"\x53\x54"
WRAP = 2 ** 32
TEN_SYMBOLS = [(100, 0x03E), (200, 0x120), (211, 0x001), (300, 0x120), (311, 0x001), (322, 0x03E), (333, 0x000),
            (400, 0x199), (411, 0x000), (422, 0x0FE)]
FOUR_LINES = b"""bus listing 1
333 20 01 3E 00 speed 62
422 99 00 FE variation 2
handed 2 cancelled 1 stray 1
"""
EXAMPLES = {bytes.fromhex(datagram): reading for datagram, reading in {
    "20 01 3E 00": "speed 62", "89 B2 0A 00 20": "heading 582 0 0", "53 00 2D": "refused 7",
    "99 00 80": "variation 128", "99 00 FF": "variation 1", "9C 01 00 00": "turn 0 0 0", "9C F1 2C 00": "turn 0 1 0",
    "9C C1 2C FE": "turn 90 1 -2", "86 11 60 DF": "refused 6", "27 01 00 00": "water -100",
    "10 01 02 CF": "windangle 719", "10 01 02 D0": "refused 7"}.items()}
# Command and low digit of the second byte.
LENGTHS = {0x00: 2, 0x10: 1, 0x11: 1, 0x20: 1, 0x21: 2, 0x22: 2, 0x25: 4, 0x26: 4, 0x27: 1, 0x30: 0, 0x50: 2,
           0x51: 2, 0x52: 1, 0x53: 0, 0x54: 1, 0x56: 1, 0x84: 6, 0x86: 1, 0x89: 2, 0x99: 0, 0x9C: 1}
WORDS = [0, 1, 9, 10, 99, 100, 101, 255, 256, 999, 1000, 9999, 10000, 32767, 32768, 65534, 65535]


def tape(pairs):
    """The bytes of a recording of (time, symbol)."""
    return b"".join(struct.pack("<2sIH", MARK, time % WRAP, symbol) for time, symbol in pairs)


def symbols(datagram):
    return [256 + datagram[0], *datagram[1:]]


def timed(heard, start=0):
    """Symbols 11 bit times apart, with 10 more before a command symbol."""
    time, pairs = start, []
    for symbol in heard:
        time += 21 if symbol >= 256 else 11
        pairs.append((time, symbol))
    return tape(pairs)


def said(datagrams, start=0):
    return timed([symbol for datagram in datagrams for symbol in symbols(datagram)], start)


def collided(r, datagrams):
    """The symbols of datagrams among attempts cut off, strays and commands alone."""
    heard = []
    for datagram in datagrams:
        whole = symbols(datagram)
        if r.random() < 0.3:
            heard += [r.randrange(256) for _ in range(r.randrange(4))]
        while r.random() < 0.3:
            heard += whole[:r.randrange(1, len(whole))]
        if r.random() < 0.05:
            heard.append(256 + r.randrange(256))
        heard += whole
    return heard


def in_range(r, command):
    """A datagram of this kind with random fields in range, as spelled, and random ignored bits."""
    bits, below = r.getrandbits, r.randrange
    high, rest = bits(4), r.randbytes(LENGTHS[command] + 1)
    if command == 0x10:
        rest = divmod(below(720), 256)
    elif command == 0x11:
        rest = bits(8), bits(4) << 4 | below(10)
    elif command == 0x30:
        rest = [bits(4) << 4 | 4 * bits(2)]
    elif command in (0x50, 0x51):
        minutes = below(6000) | bits(1) << 15
        rest = below(91 if command == 0x50 else 181), minutes % 256, minutes // 256
    elif command == 0x54:
        second = below(60)
        high, rest = second % 16, (below(60) << 2 | second // 16, below(24))
    elif command == 0x56:
        high, rest = below(1, 13), (below(1, 32), below(100))
    elif command == 0x86:
        rest = rest[0], 255 - rest[0]
    elif command in (0x53, 0x84, 0x89, 0x9C):
        rest = bits(2) << 6 | below(45), *rest[1:]
    if command in (0x84, 0x89):
        rest = rest[0], below(180), *rest[2:]
    return bytes([command, high << 4 | LENGTHS[command], *rest])


def any_bytes(r, command, low=None):
    """A datagram of this command, of its own length or the one given, its other bits random."""
    low = LENGTHS[command] if low is None else low
    return bytes([command, r.getrandbits(4) << 4 | low]) + r.randbytes(low + 1)


def around(*limits):
    return sorted({v for limit in limits for v in (limit - 1, limit, limit + 1) if v >= 0})


def limits(r, command):
    """Every limit and its neighbours of this kind's fields, as spelled in bytes; small domains whole."""
    def made(high, *rest):
        return bytes([command, high << 4 | LENGTHS[command], *rest])
    any4, any8 = (lambda: r.getrandbits(4)), (lambda: r.getrandbits(8))
    every = range(256)
    if command == 0x00:
        return [made(any4(), yz, w % 256, w // 256) for yz in every for w in WORDS]
    if command == 0x10:
        return [made(any4(), *divmod(v, 256)) for v in around(*range(1025), 65534)]
    if command == 0x11:
        return [made(any4(), xx, any4() << 4 | y) for xx in every for y in range(16)]
    if command in (0x20, 0x27, 0x52):
        return [made(high, w % 256, w // 256) for high in range(16) for w in WORDS + around(100, 110, 200, 1100)]
    if command in (0x21, 0x22):
        return [made(any4(), w % 256, w // 256, last) for w in WORDS for last in every]
    if command == 0x25:
        return [made(high, w % 256, w // 256, v % 256, v // 256, any4() << 4 | low)
                for high in range(16) for low in range(16) for w in WORDS for v in (w, 65535 - w)]
    if command == 0x26:
        return [made(any4(), w % 256, w // 256, any8(), any8(), de) for w in WORDS for de in every]
    if command == 0x30:
        return [made(high, x) for high in range(16) for x in every]
    if command in (0x50, 0x51):
        return [made(any4(), degrees, m % 256, m // 256 + south) for degrees in around(0, 90, 180, 255)[:-1]
                for m in around(0, 99, 999, 5999, 8191, 16384, 32766) for south in (0, 128)]
    if command == 0x53:
        return [made(u, vw) for u in range(16) for vw in every]
    if command == 0x54:
        return [made(t, rs, hh) for t in range(16) for rs in every for hh in (0, 23, 24)] + [
            made(0, 0, hh) for hh in every]
    if command == 0x56:
        return [made(m, day, y) for m in range(16) for day in around(0, 31, 127, 254) for y in around(0, 99, 127, 254)]
    if command == 0x84:
        angles = [made(u, vw, any8() % 181, *r.randbytes(5)) for u in range(16) for vw in every]
        courses = [made(any4(), v << 6 | 44, xy, *r.randbytes(5)) for v in range(4) for xy in every]
        others = [made(any4(), v, any8() % 180, *(byte if place == n else any8() for n in range(5)))
                  for place in range(5) for byte in every for v in (0, 0xC0)]
        return angles + courses + others
    if command == 0x86:
        return [made(any4(), y, (v - y) % 256) for y in every for v in (254, 255, 256, 319, 127)]
    if command == 0x89:
        return [made(u, vw, xy, any8()) for u in range(16) for vw in every for xy in (0, 179, 180)] + [
            made(any4(), v << 6, xy, z) for v in range(4) for xy in every for z in (r.getrandbits(8) | 2, 0xFD)]
    if command == 0x99:
        return [made(high, xx) for high in range(16) for xx in every]
    return [made(u, vw, any8()) for u in range(16) for vw in every] + [made(any4(), 0, rr) for rr in every]


def heard_cases():
    """Small recordings about the listener: collisions, strays, commands, times."""
    yield "the ten symbols of rules 10.4", tape(TEN_SYMBOLS)
    yield "the examples of rules 12", said(EXAMPLES)
    yield "empty input", b""
    for symbol in (0x000, 0x0FF, 0x100, 0x1FF):
        yield f"symbol {symbol:03X} alone", timed([symbol])
    for low in range(16):
        whole = [0x1A0, 0x50 + low] + list(range(1, low + 2))
        for cut in range(1, len(whole)):
            yield f"length {low + 3} cut after {cut}", timed([7, *whole[:cut], *whole, 9, *whole[:cut]])
        yield f"length {low + 3} over and over", timed(whole * 5 + [0] * 20 + whole)
    yield "commands alone", timed([0x120] * 40 + [1, 2, 3, 4])
    yield "6.2 knots cut off by its repeat", timed([0x120, 1, 0x120, 1, 0x3E, 0, 0x120, 1, 0x3E, 0x120, 1, 0x3E, 0])
    edges = sorted({t % WRAP for k in range(10) for t in (10 ** k - 1, 10 ** k, 2 ** (3 * k + 4), -(10 ** k))})
    yield "times of every width", tape([(t, s) for t in edges for s in (0x130, 0, 4)])
    yield "times set back", tape([(t, s) for t in reversed(edges) for s in (0x199, 0, 4)])
    for start in range(WRAP - 45, WRAP + 1, 5):
        yield f"times that wrap from {start}", said([bytes([0x20, 1, 0x3E, 0])] * 2, start)
    r = random.Random(1)
    for n in range(60):
        heard = [256 * (r.random() < 0.2) + r.choice((0x00, 0x10, 0x01, 0x02, 0x9C, r.randrange(256)))
                 for _ in range(r.randrange(200))]
        yield f"random symbols {n}", tape([(r.getrandbits(32), symbol) for symbol in heard])


def damaged_cases():
    """Refused records: 10, 1, both at once, and inputs cut at every byte of a record."""
    r = random.Random(2)
    speed = said([bytes([0x20, 1, 0x3E, 0])] * 3)
    long = timed(collided(r, [in_range(r, r.choice(list(LENGTHS))) for _ in range(1600)]))
    marks = [bytes([0x53 ^ 1 << bit, 0x54]) for bit in range(8)] + [bytes([0x53, 0x54 ^ 1 << bit]) for bit in range(8)]
    bad = [mark + bytes(6) for mark in marks + [b"\x54\x53", bytes(2)]] + [b"\xff" * 8]
    bad += [mark + bytes(4) + struct.pack("<H", symbol) for mark in (MARK, b"\x53\x55", b"\x00\x54")
            for symbol in (511, 512, 513, 0x2FF, 0x300, 0x400, 0x8000, 0xFF00, 0xFFFF)]
    for n, record in enumerate(bad):
        for whole in (0, 1, 2, 4, 5, 12):
            yield f"damage {n} after {whole} records", speed[:8 * whole] + record + speed
        yield f"damage {n} at the very end", speed + record
        yield f"damage {n} before a cut record", speed + record + speed[:5]
    for whole in (0, 1, 3, 4, 11, 511, 512, 513, 4095, 4096, 8191, 8192, 8193, len(long) // 8):
        for left in range(1, 8):
            for what, record in (("", long[:8]), (", bad ones,", b"\x11\x22\x33\x44\x55\x66\xff\xff")):
                yield f"{left} bytes{what} after {whole} records", long[:8 * whole] + record[:left]
    for n in range(40):
        yield f"random bytes {n}", r.randbytes(r.randrange(40))
        place = r.randrange(len(long))
        changed = bytes([long[place] ^ 1 << r.randrange(8)])
        yield f"one byte changed at {place}", long[:place] + changed + long[place + 1:]


def limit_cases():
    """Recordings of a thousand datagrams for each kind's limits, one for every command with every length."""
    r = random.Random(3)
    for command in LENGTHS:
        datagrams = limits(r, command)
        for at in range(0, len(datagrams), 1000):
            yield f"limits of {command:02X} from {at}", said(datagrams[at:at + 1000], WRAP - 100000)
    yield "every command and length", said([any_bytes(r, command, low) for command in range(256) for low in range(16)])
    yield "every kind and length, 20 times", said([any_bytes(r, command, low) for command in LENGTHS
                                                   for low in range(16) for _ in range(20)])


def made_cases(in_range_each, any_each):
    """So many datagrams of each kind in range, in mixed order with collisions and strays; then with any bytes."""
    r = random.Random(4)
    for name, make, each in (("in range", in_range, in_range_each), ("of any bytes", any_bytes, any_each)):
        order = list(LENGTHS) * each
        r.shuffle(order)
        for at in range(0, len(order), 5000):
            heard = collided(r, [make(r, command) for command in order[at:at + 5000]])
            yield f"made {name} from {at}", timed(heard, r.getrandbits(32))


def busy(size):
    """A piece of recording and how often it is repeated to make that many bytes; it ends with nothing held."""
    r = random.Random(5)
    piece = timed(collided(r, [make(r, command) for command in LENGTHS for make in (in_range, any_bytes)] * 50))
    return piece, size // len(piece) + 1
