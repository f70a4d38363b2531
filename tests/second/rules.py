"""The listener, the reader and the listing, written a second time from the text of the rules alone (docs/RULES.md)."""


class Refused(Exception):
    """The reader's refusal, with its number."""


def within(value, low, high):
    if not low <= value <= high:
        raise Refused(7)
    return value


def word(low, high):
    return low + 256 * high


def signed(byte):
    return byte - 256 if byte >= 128 else byte


def digits(byte):
    """The two hex digits of a byte, the high one first."""
    return byte // 16, byte % 16


def half_degrees(u, vw):
    six = within(vw & 0x3F, 0, 44)
    return 180 * (u & 3) + 4 * six + (u & 0xC) // 4


def turning(u, vw):
    """A whole-degree angle and whether the boat turns right."""
    six = within(vw & 0x3F, 0, 44)
    ones = (u & 8 != 0) + (u & 4 != 0)
    return [(90 * (u & 3) + 2 * six + ones) % 360, u & 8 != 0]


def depth(d):
    y, z = digits(d[2])
    return [word(d[3], d[4]), y & 8 != 0, y & 4 != 0, z & 4 != 0, z & 2 != 0, z & 1 != 0]


def wind_angle(d):
    return [within(256 * d[2] + d[3], 0, 719)]


def wind_speed(d):
    tenth = within(digits(d[3])[1], 0, 9)
    return [10 * (d[2] & 0x7F) + tenth, d[2] & 0x80 != 0]


def trip(d):
    return [word(d[2], d[3]) + 65536 * digits(d[4])[1]]


def logs(d):
    z, w = digits(d[1])[0], digits(d[6])[1]
    return [d[2] + 256 * d[3] + 65536 * z, d[4] + 256 * d[5] + 65536 * w]


def speeds(d):
    high, low = digits(d[6])
    return [word(d[2], d[3]), word(d[4], d[5]), high & 4 != 0, low & 1 != 0, low & 2 != 0]


def lamp(d):
    x = digits(d[2])[1]
    if x not in (0, 4, 8, 12):
        raise Refused(7)
    return [x // 4]


def latitude(d):
    yyyy = word(d[3], d[4])
    return [within(d[2], 0, 90), within(yyyy & 0x7FFF, 0, 5999), yyyy & 0x8000 != 0]


def longitude(d):
    yyyy = word(d[3], d[4])
    return [within(d[2], 0, 180), within(yyyy & 0x7FFF, 0, 5999), yyyy & 0x8000 != 0]


def course(d):
    return [half_degrees(digits(d[1])[0], d[2])]


def clock(d):
    t, (_, s) = digits(d[1])[0], digits(d[2])
    return [within(d[3], 0, 23), within((d[2] & 0xFC) // 4, 0, 59), within((s & 3) * 16 + t, 0, 59)]


def date(d):
    return [within(digits(d[1])[0], 1, 12), within(d[2], 1, 31), within(d[3], 0, 99)]


def pilot(d):
    z, m = digits(d[4])[1], digits(d[5])[1]
    angle = turning(digits(d[1])[0], d[2])
    modes = [z & 2 != 0, z & 4 != 0, z & 8 != 0]
    alarms = [m & 4 != 0, m & 8 != 0]
    return [*angle, 180 * (d[2] // 64) + within(d[3], 0, 179), *modes, *alarms, signed(d[6]), d[7], d[8]]


def key(d):
    if d[2] + d[3] != 255:
        raise Refused(6)
    return [digits(d[1])[0], d[2]]


def heading(d):
    v, z = digits(d[2])[0], digits(d[4])[1]
    return [half_degrees(digits(d[1])[0], d[2]), 180 * (v // 4) + within(d[3], 0, 179), z & 2 != 0]


def turn(d):
    return [*turning(digits(d[1])[0], d[2]), signed(d[3])]


# Command, low digit of the second byte, name and reading of the fields.
KINDS = {
    0x00: (2, "depth", depth),
    0x10: (1, "windangle", wind_angle),
    0x11: (1, "windspeed", wind_speed),
    0x20: (1, "speed", lambda d: [word(d[2], d[3])]),
    0x21: (2, "trip", trip),
    0x22: (2, "total", lambda d: [word(d[2], d[3])]),
    0x25: (4, "logs", logs),
    0x26: (4, "speeds", speeds),
    0x27: (1, "water", lambda d: [word(d[2], d[3]) - 100]),
    0x30: (0, "lamp", lamp),
    0x50: (2, "lat", latitude),
    0x51: (2, "lon", longitude),
    0x52: (1, "ground", lambda d: [word(d[2], d[3])]),
    0x53: (0, "course", course),
    0x54: (1, "time", clock),
    0x56: (1, "date", date),
    0x84: (6, "pilot", pilot),
    0x86: (1, "key", key),
    0x89: (2, "heading", heading),
    0x99: (0, "variation", lambda d: [-signed(d[2])]),
    0x9C: (1, "turn", turn),
}


def read(d):
    """Name and fields of a whole datagram."""
    if d[0] not in KINDS:
        raise Refused(4)
    length, name, fields = KINDS[d[0]]
    if d[1] % 16 != length:
        raise Refused(5)
    return name, fields(d)


def line(time, d):
    spelled = [str(time)] + [f"{byte:02X}" for byte in d]
    try:
        name, fields = read(d)
        spelled += [name] + [str(int(field)) for field in fields]
    except Refused as refused:
        spelled += ["refused", str(refused.args[0])]
    return " ".join(spelled)


def record(data, place):
    """The record at a place as (refusal, time, symbol)."""
    if len(data) - place < 8:
        return 11, 0, 0
    if data[place:place + 2] != b"\x53\x54":
        return 10, 0, 0
    symbol = int.from_bytes(data[place + 6:place + 8], "little")
    if symbol > 511:
        return 1, 0, 0
    return 0, int.from_bytes(data[place + 2:place + 6], "little"), symbol


def listing(data):
    """The whole text for a recording."""
    lines = ["bus listing 1"]
    handed = cancelled = stray = place = 0
    held = []
    while place < len(data):
        refusal, time, symbol = record(data, place)
        if refusal:
            lines.append(f"stopped {refusal} at {place}")
            break
        place += 8
        if symbol >= 256:
            cancelled += held != []
            held = [symbol - 256]
        elif not held:
            stray += 1
        else:
            held.append(symbol)
            if len(held) == 3 + held[1] % 16:
                lines.append(line(time, held))
                handed += 1
                held = []
    lines.append(f"handed {handed} cancelled {cancelled} stray {stray}")
    return "".join(text + "\n" for text in lines).encode()
