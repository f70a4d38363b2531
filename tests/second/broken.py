"""The second implementation with one rule broken at a time: what is broken, its text in rules.py, the text instead.

Each text must stand in rules.py exactly once. The comparison has to see a difference for every one of them, and where kinds
are named before a colon, in the limits of each of these."""
from pathlib import Path

BROKEN = [
    ("length 2 plus the low digit", "== 3 + held[1] % 16", "== 2 + held[1] % 16"),
    ("length from the whole second byte", "== 3 + held[1] % 16", "== 3 + held[1]"),
    ("held bytes kept after a command", "held = [symbol - 256]", "held.append(symbol - 256)"),
    ("a command with bytes held is lost", "held = [symbol - 256]", "held = [] if held else [symbol - 256]"),
    ("every command counts as cancelling", "cancelled += held != []", "cancelled += 1"),
    ("kept symbols counted as stray", "held.append(symbol)\n", "held.append(symbol); stray += 1\n"),
    ("kept symbols counted as handed", "held.append(symbol)\n", "held.append(symbol); handed += 1\n"),
    ("refused datagrams not counted", "handed += 1", "handed += 'refused' not in lines[-1]"),
    ("a stray opens", "stray += 1", "stray += 1; held = [symbol]"),
    ("time of the first symbol", "line(time, held)", "line(time - 11 * (len(held) - 1), held)"),
    ("times signed", "place + 6], \"little\")", "place + 6], \"little\", signed=True)"),
    ("times high byte first", "place + 6], \"little\")", "place + 6], \"big\")"),
    ("lower-case hex", "{byte:02X}", "{byte:02x}"),
    ("hex of one digit", "{byte:02X}", "{byte:X}"),
    ("flags as words", "str(int(field))", "str(field)"),
    ("header", "bus listing 1", "bus listing 2"),
    ("last line not ended", "for text in lines).encode()", "for text in lines).encode()[:-1]"),
    ("no count line after a stop", "break\n", "return '\\n'.join(lines + ['']).encode()\n"),
    ("going on after a refused record", "break\n", "place += 8; continue\n"),
    ("place off by a record", "at {place}", "at {place + 8}"),
    ("place in records", "at {place}", "at {place // 8}"),
    ("a cut record is a symbol", "return 11, 0, 0", "return 0, 0, 0"),
    ("7 bytes are a record", "len(data) - place < 8", "len(data) - place < 7"),
    ("10 before 11", "if len(data) - place < 8:", "if len(data) - place < 8 and (b'\\x53\\x54' + bytes(6)).startswith("
     "data[place:place + 2]):"),
    ("1 before 10", "if data[place:place + 2] != b\"\\x53\\x54\":", "if data[place + 7] > 1:\n        return 1, 0, 0\n"
     "    if data[place:place + 2] != b\"\\x53\\x54\":"),
    ("half of the mark", "data[place:place + 2] != b\"\\x53\\x54\"", "data[place] != 0x53"),
    ("the mark swapped", "b\"\\x53\\x54\"", "b\"\\x54\\x53\""),
    ("512 is a symbol", "symbol > 511", "symbol > 512"),
    ("511 is none", "symbol > 511", "symbol > 510"),
    ("5 before 4", "raise Refused(4)", "raise Refused(5 if d[1] % 16 > 4 else 4)"),
    ("length not judged", "d[1] % 16 != length", "d[1] % 16 < length"),
    ("high digit judged as length", "d[1] % 16 != length", "d[1] != length"),
    ("00: deep and shallow swapped", "z & 2 != 0, z & 1 != 0]", "z & 1 != 0, z & 2 != 0]"),
    ("00: metric at the wrong bit", "y & 4 != 0", "y & 2 != 0"),
    ("00: anchor from the low half", "y & 8 != 0", "z & 8 != 0"),
    ("10 low byte first", "256 * d[2] + d[3], 0, 719", "256 * d[3] + d[2], 0, 719"),
    ("10: 720 in range", "0, 719", "0, 720"),
    ("10: 719 out of range", "0, 719", "0, 718"),
    ("11: digit 10 in range", "digits(d[3])[1], 0, 9", "digits(d[3])[1], 0, 10"),
    ("11: zeros judged", "digits(d[3])[1], 0, 9", "d[3], 0, 9"),
    ("11: flag not taken off", "10 * (d[2] & 0x7F)", "10 * d[2]"),
    ("20: high byte first", '"speed", lambda d: [word(d[2], d[3])]', '"speed", lambda d: [word(d[3], d[2])]'),
    ("21: ignored bits in the value", "65536 * digits(d[4])[1]", "65536 * d[4]"),
    ("22: ignored byte in the value", '"total", lambda d: [word(d[2], d[3])]',
     '"total", lambda d: [word(d[2], d[3]) + 65536 * d[4]]'),
    ("25: 4096", "65536 * z", "4096 * z"),
    ("25: A not ignored", "65536 * w]", "65536 * d[6]]"),
    ("26: D&8", "high & 4 != 0, low & 1", "high & 8 != 0, low & 1"),
    ("26: stopped and mph swapped", "low & 1 != 0, low & 2 != 0", "low & 2 != 0, low & 1 != 0"),
    ("27: 100 not taken off", "- 100]", "]"),
    ("27: not below 0", "[word(d[2], d[3]) - 100]", "[max(0, word(d[2], d[3]) - 100)]"),
    ("30: not divided", "[x // 4]", "[x]"),
    ("30: every digit", "not in (0, 4, 8, 12)", "not in range(16)"),
    ("50: 91 degrees", "0, 90)", "0, 91)"),
    ("50: 90 degrees refused", "0, 90)", "0, 89)"),
    ("51: 181 degrees", "0, 180)", "0, 181)"),
    ("51: 180 degrees refused", "0, 180)", "0, 179)"),
    ("51: 6000 hundredths", "0, 180), within(yyyy & 0x7FFF, 0, 5999)", "0, 180), within(yyyy & 0x7FFF, 0, 6000)"),
    ("50: 5999 hundredths refused", "0, 90), within(yyyy & 0x7FFF, 0, 5999)", "0, 90), within(yyyy & 0x7FFF, 0, 5998)"),
    ("50: south in the minutes", "0, 90), within(yyyy & 0x7FFF", "0, 90), within(yyyy & 0xFFFF"),
    ("52: high byte first", '"ground", lambda d: [word(d[2], d[3])]', '"ground", lambda d: [word(d[3], d[2])]'),
    ("53, 89: six of 45", "vw & 0x3F, 0, 44)\n    return", "vw & 0x3F, 0, 45)\n    return"),
    ("53, 89: six of 44 refused", "vw & 0x3F, 0, 44)\n    return", "vw & 0x3F, 0, 43)\n    return"),
    ("53: ignored bits in six", "vw & 0x3F, 0, 44)\n    return", "vw & 0x7F, 0, 44)\n    return"),
    ("53, 89: divided by 2", "(u & 0xC) // 4", "(u & 0xC) // 2"),
    ("54: 24 hours", "0, 23", "0, 24"),
    ("54: 60 minutes", "(d[2] & 0xFC) // 4, 0, 59", "(d[2] & 0xFC) // 4, 0, 60"),
    ("54: 60 seconds", "(s & 3) * 16 + t, 0, 59", "(s & 3) * 16 + t, 0, 60"),
    ("56: month 0", "1, 12", "0, 12"),
    ("56: month 13", "1, 12", "1, 13"),
    ("56: day 0", "1, 31", "0, 31"),
    ("56: day 32", "1, 31", "1, 32"),
    ("56: year 100", "0, 99", "0, 100"),
    ("84, 9C: not modulo 360", "ones) % 360", "ones) % 361"),
    ("84, 9C: as a half-degree angle", "+ 2 * six + ones", "+ 2 * six + (u & 0xC) // 8"),
    ("84, 9C: six of 45", "vw & 0x3F, 0, 44)\n    ones", "vw & 0x3F, 0, 45)\n    ones"),
    ("84, 9C: six of 44 refused", "vw & 0x3F, 0, 44)\n    ones", "vw & 0x3F, 0, 43)\n    ones"),
    ("84, 9C: V's bits in six", "vw & 0x3F, 0, 44)\n    ones", "vw, 0, 44)\n    ones"),
    ("84, 9C: right from U&4", "% 360, u & 8 != 0", "% 360, u & 4 != 0"),
    ("84: not in the table", '    0x84: (6, "pilot", pilot),\n', ""),
    ("84: eight bytes", '0x84: (6, "pilot"', '0x84: (5, "pilot"'),
    ("95 as 84", '0x84: (6, "pilot", pilot)', '0x84: (6, "pilot", pilot), 0x95: (6, "pilot", pilot)'),
    ("84: heading in half degrees", "angle = turning(digits(d[1])[0], d[2])",
     "angle = [half_degrees(digits(d[1])[0], d[2]), d[1] & 0x80 != 0]"),
    ("84: course by V/2", "d[2] // 64", "d[2] // 32"),
    ("84: course without V", "180 * (d[2] // 64)", "0"),
    ("84: course's quarter of 90", "180 * (d[2] // 64)", "90 * (d[2] // 64)"),
    ("84: XY of 180", "0, 179), *modes", "0, 180), *modes"),
    ("84: XY of 179 refused", "0, 179), *modes", "0, 178), *modes"),
    ("84: auto from Z&1", "[z & 2 != 0, z & 4 != 0, z & 8", "[z & 1 != 0, z & 4 != 0, z & 8"),
    ("84: vane from Z&2", "[z & 2 != 0, z & 4 != 0, z & 8", "[z & 2 != 0, z & 2 != 0, z & 8"),
    ("84: track from Z&4", "[z & 2 != 0, z & 4 != 0, z & 8", "[z & 2 != 0, z & 4 != 0, z & 4"),
    ("84: modes from the high digit", "z, m = digits(d[4])[1]", "z, m = digits(d[4])[0]"),
    ("84: ignored bits judged", "z, m = digits(d[4])[1]", "z, m = within(d[4], 0, 15)"),
    ("84: track alone", "[z & 2 != 0, z & 4 != 0, z & 8", "[within(z & 0xE, 0, 8) & 2 != 0, z & 4 != 0, z & 8"),
    ("84: off course from M&8", "[m & 4 != 0, m & 8 != 0]", "[m & 8 != 0, m & 8 != 0]"),
    ("84: off course from Z&4", "[m & 4 != 0, m & 8 != 0]", "[z & 4 != 0, m & 8 != 0]"),
    ("84: wind shift from Z&8", "[m & 4 != 0, m & 8 != 0]", "[m & 4 != 0, z & 8 != 0]"),
    ("84: alarms swapped", "*alarms, signed", "*alarms[::-1], signed"),
    ("84: alarms before modes", "*modes, *alarms", "*alarms, *modes"),
    ("84: turning way before the heading", "[*angle, 180", "[*angle[::-1], 180"),
    ("84: rudder unsigned", "signed(d[6])", "d[6]"),
    ("84: rudder left positive", "signed(d[6])", "-signed(d[6])"),
    ("84: rudder last", "signed(d[6]), d[7], d[8]]", "d[7], d[8], signed(d[6])]"),
    ("84: SS and TT swapped", "d[7], d[8]]", "d[8], d[7]]"),
    ("84: SS signed", "d[7], d[8]]", "signed(d[7]), d[8]]"),
    ("84: TT of one digit", "d[7], d[8]]", "d[7], d[8] % 16]"),
    ("86: sum not judged", "d[2] + d[3] != 255", "False"),
    ("86: sum modulo 256", "d[2] + d[3] != 255", "d[2] + d[3] not in (255, 319)"),
    ("86: bad repeat as 7", "raise Refused(6)", "raise Refused(7)"),
    ("86: code before source", "[digits(d[1])[0], d[2]]", "[d[2], digits(d[1])[0]]"),
    ("89: XY of 180", "0, 179), z", "0, 180), z"),
    ("89: reference by V/2", "v // 4", "v // 2"),
    ("89: locked at the wrong bit", "z & 2 != 0]", "z & 1 != 0]"),
    ("99: 80 as -128", "[-signed(d[2])]", "[-128 if d[2] == 128 else -signed(d[2])]"),
    ("99: west positive", "[-signed(d[2])]", "[signed(d[2])]"),
    ("9C: rudder unsigned", "signed(d[3])", "d[3]"),
]


def broken_listings():
    """What is broken, and the listing with it."""
    source = Path(__file__).with_name("rules.py").read_text()
    for what, text, instead in BROKEN:
        if source.count(text) != 1:
            raise ValueError(f"{what}: {text!r} stands {source.count(text)} times in rules.py")
        names = {"__name__": "broken"}
        exec(compile(source.replace(text, instead), what, "exec"), names)
        yield what, names["listing"]


def differs(broken_listing, data, got):
    try:
        return broken_listing(data) != got
    except IndexError:  # a broken length can leave too few bytes to read
        return True


def unseen(results):
    """What is broken without a difference to any of the results (name, recording, the program's text): small ones and
    those of every command; a rule of some kinds in the limits of each."""
    limits = {}
    for name, data, got in results:
        if name.startswith("limits"):
            limits.setdefault(name.split()[2], []).append((data, got))
    others = [(data, got) for name, data, got in results if len(data) < 2000 or name.startswith("every")]
    missed = []
    for what, broken_listing in broken_listings():
        kinds = what.split(":")[0].split(", ") if ":" in what else []
        places = [limits[kind] for kind in kinds] or [others]
        if not all(any(differs(broken_listing, data, got) for data, got in place) for place in places):
            missed.append(what)
    return missed
