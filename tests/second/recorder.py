"""The recording writer and the recording reader, written a second time from the text of rules 2 and 9 alone (docs/RULES.md);
then their rules broken one at a time.

A call of the writer changes the buffer that it is lent and gives the number that C gets."""
from inspect import getsource

MARK = b"\x53\x54"
GUARD = bytes(range(0xC0, 0xE0))  # stands on both sides of the lent buffer, and has to stay


def refused(number, place=0):
    return 2 ** 64 - 1 - (number + 256 * place)


def spelled(time, symbol):
    """The bytes of a record."""
    return MARK + time.to_bytes(4, "little") + symbol.to_bytes(2, "little")


def put(buffer, at, data):
    """Stores the bytes; those of a broken rule may reach past the buffer, and are cut there."""
    place = buffer[at:at + len(data)]
    place[:] = data[:len(place)]


def record(time, symbol, buffer, at):
    size = 8
    if symbol > 511:
        return refused(1)
    if at > len(buffer) or len(buffer) - at < size:
        return refused(8)
    put(buffer, at, spelled(time, symbol))
    return size


def records(times, symbols, buffer, at):
    size = 8 * len(times)
    if len(times) != len(symbols):
        return refused(11)
    if any(symbol > 511 for symbol in symbols):
        return refused(1)
    if at > len(buffer) or len(buffer) - at < size:
        return refused(8)
    for i, (time, symbol) in enumerate(zip(times, symbols)):
        put(buffer, at + 8 * i, spelled(time, symbol))
    return size


def read_at(recording, at):
    """One record, the end, or a refusal with its number and place."""
    left = len(recording) - at
    if left == 0:
        return ("end",)
    if left < 8:
        return "refused", 11, at
    if recording[at:at + 2] != MARK:
        return "refused", 10, at
    time = int.from_bytes(recording[at + 2:at + 6], "little")
    symbol = int.from_bytes(recording[at + 6:at + 8], "little")
    if symbol > 511:
        return "refused", 1, at
    return "record", time, symbol


def read(recording):
    """The times and the symbols from the first byte on, and what comes after the last of them."""
    times, symbols = [], []
    got = read_at(recording, 0)
    while got[0] == "record":
        times.append(got[1])
        symbols.append(got[2])
        got = read_at(recording, 8 * len(times))
    return times, symbols, got


def said(name, *arguments):
    """What a call gives: the writer's number and all bytes of the buffer with its guards, or the reader's answer."""
    if name == "read_at":
        return read_at(*arguments)
    if name == "read":
        return read(*arguments)
    first, second, before, at = arguments
    memory = bytearray(GUARD + before + GUARD)
    buffer = memoryview(memory)[len(GUARD):len(GUARD) + len(before)]
    call = record if name == "record" else records
    return call(first, second, buffer, at), bytes(memory)


# A broken rule is what is broken, a text that stands in its function exactly once, and the text instead.

SPELLED = "spelled(time, symbol)"
ROOM = "at > len(buffer) or len(buffer) - at < size"
STORED = "[put(buffer, at + 8 * i, spelled(times[i], symbols[i])) for i in range({})]; "
FITTING = "min(len(times), max(0, len(buffer) - at) // 8)"
FIRST_BAD = "next(i for i in range(len(symbols)) if symbols[i] > 511)"

BOTH = [
    ("the mark's bytes swapped", SPELLED, SPELLED + "[1::-1] + " + SPELLED + "[2:]"),
    ("the mark 53 53", SPELLED, 'b"\\x53\\x53" + ' + SPELLED + "[2:]"),
    ("the mark 54 54", SPELLED, 'b"\\x54\\x54" + ' + SPELLED + "[2:]"),
    ("the mark 00 00", SPELLED, "bytes(2) + " + SPELLED + "[2:]"),
    ("the mark not stored", f"{SPELLED})", f"bytes(buffer[at:at + 2]) + {SPELLED}[2:])"),
    ("the mark left out", SPELLED, SPELLED + "[2:]"),
    ("the mark last", SPELLED, SPELLED + "[2:] + MARK"),
    ("time high byte first", SPELLED, 'MARK + time.to_bytes(4, "big") + symbol.to_bytes(2, "little")'),
    ("time high word first", SPELLED, "spelled(time // 65536 + time % 65536 * 65536, symbol)"),
    ("symbol high byte first", SPELLED, 'MARK + time.to_bytes(4, "little") + symbol.to_bytes(2, "big")'),
    ("symbol before time", SPELLED, 'MARK + symbol.to_bytes(2, "little") + time.to_bytes(4, "little")'),
    ("ninth bit lost", SPELLED, "spelled(time, symbol % 256)"),
    ("ninth bit moved to the tenth", SPELLED, "spelled(time, symbol + symbol // 256 * 256)"),
    ("symbol of seven bits and the ninth", SPELLED, "spelled(time, symbol & 0x17F)"),
    ("time of 31 bits", SPELLED, "spelled(time % 2 ** 31, symbol)"),
    ("time of 24 bits", SPELLED, "spelled(time % 2 ** 24, symbol)"),
    ("time of 16 bits", SPELLED, "spelled(time % 2 ** 16, symbol)"),
    ("time of 8 bits", SPELLED, "spelled(time % 2 ** 8, symbol)"),
    ("time of 16 bits with a sign", SPELLED, "spelled((time % 2 ** 16 - (time & 2 ** 15) * 2) % 2 ** 32, symbol)"),
    ("time at most 2^31 - 1", SPELLED, "spelled(min(time, 2 ** 31 - 1), symbol)"),
    ("time one more", SPELLED, "spelled((time + 1) % 2 ** 32, symbol)"),
    ("time 0 for every record", SPELLED, "spelled(0, symbol)"),
    ("symbol 0 for every record", SPELLED, "spelled(time, 0)"),
    ("the last byte of a record not stored", SPELLED, SPELLED + "[:7]"),
    ("a record of nine bytes", SPELLED, SPELLED + " + bytes(1)"),
    ("511 refused", "symbol > 511", "symbol > 510"),
    ("512 accepted", "symbol > 511", "symbol > 512"),
    ("513 accepted", "symbol > 511", "symbol > 511 and symbol != 513"),
    ("symbols below 1024 accepted", "symbol > 511", "symbol > 1023"),
    ("65535 accepted", "symbol > 511", "65535 > symbol > 511"),
    ("commands refused", "symbol > 511", "symbol > 255"),
    ("no symbol refused", "symbol > 511", "symbol > 65535"),
    ("only bit 512 judged", "symbol > 511", "symbol & 512"),
    ("only bit 32768 judged", "symbol > 511", "symbol & 32768"),
    ("symbols of 15 bits judged", "symbol > 511", "symbol % 32768 > 511"),
    ("symbols of ten bits judged", "symbol > 511", "symbol % 1024 > 511"),
    ("a high byte of 2 refused", "symbol > 511", "symbol // 256 == 2"),
    ("8 before 1", "return refused(1)", "return refused(1 if len(buffer) - at >= size else 8)"),
    ("8 past the end before 1", "return refused(1)", "return refused(1 if at <= len(buffer) else 8)"),
    ("a symbol above 511 told as 7", "refused(1)", "refused(7)"),
    ("a symbol above 511 told as 8", "refused(1)", "refused(8)"),
    ("a symbol above 511 told as 10", "refused(1)", "refused(10)"),
    ("a symbol above 511 told as 11", "refused(1)", "refused(11)"),
    ("a symbol above 511 answered with 0", "refused(1)", "0"),
    ("a symbol above 511 told at the position", "refused(1)", "refused(1, at)"),
    ("a symbol above 511 told at the end", "refused(1)", "refused(1, len(buffer))"),
    ("a symbol above 511 told at 1", "refused(1)", "refused(1, 1)"),
    ("no room told as 1", "refused(8)", "refused(1)"),
    ("no room told as 7", "refused(8)", "refused(7)"),
    ("no room told as 11", "refused(8)", "refused(11)"),
    ("no room answered with 0", "refused(8)", "0"),
    ("past the end told as 11", "refused(8)", "refused(11 if at > len(buffer) else 8)"),
    ("no room told at the position", "refused(8)", "refused(8, at)"),
    ("no room told at the end", "refused(8)", "refused(8, len(buffer))"),
    ("no room told at 1", "refused(8)", "refused(8, 1)"),
    ("no room told with the missing bytes", "refused(8)", "refused(8, size - max(0, len(buffer) - at))"),
    ("room one byte short", ROOM, "len(buffer) - at < size - (size > 0)"),
    ("room one byte more wanted", ROOM, "len(buffer) - at < size + 1"),
    ("room for the mark is enough", ROOM, "len(buffer) - at < min(size, 2)"),
    ("room judged from the front", ROOM, "at > len(buffer) or len(buffer) < size"),
    ("only the end judged", ROOM, "at > len(buffer)"),
    ("room never judged", ROOM, "False"),
    ("room on 32 bits", ROOM, "(len(buffer) - at) % 2 ** 32 < size"),
    ("what is left wraps", ROOM, "(len(buffer) - at) % 2 ** 64 < size"),
    ("where it ends wraps", ROOM, "(at + size) % 2 ** 64 > len(buffer)"),
    ("where it ends wraps on 32 bits", ROOM, "(at + size) % 2 ** 32 > len(buffer)"),
    ("positions from 2^63 on taken as negative", ROOM, "at < 2 ** 63 and len(buffer) - at < size"),
    ("position of 32 bits", "size = 8", "at %= 2 ** 32\n    size = 8"),
    ("position of 16 bits", "size = 8", "at %= 2 ** 16\n    size = 8"),
    ("position of 8 bits", "size = 8", "at %= 2 ** 8\n    size = 8"),
    ("position ignored", "size = 8", "at = 0\n    size = 8"),
    ("position ignored in storing", "put(buffer, at", "put(buffer, 0"),
    ("position in records", "put(buffer, at", "put(buffer, 8 * at"),
    ("position rounded down to 8", "put(buffer, at", "put(buffer, at // 8 * 8"),
    ("position rounded down to 2", "put(buffer, at", "put(buffer, at // 2 * 2"),
    ("stored one byte on", "put(buffer, at", "put(buffer, 1 + at"),
    ("stored one byte before", "put(buffer, at", "put(buffer, max(0, at - 1)"),
    ("stored at the buffer's end", "put(buffer, at", "put(buffer, len(buffer) - size"),
    ("nothing stored", "put(buffer, at", "put(buffer[:0], at"),
    ("a byte past it changed", "return size", "put(buffer, at + size, bytes(1)); return size"),
    ("a byte before it changed", "return size", "put(buffer[:at], max(0, at - 1), bytes(1)); return size"),
    ("the bytes past it cleared", "return size", "put(buffer, at + size, bytes(len(buffer))); return size"),
    ("the bytes before it cleared", "return size", "put(buffer[:at], 0, bytes(at)); return size"),
    ("a byte past the buffer changed", "return size", "buffer.obj[-len(GUARD)] ^= 1; return size"),
    ("a byte before the buffer changed", "return size", "buffer.obj[len(GUARD) - 1] ^= 1; return size"),
    ("the mark stored and then 1", "return refused(1)", "put(buffer, at, MARK); return refused(1)"),
    ("the mark stored and then 8", "return refused(8)", "put(buffer, at, MARK); return refused(8)"),
    ("1 clears the buffer", "return refused(1)", "put(buffer, 0, bytes(len(buffer))); return refused(1)"),
    ("8 clears the buffer", "return refused(8)", "put(buffer, 0, bytes(len(buffer))); return refused(8)"),
    ("8 clears what is left", "return refused(8)", "put(buffer, at, bytes(len(buffer))); return refused(8)"),
    ("8 changes a byte past the buffer", "return refused(8)", "buffer.obj[-len(GUARD)] ^= 1; return refused(8)"),
    ("the answer counts records", "return size", "return size // 8"),
    ("the answer is the next position", "return size", "return at + size"),
    ("the answer is 0", "return size", "return 0"),
    ("the answer leaves the marks out", "return size", "return size // 8 * 6"),
    ("the answer is one less", "return size", "return size - 1"),
    ("the answer is one more", "return size", "return size + 1"),
    ("the answer is what is left", "return size", "return len(buffer) - at"),
]

ONE = [
    ("a symbol above 511 cut to nine bits", "if symbol > 511:\n        return refused(1)", "symbol %= 512"),
    ("a symbol above 511 stored as 511", "if symbol > 511:\n        return refused(1)", "symbol = min(symbol, 511)"),
    ("a symbol above 511 stored all the same", "return refused(1)", "put(buffer, at, spelled(time, symbol)); return refused(1)"),
    ("no room, as many bytes stored as fit", "return refused(8)", "put(buffer, at, spelled(time, symbol)); return refused(8)"),
    ("a symbol above 511 told at itself", "refused(1)", "refused(1, symbol)"),
    ("position 0 alone taken", ROOM, "at > 0 or len(buffer) < size"),
    ("positions between records refused", ROOM, "at % 8 or len(buffer) - at < size"),
    ("buffers longer than a record refused", ROOM, "len(buffer) - at != size"),
]

DIFFER = "len(times) != len(symbols)"
DIFFERENT = f"if {DIFFER}:\n        return refused(11)"
ANY = "any(symbol > 511 for symbol in symbols)"
EACH = "enumerate(zip(times, symbols))"

LISTS = [
    ("lists cut to the shorter", DIFFERENT,
     "times, symbols = times[:len(symbols)], symbols[:len(times)]\n    size = 8 * len(times)"),
    ("longer times accepted", DIFFER, "len(times) < len(symbols)"),
    ("longer symbols accepted", DIFFER, "len(times) > len(symbols)"),
    ("one time more accepted", DIFFER, "len(times) - len(symbols) not in (0, 1)"),
    ("one symbol more accepted", DIFFER, "len(symbols) - len(times) not in (0, 1)"),
    ("no times are accepted with symbols", DIFFER, DIFFER + " and len(times)"),
    ("no symbols are accepted with times", DIFFER, DIFFER + " and len(symbols)"),
    ("lists as long as each other refused with 11", DIFFER, "True"),
    ("an empty run refused with 11", DIFFER, DIFFER + " or not times"),
    ("lengths compared on 32 bits", DIFFER, "(len(times) - len(symbols)) % 2 ** 32"),
    ("lengths compared on 16 bits", DIFFER, "(len(times) - len(symbols)) % 2 ** 16"),
    ("lengths compared on 8 bits", DIFFER, "(len(times) - len(symbols)) % 2 ** 8"),
    ("lengths compared by the records' bytes", DIFFER, "8 * (len(times) - len(symbols)) % 2 ** 64"),
    ("lengths compared by the times' bytes", DIFFER, "4 * (len(times) - len(symbols)) % 2 ** 64"),
    ("1 before 11", DIFFER, DIFFER + " and all(symbol < 512 for symbol in symbols[:len(times)])"),
    ("1 before 11 past the shorter list", DIFFER, DIFFER + " and all(symbol < 512 for symbol in symbols[len(times):16])"),
    ("8 by the times before 11", DIFFER, DIFFER + " and len(buffer) - at >= 8 * len(times)"),
    ("8 by the symbols before 11", "refused(11)", "refused(11 if len(buffer) - at >= 8 * len(symbols) else 8)"),
    ("8 by the shorter list before 11", "refused(11)",
     "refused(11 if len(buffer) - at >= 8 * min(len(times), len(symbols)) else 8)"),
    ("8 past the end before 11", "refused(11)", "refused(11 if at <= len(buffer) else 8)"),
    ("different lengths told as 1", "refused(11)", "refused(1)"),
    ("different lengths told as 3", "refused(11)", "refused(3)"),
    ("different lengths told as 5", "refused(11)", "refused(5)"),
    ("different lengths told as 8", "refused(11)", "refused(8)"),
    ("different lengths told as 10", "refused(11)", "refused(10)"),
    ("different lengths answered with 0", "refused(11)", "0"),
    ("different lengths told at the position", "refused(11)", "refused(11, at)"),
    ("different lengths told at the shorter length", "refused(11)", "refused(11, min(len(times), len(symbols)))"),
    ("different lengths told with the difference", "refused(11)", "refused(11, abs(len(times) - len(symbols)))"),
    ("the shorter list stored and then 11", "return refused(11)",
     STORED.format("min(len(times), len(symbols))") + "return refused(11)"),
    ("11 clears the buffer", "return refused(11)", "put(buffer, 0, bytes(len(buffer))); return refused(11)"),
    ("11 stores a mark", "return refused(11)", "put(buffer, at, MARK); return refused(11)"),
]

RUNS = [
    ("only the first symbol judged", ANY, "any(symbol > 511 for symbol in symbols[:1])"),
    ("only the last symbol judged", ANY, "any(symbol > 511 for symbol in symbols[-1:])"),
    ("the first symbol not judged", ANY, "any(symbol > 511 for symbol in symbols[1:])"),
    ("the last symbol not judged", ANY, "any(symbol > 511 for symbol in symbols[:-1])"),
    ("every other symbol judged", ANY, "any(symbol > 511 for symbol in symbols[::2])"),
    ("the other symbols judged", ANY, "any(symbol > 511 for symbol in symbols[1::2])"),
    ("groups of four judged, without what is left", ANY, "any(symbol > 511 for symbol in symbols[:len(symbols) // 4 * 4])"),
    ("eight symbols judged", ANY, "any(symbol > 511 for symbol in symbols[:8])"),
    ("256 symbols judged", ANY, "any(symbol > 511 for symbol in symbols[:256])"),
    ("65536 symbols judged", ANY, "any(symbol > 511 for symbol in symbols[:65536])"),
    ("refused when all symbols are above 511", ANY, "symbols and all(symbol > 511 for symbol in symbols)"),
    ("the symbols' average judged", ANY, "sum(symbols) > 511 * len(symbols)"),
    ("an empty run refused with 1", ANY, ANY + " or not symbols"),
    ("a symbol above 511 told at its index", "refused(1)", f"refused(1, {FIRST_BAD})"),
    ("a symbol above 511 told at its record", "refused(1)", f"refused(1, 8 * {FIRST_BAD})"),
    ("a symbol above 511 told at its record's position", "refused(1)", f"refused(1, at + 8 * {FIRST_BAD})"),
    ("8 before 1 where the records before it have no room", "return refused(1)",
     f"return refused(1 if len(buffer) - at >= 8 * {FIRST_BAD} else 8)"),
    ("the records before a bad symbol stored", "return refused(1)", STORED.format(FIRST_BAD) + "return refused(1)"),
    ("the records before a bad symbol answered", "return refused(1)", STORED.format(FIRST_BAD) + f"return 8 * {FIRST_BAD}"),
    ("as many records stored as fit, then 8", "return refused(8)", STORED.format(FITTING) + "return refused(8)"),
    ("as many records stored as fit and answered", "return refused(8)", STORED.format(FITTING) + f"return 8 * {FITTING}"),
    ("as many bytes stored as fit, then 8", "return refused(8)", STORED.format("len(times)") + "return refused(8)"),
    ("every record with the first time", SPELLED, "spelled(times[0], symbol)"),
    ("every record with the last time", SPELLED, "spelled(times[-1], symbol)"),
    ("each record with the time before", SPELLED, "spelled(times[i - 1], symbol)"),
    ("every record with the first symbol", SPELLED, "spelled(time, symbols[0])"),
    ("every record with the last symbol", SPELLED, "spelled(time, symbols[-1])"),
    ("the records in reverse", SPELLED, "spelled(times[-1 - i], symbols[-1 - i])"),
    ("the times in order of size", EACH, "enumerate(zip(sorted(times), symbols))"),
    ("times since the first", SPELLED, "spelled((time - times[0]) % 2 ** 32, symbol)"),
    ("only the first record with a mark", SPELLED, SPELLED + " if i == 0 else bytes(2) + " + SPELLED + "[2:]"),
    ("no record at the time of the one before", SPELLED, SPELLED + ' if i == 0 or time != times[i - 1] else b""'),
    ("records 6 bytes apart", "8 * i", "6 * i"),
    ("records 7 bytes apart", "8 * i", "7 * i"),
    ("records 9 bytes apart", "8 * i", "9 * i"),
    ("records one above the other", "8 * i", "0 * i"),
    ("records 8 bytes apart on 8 bits", "8 * i", "8 * i % 2 ** 8"),
    ("records 8 bytes apart on 16 bits", "8 * i", "8 * i % 2 ** 16"),
    ("the first record not stored", EACH, f"list({EACH})[1:]"),
    ("the last record not stored", EACH, f"list({EACH})[:-1]"),
    ("every second record not stored", EACH, f"list({EACH})[::2]"),
    ("groups of four stored, without what is left", EACH, f"list({EACH})[:len(times) // 4 * 4]"),
    ("256 records stored", EACH, f"list({EACH})[:256]"),
    ("65536 records stored", EACH, f"list({EACH})[:65536]"),
    ("one record more stored", "return size", "put(buffer, at + size, spelled(0, 0)); return size"),
    ("an empty run stores a mark", "return size", "put(buffer, at, MARK); return size"),
    ("the end refused for an empty run", ROOM, "at >= len(buffer) or len(buffer) - at < size"),
    ("an empty buffer refused for an empty run", ROOM, "not len(buffer) or len(buffer) - at < size"),
    ("an empty run refused with 8", ROOM, "not times or len(buffer) - at < size"),
    ("position past the end taken as the end", "size = 8", "at = min(at, len(buffer))\n    size = 8"),
    ("past the end taken for an empty run", ROOM, "size > 0 and len(buffer) - at < size"),
    ("one past the end taken for an empty run", ROOM, "len(buffer) + (size == 0) - at < size"),
    ("an empty run wants room for a record", ROOM, "len(buffer) - at < max(size, 8)"),
    ("room judged by the number of records", ROOM, "len(buffer) - at < len(times)"),
    ("room for one record is enough", ROOM, "len(buffer) - at < min(size, 8)"),
    ("room for all but the last record is enough", ROOM, "len(buffer) - at < size - 8 or at > len(buffer)"),
    ("room for one record more wanted", ROOM, "len(buffer) - at < size + 8"),
    ("room judged on 8 bits", ROOM, "len(buffer) - at < size % 2 ** 8"),
    ("room judged on 16 bits", ROOM, "len(buffer) - at < size % 2 ** 16"),
    ("where it ends wraps on 16 bits", ROOM, "(at + size) % 2 ** 16 > len(buffer)"),
    ("a run has to fill the buffer", ROOM, "len(buffer) - at != size"),
    ("records counted on 8 bits", "8 * len(times)", "8 * (len(times) % 2 ** 8)"),
    ("records counted on 16 bits", "8 * len(times)", "8 * (len(times) % 2 ** 16)"),
    ("the answer is always 8", "return size", "return min(size, 8)"),
    ("the answer on 8 bits", "return size", "return size % 2 ** 8"),
    ("the answer on 16 bits", "return size", "return size % 2 ** 16"),
    ("the answer is the last record's position", "return size", "return max(0, size - 8)"),
]

NUMBERS = [
    ("a refusal is minus its number", "2 ** 64 - 1 -", "2 ** 64 -"),
    ("a refusal is its number", "2 ** 64 - 1 - (number + 256 * place)", "number"),
    ("a refusal of 32 bits", "2 ** 64 - 1 -", "2 ** 32 - 1 -"),
    ("a refusal's number above its place", "number + 256 * place", "256 * number + place"),
]

READINGS = [
    ("half of the mark read", "recording[at:at + 2] != MARK", "recording[at] != MARK[0]"),
    ("the other half of the mark read", "recording[at:at + 2] != MARK", "recording[at + 1] != MARK[1]"),
    ("the mark not read", "recording[at:at + 2] != MARK", "False"),
    ("the mark read swapped", "!= MARK", "!= MARK[::-1]"),
    ("time read high byte first", 'recording[at + 2:at + 6], "little"', 'recording[at + 2:at + 6], "big"'),
    ("time read of 24 bits", "at + 2:at + 6", "at + 2:at + 5"),
    ("time read of 16 bits", "at + 2:at + 6", "at + 2:at + 4"),
    ("time read with a sign", 'at + 6], "little"', 'at + 6], "little", signed=True'),
    ("symbol read high byte first", 'recording[at + 6:at + 8], "little"', 'recording[at + 6:at + 8], "big"'),
    ("ninth bit not read", "at + 6:at + 8", "at + 6:at + 7"),
    ("511 not read", "symbol > 511", "symbol > 510"),
    ("512 read", "symbol > 511", "symbol > 512"),
    ("65535 read", "symbol > 511", "65535 > symbol > 511"),
    ("any symbol read", "symbol > 511", "False"),
    ("7 bytes read as a record", "left < 8", "left < 7"),
    ("8 bytes read as cut", "left < 8", "left < 9"),
    ("a cut record is the end", '"refused", 11, at', '("end",)'),
    ("past the end is the end", "left == 0", "left <= 0"),
    ("the end is refused", "left == 0", "False"),
    ("10 before 11 in reading", "if left < 8:", "if left < 8 and recording[at:at + 2] in (MARK[:1], MARK):"),
    ("1 before 10 in reading", "!= MARK", "!= MARK and recording[at + 7] < 2"),
    ("a cut record told as 10", "11, at", "10, at"),
    ("no mark told as 11", "10, at", "11, at"),
    ("a symbol above 511 read as 10", '"refused", 1, at', '"refused", 10, at'),
    ("a cut record told at 0", "11, at", "11, 0"),
    ("a cut record told at the end", "11, at", "11, len(recording)"),
    ("a missing mark told at 0", "10, at", "10, 0"),
    ("a symbol above 511 read at 0", '"refused", 1, at', '"refused", 1, 0'),
    ("a symbol above 511 read at its bytes", '"refused", 1, at', '"refused", 1, at + 6'),
]

FILES = [
    ("the first record not read", "got = read_at(recording, 0)", "got = read_at(recording, 8)"),
    ("records read 9 bytes apart", "8 * len(times)", "9 * len(times)"),
    ("one record read alone", "while got", "while not times and got"),
    ("a symbol read twice", "symbols.append(got[2])", "symbols += got[2:] * 2"),
]

FUNCTIONS = (refused, spelled, put, record, records, read_at, read, said)
BROKEN = [(f"{call}: {what}", function, text, instead)
          for call, function, rules in (("one record", record, BOTH + ONE), ("a run", records, BOTH + LISTS + RUNS),
                                        ("both calls", refused, NUMBERS), ("reading", read_at, READINGS),
                                        ("reading all", read, FILES))
          for what, text, instead in rules]


def broken_said(what, function, text, instead):
    """`said` with this text of one function changed."""
    names = {"MARK": MARK, "GUARD": GUARD}
    for each in FUNCTIONS:
        source = getsource(each)
        if each is function:
            if source.count(text) != 1 or text == instead:
                raise ValueError(f"{what}: {text!r} stands {source.count(text)} times in {each.__name__}")
            source = source.replace(text, instead)
        exec(compile(source, what, "exec"), names)
    return names["said"]


def unseen(pairs):
    """What is broken without a difference in any pair of a call and what came of it."""
    names = []
    for rule in BROKEN:
        broken = broken_said(*rule)
        if all(broken(*call) == got for call, got in pairs):
            names.append(rule[0])
    return names
