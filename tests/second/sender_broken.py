"""The second sender with one rule broken at a time: what is broken, its text in sender.py, the text instead.

Each text must stand in sender.py exactly once. The comparison has to see a difference for every one of them."""
from pathlib import Path

WHOLE = "len(data) == 3 + data[1] % 16"
NOT_WHOLE = "refused(3), Sender()"
OUT_OF_RANGE = "refused(9), Sender()"
ACCEPTED = 'Sender(WAITING, data.ljust(18, b"\\0"), 0, wait, limit, 0)'
NO_SOURCE = "refused(7), Sender()"
PRESSED = "bytes([0x86, 16 * source + 1, code, 255 - code]), 0, 3"
WAITS, ATTEMPTS = "wait not in range(10, 256)", "limit not in range(1, 51)"
SOUND_WAITING = "position == 0 and failures < limit"
SOUND_AWAITING = "position < end and limit > failures"
SOUND_DONE = "position == end and not failures >= limit"
SOUND_GAVE_UP = "not position and failures == limit"
POLLED_UNSOUND = "if not sound(sender):\n        return refused(2), sender\n    elapsed"
ELAPSED = "(now - last) % COUNTER"
OVER = "sender.phase == WAITING and elapsed >= sender.wait"
STARTED = "sender._replace(phase=AWAITING, position=0)"
HEARD_UNSOUND = "if not sound(sender):\n        return refused(2), sender\n    if sender.phase"
HEARD = "sender._replace(position=sender.position + 1)"
FAILED = "sender._replace(position=0, failures=sender.failures + 1)"
ENDED = '("done", heard._replace(phase=DONE))'

OFFERS = [
    ("any number of bytes is whole", WHOLE, "True"),
    ("a byte too many is whole", WHOLE, "len(data) - data[1] % 16 in (3, 4)"),
    ("a byte too few is whole", WHOLE, "len(data) - data[1] % 16 in (2, 3)"),
    ("length 2 plus the low half", WHOLE, "len(data) == 2 + data[1] % 16"),
    ("length 4 plus the low half", WHOLE, "len(data) == 4 + data[1] % 16"),
    ("length from the whole second byte", WHOLE, "len(data) == 3 + data[1]"),
    ("length from five bits", WHOLE, "len(data) == 3 + data[1] % 32"),
    ("length from three bits", WHOLE, "len(data) == 3 + data[1] % 8"),
    ("length from the high half", WHOLE, "len(data) == 3 + data[1] // 16"),
    ("19 bytes are whole", WHOLE, "len(data) == 3 + data[1] % 17"),
    ("18 bytes are not whole", WHOLE, "18 > len(data) == 3 + data[1] % 16"),
    ("3 bytes are not whole", WHOLE, "3 < len(data) == 3 + data[1] % 16"),
    ("9 before 3", "if not whole(data):", "if not whole(data) and 10 <= (wait or 10) <= 255 and 1 <= limit <= 50:"),
    ("not whole is 4", "refused(3)", "refused(4)"),
    ("out of range is 8", "refused(9)", "refused(8)"),
    ("no default wait", "wait or 10", "wait"),
    ("default wait 11", "wait or 10", "wait or 11"),
    ("default wait 255", "wait or 10", "wait or 255"),
    ("wait 9 accepted", "not 10 <= wait <= 255", "not 9 <= wait <= 255"),
    ("wait 1 accepted", "not 10 <= wait <= 255", "not 10 <= wait <= 255 and wait != 1"),
    ("wait 10 refused", "not 10 <= wait <= 255", "not 11 <= wait <= 255"),
    ("wait 255 refused", "not 10 <= wait <= 255", "not 10 <= wait <= 254"),
    ("wait 256 accepted as 255", "wait or 10", "wait - (wait == 256) or 10"),
    ("wait of 8 bits", "wait or 10", "wait % 256 or 10"),
    ("wait of 16 bits", "wait or 10", "wait % 65536 or 10"),
    ("limit 0 accepted", "not 1 <= limit", "not 0 <= limit"),
    ("limit 1 refused", "not 1 <= limit", "not 2 <= limit"),
    ("limit 50 refused", "<= limit <= 50", "<= limit <= 49"),
    ("limit 51 accepted", "<= limit <= 50", "<= limit <= 51"),
    ("limit of 8 bits", "wait = wait or 10", "wait, limit = wait or 10, limit % 256"),
    ("limit of 16 bits", "wait = wait or 10", "wait, limit = wait or 10, limit % 65536"),
    ("refusal 3 leaves the datagram", NOT_WHOLE, 'refused(3), Sender(datagram=data[:18].ljust(18, b"\\0"))'),
    ("refusal 3 leaves gave up", NOT_WHOLE, "refused(3), Sender(phase=GAVE_UP)"),
    ("refusal 3 leaves a sound sender", NOT_WHOLE, "refused(3), Sender(wait=10, limit=1)"),
    ("refusal 9 leaves the datagram", OUT_OF_RANGE, 'refused(9), Sender(datagram=data.ljust(18, b"\\0"))'),
    ("refusal 9 leaves the wait", OUT_OF_RANGE, "refused(9), Sender(wait=wait % 256)"),
    ("refusal 9 leaves the limit", OUT_OF_RANGE, "refused(9), Sender(limit=limit % 256)"),
    ("an offer is awaiting", ACCEPTED, ACCEPTED.replace("WAITING", "AWAITING")),
    ("an offer is padded in front", ACCEPTED, ACCEPTED.replace("ljust", "rjust")),
    ("an offer is padded with FF", ACCEPTED, ACCEPTED.replace("\\0", "\\xFF")),
    ("an offer at position 1", ACCEPTED, ACCEPTED.replace("), 0,", "), 1,")),
    ("an offer's wait one more", ACCEPTED, ACCEPTED.replace("wait,", "wait + 1,")),
    ("an offer's limit one more", ACCEPTED, ACCEPTED.replace("limit,", "limit + 1,")),
    ("an offer's wait and limit swapped", ACCEPTED, ACCEPTED.replace("wait, limit", "limit, wait")),
    ("an offer has a failure", ACCEPTED, ACCEPTED.replace("limit, 0", "limit, 1")),
]

KEYS = [
    ("source 16 sent", "source > 15", "source > 16"),
    ("source 15 refused", "source > 15", "source > 14"),
    ("source of four bits", "if source > 15", "source %= 16\n    if source > 15"),
    ("no source is 9", "refused(7)", "refused(9)"),
    ("a refused key leaves the default wait", NO_SOURCE, "refused(7), Sender(wait=10)"),
    ("a refused key leaves its limit", NO_SOURCE, "refused(7), Sender(limit=3)"),
    ("key limit 2", PRESSED, PRESSED.replace(", 0, 3", ", 0, 2")),
    ("key limit 4", PRESSED, PRESSED.replace(", 0, 3", ", 0, 4")),
    ("key wait 11", PRESSED, PRESSED.replace(", 0, 3", ", 11, 3")),
    ("key command 87", PRESSED, PRESSED.replace("0x86", "0x87")),
    ("source in the low half", PRESSED, PRESSED.replace("16 * source + 1", "16 + source")),
    ("source and code swapped", PRESSED, PRESSED.replace("16 * source + 1, code", "16 * (code % 16) + 1, source")),
    ("code and its repeat swapped", PRESSED, PRESSED.replace("code, 255 - code", "255 - code, code")),
    ("code repeated as it is", PRESSED, PRESSED.replace("255 - code", "code")),
    ("code repeated negated", PRESSED, PRESSED.replace("255 - code", "-code % 256")),
    ("code of seven bits", PRESSED, PRESSED.replace("code, 255", "code % 128, 255")),
]

STATES = [
    ("a sender's length 2 plus the low half", "3 + sender.datagram[1] % 16", "2 + sender.datagram[1] % 16"),
    ("a sender's length 4 plus the low half", "3 + sender.datagram[1] % 16", "4 + sender.datagram[1] % 16"),
    ("a sender's length from the whole second byte", "3 + sender.datagram[1] % 16", "3 + sender.datagram[1]"),
    ("a sender's length from three bits", "3 + sender.datagram[1] % 16", "3 + sender.datagram[1] % 8"),
    ("bytes past the datagram", "any(datagram[end:])", "False"),
    ("the first byte past the datagram", "any(datagram[end:])", "any(datagram[end + 1:])"),
    ("the last byte past the datagram", "any(datagram[end:])", "any(datagram[end:17])"),
    ("only the first byte past it judged", "any(datagram[end:])", "any(datagram[end:end + 1])"),
    ("the bytes past it summed", "any(datagram[end:])", "sum(datagram[end:]) % 256"),
    ("the datagram's last byte judged", "any(datagram[end:])", "any(datagram[end - 1:])"),
    ("wait not judged", WAITS, "False"),
    ("wait 0 sound", WAITS, WAITS + " and wait"),
    ("wait 9 sound", WAITS, "wait not in range(9, 256)"),
    ("wait 10 unsound", WAITS, "wait not in range(11, 256)"),
    ("wait 255 unsound", WAITS, "wait not in range(10, 255)"),
    ("limit 0 sound", ATTEMPTS, "limit not in range(51)"),
    ("limit 1 unsound", ATTEMPTS, "limit not in range(2, 51)"),
    ("limit 50 unsound", ATTEMPTS, "limit not in range(1, 50)"),
    ("limit 51 sound", ATTEMPTS, "limit not in range(1, 52)"),
    ("limit 255 sound", ATTEMPTS, ATTEMPTS + " and limit != 255"),
    ("waiting at any position", SOUND_WAITING, "failures < limit"),
    ("waiting at position 1", SOUND_WAITING, "position <= 1 and failures < limit"),
    ("waiting at the limit", SOUND_WAITING, "position == 0 and failures <= limit"),
    ("waiting with any failures", SOUND_WAITING, "position == 0"),
    ("waiting one before the limit unsound", SOUND_WAITING, "position == 0 and failures < max(limit - 1, 1)"),
    ("waiting with a failure unsound", SOUND_WAITING, "position == 0 and failures == 0"),
    ("awaiting at any position", SOUND_AWAITING, "limit > failures"),
    ("awaiting at the end", SOUND_AWAITING, "position <= end and limit > failures"),
    ("awaiting the last symbol unsound", SOUND_AWAITING, "position < end - 1 and limit > failures"),
    ("awaiting the first symbol unsound", SOUND_AWAITING, "0 < position < end and limit > failures"),
    ("awaiting at the limit", SOUND_AWAITING, "position < end and limit >= failures"),
    ("awaiting with any failures", SOUND_AWAITING, "position < end"),
    ("awaiting one before the limit unsound", SOUND_AWAITING, "position < end and max(limit - 1, 1) > failures"),
    ("done at any position", SOUND_DONE, "not failures >= limit"),
    ("done past the end", SOUND_DONE, "position >= end and not failures >= limit"),
    ("done before the end", SOUND_DONE, "position <= end and not failures >= limit"),
    ("done one before the end", SOUND_DONE, "position in (end - 1, end) and not failures >= limit"),
    ("done one past the end", SOUND_DONE, "position in (end, end + 1) and not failures >= limit"),
    ("done at the limit", SOUND_DONE, "position == end and not failures > limit"),
    ("done with any failures", SOUND_DONE, "position == end"),
    ("done one before the limit unsound", SOUND_DONE, "position == end and not failures >= max(limit - 1, 1)"),
    ("gave up at any position", SOUND_GAVE_UP, "failures == limit"),
    ("gave up at position 1", SOUND_GAVE_UP, "position <= 1 and failures == limit"),
    ("gave up with more failures", SOUND_GAVE_UP, "not position and failures >= limit"),
    ("gave up with fewer failures", SOUND_GAVE_UP, "not position and failures <= limit"),
    ("gave up one past the limit", SOUND_GAVE_UP, "not position and failures in (limit, limit + 1)"),
    ("gave up one before the limit", SOUND_GAVE_UP, "not position and failures in (limit - 1, limit)"),
]

POLLS = [
    ("the place of a refusal", "at 0", "at 1"),
    ("an unsound sender is polled", POLLED_UNSOUND, "elapsed"),
    ("an unsound sender polled is 1", POLLED_UNSOUND, POLLED_UNSOUND.replace("(2)", "(1)")),
    ("a refused poll starts anew", POLLED_UNSOUND, POLLED_UNSOUND.replace(", sender\n", ", Sender()\n")),
    ("elapsed not wrapped", ELAPSED, "now - last"),
    ("elapsed backwards", ELAPSED, "(last - now) % COUNTER"),
    ("elapsed either way", ELAPSED, "abs(now - last)"),
    ("elapsed never below 0", ELAPSED, "max(now - last, 0)"),
    ("elapsed signed", ELAPSED, "(now - last + COUNTER // 2) % COUNTER - COUNTER // 2"),
    ("elapsed of 31 bits", ELAPSED, "(now - last) % 2 ** 31"),
    ("elapsed of 16 bits", ELAPSED, "(now - last) % 2 ** 16"),
    ("elapsed of 8 bits", ELAPSED, "(now - last) % 2 ** 8"),
    ("the counter one shorter", ELAPSED, "(now - last) % (COUNTER - 1)"),
    ("the counter one longer", ELAPSED, "(now - last) % (COUNTER + 1)"),
    ("elapsed since 0", ELAPSED, "now"),
    ("started a bit time late", "elapsed >= sender.wait", "elapsed > sender.wait"),
    ("started a bit time early", "elapsed >= sender.wait", "elapsed >= sender.wait - 1"),
    ("started after the default wait", "elapsed >= sender.wait", "elapsed >= 10"),
    ("started at once", OVER, "sender.phase == WAITING"),
    ("never started", OVER, "False"),
    ("what was waited", "sender.wait - elapsed", "elapsed"),
    ("the whole wait answered", "sender.wait - elapsed", "sender.wait"),
    ("one too many left to wait", "sender.wait - elapsed", "sender.wait - elapsed + 1"),
    ("a start sends no command", "send(symbols(sender)[0])", "send(symbols(sender)[0] - 256)"),
    ("a start sends the second symbol", "send(symbols(sender)[0])", "send(symbols(sender)[1])"),
    ("a start stays waiting", STARTED, "sender"),
    ("a start is done", STARTED, STARTED.replace("AWAITING", "DONE")),
    ("a start at position 1", STARTED, STARTED.replace("position=0", "position=1")),
    ("a start forgets failures", STARTED, STARTED.replace("position=0", "failures=0")),
    ("a start counts as a failure", STARTED, STARTED.replace("position=0", "failures=sender.failures + 1")),
    ("a start uses up the limit", STARTED, STARTED.replace("position=0", "limit=sender.limit - 1")),
    ("a start changes the wait", STARTED, STARTED.replace("position=0", "wait=10")),
    ("a poll while awaiting sends again", OVER, "sender.phase in (WAITING, AWAITING) and elapsed >= sender.wait"),
    ("a poll when done sends again", OVER, "sender.phase in (WAITING, DONE) and elapsed >= sender.wait"),
    ("a poll after giving up sends again", OVER, "sender.phase in (WAITING, GAVE_UP) and elapsed >= sender.wait"),
    ("awaiting is polled as done", 'AWAITING: "listening"', 'AWAITING: "done"'),
    ("done is polled as listening", 'DONE: "done"', 'DONE: "listening"'),
    ("gave up is polled as done", 'GAVE_UP: "gave up"', 'GAVE_UP: "done"'),
    ("a poll forgets failures", "return answers[sender.phase], sender",
     "return answers[sender.phase], sender._replace(failures=0)"),
    ("a poll clears the datagram when done", "return answers[sender.phase], sender",
     "return answers[sender.phase], sender if sender.phase != DONE else Sender()"),
]

ECHOES = [
    ("511 refused", "symbol > 511", "symbol > 510"),
    ("512 heard", "symbol > 511", "symbol > 512"),
    ("symbols of 16 bits heard", "symbol > 511", "symbol > 65535"),
    ("65535 heard", "symbol > 511", "65535 > symbol > 511"),
    ("symbols taken to nine bits", "if symbol > 511:", "symbol %= 512\n    if symbol > 511:"),
    ("commands refused", "symbol > 511", "symbol > 255"),
    ("2 before 1", "symbol > 511", "symbol > 511 and sound(sender)"),
    ("a symbol above 511 is 2", "refused(1)", "refused(2)"),
    ("a refused symbol is a failure", "refused(1), sender", "refused(1), sender._replace(failures=(sender.failures + 1) % 256)"),
    ("a refused symbol starts anew", "refused(1), sender", "refused(1), Sender()"),
    ("an unsound sender hears", HEARD_UNSOUND, "if sender.phase"),
    ("an unsound sender that hears is 1", HEARD_UNSOUND, HEARD_UNSOUND.replace("(2)", "(1)")),
    ("an unsound sender that hears is cleared", HEARD_UNSOUND, HEARD_UNSOUND.replace(", sender\n", ", Sender()\n")),
    ("waiting hears", "sender.phase != AWAITING", "sender.phase not in (WAITING, AWAITING)"),
    ("done hears", "sender.phase != AWAITING", "sender.phase not in (AWAITING, DONE)"),
    ("gave up hears", "sender.phase != AWAITING", "sender.phase not in (AWAITING, GAVE_UP)"),
    ("never heard", "sender.phase != AWAITING", "True"),
    ("an echo not awaited is listening", '"ignored"', '"listening"'),
    ("an echo not awaited is a failure", '"ignored", sender', '"ignored", sender._replace(failures=sender.failures + 1)'),
    ("no command bit", "[256 + first, *others]", "[first, *others]"),
    ("the command bit on every symbol", "[256 + first, *others]", "[256 + b for b in (first, *others)]"),
    ("eight bits compared", "symbol == sent", "symbol % 256 == sent % 256"),
    ("seven bits compared", "symbol == sent", "symbol & ~128 == sent & ~128"),
    ("the lowest bit not compared", "symbol == sent", "symbol | 1 == sent | 1"),
    ("a bit that was pulled low is no collision", "symbol == sent", "symbol | sent == sent"),
    ("a bit that was pulled high is no collision", "symbol == sent", "symbol & sent == sent"),
    ("nothing compared", "symbol == sent", "True"),
    ("never alike", "symbol == sent", "False"),
    ("the first symbol compared", "symbol == sent", "symbol == symbols(sender)[0]"),
    ("the same symbol sent again", "send(left[0])", "send(sent)"),
    ("a symbol left out", "send(left[0])", "send(left[-1])"),
    ("the position stays", HEARD, "sender"),
    ("the position moves by two", HEARD, HEARD.replace("+ 1", "+ 2")),
    ("an echo forgets failures", HEARD, HEARD.replace("+ 1", "+ 1, failures=0")),
    ("an echo forgets the wait", HEARD, HEARD.replace("+ 1", "+ 1, wait=10")),
    ("done one symbol early", "if left else", "if left[1:] else"),
    ("done is still awaiting", ENDED, ENDED.replace("DONE", "AWAITING")),
    ("done is waiting", ENDED, ENDED.replace("DONE", "WAITING")),
    ("done at position 0", ENDED, ENDED.replace("phase=DONE", "phase=DONE, position=0")),
    ("done at the last position", ENDED, ENDED.replace("phase=DONE", "phase=DONE, position=sender.position")),
    ("done forgets failures", ENDED, ENDED.replace("phase=DONE", "phase=DONE, failures=0")),
    ("done clears the datagram", ENDED, ENDED.replace("phase=DONE", "phase=DONE, datagram=bytes(18)")),
    ("done answered as listening", ENDED, ENDED.replace('"done"', '"listening"')),
    ("the tail is sent again", FAILED, FAILED.replace("position=0", "position=sender.position")),
    ("sent again from the second symbol", FAILED, FAILED.replace("position=0", "position=1")),
    ("no failure counted", FAILED, FAILED.replace(" + 1", "")),
    ("two failures counted", FAILED, FAILED.replace("+ 1", "+ 2")),
    ("a failure makes the wait longer", FAILED, FAILED.replace("+ 1", "+ 1, wait=min(sender.wait + 1, 255)")),
    ("a failure lowers the limit", FAILED, FAILED.replace("+ 1", "+ 1, limit=sender.limit - 1")),
    ("never given up", "failed.failures == failed.limit", "False"),
    ("given up one late", "failed.failures == failed.limit", "failed.failures > failed.limit"),
    ("given up one early", "failed.failures == failed.limit", "failed.failures >= failed.limit - 1"),
    ("given up at 3", "failed.failures == failed.limit", "failed.failures == min(failed.limit, 3)"),
    ("given up at the first failure", "failed.failures == failed.limit", "True"),
    ("gave up is waiting", "failed._replace(phase=GAVE_UP)", "failed._replace(phase=WAITING)"),
    ("gave up is done", "failed._replace(phase=GAVE_UP)", "failed._replace(phase=DONE)"),
    ("gave up where it failed", "failed._replace(phase=GAVE_UP)", "failed._replace(phase=GAVE_UP, position=sender.position)"),
    ("gave up forgets failures", "failed._replace(phase=GAVE_UP)", "failed._replace(phase=GAVE_UP, failures=0)"),
    ("gave up clears the datagram", "failed._replace(phase=GAVE_UP)", "failed._replace(phase=GAVE_UP, datagram=bytes(18))"),
    ("gave up answered as waiting again", '"gave up", failed', '"waiting again", failed'),
    ("a failure is still awaiting", "failed._replace(phase=WAITING)", "failed"),
    ("a failure is done", "failed._replace(phase=WAITING)", "failed._replace(phase=DONE)"),
    ("waiting again answered as gave up", '"waiting again"', '"gave up"'),
    ("a failure sends at once", '"waiting again", failed', "send(symbols(sender)[0]), failed"),
]

BROKEN = OFFERS + KEYS + STATES + POLLS + ECHOES


def broken_senders():
    """What is broken, and `said` of the second sender with it."""
    source = Path(__file__).with_name("sender.py").read_text()
    for what, text, instead in BROKEN:
        if source.count(text) != 1 or text == instead:
            raise ValueError(f"{what}: {text!r} stands {source.count(text)} times in sender.py")
        names = {"__name__": "broken"}
        exec(compile(source.replace(text, instead), what, "exec"), names)
        yield what, names["said"]


def differs(broken_said, call, got):
    try:
        return broken_said(*call) != got
    except (IndexError, ValueError):  # a broken rule can leave a number that is no byte, or a symbol that is not there
        return True


def unseen(pairs):
    """What is broken without a difference in any pair of a call and the line that the program wrote for it."""
    return [what for what, broken_said in broken_senders()
            if not any(differs(broken_said, call, got) for call, got in pairs)]
