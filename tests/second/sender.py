"""The sender and the key sender, written a second time from the text of rules 7 and 8 alone (docs/RULES.md).

Each call gives its answer, in the words of `sender_calls`, and the sender after it."""
from typing import NamedTuple

WAITING, AWAITING, DONE, GAVE_UP = range(4)
COUNTER = 2 ** 32  # bit times wrap here


class Sender(NamedTuple):
    """A sender, and with nothing said the one that a refused offer gives."""
    phase: int = WAITING
    datagram: bytes = bytes(18)
    position: int = 0
    wait: int = 0
    limit: int = 0
    failures: int = 0


def refused(number):
    return f"refused {number} at 0"


def send(symbol):
    return f"send {symbol:03X}"


def whole(data):
    return len(data) >= 3 and len(data) == 3 + data[1] % 16


def offer(data, wait, limit):
    if not whole(data):
        return refused(3), Sender()
    wait = wait or 10
    if not 10 <= wait <= 255 or not 1 <= limit <= 50:
        return refused(9), Sender()
    return "accepted", Sender(WAITING, data.ljust(18, b"\0"), 0, wait, limit, 0)


def key(source, code):
    if source > 15:
        return refused(7), Sender()
    return offer(bytes([0x86, 16 * source + 1, code, 255 - code]), 0, 3)


def length(sender):
    return 3 + sender.datagram[1] % 16


def symbols(sender):
    """What the datagram is on the bus: its first byte is a command."""
    first, *others = sender.datagram[:length(sender)]
    return [256 + first, *others]


def sound(sender):
    phase, datagram, position, wait, limit, failures = sender
    end = length(sender)
    if any(datagram[end:]):
        return False
    if wait not in range(10, 256) or limit not in range(1, 51):
        return False
    if phase == WAITING:
        return position == 0 and failures < limit
    if phase == AWAITING:
        return position < end and limit > failures
    if phase == DONE:
        return position == end and not failures >= limit
    return not position and failures == limit


def poll(sender, now, last):
    if not sound(sender):
        return refused(2), sender
    elapsed = (now - last) % COUNTER
    if sender.phase == WAITING and elapsed >= sender.wait:
        return send(symbols(sender)[0]), sender._replace(phase=AWAITING, position=0)
    answers = {WAITING: f"wait {sender.wait - elapsed}", AWAITING: "listening", DONE: "done", GAVE_UP: "gave up"}
    return answers[sender.phase], sender


def echo(sender, symbol):
    if symbol > 511:
        return refused(1), sender
    if not sound(sender):
        return refused(2), sender
    if sender.phase != AWAITING:
        return "ignored", sender
    sent, *left = symbols(sender)[sender.position:]
    if symbol == sent:
        heard = sender._replace(position=sender.position + 1)
        return (send(left[0]), heard) if left else ("done", heard._replace(phase=DONE))
    failed = sender._replace(position=0, failures=sender.failures + 1)
    if failed.failures == failed.limit:
        return "gave up", failed._replace(phase=GAVE_UP)
    return "waiting again", failed._replace(phase=WAITING)


def line(answer, sender):
    """What `sender_calls` writes of a call: the answer, the sender's 23 numbers, and whether it is sound."""
    phase, datagram, *numbers = sender
    return f"{answer} {bytes([phase, *datagram, *numbers]).hex(' ').upper()} {'sound' if sound(sender) else 'unsound'}"


def said(name, sender, *arguments):
    """The line for a call on a sender. Offers and keys make one, and `fields` only tells it."""
    if name == "poll":
        return line(*poll(sender, *arguments))
    if name == "echo":
        return line(*echo(sender, *arguments))
    if name == "fields":
        return line("", sender)
    return line(*(offer if name == "offer" else key)(*arguments))
