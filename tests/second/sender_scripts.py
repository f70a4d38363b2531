"""Scripts for `sender_calls`, and the call that each line of theirs makes: (name, sender before it, arguments..).

The second implementation steers them, so that a run hears the symbol that its sender awaits."""
from sender import AWAITING, COUNTER, DONE, GAVE_UP, WAITING, Sender, echo, key, offer, poll

LIMITS = (0, 1, 2, 3, 49, 50, 51, 52, 255, 256, 257, 306, 65536, 65537, 65586, COUNTER - 1)
WAITS = (0, *range(1, 13), 25, 253, 254, 255, 256, 257, 265, 266, 267, 511, 512, 65536, 65546, 65791, COUNTER - 246, COUNTER - 1)
TOLD = "{refusal}{whole} {sound}"


def spelled(data):
    return " ".join(f"{b:02X}" for b in data)


def numbers(sender):
    """The sender's 23 numbers."""
    phase, datagram, *others = sender
    return [phase, *datagram, *others]


def with_number(sender, at, value):
    """With one of the 23 numbers changed; the phase to another of the four."""
    changed = numbers(sender)
    changed[at] = value if at else value % 4
    return Sender(changed[0], bytes(changed[1:19]), *changed[19:])


def whole(r, n):
    """A random whole datagram of n bytes."""
    data = bytearray(r.randbytes(n))
    data[1] = r.randrange(16) * 16 + n - 3
    return bytes(data)


class Script:
    """Calls as they are made: on the sender that the last one left, or each on a sender made at once."""

    def __init__(self, r):
        self.r, self.sender = r, Sender()
        self.lines, self.calls = [], []

    def add(self, line, *call):
        self.lines.append(line)
        self.calls.append(call)

    def offer(self, data, wait, limit):
        self.add(f"{{offer {spelled(data)} {wait} {limit}}}{TOLD}", "offer", None, data, wait, limit)
        self.sender = offer(data, wait, limit)[1]

    def key(self, source, code):
        self.add(f"{{key {source} {code:02X}}}{TOLD}", "key", None, source, code)
        self.sender = key(source, code)[1]

    def poll(self, now, last, back=""):
        self.add(f"{{poll {now} {last}}}{TOLD}{back}", "poll", self.sender, now, last)
        self.sender = self.sender if back else poll(self.sender, now, last)[1]

    def echo(self, symbol, back=""):
        self.add(f"{{echo {symbol:03X}}}{TOLD}{back}", "echo", self.sender, symbol)
        self.sender = self.sender if back else echo(self.sender, symbol)[1]

    def symbol(self, place=None):
        """The symbol at a place, or at the sender's position where there is one."""
        place = self.sender.position % 18 if place is None else place
        return self.sender.datagram[place] + 256 * (place == 0)

    def other(self):
        """A symbol that may not be the one awaited."""
        r, right = self.r, self.symbol()
        return r.choice((right ^ 1 << r.randrange(9), right ^ 256, right % 256, right | 256, self.symbol(r.randrange(18)),
                         self.symbol(0), 0, 255, 256, 511, 512, right + 512, 65535, 65536 - 512 + right, r.getrandbits(9),
                         r.getrandbits(16), right & r.getrandbits(9), right | r.getrandbits(9)))

    def elapsed(self):
        r, wait = self.r, self.sender.wait
        return r.choice((0, 1, wait - 1, wait, wait + 1, 9, 10, 254, 255, 256, 256 + r.randrange(wait + 1),
                         65536 + r.randrange(wait + 1), 2 ** 31 - 1, 2 ** 31, 2 ** 31 + r.randrange(wait + 1), COUNTER - wait,
                         COUNTER - 1, r.randrange(wait + 1), r.getrandbits(16), r.getrandbits(32))) % COUNTER

    def last(self):
        r = self.r
        return r.choice((0, COUNTER - 1, COUNTER - r.randrange(1, 300), 2 ** 31, r.randrange(300), r.getrandbits(32)))

    def made(self, sender, polls, echoes):
        """Calls on one sender made at once, among them a poll at each side of the end of its wait and the right echo."""
        self.sender = sender
        self.add(f"{{fields {spelled(numbers(sender))}}}{{whole}} {{sound}}{{hold}}", "fields", sender)
        wait = sender.wait
        for elapsed in [wait, max(wait - 1, 0), *(self.elapsed() for _ in range(polls))][:polls]:
            last = self.last()
            self.poll((last + elapsed) % COUNTER, last, "{back}")
        for symbol in [self.symbol(), *(self.other() for _ in range(echoes))][:echoes]:
            self.echo(symbol, "{back}")


def offers(script, count):
    """Every number of bytes with the second byte at, below and above it, at the limits of wait and limit; then random ones."""
    r = script.r
    for n in range(23):
        for second in {*range(16), n - 3 & 255, n + 13 & 255, n - 2 & 255, r.randrange(16) * 16 + (n - 3) % 16}:
            data = bytearray(r.randbytes(n))
            data[1:2] = [second][:len(data[1:2])]
            for wait, limit in ((0, 1), (r.choice(WAITS), r.choice(LIMITS))):
                script.offer(bytes(data), wait, limit)
    for wait in WAITS:
        for limit in LIMITS:
            data = whole(r, r.randrange(3, 19))
            script.offer(data, wait, limit)
            script.offer(data[:-1] if r.random() < 0.5 else data + bytes(1), wait, limit)
    for _ in range(count):
        data = whole(r, r.randrange(3, 19)) if r.random() < 0.8 else r.randbytes(r.randrange(22))
        wait = r.choice((r.choice(WAITS), r.randrange(300), r.randrange(10, 256), r.getrandbits(32)))
        script.offer(data, wait, r.choice((r.choice(LIMITS), r.randrange(60), r.randrange(1, 51), r.getrandbits(32))))


def keys(script):
    """Every key."""
    for source in range(256):
        for code in range(256):
            script.key(source, code)


def step(script, now, right):
    """One call of a run at this time, and the time after it; `right` is how likely an echo is the awaited one."""
    r, sender = script.r, script.sender
    if r.random() < 0.05 or sender.phase != AWAITING and r.random() < 0.1:
        script.echo(script.other())
    elif sender.phase == AWAITING and r.random() < 0.95:
        script.echo(script.symbol() if r.random() < right else script.other())
        return (now + 11) % COUNTER
    else:
        last, wait = now, sender.wait
        now += r.choice((wait, wait, wait + r.randrange(20), wait - 1, r.randrange(wait + 1), 1000 * wait, 2 ** 31 + 5,
                         -r.randrange(1, 300), -1))
        script.poll(now % COUNTER, last)
    return now % COUNTER


def runs(script, count):
    """Offers and what follows until done or given up, with collisions, long waits, the clock set back, and its wrap."""
    r = script.r
    for number in range(count):
        if number % 10:
            script.offer(whole(r, r.randrange(3, 19)), r.choice((0, 10, 11, 254, 255, r.randrange(10, 256))),
                         r.choice((1, 2, 3, 50, r.randrange(1, 51))))
        else:
            script.key(r.randrange(16), r.randrange(256))
        right = r.choice((1, 1, 0.95, 0.9, 0.5, 0))
        now = script.last()
        for _ in range(200):
            now = step(script, now, right)
            if script.sender.phase in (DONE, GAVE_UP):
                break
        for _ in range(3):
            now = step(script, now, right)


def sound_sender(r, n, phase, limit=None):
    """A sound sender of n bytes, with its numbers often at their limits."""
    limit = limit or r.choice((1, 2, 50, r.randrange(3, 50)))
    failures = limit if phase == GAVE_UP else r.choice((0, limit - 1, r.randrange(limit)))
    position = {AWAITING: r.choice((0, 1, n - 2, n - 1, r.randrange(n))), DONE: n}.get(phase, 0)
    wait = r.choice((10, 11, 254, 255, r.randrange(10, 256)))
    return Sender(phase, whole(r, n).ljust(18, b"\0"), position, wait, limit, failures)


def sound_senders(r, count):
    """So many for each length, phase and limit, among them one with every number of failures and every position."""
    for n in range(3, 19):
        for phase in (WAITING, AWAITING, DONE, GAVE_UP):
            for limit in (1, 2, 3, 49, 50, None):
                for _ in range(count):
                    yield sound_sender(r, n, phase, limit)
        for position in range(n):
            yield sound_sender(r, n, AWAITING)._replace(position=position)
        for failures in range(50):
            yield sound_sender(r, n, r.randrange(3), 50)._replace(failures=failures)


def with_past(sender, changes):
    """With bytes changed at these places."""
    data = bytearray(sender.datagram)
    for at, value in changes.items():
        data[at] = value
    return sender._replace(datagram=bytes(data))


def with_limit(sender, limit):
    """With another limit, and failures that suit it where any do, so that nothing else is wrong."""
    return sender._replace(limit=limit, failures=limit if sender.phase == GAVE_UP else min(sender.failures, max(limit - 1, 0)))


def unsound_senders(r):
    """For each length and phase every reason for which a sender is not sound, with nothing else wrong."""
    for n in range(3, 19):
        for phase in (WAITING, AWAITING, DONE, GAVE_UP):
            def base():
                return sound_sender(r, n, phase)

            for at in range(n, 18):
                yield with_past(base(), {at: r.choice((1, 128, 255, r.randrange(1, 256)))})
            if n < 17:
                yield with_past(base(), dict.fromkeys(r.sample(range(n, 18), 2), 128))
            for wait in range(10):
                yield base()._replace(wait=wait)
            for limit in (0, 51, 52, 255):
                yield with_limit(base(), limit)
            for position in {0, 1, n - 1, n, n + 1, 17, 18, 255}:
                yield base()._replace(position=position)
            for more in (0, 1, 2, -1, -2):
                sender = base()
                yield sender._replace(failures=(sender.limit + more) % 256)
            yield base()._replace(failures=255)


def changed_senders(r, count):
    """Sound senders with each of the 23 numbers changed in turn, then with several."""
    for at in range(23):
        for _ in range(count):
            sender = sound_sender(r, r.randrange(3, 19), r.randrange(4))
            old = numbers(sender)[at]
            yield with_number(sender, at, r.choice((old + 1, old - 1, old ^ 1 << r.randrange(8), 0, 255, r.randrange(256))) % 256)
    for _ in range(count * 23):
        sender = sound_sender(r, r.randrange(3, 19), r.randrange(4))
        for at in r.sample(range(23), r.randrange(2, 7)):
            sender = with_number(sender, at, r.randrange(256))
        yield sender


def random_senders(r, count):
    """Any 23 bytes, and any numbers beside a whole datagram."""
    for _ in range(count):
        yield Sender(r.randrange(4), r.randbytes(18), *r.randbytes(4))
        yield Sender(r.randrange(4), whole(r, r.randrange(3, 19)).ljust(18, b"\0"), r.randrange(20), r.randrange(256),
                     r.randrange(64), r.randrange(64))


def all_calls(r):
    """The whole script."""
    script = Script(r)
    offers(script, 15000)
    keys(script)
    runs(script, 3000)
    for sender in sound_senders(r, 6):
        script.made(sender, 6, 10)
    script.made(Sender(), 6, 6)
    for sender in unsound_senders(r):
        script.made(sender, 3, 4)
    for sender in changed_senders(r, 60):
        script.made(sender, 3, 4)
    for sender in random_senders(r, 3000):
        script.made(sender, 2, 3)
    return script
