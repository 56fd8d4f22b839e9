"""A control block as a journal tells it: what its ends answer, and whether their lists have a history."""
import collections

WORD = 1 << 32
UNITY_GAINS = 0x10001000
UNDERRUN, INVALID, DISABLED = 1, 4, 8

# frames, cells, the place where positions begin, and how far apart two words of the flush word lie: 0 where it only counts
Shape = collections.namedtuple("Shape", "frames cells base wrap")

# what all events before leave; positions don't wrap
Point = collections.namedtuple("Point", "released consumed flushes flush_at rear_seen drop_to gains flags status")


def wrapped(number):
    """A number modulo 2^32."""
    return number % WORD


def signed(number):
    """A number as a wrapping signed number of 32 bits."""
    number %= WORD
    return number - WORD if number >= WORD >> 1 else number


def shape_of(frames, base=0, positional=False):
    """The shape of a block of so many frames."""
    cells = 1 << (frames - 1).bit_length()
    return Shape(frames, cells, base, 4 * cells if positional else 0)


# ---------------------------------------------------------------- what a look shows

def flush_place(shape, flush, rear):
    """The position that a flush word carries, by the rear seen with it."""
    return wrapped(rear - wrapped(rear - flush) % shape.wrap)


def dropped_by(shape, flush, rear, front):
    """How many frames a look drops that notices a flush."""
    if shape.wrap == 0:
        return wrapped(rear - front)
    return max(0, signed(flush_place(shape, flush, rear) - front))


def shown_by(shape, kept, asked, flush, rear, front):
    """What a look shows by the words that it sees, where the server kept that flush word."""
    filled = signed(rear - front)
    fits = 0 <= filled <= shape.frames
    if flush != kept and (fits or shape.wrap == 0):
        return ("l", dropped_by(shape, flush, rear, front))
    if not fits:
        return ("x", front, rear)
    return ("f", min(asked, filled)) if filled else ("e",)


def told_front(shape, own, asked, look):
    """The front of a look: the rear and the answer give it, or else it is the server's own."""
    kind = look.seen[0]
    if kind == "f":
        return own if look.seen[1] == asked else wrapped(look.rear - look.seen[1])
    if kind == "e":
        return look.rear
    if kind == "x":
        return look.seen[1]
    if shape.wrap == 0:
        return wrapped(look.rear - look.seen[1])
    return own if look.seen[1] == 0 else wrapped(flush_place(shape, look.flush, look.rear) - look.seen[1])


class Server:
    """The taking end of a block: the flush word that it keeps, the frames taken and dropped, and the words that shut it."""

    def __init__(self):
        self.kept, self.consumed, self.shut = 0, 0, None

    def copy(self):
        """Another one with the same values."""
        other = Server()
        other.kept, other.consumed, other.shut = self.kept, self.consumed, self.shut
        return other

    def note(self, look):
        """Keeps what a look answered, with the take that follows it."""
        if self.shut:
            return
        if look.seen[0] == "l":
            self.kept = look.flush
            self.consumed += look.seen[1]
        elif look.seen[0] == "x":
            self.shut = (look.flush, look.rear, look.seen)
        self.consumed += len(look.words)

    def progress(self, shape):
        """The consumed count, the flush count seen, and whether it is shut."""
        return self.consumed, self.kept // shape.wrap if shape.wrap else self.kept, self.shut is not None


# ---------------------------------------------------------------- the steps of a point

def client_step(shape, point, event):
    """The point after a client's event, or None where the event isn't legal."""
    kind, value = event
    if kind == "release":
        return point._replace(released=point.released + value)
    if kind == "flush":
        return point._replace(flushes=point.flushes + 1, flush_at=point.released)
    if kind == "gain":
        return point._replace(gains=value)
    if kind == "cleared":
        return point._replace(flags=point.flags & ~DISABLED) if value == point.flags else None
    if kind == "flags":
        legal = value == point.flags if value & INVALID else not point.flags & INVALID
    elif kind == "front":
        legal = value == wrapped(point.consumed)
    else:
        legal = value == point.status
    return point if legal else None


def flush_word(shape, point):
    """The flush word at a point."""
    if shape.wrap == 0:
        return point.flushes
    return wrapped(point.flushes * shape.wrap + point.flush_at % shape.wrap)


def server_step(shape, point, event):
    """The point after a server's event, or None where the event isn't legal."""
    kind, value = event
    if kind == "flush":
        return point._replace(drop_to=point.flush_at) if value == flush_word(shape, point) else None
    if kind == "rear":
        return point._replace(rear_seen=point.released) if value == wrapped(point.released) else None
    if kind == "take":
        return point._replace(consumed=point.consumed + value) if point.consumed + value <= point.rear_seen else None
    if kind == "drop":
        place = max(point.drop_to, point.consumed) if shape.wrap else point.rear_seen
        return point._replace(consumed=place) if value == wrapped(place) else None
    if kind == "set":
        return point._replace(flags=point.flags | value)
    if kind == "status":
        return point._replace(status=value)
    legal = value == (point.gains if kind == "gain" else wrapped(point.consumed))
    return point if legal else None


def hand_step(shape, point, event):
    """The point after an event of the hand."""
    kind, value = event
    return point._replace(flags=point.flags | value) if kind == "set" else point


# ---------------------------------------------------------------- histories

def keeps_meetings(hand, clients, hands):
    """The hand's later events wait for the client's events that a meeting told of, and the client's later ones for the hand's earlier."""
    for place, (kind, known) in enumerate(hand):
        if kind == "met" and not ((hands <= place + 1 or known <= clients) and (clients <= known or place <= hands)):
            return False
    return True


def points_after(shape, lists, starts):
    """All points to which some legal order of the three lists leads from one of the starts."""
    client, server, hand = lists
    meetings = any(kind == "met" for kind, _ in hand)
    stages = {(0, 0, 0, point) for point in starts}
    for _ in range(len(client) + len(server) + len(hand)):
        found = set()
        for clients, servers, hands, point in stages:
            if clients < len(client):
                after = client_step(shape, point, client[clients])
                found.add((clients + 1, servers, hands, after))
            if servers < len(server):
                after = server_step(shape, point, server[servers])
                found.add((clients, servers + 1, hands, after))
            if hands < len(hand):
                after = hand_step(shape, point, hand[hands])
                found.add((clients, servers, hands + 1, after))
        stages = {stage for stage in found if stage[3] is not None and (not meetings or keeps_meetings(hand, stage[0], stage[2]))}
    return {point for _, _, _, point in stages}


class Block:
    """A block of a run: its ends, and what its parties did since the last meeting of all of them.

    That meeting stands after all that was done before it, so what comes later is judged from the points that it left.
    """

    def __init__(self, shape, lawful):
        self.shape, self.lawful = shape, lawful
        self.server = Server()
        self.position, self.flushes, self.shut = shape.base, 0, None   # of the client
        self.words = []          # the words released
        self.tame = True         # no poke was told so far
        self.begin = {Point(shape.base, shape.base, 0, 0, shape.base, 0, UNITY_GAINS, 0, 0)}
        self.forget()

    def forget(self):
        """Nothing was done since the last meeting of all."""
        self.client, self.served, self.hand, self.taken = [], [], [], []

    # ------------------------------------------------ the client

    def released(self):
        """How many words the client released."""
        return len(self.words)

    def release(self, words):
        """The client releases words."""
        self.client.append(("release", len(words)))
        self.words += words
        self.position = wrapped(self.position + len(words))

    def poke(self):
        """From its first poke on a block has no history."""
        self.tame = False
        self.forget()

    def room_fits(self, kind, numbers, reserve):
        """A write or a send answers by the words that it carries. Of one that finds room the caller judges the rest."""
        if self.shut:
            return kind == "x" and numbers == self.shut
        if kind == "d":
            return numbers[0] & INVALID != 0
        filled = signed(self.position - numbers[0])
        if not 0 <= filled <= self.shape.frames:
            return kind == "x" and numbers[1] == self.position
        if filled == self.shape.frames or filled > self.shape.frames - reserve:
            return kind == "u"
        return kind == "p"

    def room(self, front):
        """How many frames fit past the own position, up to the end of the cells."""
        return min(self.shape.frames - signed(self.position - front), self.shape.cells - self.position % self.shape.cells)

    def saw_room(self, kind, numbers):
        """The events of a write or a send before its release."""
        if self.shut:
            return
        self.client.append(("flags", numbers[0] if kind == "d" else 0))
        if kind != "d":
            self.client.append(("front", numbers[0]))
        if kind == "x":
            self.shut = numbers

    # ------------------------------------------------ the server

    def own_front(self):
        """The front by what the server took and dropped."""
        return wrapped(self.shape.base + self.server.consumed)

    def look_fits(self, asked, look):
        """The look answers as its words say. A block that is poked in the journal leaves some fronts open: any one will do."""
        server = self.server
        if server.shut:
            return (look.flush, look.rear, look.seen) == server.shut
        fronts = [told_front(self.shape, self.own_front(), asked, look)]
        if not self.lawful:
            fronts += [wrapped(look.rear - asked), look.rear]
        return any(shown_by(self.shape, server.kept, asked, look.flush, look.rear, front) == look.seen for front in fronts)

    def looked(self, asked, look):
        """Tells a look with its take, and answers whether it is right."""
        fits, server = self.look_fits(asked, look), self.server
        if not server.shut:
            front = told_front(self.shape, self.own_front(), asked, look)
            self.served += [("flush", look.flush), ("rear", look.rear), ("front", front)]
            if look.seen[0] == "l":
                self.served.append(("drop", wrapped(front + look.seen[1])))
        if look.words:
            self.taken.append((server.consumed, look.words))
            self.served.append(("take", len(look.words)))
        server.note(look)
        return fits

    def played(self, asked, take):
        """A mixer's look at a stream block, with the gains before it and the flags after it; answers whether it is right."""
        was_shut = self.server.shut
        self.served.append(("gain", take.gains))
        fits = self.looked(asked, take.look)
        if take.look.seen[0] in "fe" and take.look.count() < asked:
            self.served.append(("set", UNDERRUN))
        if take.look.seen[0] == "x" and not was_shut:
            self.served.append(("set", INVALID))
        return fits

    # ------------------------------------------------ meetings

    def frames_fit(self):
        """Each word that was taken is the one that was released at its place."""
        return all(self.words[at:at + len(words)] == words for at, words in self.taken)

    def meet(self, server_there, hand_there):
        """The parties meet; answers whether the block has a history, where all are there and nothing was poked."""
        if not self.tame:
            self.forget()
            return True
        if not server_there:
            if hand_there:
                self.hand.append(("met", len(self.client)))
            return True
        if not (self.client or self.served or self.hand):
            return True
        self.begin = points_after(self.shape, (self.client, self.served, self.hand), self.begin)
        right = bool(self.begin) and self.frames_fit()
        self.forget()
        return right
