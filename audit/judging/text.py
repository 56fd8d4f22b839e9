"""The text of a journal: the reading of it, or the number of its first bad line."""

WORD = 1 << 32                 # a number of 32 bits is below this
LONG = 1 << 64
MOST_JUDGED = 32768            # of a round so many entries are judged, and of its turn so many looks at a track
SLOTS = 32
SUBMIX = (4096, 0, 268439552)  # scale, mono mark and gains of slot 0
MIXED, IDLE, COLD, EXIT = range(4)

# the numbers of each call of a client: each is below its limit
CALLS = {
    "p": (WORD, WORD), "u": (WORD,), "d": (WORD,), "x": (WORD, WORD), "k": (WORD,), "l": (WORD,), "g": (WORD,),
    "s": (WORD, WORD, WORD), "su": (WORD,), "sd": (WORD,), "sx": (WORD, WORD), "t": (WORD,), "o": (2, WORD, WORD),
}
# the numbers of what a look showed
SHOWN = {"f": (WORD,), "e": (), "l": (WORD,), "x": (WORD, WORD)}
# the numbers of a push, by the first of them
PUSHES = {0: (), 1: (LONG,), 2: (WORD, WORD)}
# the marks that may follow, by what was read last; 'call' stands for each mark of a call
FOLLOWERS = {
    "nothing": {"R"},
    "round": {"C", "N", "E", "F", "R"},
    "client": {"call"},
    "calls": {"call", "C", "N", "E", "F", "R"},
    "turn": {"q", "b", "a", "P"},
    "takes": {"m", "F", "R"},
    "ended": {"F", "R"},
    "fast": {"y"},
    "mix": {"z"},
    "slots": {"z", "y", "R"},
    "entries": {"y", "R"},
    "words": {"h"},
}
# what a text may end with
LAST = {"nothing", "round", "calls", "takes", "ended", "slots", "entries"}


class BadLine(Exception):
    """A text without a reading: the number of its first bad line."""

    def __init__(self, number):
        super().__init__(f"line {number}")
        self.number = number


class Unfit(Exception):
    """A line that may not stand where it stands."""


class Look:
    """The flush word and the rear that a look saw, what it showed, and the words that were taken."""

    __slots__ = ("flush", "rear", "seen", "words")

    def __init__(self, flush, rear, seen):
        self.flush, self.rear, self.seen, self.words = flush, rear, seen, ()

    def count(self):
        """How many frames it showed."""
        return self.seen[1] if self.seen[0] == "f" else 0


class TrackTurn:
    """What a turn of the normal mixer did for one track."""

    __slots__ = ("looks", "disabled", "status")

    def __init__(self):
        self.looks, self.disabled, self.status = [], False, None


class Turn:
    """A turn of the normal mixer."""

    __slots__ = ("ended", "room", "ack", "cycle", "tracks", "push", "takes")

    def __init__(self, ended, room, ack, cycle):
        self.ended, self.room, self.ack, self.cycle = ended, room, ack, cycle
        self.tracks, self.push, self.takes = {}, (0,), []


class Take:
    """A look at a stream block, for a buffer of the normal mixer or a slot of a cycle."""

    __slots__ = ("number", "scale", "mono", "gains", "look")

    def __init__(self, number, scale, mono, gains, look):
        self.number, self.scale, self.mono, self.gains, self.look = number, scale, mono, gains, look


class Entry:
    """A cycle of the fast mixer; its slots by their numbers."""

    __slots__ = ("state", "kind", "slots")

    def __init__(self, state, kind):
        self.state, self.kind, self.slots = state, kind, {}


class Round:
    """What all parties did in a round."""

    __slots__ = ("calls", "turn", "entries")

    def __init__(self):
        self.calls, self.turn, self.entries = {}, None, []


def number_in(word, limit):
    """The number that a word spells, which is below the limit."""
    if not (word.isdigit() and len(word) <= 20) or (word[0] == "0" and word != "0"):
        raise Unfit
    number = int(word)
    if number >= limit:
        raise Unfit
    return number


def numbers_in(words, limits):
    """The numbers that words spell, as many as there are limits."""
    if len(words) != len(limits):
        raise Unfit
    return tuple(map(number_in, words, limits))


def seen_in(words):
    """What a look showed: a mark and its numbers."""
    if not words or words[0] not in SHOWN:
        raise Unfit
    seen = (words[0], *numbers_in(words[1:], SHOWN[words[0]]))
    if seen[0] == "f" and seen[1] == 0:
        raise Unfit
    return seen


def packed_in(digits):
    """The words that hexadecimal digits spell, eight digits each."""
    if not digits or len(digits) % 8 or set(digits) - set("0123456789abcdef"):
        raise Unfit
    return [int(digits[at:at + 8], 16) for at in range(0, len(digits), 8)]


class Reader:
    """Takes the lines of a text one by one. `low` is the least track or slot, and `part` the least part of a track, that may come."""

    def __init__(self, tracks):
        self.tracks, self.rounds = tracks, []
        self.stage, self.low, self.part = "nothing", 0, 0
        self.due = None          # the look whose words are due, and the stage after them

    def line(self, text):
        """Takes a line; one that may not stand here is unfit."""
        mark, *words = text.split(" ")
        followers = FOLLOWERS[self.stage]
        if mark in CALLS and "call" in followers:
            self.call(mark, words)
        elif mark in followers and mark != "call":
            getattr(self, "line_" + mark)(words)
        else:
            raise Unfit

    def number_of_track(self, word):
        """The number of a track that may come."""
        track = number_in(word, self.tracks)
        if track < self.low:
            raise Unfit
        return track

    def shown(self, look, need, stage):
        """Goes on to a stage, after the words of the look where it has some."""
        self.stage, self.due = ("words", (look, need, stage)) if need else (stage, None)

    def line_R(self, words):
        """A round begins."""
        numbers_in(words, ())
        self.rounds.append(Round())
        self.stage, self.low = "round", 0

    def line_C(self, words):
        """The calls of a client follow."""
        numbers_in(words, (WORD,))
        track = self.number_of_track(words[0])
        self.calls = self.rounds[-1].calls[track] = []
        self.stage, self.low = "client", track + 1

    def call(self, mark, words):
        """A call of a client."""
        self.calls.append((mark, *numbers_in(words, CALLS[mark])))
        self.stage = "calls"

    def line_N(self, words):
        """A turn of the normal mixer."""
        room, ack, cycle = numbers_in(words, (WORD, 2, LONG))
        self.turn = self.rounds[-1].turn = Turn(False, room, ack == 1, cycle)
        self.stage, self.low, self.part = "turn", 0, 0

    def line_E(self, words):
        """A turn by which the normal mixer has ended."""
        numbers_in(words, ())
        self.rounds[-1].turn = Turn(True, 0, True, 0)
        self.stage = "ended"

    def track_turn(self, words, count, part):
        """The track of a line of a turn, where that part of it may come."""
        if len(words) < count:
            raise Unfit
        track = self.number_of_track(words[0])
        if track == self.low and part < self.part:
            raise Unfit
        self.low, self.part = track, part
        return self.turn.tracks.setdefault(track, TrackTurn())

    def line_q(self, words):
        """A look at a command block."""
        flush, rear = numbers_in(words[1:3], (WORD, WORD))
        look = Look(flush, rear, seen_in(words[3:]))
        self.track_turn(words, 4, 0).looks.append(look)
        self.shown(look, 2 if look.count() == 2 else 0, "turn")

    def line_b(self, words):
        """DISABLED was set."""
        numbers_in(words, (WORD,))
        self.track_turn(words, 1, 1).disabled = True
        self.part = 2

    def line_a(self, words):
        """A status was stored."""
        _, word = numbers_in(words, (WORD, WORD))
        self.track_turn(words, 2, 2).status = word
        self.low, self.part = self.low + 1, 0

    def line_P(self, words):
        """The answer of a push."""
        first = number_in(words[0], 3) if words else 3
        if first not in PUSHES:
            raise Unfit
        self.turn.push = (first, *numbers_in(words[1:], PUSHES[first]))
        self.stage, self.low = "takes", 0

    def line_m(self, words):
        """A look at a stream block, for a buffer."""
        _, gains, flush, rear = numbers_in(words[:4], (WORD,) * 4)
        look = Look(flush, rear, seen_in(words[4:]))
        track = self.number_of_track(words[0])
        self.turn.takes.append(Take(track, None, None, gains, look))
        self.low = track + 1
        self.shown(look, look.count(), "takes")

    def line_F(self, words):
        """Entries follow."""
        numbers_in(words, ())
        self.stage = "fast"

    def line_y(self, words):
        """An entry."""
        state, kind = numbers_in(words, (LONG, 4))
        self.entry = Entry(state, kind)
        self.rounds[-1].entries.append(self.entry)
        self.stage, self.low = ("mix" if kind == MIXED else "entries"), 0

    def line_z(self, words):
        """A slot of a mix; slot 0 comes first, at unity."""
        slot, scale, mono, gains, flush, rear = numbers_in(words[:6], (SLOTS, 1 << 16, 2, WORD, WORD, WORD))
        look = Look(flush, rear, seen_in(words[6:]))
        submix = (scale, mono, gains) == SUBMIX and flush == 0 and look.seen[0] in "fe"
        if slot < self.low or (self.stage == "mix" and (slot != 0 or not submix)):
            raise Unfit
        self.entry.slots[slot] = Take(slot, scale, mono == 1, gains, look)
        self.low = slot + 1
        self.shown(look, look.count(), "slots")

    def line_h(self, words):
        """The words that a look took."""
        look, need, stage = self.due
        if len(words) != 1 or len(words[0]) != 8 * need:
            raise Unfit
        look.words = packed_in(words[0])
        self.stage = stage


def read(data, tracks):
    """The rounds that a text tells of so many tracks."""
    reader, parts = Reader(tracks), data.split(b"\n")
    for number, part in enumerate(parts[:-1], 1):
        try:
            reader.line(part.decode("ascii"))
        except (Unfit, UnicodeDecodeError):
            raise BadLine(number) from None
    if parts[-1] or reader.stage not in LAST:
        raise BadLine(len(parts))
    return reader.rounds


def judged(rounds):
    """The rounds of a journal, each with its first entries, and the first looks at each track in its turn."""
    for told in rounds:
        del told.entries[MOST_JUDGED:]
        for seen in told.turn.tracks.values() if told.turn else ():
            del seen.looks[MOST_JUDGED:]
    return rounds
