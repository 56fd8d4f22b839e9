#!/usr/bin/env python3
"""A plain model of a session, written apart from the crates: it says what `render` and `play` have to answer.

    model.py render SCRIPT OUT [JOURNAL]    what the player's `render` does; JOURNAL tells each entry of `turns` as a round
    model.py play SCRIPT OUT JOURNAL        one schedule of `play`: in each round the clients in order, then the two mixers
    model.py generate NUMBER SCRIPT OUT     what the player's `generate` does

It works in the current folder, prints the player's line and ends with the player's exit status. Everything happens
on one thread, so each load sees the last store. Words are real 32-bit words, so a poke does what it does.
Python 3.11 or later, the standard library alone.
"""
import os, re, struct, sys, tomllib

WORD = 0xFFFFFFFF
SLOTS = 32                     # slot 0 is the normal mixer's submix
UNITY = 0x1000
FRONT, REAR, FLUSH, UNDERRUNS, FLAGS, GAINS, STATUS, CELLS = range(8)
UNDERRUN, INVALID, DISABLED = 1, 4, 8
OPEN, START, PAUSE, STOP, FLUSH_COMMAND, REMOVE = 1, 2, 3, 4, 5, 6
CALLS = 64                     # calls of a client's turn, and looks at one command block in a normal turn
CYCLES = 16                    # cycles of a fast turn of `play`
RETRIES = 50
ABSENT, IDLE, ACTIVE, PAUSING, PAUSED, RESUMING, STOPPING1, STOPPING2, STOPPED, FLUSHED = range(10)
DEAD = 15                      # the state code of a track that was shut
MIXED, IDLED, COLD, EXITED = 0, 1, 2, 3  # the kinds of an entry


def signed(number):
    """A number as a wrapping signed number of 32 bits."""
    number &= WORD
    return number - (1 << 32) if number >> 31 else number


# ---------------------------------------------------------------- samples

def left_of(word):
    return ((word & 0xFFFF) ^ 0x8000) - 0x8000


def right_of(word):
    return ((word >> 16) ^ 0x8000) - 0x8000


def clamped(total):
    total >>= 12
    return -32768 if total < -32768 else 32767 if total > 32767 else total


def mix(takes, length):
    """The packed frames of the mix of takes; a take is its packed frames, its mono mark, its gain word and its scale."""
    lefts, rights = [0] * length, [0] * length
    for frames, mono, gains, scale in takes:
        left_gain = min(gains & 0xFFFF, UNITY) * scale >> 12
        right_gain = min(gains >> 16, UNITY) * scale >> 12
        for at, word in enumerate(frames):
            left = left_of(word)
            lefts[at] += left * left_gain
            rights[at] += (left if mono else right_of(word)) * right_gain
    return [(clamped(left) & 0xFFFF) | (clamped(right) & 0xFFFF) << 16 for left, right in zip(lefts, rights)]


def frames_of(data, mono):
    """The packed frames of a file's bytes; a mono sample goes to both sides."""
    if mono:
        return [sample | sample << 16 for (sample,) in struct.iter_unpack("<H", data)]
    return [word for (word,) in struct.iter_unpack("<I", data)]


# ---------------------------------------------------------------- a control block and its two proxies

class Block:
    """The words of a block. With a wrap its flush word also tells the position of the last flush."""

    def __init__(self, frames, base=0, positional=False):
        self.frames = frames
        self.cells = 1 << (frames - 1).bit_length()
        self.wrap = 4 * self.cells if positional else 0
        self.words = [base, base, 0, 0, 0, 0x10001000, 0] + [0] * self.cells

    def cell(self, position):
        return CELLS + (position & self.cells - 1)

    def set_flags(self, bits):
        self.words[FLAGS] |= bits

    def tally(self, missing):
        self.words[UNDERRUNS] = self.words[UNDERRUNS] + missing & WORD
        self.set_flags(UNDERRUN)


class Client:
    """The writing end. It keeps its own rear and trusts no other word for it."""

    def __init__(self, block):
        self.block, self.rear = block, block.words[REAR]
        self.released = self.flushes = 0
        self.flush_word = 0      # the flush word as the client's own flushes make it
        self.shut = None

    def room(self, reserve=0):
        """What a write or a send finds first: an answer that ends it, or the front and the room."""
        if self.shut:
            return ("corrupt", *self.shut)
        words = self.block.words
        if words[FLAGS] & INVALID:
            return ("dead", words[FLAGS])
        front = words[FRONT]
        filled = signed(self.rear - front)
        if not 0 <= filled <= self.block.frames:
            self.shut = (front, self.rear)
            return ("corrupt", front, self.rear)
        if filled > self.block.frames - reserve or filled == self.block.frames:
            return ("full", front)
        return ("room", front, self.block.frames - filled)

    def release(self, frames):
        for word in frames:
            self.block.words[self.block.cell(self.rear)] = word
            self.rear = self.rear + 1 & WORD
        self.block.words[REAR] = self.rear
        self.released += len(frames)

    def write(self, frames):
        found = self.room()
        if found[0] != "room":
            return found
        to_wrap = self.block.cells - (self.rear & self.block.cells - 1)
        count = min(len(frames), found[2], to_wrap)
        self.release(frames[:count])
        return ("put", found[1], count)

    def send(self, code, argument):
        found = self.room(reserve=2)
        if found[0] != "room":
            return found
        self.release([code, argument & WORD])
        return ("sent", found[1])

    def flush(self):
        self.flushes += 1
        wrap = self.block.wrap
        word = self.flushes * wrap + self.rear % wrap & WORD if wrap else self.flushes
        self.block.words[FLUSH] = self.block.words[FLUSH] + word - self.flush_word & WORD
        self.flush_word = word
        return self.flushes

    def clear_disabled(self):
        before = self.block.words[FLAGS]
        self.block.words[FLAGS] &= ~DISABLED
        return before


class Look:
    """What a look saw: the flush word, the rear, and the answer with its numbers."""

    def __init__(self, flush, rear, seen, *numbers):
        self.flush, self.rear, self.seen, self.numbers = flush, rear, seen, numbers

    def text(self):
        return " ".join(map(str, (self.flush, self.rear, self.seen, *self.numbers)))


class Server:
    """The reading end, which distrusts the words."""

    def __init__(self, block):
        self.block = block
        self.kept = 0            # the flush word noticed last
        self.consumed = 0
        self.shut = None         # the look that shut it

    def flush_seen(self):
        return self.kept // self.block.wrap if self.block.wrap else self.kept

    def look(self, ask):
        if self.shut:
            return self.shut
        words, wrap = self.block.words, self.block.wrap
        flush, rear, front = words[FLUSH], words[REAR], words[FRONT]
        self.front = front
        filled = signed(rear - front)
        in_range = 0 <= filled <= self.block.frames
        if flush != self.kept and (in_range or not wrap):
            self.kept = flush
            if wrap:
                flush_position = rear - (rear - flush) % wrap
                dropped = max(0, signed(flush_position - front))
            else:
                dropped = rear - front & WORD
            words[FRONT] = front + dropped & WORD
            self.consume(dropped)
            return Look(flush, rear, "l", dropped)
        if not in_range:
            self.shut = Look(flush, rear, "x", front, rear)
            return self.shut
        if filled == 0:
            return Look(flush, rear, "e")
        return Look(flush, rear, "f", min(ask, filled))

    def take(self, count):
        words = self.block.words
        taken = [words[self.block.cell(self.front + at)] for at in range(count)]
        words[FRONT] = self.front + count & WORD
        self.consume(count)
        return taken

    def consume(self, count):
        self.consumed = min(self.consumed + count, (1 << 63) - 1)


def hexed(frames):
    return "h " + "".join(f"{word:08x}" for word in frames)


# ---------------------------------------------------------------- scripts

class Refused(Exception):
    """A refusal: the exit status and the line."""

    def __init__(self, status, line):
        super().__init__(line)
        self.status, self.line = status, line


def script_fault(text):
    return Refused(3, "script: " + text)


NAME = re.compile(r"[A-Za-z0-9_][A-Za-z0-9._-]{0,63}\Z")
NUMBER = re.compile(r"(?:0|[1-9][0-9]*)\Z")
PLAIN_OPS = ("start", "pause", "stop", "flush", "drain", "yield")


def number_in(text, least, most):
    """The number that a word spells, where it spells one in the range, else None."""
    if not NUMBER.match(text) or len(text) > 20:
        return None
    return int(text) if least <= int(text) <= most else None


def key_number(table, at, key, least, most, default=None):
    if key not in table and default is not None:
        return default
    value = table.get(key)
    if type(value) is not int:
        raise script_fault(f"key {at} {key}")
    if not least <= value <= most:
        raise script_fault(f"range {at} {key} {value}")
    return value


def texts(table, at, key):
    value = table.get(key)
    if type(value) is not list or any(type(item) is not str for item in value):
        raise script_fault(f"key {at} {key}")
    return value


def read_op(text, index, last, cells):
    """The op of a text as a tuple, or None where it doesn't fit."""
    words = text.split(" ")
    numbers = words[1:]
    if (text == "open") != (index == 0):
        return None
    if text in PLAIN_OPS or text == "open" or (text == "remove" and last):
        return (text,)
    if words[0] == "gain" and len(numbers) == 2:
        found = [number_in(n, 0, 65535) for n in numbers]
    elif words[0] == "write" and len(numbers) == 1:
        found = [number_in(numbers[0], 1, 4194304)]
    elif words[0] == "poke" and len(numbers) == 3 and numbers[0] in ("stream", "command"):
        limit = CELLS + (cells if numbers[0] == "stream" else 128)
        found = [int(numbers[0] == "command"), number_in(numbers[1], 0, limit - 1), number_in(numbers[2], 0, WORD)]
    else:
        return None
    return None if None in found else (words[0], *found)


class Track:
    def __init__(self, table, at):
        for key in table:
            if key not in ("kind", "frames", "channels", "file", "ops", "base", "scale"):
                raise script_fault(f"unknown {at}")
        if table.get("kind") not in ("fast", "normal"):
            raise script_fault(f"key {at} kind")
        self.fast = table["kind"] == "fast"
        self.frames = key_number(table, at, "frames", 1, 8192)
        self.mono = key_number(table, at, "channels", 1, 2) == 1
        self.file = table.get("file")
        if type(self.file) is not str or not NAME.match(self.file):
            raise script_fault(f"key {at} file")
        ops = texts(table, at, "ops")
        self.base = key_number(table, at, "base", 0, WORD, 0)
        self.scale = key_number(table, at, "scale", 0, UNITY, UNITY)
        if len(ops) > 4096:
            raise script_fault(f"limit ops {len(ops)}")
        cells = 1 << (self.frames - 1).bit_length()
        self.ops = [read_op(text, index, index == len(ops) - 1, cells) for index, text in enumerate(ops)] or [None]
        if None in self.ops:
            raise script_fault(f"op {at - 1} {self.ops.index(None)}")
        if self.ops[-1] != ("remove",):
            self.ops.append(("remove",))
        self.asked = sum(op[1] for op in self.ops if op[0] == "write")


def read_turn(text, tracks):
    words = text.split(" ")
    if text == "n":
        return ("n",)
    if len(words) == 2 and words[0] == "c":
        found = number_in(words[1], 0, tracks - 1)
    elif len(words) == 2 and words[0] == "f":
        found = number_in(words[1], 1, 16)
    else:
        return None
    return None if found is None else (words[0], found)


def tree_of(data):
    """The tree of a TOML document. A number beyond 64 bits is no TOML integer."""
    def beyond(value):
        if type(value) is int:
            return not -(1 << 63) <= value < 1 << 63
        inner = value.values() if type(value) is dict else value if type(value) is list else ()
        return any(map(beyond, inner))
    try:
        tree = tomllib.loads(data.decode("utf-8"))
    except (UnicodeDecodeError, tomllib.TOMLDecodeError):
        raise script_fault("toml")
    if beyond(tree):
        raise script_fault("toml")
    return tree


class Script:
    def __init__(self, data):
        tree = tree_of(data)
        for key in tree:
            if key not in ("version", "frames", "normal", "cycles", "track", "turns"):
                raise script_fault("unknown 0")
        self.version = key_number(tree, 0, "version", 1, 2)
        self.frames = key_number(tree, 0, "frames", 1, 1024)
        self.normal = key_number(tree, 0, "normal", 1, 16)
        self.cycles = key_number(tree, 0, "cycles", 1, 100000)
        tables = tree.get("track")
        if type(tables) is not list or any(type(table) is not dict for table in tables):
            raise script_fault("key 0 track")
        if not 1 <= len(tables) <= 32:
            raise script_fault(f"range 0 track {len(tables)}")
        turns = texts(tree, 0, "turns") if "turns" in tree else []
        if self.cycles * self.frames > 2097152:
            raise script_fault(f"limit product {self.cycles * self.frames}")
        self.tracks = [Track(table, at + 1) for at, table in enumerate(tables)]
        if len(turns) > 100000:
            raise script_fault(f"limit turns {len(turns)}")
        self.turns = [read_turn(text, len(tables)) for text in turns]
        if None in self.turns:
            raise script_fault(f"turn {self.turns.index(None)}")
        asked = sum(turn[1] for turn in self.turns if turn[0] == "f")
        if asked > self.cycles:
            raise script_fault(f"limit asked {asked}")


def load(name, limit, role):
    try:
        with open(name, "rb") as file:
            data = file.read(limit + 1)
    except FileNotFoundError:
        raise Refused(4, f"file: {role} missing")
    if len(data) > limit:
        raise Refused(4, f"file: {role} long")
    return data


def load_files(script):
    """Each track's packed frames, or the first refusal."""
    total, files = 0, []
    for at, track in enumerate(script.tracks):
        role = f"track {at}"
        data = load(track.file, 8 << 20, role)
        total += len(data)
        if total > 16 << 20:
            raise Refused(4, f"file: {role} total {total}")
        size = 2 if track.mono else 4
        if len(data) % size:
            raise Refused(4, f"file: {role} ragged {len(data)}")
        if len(data) // size < track.asked:
            raise Refused(4, f"file: {role} short {len(data) // size} {track.asked}")
        files.append(frames_of(data, track.mono))
    return files


# ---------------------------------------------------------------- a client's turns

class Party:
    """A client with its ops: where it stands, and what it did."""

    def __init__(self, track, frames, stream, command):
        self.ops, self.frames = track.ops, frames
        self.blocks = (stream, command)
        self.stream, self.command = Client(stream), Client(command)
        self.at = 0              # the op that comes next
        self.part = 0            # how far that op is done: calls of a start or flush, frames of a write
        self.state = "idle"
        self.sent = 0
        self.owed = False        # a START is owed
        self.removing = False    # a write found the track dead or corrupt: one REMOVE, and then the end
        self.ended = False
        self.poked = False

    def turn(self):
        """One turn: the journal's lines of its calls."""
        self.lines = []
        while not self.ended and len(self.lines) < CALLS and self.step():
            pass
        return self.lines

    def done(self):
        self.at, self.part = self.at + 1, 0
        return True

    def step(self):
        """The next call, or the next op that needs none. False where the turn ends."""
        if self.removing:
            self.send(REMOVE, 0)
            self.ended = True
            return False
        if self.owed:
            if not self.send(START, self.stream.flushes):
                return False
            self.owed = False
            return True
        return getattr(self, "op_" + self.ops[self.at][0])(*self.ops[self.at][1:])

    def send(self, code, argument):
        """True where it was sent; the client has ended where the block answers dead or corrupt."""
        kind, *numbers = self.command.send(code, argument)
        if kind == "sent":
            self.lines.append(f"s {numbers[0]} {code} {argument & WORD}")
            self.sent += 1
            return True
        mark = {"full": "su", "dead": "sd", "corrupt": "sx"}[kind]
        self.lines.append(" ".join(map(str, (mark, *numbers))))
        if kind != "full":
            self.ended = True
        return False

    def status(self):
        """The state code and whether all commands sent are settled."""
        word = self.blocks[1].words[STATUS]
        self.lines.append(f"t {word}")
        if word % 16 == DEAD:
            self.ended = True
        return word % 16, word // 256 >= self.sent

    def op_open(self):
        return self.send(OPEN, 0) and self.done()

    def op_start(self):
        if self.part == 0:
            if self.state == "active":
                return self.done()
            if not self.send(START, self.stream.flushes):
                return False
            self.state, self.part = "active", 1
            return True
        _, settled = self.status()
        return not self.ended and settled and self.done()

    def op_pause(self):
        if self.state == "active":
            if not self.send(PAUSE, 0):
                return False
            self.state = "paused"
        return self.done()

    def op_stop(self):
        if self.state in ("active", "paused"):
            if not self.send(STOP, self.stream.released):
                return False
            self.state = "stopped"
        return self.done()

    def op_flush(self):
        if self.part == 0:
            if self.state == "active":
                return self.done()
            self.lines.append(f"l {self.stream.flush()}")
            self.part = 1
            return True
        if not self.send(FLUSH_COMMAND, 0):
            return False
        self.state = "idle"
        return self.done()

    def op_drain(self):
        if self.state != "stopped":
            return self.done()
        state, settled = self.status()
        return not self.ended and settled and state == STOPPED and self.done()

    def op_gain(self, left, right):
        word = left + 65536 * right
        self.blocks[0].words[GAINS] = word
        self.lines.append(f"g {word}")
        return self.done()

    def op_poke(self, block, word, value):
        self.blocks[block].words[word] = value
        self.poked = True
        self.lines.append(f"o {block} {word} {value}")
        return self.done()

    def op_yield(self):
        self.done()
        return False

    def op_remove(self):
        if self.send(REMOVE, 0):
            self.ended = True
        return False

    def op_write(self, count):
        if self.part < 0:        # a Put while active: DISABLED is cleared, and where it was set a START is owed
            self.part = -self.part
            before = self.stream.clear_disabled()
            self.lines.append(f"k {before}")
            self.owed = bool(before & DISABLED)
            return True if self.part < count else self.done()
        at = self.stream.released
        kind, *numbers = self.stream.write(self.frames[at:at + count - self.part])
        mark = {"put": "p", "full": "u", "dead": "d", "corrupt": "x"}[kind]
        self.lines.append(" ".join(map(str, (mark, *numbers))))
        if kind == "put":
            self.part += numbers[1]
            if self.state == "active":
                self.part = -self.part
                return True
            return True if self.part < count else self.done()
        self.removing = kind != "full"
        return self.removing


# ---------------------------------------------------------------- a track's life

class Life:
    def __init__(self):
        self.state = ABSENT
        self.member = self.ended = self.drained = False
        self.retries, self.stop_at = RETRIES, 0

    def on_command(self, code, argument):
        state = self.state
        if self.ended:
            return
        if code == OPEN and state == ABSENT:
            self.state = IDLE
        elif code == START and state != ABSENT:
            self.state = RESUMING if state == PAUSED else ACTIVE
            self.member, self.retries, self.drained = True, RETRIES, False
        elif code == PAUSE and state in (ACTIVE, RESUMING):
            self.state = PAUSING
        elif code == STOP and state in (ACTIVE, RESUMING, PAUSING, PAUSED):
            if self.member:
                self.state, self.stop_at = STOPPING1, argument
            else:
                self.state = STOPPED
        elif code == FLUSH_COMMAND and state in (IDLE, PAUSING, PAUSED, STOPPING1, STOPPING2, STOPPED, FLUSHED):
            self.state = FLUSHED
        elif code == REMOVE:
            self.ended = True

    def on_report(self, consumed, fulls, partials, empties, shut):
        """True where the track becomes DISABLED."""
        if shut:
            self.ended, self.member = True, False
        elif self.ended:
            self.member = False
        elif self.state == STOPPING1:
            if consumed >= self.stop_at:
                self.state, self.drained = STOPPING2, True
        elif self.state == STOPPING2:
            self.state, self.member = STOPPED, False
        elif self.state == PAUSING:
            self.state = PAUSED
        elif self.state == RESUMING:
            self.state = ACTIVE
        elif self.state == ACTIVE and self.member:
            if fulls or partials:
                self.retries = RETRIES
            if empties:
                self.retries = max(0, self.retries - 1)
                if self.retries == 0:
                    self.member = False
                    return True
        elif self.state in (IDLE, PAUSED, STOPPED, FLUSHED):
            self.member = False
        return False


# ---------------------------------------------------------------- the state queue and the report

class State:
    """What the normal mixer tells the fast one. A slot in the mask has its generation, track, mono mark and scale."""

    def __init__(self):
        self.slots = {}          # slot -> (generation, track, mono, scale)
        self.generations = [0] * SLOTS
        self.command = "cold idle"
        self.cold = 0

    def copy(self):
        other = State()
        other.slots, other.generations = dict(self.slots), list(self.generations)
        other.command, other.cold = self.command, self.cold
        return other


class Queue:
    def __init__(self):
        self.pushed = []         # the states, numbered from 1
        self.acked = 0           # the number of the last state that was polled

    @staticmethod
    def cell(number):
        """The word that names the cell of a state; 0 where there is none."""
        return (number - 1) % 4 + 1 if number else 0

    def all_acked(self):
        return self.cell(self.acked) == self.cell(len(self.pushed))


class SlotReport:
    def __init__(self, generation=0, consumed=0, flush_seen=0, shut=False, counts=(0, 0, 0)):
        self.generation, self.consumed, self.flush_seen = generation, consumed, flush_seen
        self.shut, self.counts = shut, counts      # fulls, partials, empties


class Report:
    def __init__(self):
        self.cycle = 0
        self.slots = [SlotReport() for _ in range(SLOTS)]


# ---------------------------------------------------------------- the normal mixer

class NormalTrack:
    """What the normal mixer keeps of one track."""

    def __init__(self, track, stream, command):
        self.fast, self.mono, self.scale = track.fast, track.mono, track.scale
        self.stream, self.command = Server(stream), Server(command)
        self.life = Life()
        self.place = "home"      # or lent, or returning
        self.slot = None
        self.generation = 0      # of the attachment
        self.seen = (0, 0, 0)    # the counts that the turn before saw for this attachment
        self.at_attach = None    # consumed count, flush count seen and shut when it was attached
        self.own = [0, 0, 0]     # the counts of the mixer's own looks since the last turn
        self.awaits = None       # the flush count that a START awaits
        self.settled = 0
        self.stored = 0          # the last status word
        self.taken = self.dropped = 0

    def values(self):
        return self.stream.consumed, self.stream.flush_seen(), self.stream.shut is not None


class Normal:
    def __init__(self, session):
        self.session = session
        self.tracks = [NormalTrack(*of) for of in zip(session.script.tracks, session.streams, session.commands)]
        self.draft, self.dirty = State(), False
        self.ended = False
        self.size = session.script.normal * session.script.frames

    def turn(self):
        """One turn: the journal's lines."""
        session, queue = self.session, self.session.queue
        ack = queue.all_acked()
        if ack:
            self.take_back()
            if queue.pushed and queue.pushed[-1].command == "exit":
                self.ended = True
                return ["E"]
        report = session.report
        pipe = session.pipe
        room = pipe.frames - signed(pipe.words[REAR] - pipe.words[FRONT])
        lines = [f"N {room} {int(ack)} {report.cycle}"]
        for at, track in enumerate(self.tracks):
            if not track.life.ended:
                lines += self.visit(at, track, report)
        self.edit(room)
        lines.append(self.push())
        return lines + self.buffer(room)

    def take_back(self):
        """Every proxy that the last pushed state no longer carries comes home."""
        carried = self.session.queue.pushed[-1].slots if self.session.queue.pushed else {}
        for track in self.tracks:
            if track.place == "returning" and track.slot not in carried:
                track.place = "home"

    def known(self, track, report):
        """The consumed count, the flush count seen, whether it is shut, and the three counts since the last turn."""
        if track.place == "home":
            counts, track.own = tuple(track.own), [0, 0, 0]
            return (*track.values(), counts)
        entry = report.slots[track.slot]
        if entry.generation != track.generation:
            return (*track.at_attach, (0, 0, 0))
        counts = tuple(max(0, now - before) for now, before in zip(entry.counts, track.seen))
        track.seen = entry.counts
        return entry.consumed, entry.flush_seen, entry.shut, counts

    def visit(self, at, track, report):
        """The step of a turn for one track."""
        lines = []
        consumed, flush_seen, shut, counts = self.known(track, report)
        if track.awaits is not None and flush_seen >= track.awaits:
            track.awaits = None
            track.settled += 1
        if track.awaits is None:
            shut |= self.commands(at, track, flush_seen, lines)
        if track.life.on_report(consumed, *counts, shut):
            track.stream.block.set_flags(DISABLED)
            lines.append(f"b {at}")
        if shut:
            track.command.block.set_flags(INVALID)
            if track.place == "home":
                track.stream.block.set_flags(INVALID)
        word = (DEAD if shut else track.life.state) + 16 * track.life.drained + 256 * (track.settled % 2 ** 24)
        if word != track.stored:
            track.stored = track.command.block.words[STATUS] = word
            lines.append(f"a {at} {word}")
        return lines

    def commands(self, at, track, flush_seen, lines):
        """The looks at a command block. True where one found it shut."""
        for _ in range(CALLS):
            look = track.command.look(2)
            lines.append(f"q {at} {look.text()}")
            if look.seen != "f" or look.numbers[0] != 2:
                return look.seen == "x"
            code, argument = track.command.take(2)
            lines.append(hexed((code, argument)))
            ignored = track.life.state == ABSENT or track.life.ended
            if code == OPEN and track.life.state == ABSENT and not track.life.ended and track.fast:
                track.slot = self.free_slot()
            track.life.on_command(code, argument)
            if code == START and not ignored and argument > flush_seen:
                track.awaits = argument
                return False
            track.settled += 1
        return False

    def free_slot(self):
        """The lowest slot that no track holds; None where there is none."""
        held = {track.slot for track in self.tracks if not (track.life.ended and track.place == "home")}
        return next((slot for slot in range(1, SLOTS) if slot not in held), None)

    def edit(self, room):
        """The mutation of the draft."""
        draft = self.draft
        for at, track in enumerate(self.tracks):
            wanted = track.life.member and not track.life.ended
            if track.place == "lent" and not wanted:
                del draft.slots[track.slot]
                track.place, self.dirty = "returning", True
            elif track.place == "home" and track.slot is not None and wanted:
                draft.generations[track.slot] += 1
                track.generation = draft.generations[track.slot]
                draft.slots[track.slot] = (track.generation, at, track.mono, track.scale)
                track.place, self.dirty = "lent", True
                track.at_attach, track.seen = track.values(), (0, 0, 0)
        whole = room == self.session.pipe.frames
        if draft.command == "exit" or all(t.life.ended and t.place == "home" for t in self.tracks) and whole:
            command = "exit"
        elif not whole or any(t.life.member and not t.life.ended for t in self.tracks):
            command = "mix write"
        else:
            command = "cold idle"
        if command != draft.command:
            draft.command, self.dirty = command, True
            draft.cold += command == "cold idle"

    def push(self):
        queue = self.session.queue
        if not self.dirty:
            return "P 0"
        if queue.pushed and not queue.all_acked():
            return f"P 2 {queue.cell(queue.acked)} {queue.cell(len(queue.pushed))}"
        queue.pushed.append(self.draft.copy())
        self.dirty = False
        return f"P 1 {len(queue.pushed)}"

    def buffer(self, room):
        """The normal buffer: the tracks without a slot, mixed into the pipe."""
        lines, takes = [], []
        mixed = [(at, t) for at, t in enumerate(self.tracks) if t.slot is None and t.life.member and not t.life.ended]
        if not mixed or room < self.size:
            return []
        for at, track in mixed:
            block = track.stream.block
            gains = block.words[GAINS]
            look = track.stream.look(self.size)
            lines.append(f"m {at} {gains} {look.text()}")
            frames = take_looked(track, look, self.size, track.own)
            if frames:
                lines.append(hexed(frames))
                takes.append((frames, track.mono, gains, track.scale))
        self.session.pipe_in.put(mix(takes, self.size))
        return lines


def take_looked(track, look, ask, counts):
    """What both mixers do after a look at a stream block: the frames taken, the counts and flags raised."""
    frames = []
    if look.seen == "f":
        frames = track.stream.take(look.numbers[0])
        track.taken += len(frames)
        counts[0 if len(frames) == ask else 1] += 1
    elif look.seen == "e":
        counts[2] += 1
    elif look.seen == "l":
        track.dropped += look.numbers[0]
    else:
        track.stream.block.set_flags(INVALID)
    if look.seen in "fe" and len(frames) < ask:
        track.stream.block.tally(ask - len(frames))
    return frames


class PipeIn:
    def __init__(self, block):
        self.client = Client(block)

    def put(self, frames):
        self.client.release(frames)


# ---------------------------------------------------------------- the fast mixer

class Fast:
    def __init__(self, session):
        self.session = session
        self.number = 0          # of the adopted state
        self.state = None
        self.held = {}           # slot -> [generation, track]
        self.counts = {}         # slot -> fulls, partials, empties
        self.cold = 0            # the cold generation performed last
        self.entries = self.mixed = 0
        self.ended = False
        self.pipe = Server(session.pipe)

    def turn(self, cycles):
        """At most so many cycles, fewer after one that isn't mixed: the journal's lines and the frames written."""
        lines, out = [], []
        for _ in range(cycles):
            if self.ended or self.entries == self.session.script.cycles:
                break
            self.adopt()
            kind = self.kind()
            self.entries += 1
            lines.append(f"y {self.number} {kind}")
            if kind == MIXED:
                out += self.mix(lines)
                self.mixed += 1
            self.store()
            if kind != MIXED:
                self.ended = kind == EXITED
                break
        return ["F"] + lines if lines else [], out

    def adopt(self):
        queue = self.session.queue
        if queue.acked == len(queue.pushed):
            return
        self.number = queue.acked = queue.acked + 1
        self.state = queue.pushed[self.number - 1]
        for slot in list(self.held):
            if self.state.slots.get(slot, (None,))[0] != self.held[slot][0]:
                del self.held[slot]
        for slot, (generation, track, _, _) in self.state.slots.items():
            if slot not in self.held:
                self.held[slot] = (generation, self.session.normal.tracks[track])
                self.counts[slot] = [0, 0, 0]

    def kind(self):
        if self.state is None:
            return IDLED
        if self.state.command == "exit":
            return EXITED
        if self.state.command == "mix write":
            return MIXED
        if self.state.cold not in (0, self.cold):
            self.cold = self.state.cold
            return COLD
        return IDLED

    def mix(self, lines):
        """A mixed cycle: the frames of its buffer."""
        length = self.session.script.frames
        look = self.pipe.look(length)
        frames = self.pipe.take(look.numbers[0]) if look.seen == "f" else []
        unity = UNITY + 65536 * UNITY
        lines.append(f"z 0 {UNITY} 0 {unity} {look.text()}")
        lines += [hexed(frames)] if frames else []
        takes = [(frames, False, unity, UNITY)]
        for slot in sorted(self.state.slots):
            _, _, mono, scale = self.state.slots[slot]
            track = self.held[slot][1]
            gains = track.stream.block.words[GAINS]
            shut = track.stream.shut
            look = track.stream.look(length)
            lines.append(f"z {slot} {scale} {int(mono)} {gains} {look.text()}")
            if shut:
                continue
            frames = take_looked(track, look, length, self.counts[slot])
            if frames:
                lines.append(hexed(frames))
                takes.append((frames, mono, gains, scale))
        return mix(takes, length)

    def store(self):
        report = Report()
        report.cycle = self.entries
        report.slots = list(self.session.report.slots)
        for slot, (generation, track) in self.held.items():
            report.slots[slot] = SlotReport(generation, *track.values(), tuple(self.counts[slot]))
        self.session.report = report


# ---------------------------------------------------------------- a session

class Session:
    def __init__(self, script, files):
        self.script = script
        self.streams = [Block(track.frames, track.base, script.version == 2) for track in script.tracks]
        self.commands = [Block(128) for _ in script.tracks]
        self.pipe = Block(4 * script.normal * script.frames)
        self.pipe_in = PipeIn(self.pipe)
        self.queue, self.report = Queue(), Report()
        self.clients = [Party(*of) for of in zip(script.tracks, files, self.streams, self.commands)]
        self.normal, self.fast = Normal(self), Fast(self)
        self.journal, self.out = [], []

    def client(self, at):
        party = self.clients[at]
        lines = party.turn()
        self.journal += [f"C {at}"] + lines if lines else []

    def normal_turn(self):
        """A turn of the normal mixer. Once it has ended every client has ended after the round."""
        if not self.normal.ended:
            self.journal += self.normal.turn()
        return self.normal.ended

    def fast_turn(self, cycles):
        lines, out = self.fast.turn(cycles)
        self.journal += lines
        self.out += out

    def end_clients(self):
        for party in self.clients:
            party.ended = True

    def render(self):
        for turn in self.script.turns:
            self.journal.append("R")
            if turn[0] == "c":
                self.client(turn[1])
            elif turn[0] == "n":
                if self.normal_turn():
                    self.end_clients()
            else:
                self.fast_turn(turn[1])

    def play(self):
        """Rounds until all have ended; false where the log is full before that."""
        while True:
            self.journal.append("R")
            for at in range(len(self.clients)):
                self.client(at)
            ended = self.normal_turn()
            self.fast_turn(CYCLES)
            if ended:
                self.end_clients()
            if self.fast.ended and self.normal.ended and all(party.ended for party in self.clients):
                return True
            if self.fast.entries == self.script.cycles:
                return False

    def summary(self):
        mixed = dropped = queued = 0
        for party, track in zip(self.clients, self.normal.tracks):
            if not party.poked:
                mixed += track.taken
                dropped += track.dropped
                queued += party.stream.released - track.taken - track.dropped
        peak = max((max(abs(left_of(word)), abs(right_of(word))) for word in self.out), default=0)
        return f"cycles {self.fast.mixed} mixed {mixed} dropped {dropped} queued {queued} peak {peak}"

    def pcm(self):
        return struct.pack(f"<{len(self.out)}I", *self.out)

    def text(self):
        return "".join(line + "\n" for line in self.journal)


# ---------------------------------------------------------------- the generator

def generated(number):
    """The files and the script of `generate`."""
    files, state = {}, number
    for at in range(8):
        channels, data = 1 + at % 2, bytearray()
        for _ in range(100000 * channels):
            state = (state * 1103515245 + 12345) % (1 << 31)
            data += struct.pack("<h", state // 256 % 16384 - 8192)
        files[f"g{at}.pcm"] = bytes(data)
    turns = ", ".join(['"c %d"' % at for at in range(8)] + ['"n"', '"f 4"'])
    lines = ["version = 1", "frames = 64", "normal = 4", "cycles = 2000", f"turns = [{', '.join([turns] * 420)}]"]
    ops = ", ".join(['"open"', '"start"', '"gain 2048 2048"'] + ['"write 500"'] * 200 + ['"stop"', '"drain"', '"remove"'])
    for at in range(8):
        kind = "fast" if at < 4 else "normal"
        lines += ["", "[[track]]", f'kind = "{kind}"', "frames = 512", f"channels = {1 + at % 2}", f'file = "g{at}.pcm"', f"ops = [{ops}]"]
    return files, ("\n".join(lines) + "\n").encode()


# ---------------------------------------------------------------- words

USAGE = "usage: render SCRIPT OUT or play SCRIPT OUT JOURNAL or generate NUMBER SCRIPT OUT"


def write(name, data):
    with open(name, "wb") as file:
        file.write(data)


def work(words):
    """The exit status and the line of the words."""
    command, names = (words[0], words[1:]) if words else ("", [])
    usage = Refused(2, USAGE)
    if command == "generate" and len(names) == 3:
        if number_in(names[0], 0, 2147483647) is None or any(re.fullmatch(r"g[0-7]\.pcm", name) for name in names[1:]):
            raise usage
        names = names[1:]
        number = int(words[1])
    elif not (command == "render" and len(names) in (2, 3) or command == "play" and len(names) == 3):
        raise usage
    if any(not NAME.match(name) for name in names) or len(set(names)) != len(names):
        raise usage
    if command == "generate":
        files, text = generated(number)
        for name, data in [*files.items(), (names[0], text)]:
            write(name, data)
    script = Script(load(names[0], 1 << 20, "script"))
    session = Session(script, load_files(script))
    ended = session.play() if command == "play" else session.render() or True
    write(names[1], session.pcm())
    if len(names) == 3:
        write(names[2], session.text().encode())
    return (0, session.summary()) if ended else (6, f"limit: cycles {script.cycles}")


def main():
    try:
        status, line = work(sys.argv[1:])
    except Refused as refused:
        status, line = refused.status, refused.line
    sys.stdout.write(line + "\n")
    return status


if __name__ == "__main__":
    sys.exit(main())
