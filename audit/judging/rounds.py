"""A run of rounds: which parties are at fault in each, who has ended, and what the run sounds."""
import struct

from .blocks import Block, shape_of
from .clients import Client
from .fast import CYCLES, Fast
from .normal import Normal, Track, word_of
from .shared import Pipe, Queue
from .text import MIXED

UNITY = 0x1000


def sample(half):
    """A sample of 16 bits, as a signed number."""
    return half - 65536 if half & 32768 else half


def clamped(total):
    """A sum of products, shifted and clamped to a sample, as 16 bits."""
    return max(-32768, min(32767, total >> 12)) & 0xFFFF


def mixed(takes, length):
    """The packed frames of a mix. A take is its words, its mono mark, its gains and its scale."""
    left, right = [0] * length, [0] * length
    for words, mono, gains, scale in takes:
        left_gain, right_gain = (min(half, UNITY) * scale // 4096 for half in (gains & 0xFFFF, gains >> 16))
        for at, word in enumerate(words[:length]):
            one = sample(word & 0xFFFF)
            left[at] += one * left_gain
            right[at] += (one if mono else sample(word >> 16)) * right_gain
    return [clamped(one) | clamped(two) << 16 for one, two in zip(left, right)]


def poked_blocks(rounds):
    """The blocks that are poked in a journal, each by its track and its number."""
    return {(track, call[1]) for told in rounds for track, calls in told.calls.items() for call in calls if call[0] == "o"}


class Run:
    """What all parties kept after the rounds told so far."""

    def __init__(self, script, files, rounds):
        self.script, poked = script, poked_blocks(rounds)
        self.lawful = [(at, 0) not in poked and (at, 1) not in poked for at in range(len(script.tracks))]
        self.clients, tracks = [], []
        for at, (spec, file) in enumerate(zip(script.tracks, files)):
            stream = Block(shape_of(spec.frames, spec.base, script.version == 2), (at, 0) not in poked)
            command = Block(shape_of(128), (at, 1) not in poked)
            self.clients.append(Client(spec.ops, file, stream, command))
            tracks.append(Track(spec, stream, command))
        self.normal = Normal(tracks, script.frames, script.normal)
        self.pipe, self.queue = Pipe(self.normal.pipe_size), Queue()
        self.fast = Fast(self.normal, script.frames, self.pipe)
        self.sound, self.cycles = [], 0      # the frames mixed, and the cycles that mixed them
        self.taken = [0] * len(tracks)

    # ---------------------------------------------------------------- the ends

    def parties_left(self):
        """The parties that haven't ended, in order."""
        ended = [client.ended for client in self.clients] + [self.normal.ended, self.fast.ended]
        return [party for party, has_ended in enumerate(ended) if not has_ended]

    def is_full(self):
        """The log has all its entries."""
        return self.fast.entries == self.script.cycles

    # ---------------------------------------------------------------- a round

    def round(self, told):
        """Tells a round. Answers the parties at fault, and whether the fast turn is right only if it may end since the log is full."""
        count = len(self.clients)
        faults = set() if self.parties_left() else {0}
        faults |= {at for at, client in enumerate(self.clients) if not client.turn(told.calls.get(at, []))}
        was_full = self.fast.entries >= self.script.cycles
        fast_ended = self.fast.ended
        for part in (self.fast, self.queue, self.pipe):
            part.begin()
        right = self.turns(told)
        if not (right[0] and self.shared_histories(told)):
            faults.add(count)
        length = fast_turn_length(told.entries) if not fast_ended else "right" if not told.entries else "wrong"
        if not right[1] or was_full or length == "wrong" or self.fast.entries > self.script.cycles or length == "short" and not self.is_full():
            faults.add(count + 1)
        faults |= self.meetings()
        if self.normal.ended:
            for client in self.clients:
                client.ended = True
        return faults, length == "short"

    def turns(self, told):
        """Tells the turns of the mixers, and answers whether that of each is legal, but for its length."""
        entries, known = told.entries, len(self.normal.pushed)
        early = next((at for at, entry in enumerate(entries) if entry.state > known), len(entries))
        fast = all([self.cycle(entry) for entry in entries[:early]])
        normal = self.normal_turn(told.turn, entries[early:])
        fast &= all([self.cycle(entry) for entry in entries[early:]])
        return normal, fast

    def cycle(self, entry):
        """Tells a cycle."""
        self.queue.polled(entry.state)
        right = self.fast.entry(entry)
        if entry.kind == MIXED:
            takes = [(take.look.words, take.mono, take.gains, take.scale) for take in entry.slots.values() if take.look.words]
            self.sound += mixed(takes, self.script.frames)
            self.cycles += 1
            slots = self.fast.state(entry.state).slots
            for slot, take in entry.slots.items():
                if slot in slots:
                    self.taken[slots[slot][1]] += len(take.look.words)
        return right

    def normal_turn(self, turn, later):
        """Tells the turn of the normal mixer, before these entries of its round."""
        if turn is None or self.normal.ended:
            return turn is None and self.normal.ended
        self.queue.turned(turn, word_of)
        right = self.normal.turn(turn, self.fast.report_of(turn.cycle, later))
        if turn.ended:
            return right
        self.pipe.room(turn.room)
        takes = []
        for take in turn.takes:
            spec = self.script.tracks[take.number]
            takes.append((take.look.words, spec.mono, take.gains, spec.scale))
            self.taken[take.number] += len(take.look.words)
        self.pipe.put(mixed(takes, self.normal.asked) if takes else [])
        return right

    def shared_histories(self, told):
        """The queue, the report and the pipe have histories."""
        first = self.fast.entries - len(told.entries)
        report = told.turn is None or told.turn.ended or first <= told.turn.cycle <= min(self.fast.entries, first + CYCLES)
        return self.queue.meet() and self.pipe.meet() and report

    def meetings(self):
        """The clients meet the mixers; answers the clients whose blocks have no history."""
        faults = set()
        for at, track in enumerate(self.normal.tracks):
            there = track.place == "home" or self.fast.holds(at)
            if not all([track.stream.meet(there, self.normal.handed), track.command.meet(True, False)]):
                faults.add(at)
        return faults

    # ---------------------------------------------------------------- what it sounds

    def pcm(self):
        """The bytes of the run."""
        return struct.pack(f"<{len(self.sound)}I", *self.sound)

    def summary(self):
        """The line that the player prints of it."""
        totals = [0, 0, 0]
        for client, taken, lawful in zip(self.clients, self.taken, self.lawful):
            consumed = client.stream.server.consumed
            if lawful:
                totals = [total + more for total, more in zip(totals, (taken, consumed - taken, client.stream.released() - consumed))]
        peak = max((abs(sample(half)) for word in self.sound for half in (word & 0xFFFF, word >> 16)), default=0)
        return "cycles {} mixed {} dropped {} queued {} peak {}".format(self.cycles, *totals, peak)


def fast_turn_length(entries):
    """Whether a fast turn ends where it may: it is right, or wrong, or short, which it may be only where the log is full."""
    if not 1 <= len(entries) <= CYCLES or any(entry.kind != MIXED for entry in entries[:-1]):
        return "wrong"
    return "right" if len(entries) == CYCLES or entries[-1].kind != MIXED else "short"
