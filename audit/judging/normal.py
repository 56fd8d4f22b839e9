"""The normal mixer: what a turn makes of what it sees, and whether it is legal."""
from .text import SLOTS, TrackTurn

LOOKS = 64                     # the most looks at a command block in a turn
RETRIES = 50
OPEN, START, PAUSE, STOP, FLUSH, REMOVE = 1, 2, 3, 4, 5, 6
ABSENT, IDLING, ACTIVE, PAUSING, PAUSED, RESUMING, STOPPING1, STOPPING2, STOPPED, FLUSHED = range(10)
DEAD = 15
INVALID, DISABLED = 4, 8
FULL, PARTIAL, EMPTY = range(3)
NO_REPORT = (0, 0, 0, False, (0, 0, 0))  # generation, consumed count, flush count seen, shut, counts


def kind_of_look(asked, look):
    """Which count a look raises: full, partial, empty or none."""
    if look.seen[0] == "e":
        return EMPTY
    if look.seen[0] != "f":
        return None
    return FULL if look.count() == asked else PARTIAL


def raised(counts, kind):
    """The counts with one look more."""
    return tuple(count + (at == kind) for at, count in enumerate(counts))


class Life:
    """The life of a track."""

    def __init__(self):
        self.state, self.retries, self.stop_at = ABSENT, RETRIES, 0
        self.member = self.ended = self.drained = False

    def plays(self):
        """It is to be heard."""
        return self.member and not self.ended

    def command(self, code, argument):
        """The life after a command."""
        state = self.state
        if self.ended:
            return
        if code == OPEN and state == ABSENT:
            self.state = IDLING
        elif code == START and state != ABSENT:
            self.state = RESUMING if state == PAUSED else ACTIVE
            self.member, self.retries, self.drained = True, RETRIES, False
        elif code == PAUSE and state in (ACTIVE, RESUMING):
            self.state = PAUSING
        elif code == STOP and state in (ACTIVE, RESUMING, PAUSING, PAUSED):
            if self.member:
                self.stop_at = argument
            self.state = STOPPING1 if self.member else STOPPED
        elif code == FLUSH and state in (IDLING, PAUSING, PAUSED, STOPPING1, STOPPING2, STOPPED, FLUSHED):
            self.state = FLUSHED
        elif code == REMOVE:
            self.ended = True

    def report(self, consumed, counts, shut):
        """The life after a report; answers whether the track becomes DISABLED."""
        if shut or self.ended:
            self.ended, self.member = True, False
        elif self.state == STOPPING1:
            if consumed >= self.stop_at:
                self.state, self.drained = STOPPING2, True
        elif self.state == STOPPING2:
            self.state, self.member = STOPPED, False
        elif self.state == PAUSING:
            self.state = PAUSED
        elif self.state == RESUMING:
            self.state = ACTIVE
        elif self.state == ACTIVE:
            return self.member and self.starves(counts)
        elif self.state in (IDLING, PAUSED, STOPPED, FLUSHED):
            self.member = False
        return False

    def starves(self, counts):
        """An active member that was found empty too often leaves the mix."""
        if counts[FULL] or counts[PARTIAL]:
            self.retries = RETRIES
        if counts[EMPTY]:
            self.retries = max(0, self.retries - 1)
            self.member = self.retries > 0
        return not self.member


class State:
    """A state that is pushed. Each slot of the mask has its generation and its track."""

    def __init__(self, slots, command, cold):
        self.slots, self.command, self.cold = slots, command, cold


NO_STATE = State({}, "none", 0)


class Track:
    """What the normal mixer keeps of a track."""

    def __init__(self, spec, stream, command):
        self.spec, self.stream, self.command = spec, stream, command
        self.life, self.place = Life(), "home"       # or lent, or returning
        self.slot, self.generation = None, 0
        self.at_attach = None    # the proxy's progress then
        self.reported = (0, 0, 0)  # the counts of this attachment that were heard of
        self.own = (0, 0, 0)     # the mixer's own looks since the last turn
        self.awaits = None       # the flush count that a START awaits
        self.settled = self.status = 0

    def heard(self, report):
        """The progress and the new counts that a turn hears of."""
        if self.place == "home":
            counts, self.own = self.own, (0, 0, 0)
            return (*self.stream.server.progress(self.stream.shape), counts)
        generation, consumed, flush_seen, shut, counts = report.get(self.slot, NO_REPORT)
        if generation != self.generation:
            return (*self.at_attach, (0, 0, 0))
        grown = tuple(max(0, now - before) for now, before in zip(counts, self.reported))
        self.reported = counts
        return consumed, flush_seen, shut, grown


class Normal:
    """The normal mixer."""

    def __init__(self, tracks, frames, normal):
        self.tracks, self.asked = tracks, frames * normal
        self.pipe_size = 4 * self.asked
        self.slots, self.generations = {}, [0] * SLOTS   # of the draft
        self.command, self.cold, self.dirty = "cold idle", 0, False
        self.pushed = []
        self.ended = self.handed = False

    def last(self):
        """The state pushed last."""
        return self.pushed[-1] if self.pushed else NO_STATE

    def draft(self):
        """The state that it would push now."""
        return State(dict(self.slots), self.command, self.cold)

    def turn(self, turn, report):
        """Tells a turn that loaded a report, and answers whether it is legal."""
        self.handed = True
        exits = self.last().command == "exit" and turn.ack
        if turn.ended:
            self.ended = True
            return exits
        right = not exits and (turn.ack or bool(self.pushed)) and turn.room <= self.pipe_size
        if turn.ack:
            self.welcome()
        for at in range(len(self.tracks)):
            right &= self.serve(at, turn.tracks.get(at, TrackTurn()), report)
        self.edit(turn.room)
        right &= self.push(turn.push)
        right &= self.play(turn)
        return right

    def welcome(self):
        """Each returning proxy that the last state doesn't carry comes home."""
        for track in self.tracks:
            if track.place == "returning" and track.slot not in self.last().slots:
                track.place = "home"

    # ---------------------------------------------------------------- a track

    def serve(self, at, seen, report):
        """Tells what a turn did for a track, and answers whether that is due."""
        track = self.tracks[at]
        fits = all([track.command.looked(2, look) for look in seen.looks])
        if seen.disabled:
            track.stream.hand.append(("set", DISABLED))
        if track.life.ended:
            due = not seen.looks and not seen.disabled and seen.status is None
        else:
            due = self.serve_living(track, seen, report)
        if seen.status is not None:
            track.command.served.append(("status", seen.status))
        return fits and due

    def serve_living(self, track, seen, report):
        """The life of a track in a turn; answers whether looks, mark and status are those due."""
        consumed, flush_seen, shut, counts = track.heard(report)
        if track.awaits is not None and flush_seen >= track.awaits:
            track.awaits = None
            track.settled += 1
        right = not seen.looks if track.awaits is not None else self.obey(track, seen.looks, flush_seen)
        right &= track.life.report(consumed, counts, shut) == seen.disabled
        if shut or any(look.seen[0] == "x" for look in seen.looks):
            track.command.served.append(("set", INVALID))
            if track.place == "home":
                track.stream.served.append(("set", INVALID))
            shut = True
        word = (DEAD if shut else track.life.state) + 16 * track.life.drained + 256 * (track.settled % 2 ** 24)
        right &= seen.status == (None if word == track.status else word)
        track.status = word
        return right

    def obey(self, track, looks, flush_seen):
        """The looks at a command block, up to one that ends them; answers whether they are as many as due."""
        for made, look in enumerate(looks):
            if look.count() != 2:
                if look.seen[0] == "x":
                    track.life.ended, track.life.member = True, False
                return made == len(looks) - 1 < LOOKS
            self.command_taken(track, *look.words, flush_seen)
            if track.awaits is not None:
                return made == len(looks) - 1 < LOOKS
        return len(looks) == LOOKS

    def command_taken(self, track, code, argument, flush_seen):
        """A command: an OPEN may get a slot, and a START may have to wait to be settled."""
        life = track.life
        if code == OPEN and life.state == ABSENT and not life.ended and track.spec.fast:
            track.slot = self.free_slot()
        waits = code == START and life.state != ABSENT and not life.ended and argument > flush_seen
        life.command(code, argument)
        if waits:
            track.awaits = argument
        else:
            track.settled += 1

    def free_slot(self):
        """The lowest slot that no track has; None where there is none."""
        held = {track.slot for track in self.tracks if not (track.life.ended and track.place == "home")}
        return next((slot for slot in range(1, SLOTS) if slot not in held), None)

    # ---------------------------------------------------------------- the draft

    def edit(self, room):
        """All edits of a turn that saw so much room in the pipe."""
        for at, track in enumerate(self.tracks):
            if track.place == "lent" and not track.life.plays():
                del self.slots[track.slot]
                track.place, self.dirty = "returning", True
            elif track.place == "home" and track.slot is not None and track.life.plays():
                self.attach(at, track)
        command = self.next_command(room == self.pipe_size)
        if command != self.command:
            self.cold += command == "cold idle"
            self.command, self.dirty = command, True

    def attach(self, at, track):
        """The track is lent to the fast mixer, in its slot."""
        self.generations[track.slot] += 1
        track.generation = self.generations[track.slot]
        self.slots[track.slot] = (track.generation, at)
        track.at_attach, track.reported = track.stream.server.progress(track.stream.shape), (0, 0, 0)
        track.place, self.dirty = "lent", True

    def next_command(self, is_empty):
        """The command of the draft, where the pipe is empty or not."""
        if self.command == "exit" or is_empty and all(track.life.ended and track.place == "home" for track in self.tracks):
            return "exit"
        if not is_empty or any(track.life.plays() for track in self.tracks):
            return "mix"
        return "cold idle"

    def push(self, push):
        """Tells a push, and answers whether it answered as it may."""
        number = len(self.pushed)
        if push[0] == 0:
            return not self.dirty
        if push[0] == 2:
            return self.dirty and number > 0 and push[1:] == (word_of(number - 1), word_of(number))
        right = self.dirty and push[1] == number + 1
        self.pushed.append(self.draft())
        self.dirty = False
        return right

    # ---------------------------------------------------------------- the buffer

    def play(self, turn):
        """Tells the looks for a buffer, and answers whether they are right and those due."""
        due = [at for at, track in enumerate(self.tracks) if track.slot is None and track.life.plays()]
        right = [take.number for take in turn.takes] == (due if turn.room >= self.asked else [])
        for take in turn.takes:
            track = self.tracks[take.number]
            right &= track.stream.played(self.asked, take)
            track.own = raised(track.own, kind_of_look(self.asked, take.look))
        return right


def word_of(number):
    """The word that names a state: 0 for none."""
    return (number - 1) % 4 + 1 if number else 0
