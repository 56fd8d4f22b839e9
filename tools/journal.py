"""Reads the text of a journal as docs/FORMATS.md states it, and tells what happened to each track, round by round.

    rounds = read(text)                 the rounds, or BadLine with the number of the first line that doesn't fit
    log = read_log(text, rounds)        the notes of a trace's log, each held against its entry, or BadLine
    story = Story(rounds, script, log)  rows by round and track; the script (a tree of TOML) and the log may be None

Python 3.11 or later, the standard library alone.
"""
import sys, tomllib

TRACKS = SLOTS = 32
U16, U32, U64 = 0xFFFF, 0xFFFFFFFF, (1 << 64) - 1
UNITY, UNITY_GAINS = 0x1000, 0x10001000
STATES = ("absent", "idle", "active", "pausing", "paused", "resuming", "stopping1", "stopping2", "stopped", "flushed")
ABSENT, IDLE, ACTIVE, PAUSING, PAUSED, RESUMING, STOPPING1, STOPPING2, STOPPED, FLUSHED = range(10)
DEAD = 15
OPEN, START, PAUSE, STOP, FLUSH, REMOVE = range(1, 7)
KINDS = ("mixed", "idle", "cold", "exit")
CALLS = {"p": 2, "u": 1, "d": 1, "x": 2, "k": 1, "l": 1, "g": 1, "s": 3, "su": 1, "sd": 1, "sx": 2, "t": 1, "o": 3}


class BadLine(Exception):
    """The first line that doesn't fit, counted from 1, and what is wrong with it."""

    def __init__(self, number, why):
        super().__init__(f"line {number}: {why}")


class Look:
    """What a look saw: `seen` is f, e, l or x with its numbers; `words` are those of the frames taken."""

    def __init__(self, flush, rear, seen, numbers):
        self.flush, self.rear, self.seen, self.numbers, self.words = flush, rear, seen, numbers, []

    def frames(self):
        return self.numbers[0] if self.seen == "f" else 0


class Round:
    def __init__(self):
        self.calls = {}          # track -> its calls, each a mark and its numbers
        self.turn = None         # the normal mixer's turn; "ended" where it answered so
        self.entries = []        # the fast mixer's entries


class Turn:
    def __init__(self, room, ack, cycle):
        self.room, self.ack, self.cycle = room, ack, cycle
        self.looks, self.statuses, self.disabled = {}, {}, set()
        self.push, self.mixes = None, []     # the answer of the push; (track, gains, look)


class Entry:
    def __init__(self, state, kind):
        self.state, self.kind, self.slots = state, kind, []   # (slot, scale, mono, gains, look)


# ---------------------------------------------------------------- the reader

class Lines:
    """The lines, one after the other."""

    def __init__(self, text):
        self.lines = text.split("\n")
        self.unended = self.lines.pop() != ""      # the last line has no LF
        if self.unended:
            self.lines.append(text.rsplit("\n", 1)[-1])
        self.at = 0

    def mark(self):
        """The mark of the next line; None behind the last."""
        return self.lines[self.at].split(" ")[0] if self.at < len(self.lines) else None

    def bad(self, why):
        return BadLine(self.at + 1, why)

    def next(self):
        """The words after the next line's mark. A last line without its LF is bad."""
        if self.at == len(self.lines):
            raise self.bad("a further line is due")
        if self.unended and self.at == len(self.lines) - 1:
            raise self.bad("no LF at its end")
        self.at += 1
        return self.lines[self.at - 1].split(" ")[1:]

    def numbers(self, *limits):
        """The numbers of the next line, each at most its limit."""
        words = self.next()
        if len(words) != len(limits):
            raise BadLine(self.at, f"{len(limits)} numbers are due")
        return [self.number(*of) for of in zip(words, limits)]

    def number(self, word, limit):
        if not word.isascii() or not word.isdigit() or word != str(int(word)) or int(word) > limit:
            raise BadLine(self.at, f"{word!r} is no number up to {limit}")
        return int(word)

    def look(self, *limits):
        """The numbers before the look and the look of the next line."""
        words = self.next()
        count, marks = len(limits), {"f": 1, "e": 0, "l": 1, "x": 2}
        if len(words) < count + 3 or words[count + 2] not in marks or len(words) != count + 3 + marks[words[count + 2]]:
            raise BadLine(self.at, "no such look")
        before = [self.number(*of) for of in zip(words, limits)]
        flush, rear = (self.number(word, U32) for word in words[count:count + 2])
        numbers = [self.number(word, U32) for word in words[count + 3:]]
        if words[count + 2] == "f" and numbers[0] == 0:
            raise BadLine(self.at, "a look shows at least one frame")
        return before, Look(flush, rear, words[count + 2], numbers)

    def frames(self, look):
        """The `h` line that is due after a look that took frames."""
        count = look.frames()
        if self.mark() != "h":
            raise self.bad("an h line is due")
        words = self.next()
        if len(words) != 1 or len(words[0]) != 8 * count or not set(words[0]) <= set("0123456789abcdef"):
            raise BadLine(self.at, f"{count} words of 8 lower-case hexadecimal digits are due")
        look.words = [int(words[0][at:at + 8], 16) for at in range(0, 8 * count, 8)]


def read(text):
    """The rounds of a journal's text."""
    lines, rounds = Lines(text), []
    while lines.mark() is not None:
        if lines.mark() != "R":
            raise lines.bad("no such line here")
        lines.numbers()
        rounds.append(read_round(lines))
    return rounds


def read_round(lines):
    one, last = Round(), -1
    while lines.mark() == "C":
        (track,) = lines.numbers(TRACKS - 1)
        if track <= last:
            raise BadLine(lines.at, "clients come in order")
        last, one.calls[track] = track, read_calls(lines)
    if lines.mark() == "E":
        lines.numbers()
        one.turn = "ended"
    elif lines.mark() == "N":
        one.turn = read_turn(lines)
    if lines.mark() == "F":
        lines.numbers()
        one.entries = read_entries(lines)
    return one


def read_calls(lines):
    calls = []
    while lines.mark() in CALLS:
        mark = lines.mark()
        limits = [1, U32, U32] if mark == "o" else [U32] * CALLS[mark]
        calls.append((mark, *lines.numbers(*limits)))
    if not calls:
        raise lines.bad("a call is due")
    return calls


def read_turn(lines):
    turn, last = Turn(*lines.numbers(U32, 1, U64)), (-1, 0)
    while lines.mark() in ("q", "b", "a"):
        mark = lines.mark()
        if mark == "q":
            (track,), look = lines.look(TRACKS - 1)
            turn.looks.setdefault(track, []).append(look)
        elif mark == "b":
            (track,) = lines.numbers(TRACKS - 1)
            turn.disabled.add(track)
        else:
            track, turn.statuses[track] = lines.numbers(TRACKS - 1, U32)
        place = (track, "qba".index(mark))
        if place < last or place == last and mark != "q":
            raise BadLine(lines.at, "tracks come in order, and the lines of each")
        last = place
        if mark == "q" and look.frames() == 2:
            lines.frames(look)
    turn.push = read_push(lines)
    last = -1
    while lines.mark() == "m":
        (track, gains), look = lines.look(TRACKS - 1, U32)
        if track <= last:
            raise BadLine(lines.at, "tracks come in order")
        last = track
        if look.seen == "f":
            lines.frames(look)
        turn.mixes.append((track, gains, look))
    return turn


def read_push(lines):
    if lines.mark() != "P":
        raise lines.bad("a P line is due")
    words = lines.next()
    limits = {"0": [0], "1": [1, U64], "2": [2, U32, U32]}.get(words[0] if words else "")
    if limits is None or len(words) != len(limits):
        raise BadLine(lines.at, "no such answer of a push")
    return [lines.number(*of) for of in zip(words, limits)]


def read_entries(lines):
    entries = []
    while lines.mark() == "y":
        entry, last = Entry(*lines.numbers(U64, 3)), -1
        if entry.kind == 0 and lines.mark() != "z":
            raise lines.bad("the z line of slot 0 is due")
        while entry.kind == 0 and lines.mark() == "z":
            (slot, scale, mono, gains), look = lines.look(SLOTS - 1, U16, 1, U32)
            if slot <= last or last == -1 and slot:
                raise BadLine(lines.at, "slots come in order, from 0 on")
            if slot == 0 and (scale, mono, gains, look.flush) != (UNITY, 0, UNITY_GAINS, 0) or slot == 0 and look.seen not in "fe":
                raise BadLine(lines.at, "slot 0 has unity, no mono mark, no flush, and shows frames or is empty")
            last = slot
            if look.seen == "f":
                lines.frames(look)
            entry.slots.append((slot, scale, mono, gains, look))
        entries.append(entry)
    if not entries:
        raise lines.bad("an entry is due")
    return entries


# ---------------------------------------------------------------- the log

class Log:
    """The notes of a trace: `accepted` and `refused` by round."""

    def __init__(self, rounds):
        self.accepted, self.refused = [0] * len(rounds), [0] * len(rounds)


def is_log(text):
    """Whether a text begins as a log does, and so not as a script."""
    first = text.split("\n")[0]
    return "=" not in first and (first[:1].isdigit() or first.startswith("refused "))


def read_log(text, rounds):
    """The log of a journal's rounds. Its places rise, each note is that of its entry, and no entry is left out of the count."""
    lines, log = Lines(text), Log(rounds)
    entries = [(at, entry) for at, one in enumerate(rounds) for entry in one.entries]
    missing = [True] * len(entries)
    last = -1
    while lines.mark() is not None and lines.mark() != "refused":
        place = read_note(lines, entries, last)
        last, missing[place] = place, False
        log.accepted[entries[place][0]] += 1
    if lines.mark() is None:
        raise lines.bad("the line of what was refused is due")
    (refused,) = lines.numbers(U64)
    if refused != sum(missing):
        raise BadLine(lines.at, f"{sum(missing)} entries have no note")
    if lines.mark() is not None:
        raise lines.bad("no line is due behind the refused")
    for (at, _), without in zip(entries, missing):
        log.refused[at] += without
    return log


def read_note(lines, entries, last):
    """The place of the next note."""
    words = [lines.mark(), *lines.next()]
    if len(words) != 6:
        raise BadLine(lines.at, "6 numbers are due")
    place, state, kind, fulls, partials, empties = (lines.number(*of) for of in zip(words, (U64, U64, 3, SLOTS, SLOTS, SLOTS)))
    if not last < place < len(entries):
        raise BadLine(lines.at, "places rise, and are those of entries")
    entry = entries[place][1]
    seen = [look.seen for _, _, _, _, look in entry.slots[1:]]
    if (state, kind, fulls + partials, empties) != (entry.state, entry.kind, seen.count("f"), seen.count("e")):
        raise BadLine(lines.at, f"no note of entry {place}")
    return place


# ---------------------------------------------------------------- the story of each track

class Row:
    """What one round did to one track. `queued` is None from the first poke on: the counts then are what looks showed."""

    def __init__(self):
        self.calls = self.written = self.mixed = self.dropped = self.missing = 0
        self.flushes = self.noticed = self.pokes = 0
        self.disabled = self.shut = self.full = False
        self.state, self.drained, self.settled, self.queued = ABSENT, False, 0, 0


class Kept:
    """What the story keeps of a track from round to round."""

    def __init__(self, slotted):
        self.slotted = slotted   # a fast slot is its, where one is free
        self.state, self.member, self.ended = ABSENT, False, False
        self.word = 0            # the last status stored
        self.place, self.slot = "home", None
        self.queued = 0
        self.poked = False


class Story:
    """The rows, by round and track: `rows[round][track]`. `pushed[round]` and `adopted[round]` number the states."""

    def __init__(self, rounds, script=None, log=None):
        self.rounds, self.script, self.log = rounds, script, log
        named = [track for one in rounds for track in one.calls] + [track for one in rounds if type(one.turn) is Turn for track in one.turn.looks]
        self.tracks = len(script["track"]) if script else max(named, default=-1) + 1
        buffered = {track for one in rounds if type(one.turn) is Turn for track, _, _ in one.turn.mixes}
        self.kept = [Kept(script["track"][at]["kind"] == "fast" if script else at not in buffered) for at in range(self.tracks)]
        self.sizes()
        self.states = [{}]       # slot -> track, for each pushed state
        self.strange = set()     # slots that no track is known to hold
        self.rows, self.pushed, self.adopted = [], [], []
        for one in rounds:
            self.rows.append([Row() for _ in range(self.tracks)])
            self.round(one, self.rows[-1])

    def sizes(self):
        """The frames of a cycle and of a normal buffer: by the script, or by the first room, which is four buffers."""
        shown = [look.frames() for one in self.rounds for entry in one.entries for *_, look in entry.slots]
        rooms = [one.turn.room for one in self.rounds if type(one.turn) is Turn]
        self.pipe = rooms[0] if rooms else 0
        most = max(shown, default=1)
        fitting = [self.pipe // 4 // times for times in range(16, 0, -1) if self.pipe // 4 % times == 0 and self.pipe // 4 // times >= most]
        self.cycle = self.script["frames"] if self.script else min(fitting, default=most)
        self.buffer = self.pipe // 4

    def round(self, one, rows):
        for track, calls in one.calls.items():
            self.client(self.kept[track], rows[track], calls)
        pushed = None
        if type(one.turn) is Turn:
            pushed = self.turn(one.turn, rows)
        for entry in one.entries:
            for slot, _, _, _, look in entry.slots[1:]:
                track = self.states[entry.state].get(slot) if entry.state < len(self.states) else None
                if track is None:
                    self.strange.add(slot)
                else:
                    self.looked(self.kept[track], rows[track], look, self.cycle)
        for kept, row in zip(self.kept, rows):
            row.state, row.drained, row.settled = kept.word % 16, bool(kept.word & 16), kept.word // 256
            row.queued = None if kept.poked else kept.queued
        self.pushed.append(pushed)
        self.adopted.append(one.entries[-1].state if one.entries else None)

    def client(self, kept, row, calls):
        for mark, *numbers in calls:
            row.calls += 1
            row.written += numbers[1] if mark == "p" else 0
            row.flushes += mark == "l"
            row.pokes += mark == "o"
            row.full |= mark == "u"
            kept.poked |= mark == "o"
        kept.queued += row.written

    def turn(self, turn, rows):
        """One turn of the normal mixer: the lives, the slots, and the state that it pushed."""
        if turn.ack:
            for kept in self.kept:
                if kept.place == "returning" and kept.slot not in self.states[-1]:
                    kept.place = "home"
        for track, (kept, row) in enumerate(zip(self.kept, rows)):
            if not kept.ended:
                self.visit(turn, track, kept, row)
        for track, kept in enumerate(self.kept):
            wanted = kept.member and not kept.ended
            if kept.place == "lent" and not wanted:
                kept.place = "returning"
            elif kept.place == "home" and kept.slot is not None and wanted:
                kept.place = "lent"
        for track, _, look in turn.mixes:
            self.looked(self.kept[track], rows[track], look, self.buffer)
        if turn.push[0] != 1:
            return None
        self.states.append({kept.slot: track for track, kept in enumerate(self.kept) if kept.place == "lent"})
        return turn.push[1]

    def visit(self, turn, track, kept, row):
        for look in turn.looks.get(track, []):
            if look.frames() == 2:
                self.command(kept, *look.words)
        kept.word = turn.statuses.get(track, kept.word)
        row.disabled = track in turn.disabled
        row.shut = track in turn.statuses and kept.word % 16 == DEAD
        state = kept.word % 16
        if row.shut:
            kept.ended, kept.member = True, False
        elif kept.ended or row.disabled or kept.state in (STOPPING2, IDLE, PAUSED, STOPPED, FLUSHED):
            kept.member = False
        kept.state = state

    def command(self, kept, code, argument):
        """The life after a command, as far as the state that the turn then stores doesn't tell it."""
        if kept.ended:
            return
        if code == OPEN and kept.state == ABSENT:
            kept.state = IDLE
            if kept.slotted:
                held = {other.slot for other in self.kept if not (other.ended and other.place == "home")}
                kept.slot = next((slot for slot in range(1, SLOTS) if slot not in held), None)
        elif code == START and kept.state != ABSENT:
            kept.state, kept.member = RESUMING if kept.state == PAUSED else ACTIVE, True
        elif code == PAUSE and kept.state in (ACTIVE, RESUMING):
            kept.state = PAUSING
        elif code == STOP and kept.state in (ACTIVE, RESUMING, PAUSING, PAUSED):
            kept.state = STOPPING1 if kept.member else STOPPED
        elif code == FLUSH and kept.state in (IDLE, PAUSING, PAUSED, STOPPING1, STOPPING2, STOPPED, FLUSHED):
            kept.state = FLUSHED
        elif code == REMOVE:
            kept.ended = True

    def looked(self, kept, row, look, ask):
        count = look.frames()
        row.mixed += count
        row.missing += ask - count if look.seen in "fe" else 0
        row.noticed += look.seen == "l"
        row.dropped += look.numbers[0] if look.seen == "l" else 0
        kept.queued -= count + (look.numbers[0] if look.seen == "l" else 0)


def opened(words, usage):
    """The story of the journal that the words name, with the log and the script that they may name; None with its reason told."""
    if not 1 <= len(words) <= 3 or words[0].startswith("-"):
        print(usage, file=sys.stderr)
        return None
    name = words[0]
    try:
        with open(name, encoding="ascii", newline="") as file:
            rounds = read(file.read())
        script = log = None
        for name in words[1:]:
            with open(name, encoding="utf-8", newline="") as file:
                text = file.read()
            if (log if is_log(text) else script) is not None:
                print(usage, file=sys.stderr)
                return None
            if is_log(text):
                log = read_log(text, rounds)
            else:
                script = tomllib.loads(text)
        name = words[0]
        story = Story(rounds, script, log)
    except BadLine as bad:
        print(f"{name}: {bad}", file=sys.stderr)
        return None
    except (OSError, UnicodeDecodeError, tomllib.TOMLDecodeError, IndexError) as fault:
        print(f"can't read: {fault}", file=sys.stderr)
        return None
    if story.strange:
        print(f"{words[0]}: no track is known to hold slot {min(story.strange)}: name the script too", file=sys.stderr)
    return story
