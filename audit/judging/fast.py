"""The fast mixer: what a cycle makes of what it sees, whether it is legal, and what its reports tell."""
from .normal import NO_REPORT, NO_STATE, kind_of_look, raised
from .text import COLD, EXIT, IDLE, MIXED

CYCLES = 16                    # the most cycles of a turn


class Fast:
    """The fast mixer, over the tracks and the states of the normal mixer."""

    def __init__(self, normal, frames, pipe):
        self.normal, self.frames, self.pipe = normal, frames, pipe
        self.current = self.used = 0  # the number of the state adopted last, and that of the last entry
        self.cold = 0            # the cold generation performed last
        self.entries = 0
        self.ended = False
        self.report = {}         # the last report: slot -> generation, consumed count, flush count seen, shut, counts
        self.reports = []        # those of this round

    def state(self, number):
        """The state of a number: number 0 counts as the one adopted last, and one that isn't pushed yet as the draft."""
        pushed = self.normal.pushed
        if number > len(pushed):
            return self.normal.draft()
        number = number or self.current
        return pushed[number - 1] if number else NO_STATE

    def holds(self, track):
        """It has the stream proxy of a track."""
        return any(of == track for _, of in self.state(self.current).slots.values())

    def entry(self, entry):
        """Tells an entry, and answers whether it is legal."""
        known = entry.state <= len(self.normal.pushed)
        right = known and entry.state in (self.used, self.used + 1)
        if known:
            self.current = entry.state
        self.used = entry.state
        state = self.state(entry.state)
        right &= entry.kind == self.due_kind(state)
        if entry.kind == COLD:
            self.cold = state.cold
        if entry.kind == MIXED:
            right &= self.mix(entry, state)
        self.ended |= entry.kind == EXIT
        self.entries += 1
        self.report = reported(self.report, entry, shown_slots(state, entry, known), self.frames, self.server)
        self.reports.append(self.report)
        return right

    def due_kind(self, state):
        """The kind of an entry by a state."""
        if state.command == "exit":
            return EXIT
        if state.command == "mix":
            return MIXED
        return COLD if state.cold not in (0, self.cold) else IDLE

    def server(self, track):
        """The server of a track's stream block, with the block's shape."""
        stream = self.normal.tracks[track].stream
        return stream.server, stream.shape

    def mix(self, entry, state):
        """Tells the slots of a mix, and answers whether they are those of the state and right."""
        right = set(entry.slots) == {0, *state.slots}
        for slot, take in entry.slots.items():
            if slot == 0:
                right &= self.pipe.looked(self.frames, take.look)
            elif slot in state.slots:
                track = self.normal.tracks[state.slots[slot][1]]
                right &= (take.scale, take.mono) == (track.spec.scale, track.spec.mono)
                right &= track.stream.played(self.frames, take)
        return right

    def report_of(self, cycle, later):
        """The report that a turn loaded, where these entries are still to come in its round. None comes behind the first 16."""
        before = self.entries - len(self.reports)
        cycle = min(cycle, before + CYCLES)
        if cycle <= before:
            return self.before
        if cycle <= self.entries:
            return self.reports[cycle - before - 1]
        return self.report_ahead(later[:cycle - self.entries])

    def report_ahead(self, entries):
        """The report after further entries. One of a state that isn't pushed yet counts by the slots of the draft that it shows."""
        report, servers = self.report, {}

        def server(track):
            """A copy of a track's server, that these entries may change."""
            if track not in servers:
                found, shape = self.server(track)
                servers[track] = found.copy(), shape
            return servers[track]
        for entry in entries:
            state = self.state(entry.state)
            slots = shown_slots(state, entry, entry.state <= len(self.normal.pushed))
            for slot, (_, track) in slots.items():
                if slot in entry.slots:
                    server(track)[0].note(entry.slots[slot].look)
            report = reported(report, entry, slots, self.frames, server)
        return report

    def begin(self):
        """A round begins."""
        self.before, self.reports = self.report, []


def shown_slots(state, entry, known):
    """The slots that a report tells of after an entry: those of its state, or, where that isn't known, those that it shows."""
    return {slot: of for slot, of in state.slots.items() if known or slot in entry.slots}


def reported(report, entry, slots, frames, server):
    """The report after an entry. A slot that isn't told of keeps what it had."""
    after = dict(report)
    for slot, (generation, track) in slots.items():
        found, shape = server(track)
        before = report.get(slot, NO_REPORT)
        counts = before[4] if before[0] == generation else (0, 0, 0)
        if slot in entry.slots:
            counts = raised(counts, kind_of_look(frames, entry.slots[slot].look))
        after[slot] = (generation, *found.progress(shape), counts)
    return after
