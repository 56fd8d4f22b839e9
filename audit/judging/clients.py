"""A client: which calls its ops want, and what the answers make of it."""

CALLS = 64                     # the most calls of a turn
OPEN, START, PAUSE, STOP, FLUSH, REMOVE = 1, 2, 3, 4, 5, 6
DEAD, STOPPED = 15, 8          # codes of states in a status
DISABLED = 8
# what a command makes of the client's mode
MODES = {START: "active", PAUSE: "paused", STOP: "stopped", FLUSH: "idle"}
# the marks of the answers of a send and of a write, as the marks of a write
SENDS = {"s": "p", "su": "u", "sd": "d", "sx": "x"}
WRITES = {"p": "p", "u": "u", "d": "d", "x": "x"}


def wants_of(mode, op):
    """What an op wants in a mode, in this order."""
    name, *numbers = op
    if name == "open":
        return [("command", OPEN)]
    if name == "start":
        return [] if mode == "active" else [("command", START), ("settled",)]
    if name == "pause":
        return [("command", PAUSE)] if mode == "active" else []
    if name == "stop":
        return [("command", STOP)] if mode in ("active", "paused") else []
    if name == "flush":
        return [] if mode == "active" else [("flush",), ("command", FLUSH)]
    if name == "drain":
        return [("drained",)] if mode == "stopped" else []
    if name == "gain":
        return [("gain", numbers[0] + 65536 * numbers[1])]
    if name == "remove":
        return [("command", REMOVE)]
    return [(name, *numbers)]  # a write, a poke or a yield


class Client:
    """A client with its file, its two blocks and what it still wants."""

    def __init__(self, ops, file, stream, command):
        self.ops, self.file, self.stream, self.command = ops, file, stream, command
        self.at = 0              # the op that comes next
        self.due = []            # what is wanted of the op in work
        self.mode, self.sent = "idle", 0
        self.waiting = self.ended = False

    def turn(self, calls):
        """Tells the calls of a turn, and answers whether they are legal."""
        for made, call in enumerate(calls):
            want = self.want()
            if want is None or made == CALLS or not self.fits(want, call):
                return False
            self.tell(call)
            self.answer(want, call)
        if len(calls) < CALLS and self.want() is not None:
            return False
        self.rest(len(calls))
        return True

    def begin(self):
        """Begins the next op that wants something, where nothing is left of the one in work."""
        while not self.due and self.at < len(self.ops):
            self.due = wants_of(self.mode, self.ops[self.at])
            self.at += 1

    def want(self):
        """What is wanted next; None where the turn ends."""
        if self.waiting or self.ended:
            return None
        self.begin()
        return self.due[0] if self.due and self.due[0] != ("yield",) else None

    def rest(self, made):
        """The end of a turn of so many calls: one that ended for a yield is done with it."""
        if not self.waiting and not self.ended and made < CALLS and self.due:
            self.due.pop(0)
        self.waiting = False

    # ---------------------------------------------------------------- the calls

    def argument(self, code):
        """The argument of a command."""
        return self.stream.flushes if code == START else self.stream.released() if code == STOP else 0

    def fits(self, want, call):
        """The call is the one that is wanted, and answers by the words that it saw."""
        kind, mark, numbers = want[0], call[0], call[1:]
        if kind in ("command", "leave"):
            code = REMOVE if kind == "leave" else want[1]
            if mark not in SENDS or mark == "s" and numbers[1:] != (code, self.argument(code)):
                return False
            return self.command.room_fits(SENDS[mark], numbers, 2)
        if kind == "write":
            return mark in WRITES and self.stream.room_fits(mark, numbers, 0) and (mark != "p" or numbers[1] == min(want[1], self.stream.room(numbers[0])))
        if kind in ("settled", "drained"):
            return mark == "t"
        if kind == "clear":
            return mark == "k"
        if kind == "flush":
            return call == ("l", self.stream.flushes + 1)
        return call == ({"gain": "g", "poke": "o"}[kind], *want[1:])

    def tell(self, call):
        """Tells what a call did on its block."""
        mark, numbers = call[0], call[1:]
        if mark in WRITES:
            self.stream.saw_room(mark, numbers)
        if mark in SENDS:
            self.command.saw_room(SENDS[mark], numbers)
        if mark == "p":
            at = self.stream.released()
            self.stream.release(self.file[at:at + numbers[1]])
        elif mark == "s":
            self.command.release(list(numbers[1:]))
        elif mark == "k":
            self.stream.client.append(("cleared", numbers[0]))
        elif mark == "l":
            self.stream.flushes += 1
            self.stream.client.append(("flush", None))
        elif mark == "g":
            self.stream.client.append(("gain", numbers[0]))
        elif mark == "t":
            self.command.client.append(("status", numbers[0]))
        elif mark == "o":
            (self.command if numbers[0] else self.stream).poke()

    # ---------------------------------------------------------------- what an answer makes of the client

    def answer(self, want, call):
        """The client after the answer to what it wanted first."""
        kind = want[0]
        if kind == "command":
            self.after_send(want[1], call[0])
        elif kind == "leave":
            self.ended = True
        elif kind == "write":
            self.after_write(want[1], call)
        elif kind in ("settled", "drained"):
            self.after_status(kind, call[1])
        else:
            self.due.pop(0)
            if kind == "clear" and call[1] & DISABLED:
                self.due.insert(0, ("command", START))

    def after_send(self, code, mark):
        """A command was sent, or the client waits, or it has ended."""
        if mark == "su":
            self.waiting = True
        elif mark != "s":
            self.ended = True
        else:
            self.due.pop(0)
            self.sent += 1
            self.mode = MODES.get(code, self.mode)
            self.ended = code == REMOVE

    def after_write(self, asked, call):
        """Frames were put, or the client waits, or only a last REMOVE is left to send."""
        if call[0] == "u":
            self.waiting = True
        elif call[0] != "p":
            self.due, self.at = [("leave",)], len(self.ops)
        else:
            left = asked - call[2]
            self.due[:1] = ([("clear",)] if self.mode == "active" else []) + ([("write", left)] if left else [])

    def after_status(self, kind, word):
        """A status is there, or the client waits for it, or it has ended."""
        if word % 16 == DEAD:
            self.ended = True
        elif word // 256 >= self.sent and (kind == "settled" or word % 16 == STOPPED):
            self.due.pop(0)
        else:
            self.waiting = True
