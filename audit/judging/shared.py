"""The queue, the report and the pipe between the two mixers, as a journal tells them; each is judged round by round, since its ends meet in every round."""
from .blocks import wrapped


def some_order(start, first, second, first_step, second_step):
    """Whether some order of two lists is legal, each step of which gives what it leaves, or None."""
    stages = {(0, 0, start)}
    for _ in range(len(first) + len(second)):
        found = set()
        for ones, twos, point in stages:
            if ones < len(first):
                found.add((ones + 1, twos, first_step(point, first[ones])))
            if twos < len(second):
                found.add((ones, twos + 1, second_step(point, second[twos])))
        stages = {stage for stage in found if stage[2] is not None}
    return bool(stages)


class Queue:
    """The state queue. A point is the number pushed last, the one acknowledged last, and the one that the observer saw last."""

    def __init__(self):
        self.pushed = self.current = 0
        self.begin()

    def begin(self):
        """A round begins."""
        self.start = (self.pushed, self.current, self.current)
        self.mutator, self.observer = [], []

    def turned(self, turn, word_of):
        """The mutator in a turn: a look at the acknowledgement, and a push."""
        last = self.pushed
        self.mutator.append(("saw", last if turn.ack else last - 1))
        if turn.push[0] == 2:
            seen = turn.push[1]
            self.mutator.append(("saw", last if seen == word_of(last) else last - 1 if seen == word_of(last - 1) else last + 1))
        elif turn.push[0] == 1:
            self.mutator += [("saw", last)] if last else []
            self.mutator.append(("push", last + 1))
            self.pushed += 1

    def polled(self, number):
        """The observer in a cycle: it finds a state, and acknowledges one that is new."""
        self.observer.append(("found", number))
        if number != self.current:
            self.observer.append(("acknowledge", number))
        if number <= self.pushed:
            self.current = number

    @staticmethod
    def mutator_step(point, event):
        """The point after an event of the mutator."""
        pushed, acknowledged, found = point
        kind, number = event
        if kind == "saw":
            return point if number == acknowledged else None
        return (number, acknowledged, found) if number - 1 == pushed == acknowledged else None

    @staticmethod
    def observer_step(point, event):
        """The point after an event of the observer."""
        pushed, acknowledged, found = point
        kind, number = event
        if kind == "found":
            return (pushed, acknowledged, number) if number == pushed else None
        return (pushed, number, found) if number == found else None

    def meet(self):
        """The ends meet; answers whether they have a history."""
        return some_order(self.start, self.mutator, self.observer, self.mutator_step, self.observer_step)


class Pipe:
    """The pipe between the mixers. A point is how many frames were put, how many taken, and how many the rear seen last tells of."""

    def __init__(self, size):
        self.size, self.cells = size, 1 << (size - 1).bit_length()
        self.words = []          # the frames put
        self.consumed = 0        # the frames taken
        self.begin()

    def begin(self):
        """A round begins."""
        self.start = (len(self.words), self.consumed, len(self.words))
        self.puts, self.takes, self.taken = [], [], []

    def room(self, room):
        """The end that puts sees the room."""
        self.puts.append(("room", room))

    def put(self, words):
        """Frames are put, by two releases where they pass the last cell."""
        first = min(len(words), self.cells - len(self.words) % self.cells)
        self.puts += [("put", count) for count in (first, len(words) - first) if count]
        self.words += words

    def looked(self, asked, look):
        """A look of the end that takes, with its take; answers whether it shows what the rear seen shows."""
        count = look.count()
        self.takes += [("rear", look.rear), ("take", count)]
        self.taken.append((self.consumed, look.words))
        right = count == min(asked, wrapped(look.rear - self.consumed))
        self.consumed += count
        return right

    def put_step(self, point, event):
        """The point after an event of the end that puts."""
        put, taken, seen = point
        kind, number = event
        if kind == "room":
            return point if number == self.size - (put - taken) else None
        return (put + number, taken, seen)

    @staticmethod
    def take_step(point, event):
        """The point after an event of the end that takes."""
        put, taken, seen = point
        kind, number = event
        if kind == "rear":
            return (put, taken, put) if number == wrapped(put) else None
        return (put, taken + number, seen) if taken + number <= seen else None

    def meet(self):
        """The ends meet; answers whether they have a history, by which the frames taken are those put."""
        fits = all(self.words[at:at + len(words)] == list(words) for at, words in self.taken)
        return fits and some_order(self.start, self.puts, self.takes, self.put_step, self.take_step)
