"""Sounds for the examples, by whole numbers alone, so that each machine makes the same bytes. 48000 frames a second."""
import array, sys

RATE = 48000
WAVE = [32767 * 16 * p * (2048 - p) // (20971520 - 4 * p * (2048 - p)) for p in range(2048)]
WAVE += [-sample for sample in WAVE]          # a sine, near enough, in 4096 steps
NOTES = {"A2": 11000, "C3": 13081, "D3": 14683, "E3": 16481, "F2": 8731, "F3": 17461, "G2": 9800, "G3": 19600, "A3": 22000, "B3": 24694, "C4": 26163,
         "D4": 29366, "E4": 32963, "F4": 34923, "G4": 39200, "A4": 44000, "B4": 49388, "C5": 52325, "D5": 58733, "E5": 65926, "G5": 78399, "A5": 88000, "E6": 131851}


def tone(note, frames, level, fall=0, overtones=((1, 4), (2, 1))):
    """A note of so many frames: its level falls by fall / 65536 a millisecond, and its overtones have their shares in quarters."""
    centihertz = NOTES.get(note, note)
    steps = [(centihertz * times * (1 << 32) // (100 * RATE), share) for times, share in overtones]
    out, envelope = [], level << 16
    for at in range(frames):
        if at % 48 == 0 and at:
            envelope -= (envelope >> 16) * fall
        total = sum(WAVE[(at * step & 0xFFFFFFFF) >> 20] * share for step, share in steps)
        near = min(at, frames - 1 - at, 480)    # ten milliseconds at each end without a click
        out.append((total * (envelope >> 16) >> 17) * near // 480)
    return out


def noise(frames, level, fall, seed=1):
    out, envelope = [], level << 16
    for at in range(frames):
        if at % 48 == 0 and at:
            envelope -= (envelope >> 16) * fall
        seed = (seed * 1103515245 + 12345) % (1 << 31)
        out.append(((seed >> 8) % 65536 - 32768) * (envelope >> 16) >> 15)
    return out


def silence(frames):
    return [0] * frames


def add(*parts):
    """The sum of parts, as long as the longest."""
    out = [0] * max(map(len, parts))
    for part in parts:
        for at, sample in enumerate(part):
            out[at] += sample
    return out


def write(name, *sides):
    """A file of one side or of two."""
    frames = zip(*sides)
    data = array.array("h", [max(-32768, min(32767, sample)) for frame in frames for sample in frame])
    if sys.byteorder == "big":
        data.byteswap()
    with open(name, "wb") as file:
        data.tofile(file)
