#!/usr/bin/env python3
"""Compares the command `generate` of a built program with its description, from outside.

    audit/generate.py PROGRAM [NUMBER..]      by default the numbers 0, 1 and 2147483647

For each number the program makes a session in an empty folder. What is compared: the files g0.pcm to g7.pcm with
samples that are drawn here, byte for byte; the script with its printed text, and what a reader of TOML makes of it;
the line and the output with those of a plain model (audit/model.py), and with a `render` of the script that was
written; and that no other file is there. The names and numbers that it may not take are tried, too. It needs the
standard library alone. Exit status 0 where all is as it should be.
"""
import os, subprocess, sys, tempfile

TRACKS, FRAMES = 8, 100000
OPS = ["open", "start", "gain 2048 2048"] + ["write 500"] * 200 + ["stop", "drain", "remove"]
TURNS = ([f"c {track}" for track in range(TRACKS)] + ["n", "f 4"]) * 420
MODEL = os.path.join(os.path.dirname(os.path.abspath(__file__)), "model.py")


def drawn(number):
    """The bytes of each track's file: one draw for each sample, track after track."""
    state = number
    for track in range(TRACKS):
        data = bytearray()
        for _ in range(FRAMES * (1 + track % 2)):
            state = (state * 1103515245 + 12345) & 0x7FFFFFFF
            data += (((state >> 8) & 0x3FFF) - 8192).to_bytes(2, "little", signed=True)
        yield f"g{track}.pcm", bytes(data)


def listed(items):
    return "[" + ", ".join(f'"{item}"' for item in items) + "]"


def printed():
    """The text of the script: the keys in the order of the alphabet, each on a line of its own."""
    lines = ["cycles = 2000", "frames = 64", "normal = 4", f"turns = {listed(TURNS)}", "version = 1"]
    for track in range(TRACKS):
        kind = "fast" if track < 4 else "normal"
        lines += ["", "[[track]]", "base = 0", f"channels = {1 + track % 2}", f'file = "g{track}.pcm"', "frames = 512"]
        lines += [f'kind = "{kind}"', f"ops = {listed(OPS)}", "scale = 4096"]
    return "\n".join(lines) + "\n"


def meant():
    """What the script says."""
    tracks = [{"kind": "fast" if track < 4 else "normal", "frames": 512, "channels": 1 + track % 2, "base": 0,
               "scale": 4096, "file": f"g{track}.pcm", "ops": OPS} for track in range(TRACKS)]
    return {"version": 1, "frames": 64, "normal": 4, "cycles": 2000, "turns": TURNS, "track": tracks}


def run(folder, *words):
    done = subprocess.run(words, cwd=folder, stdin=subprocess.DEVNULL, stdout=subprocess.PIPE, stderr=subprocess.DEVNULL)
    return done.returncode, done.stdout.decode()


def read(folder, name):
    with open(os.path.join(folder, name), "rb") as file:
        return file.read()


def faults_of(program, number):
    """What is not as it should be for a number."""
    with tempfile.TemporaryDirectory() as folder:
        status, line = run(folder, program, "generate", str(number), "s.toml", "o.pcm")
        if status != 0 or " mixed 800000 dropped 0 queued 0 " not in line:
            return [f"status {status} and {line!r}"]
        faults = []
        files = dict(drawn(number))
        if sorted(os.listdir(folder)) != sorted([*files, "o.pcm", "s.toml"]):
            faults.append(f"the folder holds {sorted(os.listdir(folder))}")
        faults += [f"{name} differs" for name, data in files.items() if read(folder, name) != data]
        text = read(folder, "s.toml").decode()
        if text != printed():
            faults.append("the text of the script differs")
        try:
            import tomllib
        except ImportError:
            return faults
        if tomllib.loads(text) != meant():
            faults.append("the script says something else")
        out = read(folder, "o.pcm")
        if run(folder, MODEL, "render", "s.toml", "model.pcm") != (0, line) or read(folder, "model.pcm") != out:
            faults.append("the plain model plays it otherwise")
        if run(folder, program, "render", "s.toml", "again.pcm") != (0, line) or read(folder, "again.pcm") != out:
            faults.append("a render of its script differs")
        return faults


def refusals(program):
    """Words that don't fit: nothing is written."""
    faults = []
    for words in ["2147483648 s o", "00 s o", "07 s o", "+1 s o", "-1 s o", "s 0 o", "0 s", "0 s o j", "0 s s", "0 g0.pcm o", "0 s g7.pcm", "0 .s o"]:
        with tempfile.TemporaryDirectory() as folder:
            status, line = run(folder, program, "generate", *words.split())
            if status != 2 or not line.startswith("usage: ") or os.listdir(folder):
                faults.append(f"generate {words}: status {status}, {line!r}, and the folder holds {os.listdir(folder)}")
    return faults


def main():
    program = os.path.abspath(sys.argv[1])
    wrong = 0
    for fault in refusals(program):
        print(fault)
        wrong += 1
    for number in sys.argv[2:] or ["0", "1", "2147483647"]:
        faults = faults_of(program, int(number))
        print(f"generate {number}: " + ("; ".join(faults) or "as it is drawn"))
        wrong += len(faults)
    return 1 if wrong else 0


if __name__ == "__main__":
    sys.exit(main())
