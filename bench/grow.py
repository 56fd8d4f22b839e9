#!/usr/bin/env python3
"""Writes a session of the generator's form, of any size, into the current folder: bench/grow.py TRACKS FRAMES

TRACKS tracks of FRAMES frames each (at most 16 MiB in all), the first half of them fast, at most seven; every second one is mono.
Buffers of 512 frames, cycles of 64, a normal buffer of four cycles: in each period every client has a turn, then the normal mixer, then four cycles."""
import random
import sys

CYCLE, CYCLES_A_PERIOD, WRITE, OPS_BESIDE_WRITES, MOST_OPS = 64, 4, 500, 6, 4096


def sizes(count):
    """The frames of each write of a client, so that they are no more than the ops of a track allow."""
    size = WRITE
    while -(-count // size) + OPS_BESIDE_WRITES > MOST_OPS:
        size *= 2
    return [min(size, count - at) for at in range(0, count, size)]


def track(number, tracks, frames, draw):
    channels = 1 + number % 2
    with open(f"t{number}.pcm", "wb") as file:
        file.write(draw.randbytes(2 * channels * frames))
    ops = ["open", "start", "gain 2048 2048"] + [f"write {n}" for n in sizes(frames)] + ["stop", "drain", "remove"]
    listed = ", ".join(f'"{op}"' for op in ops)
    kind = "fast" if number < min(7, (tracks + 1) // 2) else "normal"
    return f'[[track]]\nkind = "{kind}"\nframes = 512\nchannels = {channels}\nfile = "t{number}.pcm"\nops = [{listed}]\n'


def main():
    tracks, frames = int(sys.argv[1]), int(sys.argv[2])
    periods = -(-frames // (CYCLE * CYCLES_A_PERIOD)) + 20
    cycles = periods * CYCLES_A_PERIOD
    draw = random.Random(tracks * 1000003 + frames)
    turn = [f'"c {i}"' for i in range(tracks)] + ['"n"', f'"f {CYCLES_A_PERIOD}"']
    head = f"version = 1\nframes = {CYCLE}\nnormal = 4\ncycles = {cycles}\nturns = [{', '.join(turn * periods)}]\n\n"
    with open("s.toml", "w", encoding="ascii") as file:
        file.write(head + "\n".join(track(i, tracks, frames, draw) for i in range(tracks)))


main()
