#!/usr/bin/env python3
"""Judges a run, by descriptions of the program and without its code.

    judge.py SCRIPT OUT JOURNAL

It reads the script, the tracks' files in the current folder, OUT and JOURNAL, and trusts none of them. The line that
it prints, and its exit status:

    legal                          0   the journal tells a legal run, and OUT is its sound
    cut                            6   so does the journal but for its end: the log is full and some party hasn't ended
    refused: line N                7   the journal's first bad line
    refused: round R party P       7   the first round, and in it the least party, whose turn or history isn't legal
    refused: pcm N                 7   the first byte of OUT that isn't that of the sound
    script: .., file: ..           3, 4  as the player says it

With `--verify` a cut run has the line by which it isn't legal. The parts are in the folder `judging`.
Of each round the first 32,768 entries are judged, and of its turn the first 32,768 looks at each track's commands.
Python 3.11 or later, the standard library alone; only scripts are read by the plain model beside this file.
"""
import os, sys

sys.path.insert(0, os.path.dirname(os.path.abspath(__file__)))
sys.dont_write_bytecode = True
import model
from judging import text
from judging.rounds import Run

LEGAL, CUT, REFUSED = 0, 6, 7
MOST_SOUND, MOST_TEXT = 8388608, 1 << 30


def first_difference(one, two):
    """The first place where two byte strings differ, or None."""
    if one == two:
        return None
    return next((at for at, (left, right) in enumerate(zip(one, two)) if left != right), min(len(one), len(two)))


class Verdict:
    """What was found: the first round and party at fault, whether the run was cut, and the run itself."""

    def __init__(self, run, fault, cut):
        self.run, self.fault, self.cut = run, fault, cut


def judge_rounds(script, files, rounds):
    """The verdict on a journal's rounds."""
    run = Run(script, files, rounds)
    for number, told in enumerate(rounds):
        faults, short = run.round(told)
        if faults or short:
            last = len(script.tracks) + 1
            cut = not faults and number == len(rounds) - 1 and bool(run.parties_left())
            return Verdict(run, (number, min(faults | ({last} if short else set()))), cut)
    left = run.parties_left()
    return Verdict(run, (len(rounds), left[0]) if left else None, bool(left) and run.is_full())


def judge(script, files, pcm, journal, as_verify=False):
    """The status, the line, and the run where the text has a reading."""
    try:
        rounds = text.read(journal, len(script.tracks))
    except text.BadLine as bad:
        return REFUSED, f"refused: line {bad.number}", None
    verdict = judge_rounds(script, files, text.judged(rounds))
    if verdict.fault and (as_verify or not verdict.cut):
        return REFUSED, "refused: round {} party {}".format(*verdict.fault), verdict.run
    other = first_difference(verdict.run.pcm(), pcm)
    if other is not None:
        return REFUSED, f"refused: pcm {other}", verdict.run
    return (CUT, "cut", verdict.run) if verdict.cut else (LEGAL, "legal", verdict.run)


def work(words):
    """The status and the line of the words."""
    as_verify = "--verify" in words
    names = [word for word in words if word != "--verify"]
    if len(names) != 3:
        return 2, __doc__.split("\n\n")[1].strip()
    try:
        script = model.Script(model.load(names[0], 1 << 20, "script"))
        files = model.load_files(script)
        pcm = model.load(names[1], MOST_SOUND, "pcm")
        journal = model.load(names[2], MOST_TEXT, "journal")
    except model.Refused as refused:
        return refused.status, refused.line
    return judge(script, files, pcm, journal, as_verify)[:2]


def main():
    """Prints the line and ends with the status."""
    status, line = work(sys.argv[1:])
    print(line)
    return status


if __name__ == "__main__":
    sys.exit(main())
