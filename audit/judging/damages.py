"""Damages of journals, each with the verdict that it has by the definitions, worked out by hand."""

ONE = """version = 1
frames = 2
normal = 1
cycles = 1024
[[track]]
kind = "fast"
frames = 8
channels = 2
file = "empty"
ops = ["open", "start", "stop", "drain", "remove"]
"""
TWO = """version = 1
frames = 2
normal = 1
cycles = 300
[[track]]
kind = "normal"
frames = 4
channels = 2
file = "low"
ops = ["open", "start", "gain 2048 2048", "write 6", "stop", "drain"]
[[track]]
kind = "fast"
frames = 4
channels = 2
file = "high"
ops = ["open", "write 3", "flush", "start", "write 6", "yield", "yield", "yield", "yield", "write 1", "stop", "drain"]
"""
POKED = """version = 1
frames = 2
normal = 1
cycles = 64
[[track]]
kind = "fast"
frames = 4
channels = 2
file = "high"
ops = ["open", "start", "poke stream 1 5", "yield", "write 1"]
[[track]]
kind = "fast"
frames = 4
channels = 2
file = "low"
ops = ["open", "start", "write 2", "poke command 0 300", "yield"]
"""
LATE = """version = 1
frames = 2
normal = 1
cycles = 300
[[track]]
kind = "fast"
frames = 4
channels = 2
file = "empty"
ops = ["open", "start"]
[[track]]
kind = "fast"
frames = 4
channels = 2
file = "high"
ops = ["open", "yield", "start", "write 1", "stop", "drain"]
"""
FILES = {"empty": [], "low": [100 + 2 * at | (101 + 2 * at) << 16 for at in range(6)], "high": [1000 + 2 * at | (1001 + 2 * at) << 16 for at in range(10)]}

# A journal of LATE that no order of a play makes. In round 1 track 1 was attached to slot 2, and that push was Busy. In round 2 the normal
# mixer's turn pushes state 2, and loads the report of the entries behind it: only the draft tells that their slot 2 is that of track 1.
LATE_JOURNAL = "\n".join(
    ["R\nC 0\ns 0 1 0\ns 0 2 0\nt 0\nC 1\ns 0 1 0\nN 8 1 1\nq 0 0 4 f 2\nh 0000000100000000\nq 0 0 4 f 2\nh 0000000200000000\nq 0 0 4 e\na 0 514"]
    + ["q 1 0 2 f 2\nh 0000000100000000\nq 1 0 2 e\na 1 257\nP 1 1\nF\ny 0 1\nR\nC 0\nt 514\ns 4 6 0\nC 1\ns 2 2 0\nt 257\nN 8 0 1"]
    + ["q 0 0 6 f 2\nh 0000000600000000\nq 0 0 6 e\na 0 770\nq 1 0 4 f 2\nh 0000000200000000\nq 1 0 4 e\na 1 514\nP 2 0 1\nF"]
    + ["y 1 0\nz 0 4096 0 268439552 0 0 e\nz 1 4096 0 268439552 0 0 e"] * 16
    + ["R\nC 1\nt 514\np 0 1\nk 0\ns 4 4 1\nt 514\nN 8 1 33\nq 1 0 6 f 2\nh 0000000400000001\nq 1 0 6 e\na 1 791\nP 1 2\nF"]
    + ["y 2 0\nz 0 4096 0 268439552 0 0 e\nz 2 4096 0 268439552 0 1 f 1\nh 03e903e8"]
    + ["y 2 0\nz 0 4096 0 268439552 0 0 e\nz 2 4096 0 268439552 0 1 e"] * 15
    + ["R\nC 1\nt 791\nN 8 1 33\nq 1 0 6 e\na 1 792\nP 1 3\nF\ny 3 2\nR\nC 1\nt 792\ns 6 6 0\nN 8 1 34\nq 1 0 8 f 2"]
    + ["h 0000000600000000\nq 1 0 8 e\na 1 1048\nP 1 4\nF\ny 4 3\nR\nE"]
)
LATE_SOUND = bytes(128) + bytes.fromhex("e803e903") + bytes(124)

TRACK_1 = "4096 0 268439552"   # scale, mark and gains of slot 1

# Each damage: its session, the line that is changed (by its number) and what stands there, what stands there after (None
# where it is gone, several lines where some are added), and the verdict.
DAMAGES = [
    (ONE, 1, "R", None, "line 1"),
    (ONE, 2, "C 0", "C 1", "line 2"),
    (ONE, 2, "C 0", None, "line 2"),
    (ONE, 3, "s 0 1 0", "s 0 1 00", "line 3"),
    (ONE, 3, "s 0 1 0", "s 0 1 4294967296", "line 3"),
    (ONE, 3, "s 0 1 0", "s 1 1 0", "round 0 party 0"),    # less than nothing is filled
    (ONE, 3, "s 0 1 0", "su 0", "round 0 party 0"),
    (ONE, 4, "s 0 2 0", "s 0 2 1", "round 0 party 0"),    # no flush was made
    (ONE, 5, "t 0", "t 514", "round 0 party 0"),          # then the next op is due
    (ONE, 5, "t 0", None, "round 0 party 0"),
    (ONE, 6, "N 8 1 0", "N 8 2 0", "line 6"),
    (ONE, 6, "N 8 1 0", "N 7 1 0", "round 0 party 1"),    # the pipe is empty
    (ONE, 6, "N 8 1 0", "N 9 1 0", "round 0 party 1"),
    (ONE, 6, "N 8 1 0", "N 8 0 0", "round 0 party 1"),    # no push stands
    (ONE, 6, "N 8 1 0", "N 8 1 16", "legal"),             # all cycles of the round may come before the load
    (ONE, 6, "N 8 1 0", "N 8 1 17", "round 0 party 1"),
    (ONE, 7, "q 0 0 4 f 2", "q 0 1 4 f 2", "round 0 party 0"),   # no such flush word: the block has no history
    (ONE, 7, "q 0 0 4 f 2", "q 1 0 4 f 2", "line 7"),
    (ONE, 8, "h 0000000100000000", "h 0000000200000000", "round 0 party 0"),
    (ONE, 8, "h 0000000100000000", "h 00000001", "line 8"),
    (ONE, 8, "h 0000000100000000", None, "line 8"),
    (ONE, 11, "q 0 0 4 e", None, "round 0 party 1"),      # a look is due until one isn't a command
    (ONE, 11, "q 0 0 4 e", "q 0 0 4 e\nq 0 0 4 e", "round 0 party 1"),
    (ONE, 12, "a 0 514", "a 0 513", "round 0 party 1"),
    (ONE, 12, "a 0 514", "b 0\na 0 514", "round 0 party 1"),
    (ONE, 12, "a 0 514", "a 0 514\nb 0", "line 13"),
    (ONE, 12, "a 0 514", None, "round 0 party 1"),
    (ONE, 13, "P 1 1", "P 0", "round 0 party 1"),
    (ONE, 13, "P 1 1", "P 1 2", "round 0 party 1"),
    (ONE, 13, "P 1 1", "P 2 0 1", "round 0 party 1"),
    (ONE, 13, "P 1 1", "P 3", "line 13"),
    (ONE, 14, "F", None, "line 14"),
    (ONE, 15, "y 1 0", "y 1 4", "line 15"),
    (ONE, 15, "y 1 0", "y 2 0", "round 0 party 1"),       # never pushed
    (ONE, 15, "y 1 0", "y 0 1\ny 1 0", "round 0 party 2"),  # only the last cycle of a turn isn't mixed
    (ONE, 16, f"z 0 {TRACK_1} 0 0 e", f"z 0 {TRACK_1} 0 1 e", "round 0 party 1"),
    (ONE, 16, f"z 0 {TRACK_1} 0 0 e", f"z 0 {TRACK_1} 1 0 e", "line 16"),
    (ONE, 16, f"z 0 {TRACK_1} 0 0 e", None, "line 16"),
    (ONE, 17, f"z 1 {TRACK_1} 0 0 e", "z 1 4095 0 268439552 0 0 e", "round 0 party 2"),
    (ONE, 17, f"z 1 {TRACK_1} 0 0 e", "z 1 4096 1 268439552 0 0 e", "round 0 party 2"),
    (ONE, 17, f"z 1 {TRACK_1} 0 0 e", "z 1 4096 0 1 0 0 e", "round 0 party 0"),          # no such gains
    (ONE, 17, f"z 1 {TRACK_1} 0 0 e", f"z 1 {TRACK_1} 0 1 e", "round 0 party 0"),        # no such rear
    (ONE, 17, f"z 1 {TRACK_1} 0 0 e", f"z 2 {TRACK_1} 0 0 e", "round 0 party 2"),
    (ONE, 17, f"z 1 {TRACK_1} 0 0 e", None, "round 0 party 2"),
    (ONE, 65, "t 514", "t 770", "round 1 party 0"),       # never stored
    (ONE, 66, "s 4 4 0", "s 4 4 1", "round 1 party 0"),
    (ONE, 66, "s 4 4 0", "s 2 4 0", "round 1 party 0"),   # both commands were seen taken
    (ONE, 68, "N 8 1 16", "N 8 0 16", "round 1 party 1"), # the acknowledgement was learnt
    (ONE, 68, "N 8 1 16", "N 8 1 15", "round 1 party 1"), # report 16 was learnt
    (ONE, 68, "N 8 1 16", "N 8 1 32", "legal"),
    (ONE, 131, "y 2 2", "y 2 1", "round 2 party 2"),      # its cold generation wasn't performed yet
    (ONE, 131, "y 2 2", "y 1 1", "round 2 party 2"),      # state 1 mixes
    (ONE, 143, "y 3 3", "y 3 1", "round 3 party 2"),
    (ONE, 144, "R\nE", None, "round 4 party 1"),
    (ONE, 145, "E", "N 8 1 34\nP 0", "round 4 party 1"),
    (ONE, 145, "E", "E\nF\ny 3 1", "round 4 party 2"),
    (ONE, 145, "E", "E\nR", "round 5 party 0"),
    (ONE, 145, "E", None, "round 4 party 1"),
    (TWO, 8, "p 0 3", "p 0 2", "round 0 party 1"),
    (TWO, 9, "l 1", "l 2", "round 0 party 1"),
    (TWO, 10, "s 0 5 0", "s 0 6 0", "round 0 party 1"),
    (TWO, 11, "s 0 2 1", "s 0 2 0", "round 0 party 1"),
    (TWO, 28, "m 0 268439552 0 0 e", None, "round 0 party 2"),
    (TWO, 33, f"z 1 {TRACK_1} 1 3 l 3", f"z 1 {TRACK_1} 1 3 l 2", "round 0 party 1"),    # the front was 0
    (TWO, 33, f"z 1 {TRACK_1} 1 3 l 3", f"z 1 {TRACK_1} 2 3 l 3", "round 0 party 1"),
    (TWO, 33, f"z 1 {TRACK_1} 1 3 l 3", f"z 1 {TRACK_1} 0 3 f 2\nh 03e903e803eb03ea", "round 0 party 1"),  # then that flush was never noticed
    (TWO, 82, "g 134219776", "g 1", "round 1 party 0"),
    (TWO, 83, "p 0 4", "p 1 4", "round 1 party 0"),
    (TWO, 84, "k 1", "k 0", "round 1 party 0"),
    (TWO, 84, "k 1", "k 9", "round 1 party 0"),
    (TWO, 85, "u 0", "u 4", "round 1 party 0"),
    (TWO, 85, "u 0", "d 5", "round 1 party 0"),
    (TWO, 85, "u 0", "x 0 4", "round 1 party 0"),
    (TWO, 88, "N 8 1 16", "N 6 1 16", "round 1 party 2"),
    (TWO, 91, "a 1 770", "a 1 771", "round 1 party 2"),
    (TWO, 92, "P 0", "P 1 2", "round 1 party 2"),
    (TWO, 93, "m 0 134219776 0 4 f 2", "m 0 268439552 0 4 f 2", "round 1 party 2"),      # then the buffer is another one
    (TWO, 93, "m 0 134219776 0 4 f 2", "m 0 134219776 0 3 f 2", "round 1 party 0"),
    (TWO, 93, "m 0 134219776 0 4 f 2", "m 1 134219776 0 4 f 2", "round 1 party 1"),      # the other track's block never had that rear
    (TWO, 94, "h 0065006400670066", "h 0065006400670067", "round 1 party 0"),
    (TWO, 97, f"z 0 {TRACK_1} 0 4 f 2", f"z 0 {TRACK_1} 0 2 f 2", "round 1 party 2"),
    (TWO, 98, "h 0032003200330033", "h 0032003200330034", "round 1 party 2"),
    (TWO, 147, "p 2 2", "p 4 2", "round 2 party 0"),
    (TWO, 149, "s 4 4 6", "s 4 4 5", "round 2 party 0"),
    (TWO, 155, "p 3 3", "p 3 2", "round 2 party 1"),
    (TWO, 157, "u 3", None, "round 2 party 1"),
    (TWO, 158, "N 8 1 32", "N 8 0 32", "round 2 party 2"),
    (TWO, 408, "a 0 1048", None, "round 6 party 2"),
    (TWO, 467, "q 1 0 8 f 2\nh 000000040000000a", "q 1 0 8 l 2", "round 7 party 2"),     # no new flush; but some order has that Drop
    (TWO, 467, "q 1 0 8 f 2\nh 000000040000000a\nq 1 0 8 e", "q 1 0 8 x 100 8", "round 7 party 1"),
    (TWO, 476, "h 03fb03fa", "h 03fb03fb", "round 7 party 1"),
    (POKED, 92, "o 0 1 5", "o 0 1 6", "round 1 party 0"),
    (POKED, 92, "o 0 1 5", "o 1 1 5", "round 1 party 0"),
    (POKED, 96, "k 1", "k 0", "round 2 party 1"),         # its proxy misses the meeting of round 1
    (POKED, 100, "q 1 0 4 x 300 4", "q 1 0 4 x 301 4", "legal"),
    (POKED, 100, "q 1 0 4 x 300 4", "q 1 0 4 x 300 5", "round 1 party 2"),
    (POKED, 106, f"z 1 {TRACK_1} 0 5 x 0 5", f"z 1 {TRACK_1} 0 5 x 0 6", "round 1 party 3"),
    (POKED, 106, f"z 1 {TRACK_1} 0 5 x 0 5", f"z 1 {TRACK_1} 0 4 f 2\nh 0000000000000000", "legal"),  # after the poke any words may be seen
    (POKED, 109, f"z 1 {TRACK_1} 0 5 x 0 5", f"z 1 {TRACK_1} 1 5 x 0 5", "round 1 party 3"),
    (LATE, 95, "N 8 1 33", "N 8 1 33", "legal"),
    (LATE, 95, "N 8 1 33", "N 8 1 18", "legal"),          # the first of those entries took the frame
    (LATE, 95, "N 8 1 33", "N 8 1 17", "round 2 party 2"),
    (LATE, 95, "N 8 1 33", "N 8 1 34", "round 2 party 2"),
    (LATE, 99, "a 1 791", "a 1 774", "round 2 party 2"),  # the turn hears of the frame, by its draft
    (LATE, 99, "a 1 791", "a 1 775", "round 2 party 2"),
    (LATE, 95, "N 8 1 33\nq 1 0 6 f 2\nh 0000000400000001\nq 1 0 6 e\na 1 791", "N 8 1 17\nq 1 0 6 f 2\nh 0000000400000001\nq 1 0 6 e\na 1 774", "round 3 party 1"),  # then the client reads a word that was never stored
]
