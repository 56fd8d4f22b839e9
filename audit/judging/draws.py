"""Sessions at random, for plays: from those of audit/sessions, with ops that come to an end in most, and with enough cycles or too few."""
import importlib.machinery, importlib.util, os

import model

HERE = os.path.dirname(os.path.dirname(os.path.abspath(__file__)))
loader = importlib.machinery.SourceFileLoader("sessions", os.path.join(HERE, "sessions"))
sessions = importlib.util.module_from_spec(importlib.util.spec_from_loader("sessions", loader))
loader.exec_module(sessions)


def some_ops(draw, frames):
    """Ops of a track that come to an end."""
    def write(most):
        return f"write {draw.randint(1, most)}"
    ops = ["open", "start"]
    for _ in range(draw.randint(0, 12)):
        ops += draw.choice((
            [write(3 * frames)], [write(9)], [f"gain {draw.randint(0, 5000)} {draw.randint(0, 65535)}"], ["yield"] * draw.choice((1, 1, 2, draw.randint(1, 9))),
            ["pause", "yield", "start"], ["pause", "flush", "start"], ["pause", "write 1", "flush", "start"], ["stop", "start"], ["stop", "drain", "start"],
            ["stop", "flush", "start"], ["pause", "yield", "yield", "flush", "write 1", "start"]))
    if draw.random() < 0.1:      # silence until the track is disabled, and a write that finds it so
        ops += ["yield"] * draw.randint(49, 60) + [write(9)] * 2
    if draw.random() < 0.1:      # more than one turn has calls for
        ops += [f"gain {draw.randint(0, 4096)} 0" for _ in range(draw.randint(58, 70))] + ["yield"] * draw.randint(0, 2) + [write(5)]
    return ops + draw.choice((["stop", "drain"], ["stop", "drain", "remove"], [], ["stop"]))


def some_play(draw):
    """A session for a play, as audit/sessions has them: the script's values, and the bytes of each file."""
    data, files = sessions.some_session(draw)
    if draw.random() < 0.6:
        for track in data["tracks"]:
            if any(op.startswith("poke") for op in track["ops"]):
                continue
            track["ops"] = some_ops(draw, track["frames"])
            asked = sum(int(op.split()[1]) for op in track["ops"] if op.startswith("write"))
            files[track["file"]] = draw.randbytes(asked * 2 * track["channels"])
    data["turns"] = []
    data["cycles"] = draw.choice((draw.randint(1, 60), 400, 1500, 3000))
    return data, files


def read(data, files):
    """The script of a session, and the frames of each track's file."""
    script = model.Script(sessions.text_of(data).encode())
    return script, [model.frames_of(files[track.file], track.mono) for track in script.tracks]
