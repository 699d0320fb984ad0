"""The schedule of all examples, one after another, with the replies that stand beside them."""
import glob
import os

from program import ROOT


def example(number, path):
    """The lines of an example with their replies, its names made its own, without those that list or read as nothing."""
    with open(path, "rb") as schedule, open(os.path.splitext(path)[0] + ".replies", "rb") as replies:
        for line in schedule:
            fields = line.rstrip(b"\n").split(b" ")
            reply = replies.readline()
            if fields[1:2] in ([b"LIST"], [b"TRACE"]) and reply.startswith(b"OK"):
                reply += b"".join(replies.readline() for _ in range(int(reply.split()[1])))
            if len(fields) < 2 or fields[1] == b"LIST":
                continue
            fields[0] += b"-%d" % number
            if len(fields) > 2:
                fields[2] += b"-%d" % number
            yield b" ".join(fields) + b"\n", reply


def listing(lines):
    """The reply to LIST at the end of these lines with their replies."""
    fields = [line.split() for line, reply in lines if reply.startswith(b"OK")]
    rows = [b"%s %s\n" % (words[2], words[3]) for words in fields if words[1] == b"OPEN"]
    return b"OK %d\n" % len(rows) + b"".join(rows)


def schedule():
    """The lines of all examples with their replies, and a LIST at the end."""
    paths = sorted(glob.glob(os.path.join(ROOT, "examples", "*.schedule")))
    lines = [line for number, path in enumerate(paths) for line in example(number, path)]
    return lines + [(b"a LIST\n", listing(lines))]
