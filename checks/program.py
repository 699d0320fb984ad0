"""The program that the scripts try."""
import functools
import os
import subprocess
import sys
import time

ROOT = os.path.dirname(os.path.dirname(os.path.abspath(__file__)))
# For how many seconds a script waits for what has to come. It comes within a few, so that what is right fails on no machine that is
# busy, or ten times slower; what has not come by then is told as missing.
PATIENCE = 120


@functools.cache
def program():
    """The path of the program that `run` would start, which compiles one where there is none. Where it cannot, the script ends."""
    asked = subprocess.run([os.path.join(ROOT, "run"), "--where"], stdin=subprocess.DEVNULL, stdout=subprocess.PIPE, text=True)
    if asked.returncode != 0:
        sys.exit("there is no program to try: `run --where` says why")
    return os.path.abspath(asked.stdout.removesuffix("\n"))


@functools.cache
def is_sanitized():
    """Whether the program is compiled with AddressSanitizer (`checks/compile --sanitized`). It has an allocator of its own then, and
    takes some two hundred times as long for a line."""
    with open(program(), "rb") as file:
        return b"__asan_init" in file.read()


def patience(seconds=PATIENCE):
    """For how many seconds to wait for what the proved program does in so many at the most."""
    return 10 * seconds if is_sanitized() else seconds


def eventually(holds):
    """Whether it holds, now or soon."""
    end = time.monotonic() + patience()
    while not holds():
        if time.monotonic() > end:
            return False
        time.sleep(0.01)
    return True


def run(words, text, seconds=PATIENCE, **how):
    """A run of the program with these words over these bytes. Where it goes on for longer than that, the script ends."""
    try:
        return subprocess.run([program(), *words], input=text, capture_output=True, timeout=patience(seconds), **how)
    except subprocess.TimeoutExpired:
        sys.exit(f"topichub {' '.join(words)} has not ended after {patience(seconds)} seconds, with the input {text[:100]!r} ..")
