"""What the measurements have in common. A script that has imported this module can import those of checks/ too."""
import contextlib
import os
import re
import shutil
import subprocess
import sys
import time

sys.path.insert(0, os.path.join(os.path.dirname(os.path.dirname(os.path.abspath(__file__))), "checks"))

from built import need_tool
from program import is_sanitized, program

# Processes on each core that are always busy.
BUSY = (0, 1, 2)
STATUS = "0 where all was measured, 1 where something could not be or was answered wrongly"


def need_valgrind():
    need_tool("valgrind", "counts the instructions")


def timed_program(is_counted=False):
    """The path of topichub's program, which is to be timed, or its instructions counted."""
    if is_counted:
        need_valgrind()
    if is_sanitized() and is_counted:
        sys.exit(f"{program()} is compiled with AddressSanitizer, so its instructions cannot be counted")
    if is_sanitized():
        print(f"{program()} is compiled with AddressSanitizer: its times say nothing of the proved program", file=sys.stderr)
    return program()


def seconds(command, source, target):
    """The wall clock time of one run."""
    with open(source, "rb") as given, open(target, "wb") as written:
        begin = time.perf_counter()
        subprocess.run(command, stdin=given, stdout=written, check=True)
        return time.perf_counter() - begin


def peak_memory(command, source):
    """The peak memory of one run in KiB, or None where nothing measures it."""
    if not shutil.which("/usr/bin/time"):
        return None
    with open(source, "rb") as given:
        ran = subprocess.run(["/usr/bin/time", "-f", "%M", *command], stdin=given, stdout=subprocess.DEVNULL,
                             stderr=subprocess.PIPE, check=True)
    return int(ran.stderr)


def callgrind(command, source=os.devnull, target=os.devnull):
    """What valgrind says of a run; the target gets what each function took."""
    with open(source, "rb") as given:
        return subprocess.run(["valgrind", "--tool=callgrind", "--callgrind-out-file=" + target, *command], stdin=given,
                              stdout=subprocess.DEVNULL, stderr=subprocess.PIPE, check=True).stderr


def instructions(command, source=os.devnull):
    """Those of the whole process."""
    counted = re.search(rb"Collected : (\d+)", callgrind(command, source))
    return int(counted[1]) if counted else sys.exit(f"valgrind counted nothing of {command[0]}")


@contextlib.contextmanager
def busy(processes):
    """So many processes that do nothing but take time."""
    running = [subprocess.Popen([sys.executable, "-c", "while True: pass"]) for _ in range(processes)]
    try:
        yield
    finally:
        for process in running:
            process.kill()
            process.wait()


def in_turns(turn):
    return (0, 1) if turn % 2 == 0 else (1, 0)


def tell_ratio(medians):
    print(f"  ratio       {medians[0] / medians[1]:.2f}  (topichub to plain Rust; 1.0 or below is the goal)")


def on_machine():
    """What it was measured on."""
    return f"{os.cpu_count()} cores, load {os.getloadavg()[0]:.1f}"
