"""The package's units, topichub@.socket, topichub@.service and topichub-bridge@.service, as far as they can be tried without a systemd of their own."""
import contextlib
import os
import re
import shlex
import shutil
import signal
import socket
import subprocess
import tempfile
import threading

import manual
from program import PATIENCE, patience
from sessions import Client

FOLDER = "usr/lib/systemd/system"
SOCKET = "topichub@.socket"
SERVICE = "topichub@.service"
BRIDGE = "topichub-bridge@.service"
# Gives what comes behind it the descriptor $1 as 3, as systemd does.
AS_THIRD = 'exec 3<&"$1"; shift; exec "$@"'


class CommandLine:
    """The ExecStart of the service: a script of bash, to which the path of the socket and the folder of the traces are given."""

    def __init__(self, text):
        line = re.search(r"^ExecStart=(.*)$", text.replace("\\\n", " "), re.M)[1]
        self.bash, dash_c, self.script, self.path, self.traces = shlex.split(line)
        self.given = re.search(r'^Environment="TOPICHUB_WORDS=(.*)"$', text, re.M)[1]
        if (self.bash, dash_c) != ("/bin/bash", "-c"):
            raise ValueError(f"the service is not started by bash: {self.bash} {dash_c}")

    def options(self):
        return {it for it in f"{self.script} {self.given}".split() if it.startswith("--")}

    def begin(self, program, listening, path, traces):
        """Starts it for a socket that this process listens at, with that program; in a process group of its own."""
        words = ["/bin/bash", "-c", AS_THIRD, "as-third", str(listening.fileno()), self.bash, "-c", self.script, path, traces]
        environment = {"PATH": f"{os.path.dirname(program)}:/usr/bin:/bin", "TOPICHUB_WORDS": self.given}
        return subprocess.Popen(words, stdin=subprocess.DEVNULL, stdout=subprocess.PIPE, stderr=subprocess.PIPE, text=True,
                                env=environment, pass_fds=[listening.fileno()], start_new_session=True)


def kill(server):
    """Ends whatever is left of it."""
    with contextlib.suppress(ProcessLookupError):
        os.killpg(server.pid, signal.SIGKILL)


def stopped(server, path):
    """What a session is told, and how the server ends, where all the processes of the service get SIGTERM."""
    timer = threading.Timer(patience(), kill, [server])
    timer.start()
    first = server.stdout.readline()
    timer.cancel()
    told = b""
    if first == "listening\n":
        with contextlib.closing(Client(path)) as client:
            told = client.ask(b"OPEN t B 2") + client.ask(b"SUB t")
            client.send(b"NEXT t\n")
            os.killpg(server.pid, signal.SIGTERM)
            told += client.rest()
    status = server.wait(patience())
    kill(server)
    return told, first + server.stdout.read(), status


def ends_in_order(tally, program, line):
    with tempfile.TemporaryDirectory() as folder, socket.socket(socket.AF_UNIX) as listening:
        path, traces = os.path.join(folder, "hub.sock"), os.path.join(folder, "traces")
        os.mkdir(traces)
        listening.bind(path)
        listening.listen()
        with line.begin(program, listening, path, traces) as server:
            try:
                seen = stopped(server, path)
            finally:
                kill(server)
            faults = server.stderr.read()
    due = (b"OK 2\nOK\n", "listening\ndone 1\n", 0)
    tally.tell("a SIGTERM to all processes of the service ends its server in order", seen == due, f"{seen}\n{faults}")


def tries(tally, folder, program):
    """The units in this folder, with this program."""
    paths = [os.path.join(folder, it) for it in (SERVICE, SOCKET, BRIDGE)]
    if shutil.which("systemd-analyze"):
        ran = subprocess.run(["systemd-analyze", "--man=no", "verify", *paths], capture_output=True, text=True, timeout=PATIENCE)
        told = [line for line in ran.stderr.splitlines() if "topichub" in line]
        tally.tell("systemd has nothing to say of the units", not told, "\n".join(told))
    else:
        tally.leave_out("what systemd says of the units", "systemd-analyze is not installed")
    with open(paths[0], encoding="utf-8") as file:
        line = CommandLine(file.read())
    known = manual.Help(program, "serve").words()
    tally.tell("the program knows each option of the service", line.options() <= known, line.options() - known)
    ends_in_order(tally, program, line)
