"""Servers and clients of `topichub serve`, for the scripts that try it. Nothing is waited for longer than `patience` allows."""
import os
import re
import resource
import select
import signal
import socket
import subprocess
import threading

from program import eventually, patience, program

# What people are told of a session whose client has died, and of how many others one that stands has not told.
DIED = re.compile(r"topichub: session ([0-9]+): (?:read fault|write fault|gone)")
OTHERS = re.compile(r"topichub: (?:(1) more session was|([0-9]+) more sessions were) stopped")


class Server:
    """A server of so many sessions, or one that stands, by its other words; it may have so many files open at a time, is given
    these descriptors, and begins with this in its process. `file` is the program, or words to start it by; `how` is for Popen.
    `first` is the first line that it printed: it listens, or has ended without one."""

    def __init__(self, path, sessions, environment=None, files=None, words=None, pass_fds=(), begin=None, file=None, **how):
        self.path = path
        file = [file] if isinstance(file, str) else file or [program()]
        words = words or ["--sessions", str(sessions)]

        def prepare():
            signal.signal(signal.SIGINT, signal.SIG_DFL)
            if files is not None:
                resource.setrlimit(resource.RLIMIT_NOFILE, (files, files))
            if begin is not None:
                begin()

        # A shell has what it starts in the background ignore SIGINT, and so would all below it.
        self.process = subprocess.Popen([*file, "serve", path, *words],
                                        stdin=subprocess.PIPE if "--until-eof" in words else subprocess.DEVNULL,
                                        stdout=subprocess.PIPE, stderr=subprocess.PIPE, text=True, env=environment,
                                        preexec_fn=prepare, pass_fds=pass_fds, **how)
        timer = threading.Timer(patience(), self.process.kill)
        timer.start()
        self.first = self.process.stdout.readline()
        timer.cancel()

    def __enter__(self):
        return self

    def __exit__(self, *raised):
        self.process.kill()
        self.process.communicate()

    def end(self):
        """The status, and what was printed and told as an error until then. What does not end is killed, and that is its status."""
        try:
            printed, told = self.process.communicate(timeout=patience())
        except subprocess.TimeoutExpired:
            self.process.kill()
            printed, told = self.process.communicate()
        return self.process.returncode, self.first + printed, told

    def sleeps(self):
        """How often each thread of the server was put to sleep until now; None where one of them is awake."""
        found = {}
        for name in os.listdir(f"/proc/{self.process.pid}/task"):
            try:
                with open(f"/proc/{self.process.pid}/task/{name}/status", encoding="ascii", errors="replace") as file:
                    told = dict(line.split(":", 1) for line in file)
            except (FileNotFoundError, ProcessLookupError):  # it has just ended
                return None
            if told["State"].split()[0] != "S":
                return None
            found[name] = told["voluntary_ctxt_switches"], told["nonvoluntary_ctxt_switches"]
        return found

    def settled(self, since=None):
        """Waits until the server has done all that it can do: each of its threads sleeps, and none was awake between two looks. It says
        how often each was put to sleep until then; where `since` is what it said before, it waits until one was awake since."""
        seen = [None]

        def rests():
            seen[0] = self.sleeps()
            return seen[0] is not None and seen[0] != since and seen[0] == self.sleeps()

        eventually(rests)
        return seen[0]


class Client:
    """A session, by what it sends and reads, all of it bytes."""

    def __init__(self, path):
        self.socket = socket.socket(socket.AF_UNIX)
        self.socket.settimeout(patience())
        try:
            self.socket.connect(path)
        except OSError:
            self.socket.close()
            raise
        self.replies = self.socket.makefile("rb")

    def send(self, text):
        self.socket.sendall(text)

    def lines(self, count):
        """The next lines, as one text."""
        return b"".join(self.replies.readline() for _ in range(count))

    def ask(self, line, count=1):
        """The reply to a line, of so many lines."""
        self.send(line + b"\n")
        return self.lines(count)

    def is_told(self):
        """Whether something has come that was not read, or the server has closed the connection."""
        return bool(select.select([self.socket], [], [], 0)[0])

    def rest(self):
        """What is left until the server closes the connection."""
        return self.replies.read()

    def close(self):
        self.replies.close()
        self.socket.close()
