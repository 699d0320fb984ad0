"""How `topichub serve` stands among other users and other files, for checks/serve: what it makes and with which mode, what it refuses
to touch, what it removes, and which descriptors it has.

What is due is written in docs/SERVER.md, and in docs/FORMATS.md, "Sessions". What takes another user is tried where root runs it,
as the users 10001, who serves, and 10002; what takes `strace` to be seen, where that is installed. What is left out is said."""
import contextlib
import fcntl
import os
import shutil
import signal
import socket
import stat
import subprocess
import tempfile
import threading
import time

from histories import ended, starts
from program import eventually, patience, program
from sessions import Client, Server
from tries import leave_out

OWN, OTHER = 10001, 10002
MASKS = 0o000, 0o022, 0o077
OLD = b"", 0o644  # the file of a lock as servers left it once: what was in it, and its mode


def mode_of(path):
    return stat.S_IMODE(os.lstat(path).st_mode)


def text_of(path):
    with open(path, "rb") as file:
        return file.read()


def written(path, text=b"a file of the user\n", mode=0o600):
    """A file of the user's own."""
    with open(path, "wb") as file:
        file.write(text)
    os.chmod(path, mode)
    return text


def refused(path, fault, words=(), serving=("--at-once", "2"), **how):
    """Whether a server is refused for this reason."""
    with Server(path, None, words=[*words, *serving], **how) as server:
        return server.end() == (1, "", f"topichub: socket fault\ntopichub: {fault}\n")


def connects(path):
    """Whether somebody takes a connection there."""
    with socket.socket(socket.AF_UNIX) as client:
        client.settimeout(patience())
        return client.connect_ex(path) == 0


def answers(path):
    with contextlib.closing(Client(path)) as client:
        return client.ask(b"LIST") == b"OK 0\n"


@contextlib.contextmanager
def for_all(others="files of another user"):
    """A folder in which each user may make files, as /tmp is one, with the program for all to run; None where only one user is here."""
    if os.geteuid() != 0:
        leave_out("serve", "it is not root who runs this", others)
        yield None, None
        return
    with tempfile.TemporaryDirectory() as folder:
        os.chmod(folder, 0o1777)
        copy = os.path.join(folder, "program")
        shutil.copy(program(), copy)
        os.chmod(copy, 0o755)
        yield folder, copy


@contextlib.contextmanager
def locked_by_other(path):
    """A file that another user locks meanwhile, as far as he can: `locked`, or why not."""
    said, says = os.pipe()
    until, goes_on = os.pipe()
    child = os.fork()
    if child == 0:  # not by another program, since he may not be able to read ours
        try:
            os.close(goes_on)
            os.setgroups([])
            os.setgid(OTHER)
            os.setuid(OTHER)
            try:
                fcntl.flock(os.open(path, os.O_RDONLY), fcntl.LOCK_EX | fcntl.LOCK_NB)
                os.write(says, b"locked")
            except OSError as fault:
                os.write(says, fault.strerror.encode())
            os.read(until, 1)
        finally:
            os._exit(0)
    for it in (says, until):
        os.close(it)
    try:
        yield os.read(said, 100).decode()
    finally:
        for it in (goes_on, said):
            os.close(it)
        os.waitpid(child, 0)


def owned(path, user=OTHER):
    os.lchown(path, user, user)


def can_trace(what):
    """Whether strace can be used to see that."""
    is_there = shutil.which("strace") and subprocess.run(["strace", "-o", os.devnull, "true"], capture_output=True).returncode == 0
    if not is_there:
        leave_out("serve", "strace is not installed, or may not be used", what)
    return is_there


@contextlib.contextmanager
def slowed(path, calls, micros, words, **how):
    """A server for which each of these system calls takes so much longer."""
    file = ["strace", "-f", "-o", os.devnull, "-e", f"trace={calls}", "-e", f"inject={calls}:delay_exit={micros}", program()]
    with Server(path, None, words=words, file=file, start_new_session=True, **how) as server:
        try:
            yield server
        finally:
            with contextlib.suppress(ProcessLookupError):  # strace lets go of what it has started
                os.killpg(server.process.pid, signal.SIGKILL)


# ---- the file of the lock

def places_of_locks(folder):
    """What may stand at PATH.lock and is no file of a lock: how it is made, and what is said of it."""
    victim = os.path.join(folder, "victim")
    nowhere = os.path.join(folder, "nowhere-locked")
    return {
        "a link to a file": (lambda lock: os.symlink(victim, lock), "it is a symbolic link"),
        "a link to nothing": (lambda lock: os.symlink(nowhere, lock), "it is a symbolic link"),
        "a FIFO": (os.mkfifo, "it is no regular file"),
        "a folder": (os.mkdir, "it is no regular file"),
        "another name of a file": (lambda lock: os.link(victim, lock), "it has another name too"),
        "a file of the user": (written, "it has something in it that no server has written"),
    }


def no_locks(folder):
    path, victim = os.path.join(folder, "guarded"), os.path.join(folder, "victim")
    lock, text = path + ".lock", written(victim)
    for name, (make, fault) in places_of_locks(folder).items():
        make(lock)
        before = os.lstat(lock)
        told = refused(path, f"{lock}: {fault}"), refused(path, f"{lock}: {fault}", ["--replace"])
        yield f"{name} at PATH.lock is refused by its name", told == (True, True)
        yield "and with --sessions", refused(path, f"{lock}: {fault}", serving=("--sessions", "1"))
        after = os.lstat(lock)
        yield "it is left as it was, and nothing is made", (text_of(victim), os.path.lexists(os.path.join(folder, "nowhere-locked")),
                                                            os.path.lexists(path)) == (text, False, False) and (
            after.st_ino, after.st_mode, after.st_size) == (before.st_ino, before.st_mode, before.st_size)
        (os.rmdir if stat.S_ISDIR(after.st_mode) else os.remove)(lock)


def locks(folder):
    path = os.path.join(folder, "locked")
    lock = path + ".lock"
    for mask in MASKS:
        with Server(path, None, words=["--at-once", "2", "--until-eof"], begin=lambda mask=mask: os.umask(mask)) as server:
            mode = mode_of(lock)
            told = ended(server)
        yield f"at the mask {mask:03o} the lock has the mode 0600", (server.first, mode, told[0]) == ("listening\n", 0o600, 0)
        yield "and goes at an end in order", not os.path.lexists(lock)
    written(lock, *OLD)
    with Server(path, None, words=["--at-once", "2", "--until-eof"]) as server:
        mode, is_refused = mode_of(lock), refused(path, f"{path}: a server answers there")
        told = ended(server)
    yield "one that an older server has left is taken, and others may not open it any more", (server.first, mode, is_refused, told[0]) == (
        "listening\n", 0o600, True, 0)
    with Server(path, 1, words=["--sessions", "1"]) as server:
        yield "a server of so many sessions has the lock too", refused(path, f"{path}: a server answers there", ["--replace"])
        yield "and is asked for none of them", answers(path) and server.end()[:2] == (0, "listening\ndone 1\n")
    yield "its lock goes with it", not os.path.lexists(lock)
    for name, make in (("a file", written), ("a folder", os.mkdir), ("a link", lambda path: os.symlink(folder, path))):
        make(path)
        is_refused = refused(path, f"{path}: something stands there; with --at-once, --replace takes the place of a socket whose server is gone")
        yield f"where {name} stands at PATH no lock is left", is_refused and not os.path.lexists(lock)
        (os.rmdir if name == "a folder" else os.remove)(path)


def locks_of_others(folder):
    del folder
    with for_all("another user at PATH.lock") as (folder, copy):
        if folder is None:
            return
        path = os.path.join(folder, "hub")
        lock = path + ".lock"
        how = {"user": OWN, "group": OWN, "extra_groups": [], "file": copy}
        written(lock, b"", 0o666)
        owned(lock)
        yield "a lock that belongs to another user is refused by its name", refused(path, f"{lock}: it belongs to another user", **how)
        yield "also to root", refused(path, f"{lock}: it belongs to another user", file=copy)
        os.remove(lock)
        with Server(path, None, words=["--at-once", "2", "--until-eof"], begin=lambda: os.umask(0), **how) as server:
            with locked_by_other(lock) as told:
                pass
            yield "nobody else can open the lock of a server", (server.first, told, ended(server)[0]) == ("listening\n", "Permission denied", 0)
        written(lock, *OLD)
        owned(lock, OWN)
        with locked_by_other(lock) as told:
            is_refused = refused(path, f"{lock}: somebody has locked it, and its mode lets other users do so", **how)
        yield "one of an older server that another user has locked is refused by its name", (told, is_refused) == ("locked", True)


# ---- what it makes, and what it removes

def modes(folder):
    """Of the socket, whatever the process's mask is."""
    path = os.path.join(folder, "mode")
    for mask in (*MASKS, 0o777):
        for words in (["--sessions", "1"], ["--at-once", "2"]):
            with Server(path, None, words=words, begin=lambda mask=mask: os.umask(mask)) as server:
                mode = mode_of(path)
                is_served = answers(path)
                server.process.kill()
            yield f"at the mask {mask:03o} the socket of {words[0]} has the mode 0600", (server.first, mode, is_served) == (
                "listening\n", 0o600, True)
            for name in (path, path + ".lock"):
                with contextlib.suppress(FileNotFoundError):
                    os.remove(name)


def entered(folder):
    """The names of sockets below a folder that take connections, and whose mode lets others connect."""
    found = set()
    for at, folders, names in os.walk(folder):
        folders[:] = [it for it in folders if mode_of(os.path.join(at, it)) & 0o011]
        for name in names:
            with contextlib.suppress(OSError):
                path = os.path.join(at, name)
                mode = os.lstat(path).st_mode
                if stat.S_ISSOCK(mode) and mode & 0o022 and connects(path) and mode_of(path) & 0o022:
                    found.add(name)
    return found


def never_open(folder):
    """Each step of a start takes half a second, and the mask takes nothing from a mode."""
    if not can_trace("that nobody can connect before the socket has its mode"):
        return
    for words in (["--sessions", "1"], ["--at-once", "1", "--until-eof"]):
        place = os.path.join(folder, words[0])
        os.mkdir(place, 0o755)
        path = os.path.join(place, "hub")
        found, is_done = set(), threading.Event()

        def look():
            while not is_done.is_set():
                found.update(entered(place))
                time.sleep(0.01)

        looks = threading.Thread(target=look)
        looks.start()
        try:
            with slowed(path, "bind,listen,chmod,fchmod,link,rename,unlink", 500_000, words, begin=lambda: os.umask(0)) as server:
                begun = server.first
        finally:
            is_done.set()
            looks.join()
        yield f"with {words[0]} nobody else can connect before the socket has its mode", (begun, found) == ("listening\n", set())


def removes(folder):
    path = os.path.join(folder, "removes")
    lock = path + ".lock"
    words = ["--at-once", "2", "--until-eof"]
    text = written(path + ".new")
    with Server(path, None, words=words) as server:
        told = server.first, ended(server)[0], text_of(path + ".new")
    yield "a file at PATH.new stays", told == ("listening\n", 0, text)
    with Server(path, None, words=words) as server:
        os.remove(path)
        text = written(path)
        told = ended(server)[0], text_of(path)
    yield "a file that stands in the place of a socket stays at its server's end", told == (0, text)
    os.remove(path)
    with Server(path, None, words=words) as first:
        os.remove(path)
        os.remove(lock)
        with Server(path, None, words=words) as second:
            told = ended(first)[0], answers(path), refused(path, f"{path}: a server answers there", ["--replace"]), ended(second)[0]
    yield "so do another server's socket and lock", told == (0, True, True, 0) and not os.path.lexists(path)
    with Server(path, 1) as server:
        os.remove(path)
        text = written(path)
        server.process.kill()
        server.end()
    yield "and at a signal", text_of(path) == text
    os.remove(path)


def stales(folder):
    path = os.path.join(folder, "stale")
    lock = path + ".lock"
    words = ["--at-once", "2", "--replace", "--until-eof"]
    other = f"{path}: its server has left no lock, so --replace leaves it"
    for before in (["--sessions", "2"], ["--at-once", "2"]):
        with Server(path, None, words=before) as server:
            server.process.kill()
            server.end()
        with Server(path, None, words=words) as server:
            told = server.first, answers(path), ended(server)
        yield f"--replace takes the place of a dead server of {before[0]}", told == ("listening\n", True, (0, "listening\ndone 1\n", ""))
    with Server(path, None, words=["--at-once", "2"]) as server:
        server.process.kill()
        server.end()
    written(lock, *OLD)
    with Server(path, None, words=words) as server:
        yield "also of one whose lock says nothing, as those of older ones", (server.first, ended(server)[0]) == ("listening\n", 0)
    for before in (["--sessions", "2"], ["--at-once", "2"]):
        # (the second one takes the place of the first)
        with Server(path, None, words=[*before, *(["--replace"] if "--at-once" in before else [])]) as server:
            server.process.send_signal(signal.SIGSTOP)
            yield f"of one of {before[0]} that stands still it is refused at once", refused(path, f"{path}: a server answers there", ["--replace"])
            server.process.kill()
            server.end()
    os.rename(path, path + ".old")
    with socket.socket(socket.AF_UNIX) as listener:
        listener.bind(path)
        listener.listen()
        listener.setblocking(False)
        is_refused = refused(path, other, ["--replace"])
        os.remove(lock)
        is_refused &= refused(path, other, ["--replace"])
        with contextlib.suppress(BlockingIOError):
            listener.accept()
            is_refused = False
        yield "of somebody else's socket it is refused, and nobody connects to that", is_refused and connects(path)
    os.remove(path)
    os.remove(path + ".old")


# ---- traces

def written_traces(server, traces):
    """The folder of a start, and a trace in it."""
    kept, = starts(traces)
    with contextlib.closing(Client(server.path)) as client:
        client.ask(b"OPEN secret W v")
        for _ in range(20):
            client.ask(b"READERS secret")
    trace = os.path.join(kept, "secret.00000000000000000001.trace")
    eventually(lambda: os.path.exists(trace))
    return kept, trace


def private(folder):
    path = os.path.join(folder, "private")
    for mask in MASKS:
        above = os.path.join(folder, f"above-{mask}")
        traces = os.path.join(above, "traces")
        with Server(path, None, words=["--at-once", "2", "--until-eof", "--history", "5", "--traces", traces],
                    begin=lambda mask=mask: os.umask(mask)) as server:
            kept, trace = written_traces(server, traces)
            found = [mode_of(it) for it in (above, traces, kept, trace)]
            status = ended(server)[0]
        yield f"at the mask {mask:03o} nobody else reads a trace, or finds it", (found, status) == ([0o700, 0o700, 0o700, 0o600], 0)
    with Server(path, None, words=["--at-once", "2", "--until-eof", "--history", "5", "--traces", traces]) as server:
        kept = starts(traces)[-1]
        victim = os.path.join(folder, "victim-of-traces")
        text = written(victim)
        os.symlink(victim, os.path.join(kept, "secret.00000000000000000001.trace.part"))
        with contextlib.closing(Client(path)) as client:
            client.ask(b"OPEN secret W v")
            for _ in range(20):
                client.ask(b"READERS secret")
        status, _, told = ended(server)
    yield "no trace is written through a link, and that is told", (status, text_of(victim), told) == (
        0, text, f"topichub: {kept}: a trace could not be written; the server goes on\n")


def unfinished(folder):
    """What other starts have left is told and stays, and so does what is none of it."""
    path, traces = os.path.join(folder, "unfinished"), os.path.join(folder, "left")
    for start, names in (("17", ("a.trace.part", "b.trace.part", "c.trace")), ("18", ("d.trace.part",)), ("of-the-user", ("e.trace.part",))):
        os.makedirs(os.path.join(traces, start))
        for name in names:
            written(os.path.join(traces, start, name))
    before = {at: sorted(names) for at, _, names in os.walk(traces) if names}
    with Server(path, None, words=["--at-once", "2", "--until-eof", "--traces", traces]) as server:
        status, _, told = ended(server)
    yield "a start says how many traces of other starts were never finished", (status, told) == (
        0, f"topichub: {traces}: unfinished traces of other starts, which end in .part: 3\n")
    yield "and leaves them", {at: sorted(names) for at, _, names in os.walk(traces) if names} == before


def folders_of_others(folder):
    del folder
    with for_all("a folder for traces that belongs to another user") as (folder, copy):
        if folder is None:
            return
        path, traces = os.path.join(folder, "hub"), os.path.join(folder, "traces")
        os.mkdir(traces, 0o777)
        os.chmod(traces, 0o777)
        owned(traces)
        words = ["--at-once", "2", "--until-eof", "--traces", traces]
        told = f"topichub: write fault\ntopichub: {traces}: the folder for the traces belongs to another user\n"
        for name, how in (("user", {"user": OWN, "group": OWN, "extra_groups": []}), ("root", {})):
            with Server(path, None, words=words, file=copy, **how) as server:
                ends = server.end()
            yield f"a folder for traces of another user is refused to {name} by its name", ends == (1, "", told)
            yield "nothing is made in it, and neither socket nor lock is left", (os.listdir(traces), sorted(os.listdir(folder))) == (
                [], ["program", "traces"])


# ---- descriptors

def few_descriptors(folder):
    path = os.path.join(folder, "descriptors")
    at_once = 40
    for files, told in ((at_once, f"topichub: {path}: {at_once} sessions at once take {at_once + 8} open files, and {at_once} are allowed\n"),
                        (at_once + 8, "")):
        traces = os.path.join(folder, f"descriptors-{files}")
        words = ["--at-once", str(at_once), "--until-eof", "--history", "50", "--traces", traces]
        with Server(path, None, words=words, files=files) as server:
            kept, = starts(traces)
            with contextlib.closing(Client(path)) as client:
                for line in (b"OPEN t B 1", *[b"READERS t"] * 500):
                    client.ask(line)
                is_written = eventually(lambda: len([it for it in os.listdir(kept) if it.endswith(".trace")]) >= 5)
            ends = ended(server)
        yield f"of {files} descriptors those that wait for a client take one", is_written and ends[:2] == (0, "listening\ndone 1\n")
        yield "and the start says what it needs" if told else "and nothing is said where all sessions have one", ends[2] == told

    with Server(path, None, words=["--at-once", str(at_once), "--until-eof"], files=at_once) as server:
        clients = [Client(path) for _ in range(at_once)]
        served = at_once - 6  # beside three streams, the lock, and the socket twice
        told = {client.ask(b"LIST") for client in clients[:served]}
        ends = ended(server)
        for client in clients:
            client.close()
    yield "a server without any descriptor left ends in order", (told, ends[0], ends[1]) == (
        {b"OK 0\n"}, 0, f"listening\ndone {served}\n")


def closed_streams(folder):
    path = os.path.join(folder, "streams")
    for closed in ((0,), (1,), (2,), (0, 2), (0, 1, 2)):
        for words in (["--sessions", "5"], ["--at-once", "5"]):
            yield from stands_without(path, closed, words)
    with socket.socket(socket.AF_UNIX) as listener:
        listener.bind(path)
        listener.listen()
        yield from stands_without(path, (2,), ["--at-once", "5", "--socket-fd", str(listener.fileno())], [listener.fileno()])


def first_client(path):
    """A client as soon as one can connect."""
    found = []

    def is_there():
        with contextlib.suppress(OSError):
            found.append(Client(path))
        return bool(found)

    eventually(is_there)
    return found[0]


def stands_without(path, closed, words, passed=()):
    """A server without these streams: of five clients three die while the server has something to tell them, which it tells people."""
    def begin():
        for descriptor in closed:
            os.close(descriptor)

    with Server(path, None, words=words, begin=begin, pass_fds=passed) as server:
        clients = [first_client(path), *(Client(path) for _ in range(4))]
        told = [client.ask(b"OPEN t%d W " % number + b"x" * 1_000) for number, client in enumerate(clients)]
        for number in (2, 3, 4):
            clients[number].send(b"SUB t%d\n" % number + b"GET t%d\n" % number * 2_000)
            clients[number].lines(1)
            clients[number].close()
        are_gone = eventually(lambda: {clients[1].ask(b"READERS t%d" % number) for number in (2, 3, 4)} == {b"OK 0\n"})
        told += [clients[0].ask(b"READERS t%d" % number) for number in range(5)]
        note = text_of(path + ".lock") if os.path.exists(path + ".lock") else b""
        for client in clients[:2]:
            client.close()
        server.process.kill()
        server.end()
    names = ", ".join(map(str, closed))
    yield f"with the streams {names} closed, serve PATH {' '.join(words[::2])} gives each client his own replies", are_gone and told == (
        [b"OK 1\n"] * 5 + [b"OK 0\n"] * 5)
    yield "and what is meant for a stream is not written into the lock", b"listening" not in note and b"session" not in note
    for name in (path, path + ".lock"):
        if not passed:
            with contextlib.suppress(FileNotFoundError):
                os.remove(name)


# ---- words, and ends

def empty_words(folder):
    path = os.path.join(folder, "words-empty")
    for words in (["--sessions", "1"], ["--at-once", "2"]):
        ran = subprocess.run([program(), "serve", "", *words], stdin=subprocess.DEVNULL, capture_output=True, text=True, cwd=folder,
                             timeout=patience())
        yield f"an empty PATH is refused with {words[0]}", (ran.returncode, ran.stdout, ran.stderr) == (
            1, "", "topichub: socket fault\ntopichub: the path is empty\n")
        yield "and no lock is made for it", not os.path.lexists(os.path.join(folder, ".lock"))
    with Server(path, None, words=["--at-once", "2", "--traces", ""]) as server:
        ends = server.end()
    yield "a folder for traces without a name is refused by its name", ends == (
        1, "", "topichub: write fault\ntopichub: the folder for the traces has no name\n")


def other_sockets(folder):
    path = os.path.join(folder, "of-another-kind")
    told = f"{path}: the socket that was handed over is no Unix socket that takes connections"
    for name, family, kind in (("datagram", socket.AF_UNIX, socket.SOCK_DGRAM), ("TCP", socket.AF_INET, socket.SOCK_STREAM)):
        with socket.socket(family, kind) as other, socket.socket(socket.AF_UNIX) as stands:
            (other if family == socket.AF_UNIX else stands).bind(path)
            yield f"a {name} socket that is handed over is refused by its name", refused(
                path, told, ["--socket-fd", str(other.fileno())], pass_fds=[other.fileno()])
        os.remove(path)


def clocked(folder):
    """Each sleep takes a tenth of a second longer, and the client does not read."""
    what = "that an end in order takes five seconds of the clock"
    if not can_trace(what):
        return
    path = os.path.join(folder, "clocked")
    with slowed(path, "nanosleep,clock_nanosleep", 100_000, ["--at-once", "2", "--until-eof"]) as server, contextlib.closing(
            Client(path)) as client:
        client.ask(b"OPEN t W " + b"x" * 1_000)
        client.send(b"SUB t\n" + b"GET t\n" * 5_000)
        client.lines(1)
        begun = time.monotonic()
        server.process.stdin.close()
        server.process.stdin = None
        is_ended = eventually(lambda: server.process.poll() is not None)
        took = time.monotonic() - begun
    yield "who does not read is let go after five seconds of the clock", is_ended and took < 60


TRIED = (no_locks, locks, locks_of_others, modes, never_open, removes, stales, private, unfinished, folders_of_others, few_descriptors,
         closed_streams, empty_words, other_sockets, clocked)
