"""What the clients of this folder share. They use the package topichub: that of the repository or of the documents around this
folder, else the one that is installed."""
import argparse
import os
import sys
import time

HERE = os.path.dirname(os.path.realpath(__file__))
PACKAGE = os.path.join(HERE, "..", "..", "lib", "python")
if os.path.isdir(PACKAGE):
    sys.path.insert(0, os.path.normpath(PACKAGE))

from topichub import Client, NoTopic, commands  # noqa: E402

# A value is bytes and need not be text: what is not UTF-8 goes through a `str` unchanged.
CODE = ("utf-8", "surrogateescape")
NO_TOPIC = "ERR 11 no-topic"
PAUSE = 0.01  # seconds until the hub is asked again


def until(hub, command, wanted):
    """Asks again and again until this is the answer, for what other clients have still to do."""
    while True:
        try:
            if hub.ask(command) == wanted:
                return
        except NoTopic:  # nobody has opened it yet
            pass
        time.sleep(PAUSE)


class Refused(Exception):
    """The hub answered `ERR code word`."""


class Hub:
    """A session in lines of the protocol, for tools that show or compare them. Other programs use the functions of
    `topichub.commands`, as publisher.py does."""

    def __init__(self, path):
        self.client = Client(path)
        self.socket = self.client._socket  # for measurements, which only count replies

    def send(self, *lines):
        """Sends lines ahead; their replies are the next ones that `reply` returns."""
        self.client.send(*map(as_command, lines))

    def reply(self):
        """The reply to the first line that has none yet."""
        return self.text(self.client.answer())

    def ask(self, line):
        """The reply to a line; to NEXT and CHANGED once there is one."""
        return self.text(self.client.ask(as_command(line)))

    def rows(self, line):
        """The lines below the reply to LIST or TRACE."""
        told = self.client.ask(as_command(line))
        self.text(told)
        return [row.decode(*CODE) for row in told.rows]

    def ask_all(self, lines):
        """The replies to lines that are all sent ahead, with refusals among them."""
        return [told.line.decode(*CODE) for told in self.client.ask_all(map(as_command, lines))]

    def until(self, line, wanted):
        """Asks again and again until this is the reply, for what other clients have still to do."""
        while self.ask_all([line]) != [wanted]:
            time.sleep(PAUSE)

    @staticmethod
    def text(told):
        text = told.line.decode(*CODE)
        if text.startswith("ERR "):
            raise Refused(text)
        return text


def as_command(line):
    """A line of text as a command. What has an end of line in it would be two, and is refused."""
    return commands.raw(line.encode(*CODE))


def parser(doc):
    """The arguments of a client, which begin with the path of a socket; `--help` prints the client's own text."""
    words = argparse.ArgumentParser(
        description=doc,
        formatter_class=argparse.RawDescriptionHelpFormatter,
        epilog="exit status: 0 if the session went to its end, else 1; 2 for bad usage",
    )
    words.add_argument("path", metavar="PATH", help="the socket, as in: topichub serve PATH --sessions 4")
    return words


def connected(path, kind=Hub, **how):
    """A session with the server at this socket. If nobody listens there, the program ends."""
    sys.stdout.reconfigure(encoding=CODE[0], errors=CODE[1])  # so that a value is printed as it came
    try:
        return kind(path, **how)
    except OSError as fault:
        sys.exit(f"{path}: {fault.strerror}; does `serve` listen there, with a session left?")


def session(doc):
    """A client of the server whose socket is the only argument of the command line."""
    return connected(parser(doc).parse_args().path, Client, encoding="utf-8")
