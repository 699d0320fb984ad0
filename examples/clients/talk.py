#!/usr/bin/env python3
"""A session from the keyboard, or from a file: each line goes to the hub, and what it answers is printed."""
import argparse
import os
import socket
import sys
import threading


def send_lines(hub):
    try:
        while lines := os.read(0, 65536):
            hub.sendall(lines)
        hub.shutdown(socket.SHUT_WR)
    except OSError:  # the session has ended meanwhile
        pass


def main():
    about = argparse.ArgumentParser(description=__doc__, epilog="exit status: 0 once the session has ended, 1 where nobody listens, 2 where the words are wrong")
    about.add_argument("path", metavar="PATH", help="the socket of `topichub serve PATH`")
    path = about.parse_args().path
    with socket.socket(socket.AF_UNIX, socket.SOCK_STREAM) as hub:
        try:
            hub.connect(path)
        except OSError as error:
            sys.exit(f"talk: {path}: {error.strerror}; does `serve` listen there, with a session left?")
        threading.Thread(target=send_lines, args=[hub], daemon=True).start()
        while replies := hub.recv(65536):
            sys.stdout.buffer.write(replies)
            sys.stdout.flush()


if __name__ == "__main__":
    main()
