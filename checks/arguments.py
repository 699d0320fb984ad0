"""The words of a script's command line, and what `--help` says of them."""
import argparse
import os
import sys


def parser(doc, status):
    """A parser of a script's words, to which the script adds them. `--help` prints the script's own text, its words, and what
    its exit status tells. Wrong words end the script with the status 2."""
    folder, name = os.path.split(os.path.abspath(sys.argv[0]))
    return argparse.ArgumentParser(
        prog=os.path.join(os.path.basename(folder), name),
        description=doc.strip(),
        epilog=f"exit status: {status}; 2 where the words are wrong",
        formatter_class=argparse.RawDescriptionHelpFormatter,
    )


def whole(text):
    """A whole number in plain digits."""
    if not (text.isascii() and text.isdigit()):
        raise argparse.ArgumentTypeError(f"{text!r} is no whole number")
    return int(text)


def add_number(words, name, default, what):
    """A number that may be left out."""
    words.add_argument(name, metavar=name.upper(), nargs="?", type=whole, default=default, help=f"{what}; %(default)s if left out")


def add_flag(words, name, what):
    words.add_argument(name, action="store_true", help=what)
