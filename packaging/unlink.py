#!/usr/bin/env python3
"""Takes the links out of the documents of a folder that lead nowhere there, and leaves their text."""
import argparse
import glob
import os
import re

LINK = re.compile(r"(?<!!)\[([^\[\]]+)\]\(([^\s()#]+)(#[^\s()]*)?\)")


def main():
    about = argparse.ArgumentParser(prog="packaging/unlink.py", description=__doc__, epilog="exit status: 0; 2 where the words are wrong")
    about.add_argument("folder", metavar="FOLDER", help="where the documents are, in folders of any depth")
    for path in glob.glob(os.path.join(about.parse_args().folder, "**", "*.md"), recursive=True):
        def kept(found, folder=os.path.dirname(path)):
            is_there = ":" in found[2] or os.path.exists(os.path.join(folder, found[2]))
            return found[0] if is_there else found[1]

        with open(path, encoding="utf-8") as file:
            text = file.read()
        with open(path, "w", encoding="utf-8") as file:
            file.write(LINK.sub(kept, text))


if __name__ == "__main__":
    main()
