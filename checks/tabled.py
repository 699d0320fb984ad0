"""The tables of lines with their replies in checks/tables, whose form its README has."""
import glob
import os

TABLES = os.path.join(os.path.dirname(os.path.abspath(__file__)), "tables")


def tables(path):
    """The tables of a file, each a title and its rows: the line, and the lines of its reply."""
    title, rows = None, []
    with open(path) as lines:
        for line in lines.read().splitlines():
            if line.startswith("== "):
                if rows:
                    yield title, rows
                title, rows = line[3:], []
            elif line.startswith("    "):
                rows[-1][1].append(line[4:])
            elif line and not line.startswith("#"):
                asked, reply = line.split(" => ")
                rows.append((asked, [reply]))
    yield title, rows


def all_tables():
    for path in sorted(glob.glob(os.path.join(TABLES, "*.rows"))):
        yield from tables(path)


def schedule():
    """The lines of all tables with their replies, one table after another, its names made its own, without those that list."""
    for number, (_, rows) in enumerate(all_tables()):
        for asked, reply in rows:
            fields = asked.split(" ")
            if fields[1] == "LIST":
                continue
            fields[0] += f"-in-{number}"
            if len(fields) > 2:
                fields[2] += f"-in-{number}"
            yield (" ".join(fields) + "\n").encode(), "".join(line + "\n" for line in reply).encode()
