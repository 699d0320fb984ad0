"""What stands apart from the crates that `rt ci` proves: the suites of tests and their programs, and the programs that bench/ times.

`rt ci` proves each crate that crates.txt lists, and refuses any other .rt file of the repository. So the files of what stands apart
end in `.in`, and become crates in a copy of the repository: a suite a module of the one crate of all tests, a program a crate of
its own. `bench/programs/NAME/uses` has the libraries that a program uses, as its line in crates.txt would.
"""
import os
import re
import shutil
import subprocess
import sys
import tempfile

from program import PATIENCE, ROOT

CRATES = os.path.join(ROOT, "crates")
PROGRAMS = os.path.join(ROOT, "bench", "programs")
TESTS = os.path.join(ROOT, "tests")
PREFIX = "bench_"  # of the crate that a program becomes
ENDING = ".in"
EDITS = ("must-fail", "more-edits")
PARTS = ("src", "specs", "proofs")  # of a crate, which the prover reads


def lines():
    """The lines of crates.txt: what stands before the colon, a crate's name first, and what it uses."""
    with open(os.path.join(ROOT, "crates.txt"), encoding="utf-8") as file:
        parts = [line.partition("#")[0].partition(":") for line in file]
    return [(head.split(), tail.split()) for head, _, tail in parts if head.split()]


def libraries():
    """What each crate of crates.txt uses, by its name."""
    return {head[0]: uses for head, uses in lines()}


def statics():
    """The static libraries, on which no crate can stand."""
    return {head[0] for head, _ in lines() if "staticlib" in head}


def below(name):
    """The crates of the repository that the crate stands on, and itself, the lowest first."""
    uses, found = libraries(), []
    uses.update({PREFIX + it: program_uses(it) for it in programs()})

    def add(it):
        for low in uses[it]:
            if low in uses and low not in found:
                add(low)
        if it not in found:
            found.append(it)

    add(name)
    return found


def programs():
    """The programs that bench/ times, by their folders' names."""
    return sorted(os.listdir(PROGRAMS)) if os.path.isdir(PROGRAMS) else []


def program_uses(name):
    with open(os.path.join(PROGRAMS, name, "uses"), encoding="utf-8") as file:
        return file.read().split()


def folder_of(crate):
    """The folder of a crate, or of a program that becomes one."""
    at = os.path.join(PROGRAMS, crate.removeprefix(PREFIX))
    return at if crate.startswith(PREFIX) and os.path.isdir(at) else os.path.join(CRATES, crate)


def files_of(crate, parts=PARTS):
    """The paths of all files below these parts of a crate's folder."""
    folder = folder_of(crate)
    return sorted(os.path.join(at, file) for part in parts for at, _, files in os.walk(os.path.join(folder, part)) for file in files)


def copy_folder(source, to):
    """Copies a folder of what stands apart, its files without the ending."""
    for at, _, files in os.walk(source):
        inside = os.path.join(to, os.path.relpath(at, source))
        os.makedirs(inside, exist_ok=True)
        for file in files:
            shutil.copy(os.path.join(at, file), os.path.join(inside, file.removesuffix(ENDING)))


def copy_repository(room, with_programs=False, keeps=False):
    """Makes a copy of the repository's crates in the folder, without their edits; with what was proved of libraries, if it keeps that."""
    def left_out(folder, names):
        names = set(names)
        if os.path.basename(folder) == "out":
            return names - {"rlib"}
        return names & {*EDITS, *([] if keeps else ["out"])}

    shutil.copytree(CRATES, os.path.join(room, "crates"), ignore=left_out)
    shutil.copy(os.path.join(ROOT, "HANDLES"), room)
    rows = [f"{' '.join(head)}: {' '.join(uses)}\n" for head, uses in lines()]
    if with_programs:
        for name in programs():
            copy_folder(os.path.join(PROGRAMS, name), os.path.join(room, "crates", PREFIX + name))
            rows.append(f"{PREFIX}{name}: {' '.join(program_uses(name))}\n")
    with open(os.path.join(room, "crates.txt"), "w", encoding="utf-8") as file:
        file.writelines(rows)


def build(name, folder):
    """Proves and builds a program that bench/ times, over what is proved of the libraries below it, and returns its path in the folder.
    It is run once on its small `args`, and has to print its `stdout`."""
    crate = PREFIX + name
    with open(os.path.join(PROGRAMS, name, "args"), encoding="utf-8") as file:
        words = file.read().split()
    with open(os.path.join(PROGRAMS, name, "stdout"), encoding="utf-8") as file:
        wanted = file.read()
    with tempfile.TemporaryDirectory(prefix="bench-") as room:
        copy_repository(room, with_programs=True, keeps=True)
        subprocess.run(["git", "init", "-q", room], check=True)
        at = os.path.join(room, "crates", crate)
        print(f"proving and building {crate}, which takes a few minutes", file=sys.stderr, flush=True)
        how = {"stdin": subprocess.DEVNULL, "stdout": subprocess.PIPE, "stderr": subprocess.STDOUT, "text": True, "errors": "replace"}
        ran = subprocess.run(["rt", "run", "--", *words], cwd=at, **how)
        if ran.returncode:
            sys.exit(f"{crate} is not built:\n{ran.stdout[-2_000:]}")
        program = shutil.copy(os.path.join(at, "out", crate), os.path.join(folder, crate))
    printed = subprocess.run([program, *words], stdin=subprocess.DEVNULL, capture_output=True, text=True, timeout=PATIENCE).stdout
    if printed != wanted:
        sys.exit(f"{crate} printed {printed!r}, where bench/programs/{name}/stdout has {wanted!r}")
    return program


def suites():
    """The suites of tests, by their folders' names."""
    return sorted(name for name in os.listdir(TESTS) if os.path.isfile(os.path.join(TESTS, name, "lib.rt" + ENDING)))


def copy_test_program(room, name, modules):
    """Makes a crate of tests/programs/NAME in a copy of the repository, with these modules out of suites, and returns its folder."""
    crate = os.path.join(room, "crates", name)
    copy_folder(os.path.join(TESTS, "programs", name), os.path.join(crate, "src"))
    for module in modules:
        shutil.copy(os.path.join(TESTS, module + ".rt" + ENDING), os.path.join(crate, "src", os.path.basename(module) + ".rt"))
    uses = os.path.join(crate, "src", "uses")
    with open(uses, encoding="utf-8") as file, open(os.path.join(room, "crates.txt"), "a", encoding="utf-8") as lines:
        lines.write(f"{name}: {file.read()}")
    os.remove(uses)
    return crate


def copy_suites(room, crate, names):
    """Makes one crate of these suites in a copy of the repository, each a module of it."""
    source = os.path.join(room, "crates", crate, "src")
    os.makedirs(source)
    for name in names:
        copy_folder(os.path.join(TESTS, name), os.path.join(source, name))
        for at, _, files in os.walk(os.path.join(source, name)):
            for file in files:
                point_inside(os.path.join(at, file), name)
        os.replace(os.path.join(source, name, "lib.rt"), os.path.join(source, f"{name}.rt"))
    with open(os.path.join(source, "lib.rt"), "w", encoding="utf-8") as top:
        top.write("//! All tests.\n#![tactic(auto)]\n\n" + "".join(f"#[cfg(test)]\nmod {name};\n" for name in names))
    with open(os.path.join(room, "crates.txt"), "a", encoding="utf-8") as file:
        file.write(f"{crate}: {' '.join(every_library())}\n")


def every_library():
    """The libraries of the repository, and those of the toolchain that they use."""
    uses = {name: its for name, its in libraries().items() if name not in statics()}
    is_program = lambda it: os.path.isfile(os.path.join(CRATES, it, "src", "main.rt"))
    return [it for it in dict.fromkeys([*uses, *sum(uses.values(), [])]) if not is_program(it)]


def point_inside(path, name):
    """Makes the paths of a suite's file, which begin at its own root, begin at that of the one crate."""
    with open(path, encoding="utf-8") as file:
        text = re.sub(r"(?<![\w:])crate::", f"crate::{name}::", file.read())
    with open(path, "w", encoding="utf-8") as file:
        file.write(text)
