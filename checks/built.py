"""Other programs that the scripts build: in plain Rust, and in Rust on Tokio."""
import ctypes
import functools
import glob
import os
import shutil
import signal
import subprocess
import sys

import apart
import kit
from program import ROOT

OPTIMIZED = ("--edition", "2024", "-C", "opt-level=3", "-C", "codegen-units=1", "-C", "panic=abort")
# For programs whose calls are timed beside those of bench/programs, which are for any x86-64 processor too.
FOR_CALLS = ("--edition", "2021", "-O", "-C", "target-cpu=x86-64")
REGISTRY = "/usr/share/cargo/registry"
MANIFEST = """[package]
name = "on_tokio"
version = "0.0.0"
edition = "2021"

[dependencies]
tokio = {{ version = "1", default-features = false, features = [{features}] }}
"""
PROGRAM = """
[[bin]]
name = "{name}"
path = "{source}"
"""
CRATE = os.path.join(ROOT, "lib", "rust")
C = os.path.join(ROOT, "lib", "c")
HEADER = os.path.join(C, "topichub.h")
ARCHIVE = os.path.join(ROOT, "crates", "th_c", "out", "libth_c.a")
FAST = os.path.join(C, "build", "fast")  # where `make fast` puts what it makes
# What a library is that answers these numbers, the TOPICHUB_BUILD_.. of the header.
KINDS = {0: "made of an archive that was given by hand", 1: "proved", 2: "compiled with run-time checks, not proved",
         3: "neither proved nor checked"}


def need_tool(tool, what):
    """Ends the script where the tool is not installed."""
    if not shutil.which(tool):
        sys.exit(f"there is no {tool}, which {what}")


def compiled(name, folder, flags=OPTIMIZED):
    """The plain Rust program bench/NAME.rs, in the folder."""
    need_tool("rustc", f"compiles bench/{name}.rs")
    program = os.path.join(folder, name)
    subprocess.run(["rustc", *flags, "-o", program, os.path.join(ROOT, "bench", name + ".rs")], check=True)
    return program


def archive():
    """Proves th_c and builds its archive, over the crates below it as `rt ci` has just built them here; of these it proves none again, as
    `rt lib` would. The end of what was said where it did not succeed, else nothing."""
    rt = kit.toolchain()
    lacking = [it for it in apart.below("th_c")[:-1] if not os.path.isdir(os.path.join(ROOT, "crates", it, "out", "rlib", it + ".rlib"))]
    if not rt or lacking:
        return f"there is no library {lacking[0]} here" if lacking else "this release of the toolchain (rt version) has no such step; kit 13b has"
    rt.rtlib.guarded()
    folder = os.path.join(ROOT, "crates", "th_c")
    os.makedirs(os.path.join(folder, "out"), exist_ok=True)
    crate = next(it for it in rt.rtlib.crates_below(folder) if it.name == "th_c")
    with open(os.path.join(folder, "out", "archive.log"), "w+", encoding="utf-8", errors="replace") as crate.out:
        held = rt.rtlib.lock([crate])
        status = crate.build_static(["--jobs", str(os.cpu_count() or 1)])
        del held
        crate.out.seek(0)
        if not status:
            os.utime(ARCHIVE)  # as lib/c does it: one that was kept may be older than sources that were only written again
        return crate.out.read()[-2000:] if status else ""


def is_proved():
    """Whether the archive of th_c is here, and not older than the sources of th_c and of the crates below it. It is proved then."""
    question = ["make", "--quiet", "--question", "-C", C, os.path.realpath(ARCHIVE)]
    return os.path.isfile(ARCHIVE) and bool(shutil.which("make")) and subprocess.run(question).returncode == 0


@functools.cache
def proved_library(folder):
    """A folder with libtopichub.a and libtopichub.so: what TOPICHUB_LIB_DIR names, or one in this folder, where lib/c makes them of
    the proved archive of th_c. None where that is not here."""
    named = os.environ.get("TOPICHUB_LIB_DIR")
    if named or not is_proved():
        return named and os.path.abspath(named)
    made = os.path.join(folder, "libtopichub")
    subprocess.run(["make", "--quiet", "-C", C, "BUILD=" + made], check=True, stdout=sys.stderr)
    return made


@functools.cache
def library(folder):
    """Such a folder: that of `proved_library`, else the one in which `make fast` keeps what it has compiled without proofs. None where
    that cannot be made."""
    return proved_library(folder) or fast_library()


def fast_library():
    made = shutil.which("make") and subprocess.run(["make", "--quiet", "-C", C, "fast"], stdout=sys.stderr).returncode == 0
    return FAST if made else None


def kind(library):
    """What the library in a folder says how it was built."""
    try:
        return KINDS[ctypes.CDLL(os.path.join(library, "libtopichub.so")).topichub_build()]
    except (OSError, AttributeError, KeyError):
        return "of an unknown kind"


def c_program(name, library, folder):
    """The program bench/NAME.c over the library in its folder, with the channels that block, in the other folder."""
    need_tool("gcc", f"compiles bench/{name}.c")
    program = os.path.join(folder, name)
    subprocess.run(["gcc", "-O2", "-pthread", "-I", os.path.join(ROOT, "lib", "c"), "-o", program,
                    os.path.join(ROOT, "bench", name + ".c"), os.path.join(C, "topichub_threads.c"),
                    os.path.join(library, "libtopichub.a")], check=True)
    return program


def tokio_version():
    """The name and the version of the Tokio that Debian packages; None where it is not installed."""
    found = sorted(glob.glob(os.path.join(REGISTRY, "tokio-[0-9]*")))
    return os.path.basename(found[-1]) if found else None


def on_tokio(sources, features, folder, with_crate=False, profile="release"):
    """Rust programs, by the paths of their sources, which are from the root on, on Debian's Tokio and, if that is asked for, on the
    crate of lib/rust: their own paths, in the folder. Nothing is downloaded: the package librust-tokio-dev has the sources of
    Tokio, and of all that it takes."""
    need_tool("cargo", f"compiles {sources[0]}")
    names = [os.path.splitext(os.path.basename(source))[0] for source in sources]
    with open(os.path.join(folder, "Cargo.toml"), "w") as manifest:
        manifest.write(MANIFEST.format(features=", ".join(f'"{feature}"' for feature in features)))
        if with_crate:
            manifest.write(f'topichub = {{ path = "{CRATE}" }}\n')
        for name, source in zip(names, sources):
            manifest.write(PROGRAM.format(name=name, source=os.path.join(ROOT, source)))
    target = os.path.join(folder, "target")
    subprocess.run(cargo_words("build", "--quiet", "--profile", profile), cwd=folder, check=True,
                   env={**os.environ, "CARGO_TARGET_DIR": target})
    return [os.path.join(target, {"dev": "debug"}.get(profile, profile), name) for name in names]


def cargo_words(*words):
    """Cargo's command line, over Debian's packages of crates where they are installed. It downloads nothing."""
    registry = ["--config", 'source.crates-io.replace-with="debian"',
                "--config", f'source.debian.directory="{REGISTRY}"'] if os.path.isdir(REGISTRY) else []
    return ["cargo", *registry, words[0], "--offline", *words[1:]]


def in_time(words, seconds, **how):
    """The status of a command, and what it printed. After so many seconds it is stopped, with all that it has started."""
    how = {"stdin": subprocess.DEVNULL, "stdout": subprocess.PIPE, "stderr": subprocess.STDOUT, "text": True, **how}
    with subprocess.Popen(words, start_new_session=True, **how) as process:
        try:
            printed = process.communicate(timeout=seconds)[0]
        except subprocess.TimeoutExpired:
            os.killpg(process.pid, signal.SIGKILL)
            printed = process.communicate()[0] + f"\nit was stopped after {seconds} seconds\n"
    return process.returncode, printed
