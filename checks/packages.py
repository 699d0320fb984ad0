"""What the scripts that try the package have in common: what is made, for which Debian, and how it is told."""
import contextlib
import os
import shutil
import subprocess

from program import ROOT, program
from tries import leave_out

PATIENCE = 300


class Tally:
    """What passed, failed and was left out, told under a name."""

    def __init__(self, name):
        self.name = name
        self.passed = self.failed = self.skipped = 0

    def tell(self, name, is_well, why=""):
        """One line for each thing that was tried, and below a failure what was seen."""
        self.passed, self.failed = self.passed + bool(is_well), self.failed + (not is_well)
        print(f"{self.name}: {name}" if is_well else f"{self.name}: FAILED: {name}", flush=True)
        if not is_well and why:
            print("".join(f"    {line}\n" for line in str(why).splitlines()), end="")

    def same(self, name, seen, due):
        """Whether two sets are the same."""
        self.tell(name, seen == due, f"missing: {sorted(due - seen)}\ntoo many: {sorted(seen - due)}")

    def leave_out(self, name, why):
        self.skipped += 1
        leave_out(self.name, why, name)

    def end(self):
        """The last line, and the status."""
        print(f"{self.name}: {self.passed} passed, {self.failed} failed, {self.skipped} skipped")
        return 1 if self.failed else 0


def made(script, folder, *words, **how):
    """The files that a script of packaging/ makes of the program in a folder, by their names."""
    environment = {name: value for name, value in os.environ.items() if name not in ("DEBFULLNAME", "DEBEMAIL")}
    how["env"] = {**environment, **how.get("env", {})}
    ran = subprocess.run([os.path.join(ROOT, "packaging", script), "--program", program(), *words, folder],
                         stdin=subprocess.DEVNULL, capture_output=True, text=True, timeout=PATIENCE, **how)
    if ran.returncode:
        raise SystemExit(f"packaging/{script} ended with the status {ran.returncode}:\n{ran.stderr}")
    return ran.stdout.split("\n")[:-1]


def lintian(tally, *packages):
    """What lintian says of packages of Debian."""
    names = ", ".join(os.path.basename(it).partition("_")[0] for it in packages)
    if not shutil.which("lintian"):
        return tally.leave_out(f"what lintian says of {names}", "lintian is not installed")
    words = ["lintian", *(["--allow-root"] if os.geteuid() == 0 else []), *packages]
    ran = subprocess.run(words, stdout=subprocess.PIPE, text=True, timeout=PATIENCE)
    return tally.tell(f"lintian has nothing to say of {names}", not ran.stdout and not ran.returncode, ran.stdout)


def suite():
    """The machine's release of Debian, or the stable one."""
    with contextlib.suppress(OSError), open("/etc/os-release", encoding="utf-8") as file:
        told = dict(line.rstrip("\n").partition("=")[::2] for line in file)
        if told.get("ID") == "debian" and "VERSION_CODENAME" in told:
            return told["VERSION_CODENAME"]
    return "stable"
