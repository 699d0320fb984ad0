"""A folder that is the root of a system, in which dpkg installs packages and programs run, and nothing of the machine is touched.

It has what the C library, a shell and the basic commands need, copied from the packages of the machine; or it is a whole
Debian, which `debootstrap` fetches. It takes root's rights, or those that `unshare --map-root-user` gives.
"""
import contextlib
import os
import re
import shutil
import subprocess
import tempfile

from program import PATIENCE

PACKAGES = ("libc6", "dash", "coreutils")
# Not needed to run anything, and large.
LEFT_OUT = ("/usr/share/doc/", "/usr/share/man/", "/usr/share/locale/", "/usr/share/info/")
FETCHING = 900  # seconds that debootstrap may take
PATH = "/usr/local/sbin:/usr/local/bin:/usr/sbin:/usr/bin:/sbin:/bin"
ENVIRONMENT = {"PATH": PATH, "LC_ALL": "C.UTF-8", "DEBIAN_FRONTEND": "noninteractive"}
AS_ROOT = [] if os.geteuid() == 0 else ["unshare", "--map-root-user"]


def run(*words, patience=PATIENCE, **how):
    """Runs a command as root, and returns its status, its output and its errors."""
    return subprocess.run([*AS_ROOT, *words], capture_output=True, timeout=patience, env=ENVIRONMENT, **how)


def missing():
    """Why no root can be made here, or nothing."""
    for tool in ("dpkg", "dpkg-query", "chroot", *AS_ROOT[:1]):
        if not shutil.which(tool, path=PATH):
            return f"{tool} is not installed"
    if run("chroot", "/", "true").returncode != 0:
        return "there are no rights to change the root"
    return ""


def query(form, *packages):
    return subprocess.run(["dpkg-query", *form, *packages], stdout=subprocess.PIPE, text=True, check=True, timeout=PATIENCE,
                          env=ENVIRONMENT).stdout


def with_dependencies(packages):
    """The packages and all that they depend on, as the machine has them."""
    found, due = set(), list(packages)
    while due:
        package = due.pop()
        if package in found:
            continue
        found.add(package)
        for wanted in query(["-Wf", "${Pre-Depends}, ${Depends}"], package).split(","):
            name = re.split(r"[ :(|]", wanted.strip())[0]
            if name:
                due.append(name)
    return sorted(found)


class Root:
    """The root in a folder."""

    def __init__(self, folder):
        self.folder = folder

    def path(self, *parts):
        return os.path.join(self.folder, *parts)

    def copy_machine(self):
        """Makes it of the machine's own packages."""
        for name in ("bin", "sbin", "lib", "lib32", "lib64", "libx32"):
            if os.path.islink(f"/{name}"):
                os.symlink(os.readlink(f"/{name}"), self.path(name))
        info = "var/lib/dpkg/info"
        for folder in (info, "var/lib/dpkg/updates", "usr/bin", "usr/sbin", "usr/lib", "usr/lib64", "tmp", "run", "proc", "dev"):
            os.makedirs(self.path(folder), exist_ok=True)
        packages = with_dependencies(PACKAGES)
        with open(self.path("var/lib/dpkg/status"), "w", encoding="utf-8") as status:
            status.write(query(["-s"], *packages) + "\n")
        for package in packages:
            files = query(["-L"], package).splitlines()
            listed = query(["-Wf", "${binary:Package}"], package)
            with open(self.path(info, f"{listed}.list"), "w", encoding="utf-8") as file:
                file.write("\n".join(files) + "\n")
            for it in files:
                if not it.startswith(LEFT_OUT):
                    self.copy(it)

    def copy(self, it):
        to = self.path(it.lstrip("/"))
        if os.path.isdir(it):
            if not os.path.lexists(to):
                os.makedirs(to)
        elif os.path.lexists(it) and not os.path.lexists(to):
            os.makedirs(os.path.dirname(to), exist_ok=True)
            shutil.copy2(it, to, follow_symlinks=False)

    def fetch_debian(self, suite, *packages):
        """Makes it of Debian's packages, from the network: the least that there is, and those that are named."""
        wanted = [f"--include={','.join(packages)}"] if packages else []
        return run("debootstrap", "--variant=minbase", *wanted, suite, self.folder, patience=FETCHING)

    def dpkg(self, *words):
        """Runs dpkg on this root, and takes every file of a package, whatever the machine leaves out."""
        return run("dpkg", f"--root={self.folder}", f"--log={self.path('var/lib/dpkg/log')}", "--path-include=*", *words)

    def inside(self, *words, **how):
        """Runs a command with this root."""
        return run("chroot", self.folder, *words, **how)

    def inside_with_processes(self, *words, **how):
        """The same, with a /proc, which compilers look into. It goes with the command, and nothing stays mounted."""
        return run("unshare", "--pid", "--fork", "--kill-child", f"--mount-proc={self.path('proc')}", "chroot", self.folder, *words, **how)

    def files(self):
        """Every path, but for what dpkg keeps for itself."""
        found = set()
        for at, folders, files in os.walk(self.folder):
            found |= {os.path.join(at, name) for name in folders + files}
        own = self.path("var/lib/dpkg/")
        return {it for it in found if not it.startswith(own) or "/info/topichub" in it or "/info/libtopichub" in it}


@contextlib.contextmanager
def new_root(suite, *packages):
    """A root in a folder that goes again; made as root, it may have files that only root can remove. It is a copy of the machine's own,
    or a whole Debian of the suite that is named, with these packages besides."""
    folder = tempfile.mkdtemp(prefix="package-")
    try:
        root = Root(folder)
        if suite:
            ran = root.fetch_debian(suite, *packages)
            if ran.returncode:
                raise SystemExit(f"debootstrap ended with the status {ran.returncode}:\n{ran.stdout.decode()}{ran.stderr.decode()}")
        else:
            root.copy_machine()
        yield root
    finally:
        run("rm", "-rf", "--one-file-system", folder)
