"""The toolchain's command `rt` as a module, for what its words do not offer: proofs and edits side by side."""
import importlib.machinery
import importlib.util
import os
import shutil
import subprocess
import sys

from program import PATIENCE

sys.dont_write_bytecode = True
USED = ("in_lanes", "need", "must_fail", "checked", "rtlib")


def toolchain():
    """The module, or None where this release has not what the scripts use of it."""
    found = shutil.which("rt")
    if not found:
        sys.exit(f"{os.path.basename(sys.argv[0])}: the Rattle toolchain's command `rt` is not on the PATH")
    loader = importlib.machinery.SourceFileLoader("rt_of_kit", os.path.realpath(found))
    made = importlib.util.module_from_spec(importlib.util.spec_from_loader("rt_of_kit", loader))
    try:
        loader.exec_module(made)
    except Exception:  # another release may be no Python at all
        return None
    return made if all(hasattr(made, it) for it in USED) and hasattr(made.rtlib.Crate, "build_rlib") else None


def version():
    """The line of `rt version`, or None where no `rt` on the PATH tells one."""
    found = shutil.which("rt")
    how = {"stdin": subprocess.DEVNULL, "stdout": subprocess.PIPE, "stderr": subprocess.DEVNULL, "text": True, "errors": "replace"}
    try:
        asked = subprocess.run([found, "version"], timeout=PATIENCE, **how) if found else None
    except (OSError, subprocess.TimeoutExpired):
        return None
    lines = asked.stdout.split("\n") if asked and not asked.returncode else []
    return lines[0].strip() or None if lines else None


def is_refusal(rt, verdict):
    """Whether what `must_fail` answers of an edit is that the prover refused it. Some releases have words for it, others say yes or no."""
    words = [getattr(rt, name) for name in ("REFUSED", "AT_LIMIT") if hasattr(rt, name)]
    return verdict in words if words else verdict is True
