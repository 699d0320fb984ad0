"""Writes the wheel of lib/python: wheel.py ROOT LIBRARY PLAIN SECOND FILE, where packaging/wheel calls it.

ROOT is the repository, LIBRARY the shared library that goes in, PLAIN the version that pyproject.toml has to tell, and SECOND the
time of each file. The name of FILE has the version and the tag of the wheel. The exit status is 1 where pyproject.toml tells
another version, or something of it that is not known here.
"""
import base64
import hashlib
import os
import sys
import time
import tomllib
import zipfile

# What of pyproject.toml goes into the metadata. Anything else there ends the script, so that nothing is lost unseen.
KNOWN = {"name", "version", "description", "readme", "requires-python", "license", "classifiers", "optional-dependencies", "scripts"}


class Wheel:
    """A wheel that is written: each file with its hash, all of one time."""

    def __init__(self, file, second):
        self.zip = zipfile.ZipFile(file, "w", zipfile.ZIP_DEFLATED, compresslevel=9)
        self.time = time.gmtime(max(second, 315532800))[:6]  # (a zip knows no year before 1980)
        self.record = []

    def add(self, name, data):
        entry = zipfile.ZipInfo(name, self.time)
        entry.compress_type, entry.create_system, entry.external_attr = zipfile.ZIP_DEFLATED, 3, 0o100644 << 16
        self.zip.writestr(entry, data)
        told = base64.urlsafe_b64encode(hashlib.sha256(data).digest()).rstrip(b"=").decode()
        self.record.append(f"{name},sha256={told},{len(data)}\n")

    def end(self, info):
        name = f"{info}/RECORD"
        entries = "".join(sorted(self.record)) + f"{name},,\n"
        self.add(name, entries.encode())
        self.zip.close()


def read(*names):
    with open(os.path.join(*names), "rb") as file:
        return file.read()


def metadata(project, version, readme):
    """The description of the package, as pyproject.toml has it."""
    unknown = set(project) - KNOWN
    if unknown:
        sys.exit(f"packaging/wheel.py does not know what to do with {', '.join(sorted(unknown))} of lib/python/pyproject.toml")
    lines = ["Metadata-Version: 2.1", f"Name: {project['name']}", f"Version: {version}", f"Summary: {project['description']}",
             f"License: {project['license']['text']}", *(f"Classifier: {it}" for it in project["classifiers"]),
             f"Requires-Python: {project['requires-python']}", "Description-Content-Type: text/markdown"]
    for extra, needs in project["optional-dependencies"].items():
        lines += [f"Provides-Extra: {extra}", *(f'Requires-Dist: {it}; extra == "{extra}"' for it in needs)]
    return "\n".join(lines).encode() + b"\n\n" + readme


def main():
    root, library, plain, second, file = sys.argv[1:]
    place = os.path.join(root, "lib", "python")
    settings = tomllib.loads(read(place, "pyproject.toml").decode())
    project, packages = settings["project"], settings["tool"]["setuptools"]["packages"]
    if project["version"] != plain:
        sys.exit(f"lib/python/pyproject.toml has the version {project['version']}, and lib/c/topichub.h {plain}")
    name, version, python, abi, platform = os.path.basename(file).removesuffix(".whl").split("-")
    wheel, info = Wheel(file, int(second)), f"{name}-{version}.dist-info"
    for package in packages:
        extra = settings["tool"]["setuptools"]["package-data"].get(package, [])
        for it in sorted(os.listdir(os.path.join(place, package))):
            if it.endswith(".py") or it in extra:
                wheel.add(f"{package}/{it}", read(place, package, it))
    wheel.add(f"{packages[0]}/libtopichub.so", read(library))
    wheel.add(f"{info}/LICENSE", read(root, "LICENSE"))
    wheel.add(f"{info}/METADATA", metadata(project, version, read(place, project["readme"])))
    wheel.add(f"{info}/WHEEL", f"Wheel-Version: 1.0\nGenerator: topichub packaging/wheel\nRoot-Is-Purelib: false\n"
              f"Tag: {python}-{abi}-{platform}\n".encode())
    scripts = "".join(f"{script} = {where}\n" for script, where in project["scripts"].items())
    wheel.add(f"{info}/entry_points.txt", f"[console_scripts]\n{scripts}".encode())
    wheel.add(f"{info}/copyright", read(root, "packaging", "debian", "copyright"))
    wheel.end(info)


if __name__ == "__main__":
    main()
