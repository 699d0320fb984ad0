"""Which library is loaded, and what it tells of itself."""
import os
import re
import shutil
import subprocess
import sys

import pytest

from topichub import _library, build

HERE = os.path.dirname(os.path.abspath(__file__))
HEADER = os.path.join(HERE, "..", "..", "c", "topichub.h")


def test_a_library_tells_how_it_was_built():
    assert build() == _library.Build(_library.library().topichub_build()).name.lower()


@pytest.mark.parametrize("number, word", enumerate(("given", "proved", "checked", "unchecked", "given")))
def test_each_number_has_its_word_and_one_of_a_later_version_tells_nothing(monkeypatch, number, word):
    pretended = type("Pretended", (), {"topichub_build": staticmethod(lambda: number)})
    monkeypatch.setattr(_library, "library", lambda: pretended)
    assert build() == word


def test_a_library_of_an_older_build_is_named(monkeypatch):
    monkeypatch.setattr(_library, "library", lambda: type("Pretended", (), {"_name": "/old/libtopichub.so"}))
    with pytest.raises(ImportError, match="/old/libtopichub.so is of an older build"):
        build()


@pytest.mark.skipif(not os.path.exists(HEADER), reason="the header is not beside this package")
def test_the_builds_are_those_of_the_header():
    with open(HEADER, encoding="utf-8") as file:
        header = re.findall(r"^#define TOPICHUB_BUILD_(\w+) (\d+)", file.read(), re.MULTILINE)
    assert {it.name: it.value for it in _library.Build} == {name: int(number) for name, number in header}


def test_where_there_is_no_library_it_is_said_what_to_do(monkeypatch, tmp_path):
    monkeypatch.delenv("TOPICHUB_LIBRARY", raising=False)
    monkeypatch.setattr(_library, "_PLACES", ())
    monkeypatch.setattr(_library, "SONAME", "libtopichub-is-nowhere.so")
    with pytest.raises(ImportError, match="make -C lib/c fast.*docs/INSTALL.md"):
        _library.library.__wrapped__()
    monkeypatch.setenv("TOPICHUB_LIBRARY", str(tmp_path / "none.so"))
    with pytest.raises(ImportError, match="none.so.*TOPICHUB_LIBRARY names it"):
        _library.library.__wrapped__()


def test_in_a_clone_the_proved_library_is_found_before_the_other(tmp_path):
    loaded = _library.library()._name
    if not os.path.isfile(loaded):
        pytest.skip("the library is an installed one")
    package, folder = tmp_path / "lib" / "python", tmp_path / "lib" / "c" / "build"
    left_out = shutil.ignore_patterns("__pycache__", "*.so*")
    shutil.copytree(os.path.dirname(_library.__file__), package / "topichub", ignore=left_out)
    (folder / "fast").mkdir(parents=True)
    environment = {name: word for name, word in os.environ.items() if name != "TOPICHUB_LIBRARY"}
    for place in (folder / "fast", folder):
        shutil.copy(loaded, place / "libtopichub.so")
        script = "from topichub import _library; print(_library.library()._name)"
        words = [sys.executable, "-B", "-c", script]
        printed = subprocess.run(words, cwd=package, env=environment, stdout=subprocess.PIPE, text=True, check=True).stdout
        assert os.path.realpath(printed.strip()) == str(place / "libtopichub.so")
