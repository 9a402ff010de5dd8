"""The package against the header, its own examples and its types."""

import doctest
import os
import pkgutil
import re
import subprocess
import sys
from importlib import import_module
from importlib.metadata import version
from pathlib import Path

import pytest

import cinorbis
from cinorbis import _header, _native

HERE = Path(cinorbis.__file__).parent
TOP = Path(os.environ.get("CINORBIS_TOP", Path(__file__).parents[2]))


def test_header_is_the_projects():
    made = [sys.executable, TOP / "tools/header.py", "python"]
    text = subprocess.run(made, capture_output=True, text=True, check=True).stdout
    assert text == Path(_header.__file__).read_text()
    declared = re.findall(r"\b(cinorbis_\w+)\(", (TOP / "include/cinorbis.h").read_text())
    assert set(_header.CALLS) == set(declared) - {"cinorbis_refusal_text"}
    assert cinorbis.__version__ == f"{_header.VERSION}.{(TOP / 'RELEASE').read_text().strip()}" == version("cinorbis")


def test_every_call_is_there():
    """Each call of the header is called by its name somewhere in the package."""
    source = "".join(path.read_text() for path in HERE.glob("*.py") if path.name != "_header.py")
    shortened = "cinorbis_encode_shortened cinorbis_inverse_shortened"
    coded = '"cinorbis_encode" "cinorbis_inverse" ' + shortened  # made of parts in _words.py
    left = {name for name in _header.CALLS if not re.search(rf"\b{name}\b", source + coded)}
    assert left == set()


def test_versions_are_compared(tmp_path):
    package = tmp_path / "cinorbis"
    package.mkdir()
    for path in HERE.iterdir():
        if path.is_file():
            (package / path.name).write_bytes(path.read_bytes())
    right, wrong = _header.VERSION, int(f"1{_header.VERSION}")
    other = (package / _native.NAME).rename(package / f"libcinorbis.so.{wrong}")
    header = package / "_header.py"
    old, new = f"VERSION: Final = {right}\n", f"VERSION: Final = {wrong}\n"
    header.write_text(header.read_text().replace(old, new))

    def imported():
        environment = {**os.environ, "PYTHONPATH": str(tmp_path)}
        command = [sys.executable, "-c", "import cinorbis"]
        run = subprocess.run(command, cwd=tmp_path, env=environment, capture_output=True, text=True)
        assert run.returncode == 1
        return run.stderr

    assert f"has version {right}, this package needs {wrong}" in imported()
    other.write_bytes(b"nothing")
    assert "cannot be loaded on this machine" in imported()
    other.unlink()
    assert "cannot be loaded on this machine" in imported()


MODULES = sorted(one.name for one in pkgutil.iter_modules(cinorbis.__path__)) + [""]


@pytest.mark.parametrize("name", [one for one in MODULES if one != "__main__"])
def test_examples(name):
    assert doctest.testmod(import_module(f"cinorbis.{name}".rstrip("."))).failed == 0


def test_the_readme_runs():
    found = doctest.testfile(str(TOP / "python/README.md"), module_relative=False)
    assert found.attempted > 5 and found.failed == 0


def test_everything_public_has_words():
    for name in cinorbis.__all__:
        one = getattr(cinorbis, name)
        assert not callable(one) or one.__doc__, name


def test_lines_to_be_believed():
    """How many lines docs/TRUST.md says that the package has."""

    def lines(*paths):
        return sum(bool(one.strip()) for path in paths for one in path.read_text().splitlines())

    source, rows = TOP / "python/src/cinorbis", TOP / "python/native/rows.c"
    trust = re.sub(r"<!--.*?-->", "", (TOP / "docs/TRUST.md").read_text())
    assert f"`python/src/cinorbis`, {lines(*source.glob('*.py')):,} lines" in trust
    assert f"`python/native/rows.c`, {lines(rows):,} lines" in trust


def test_types():
    options = [
        "--strict",
        "--cache-dir",
        os.devnull,
        "--config-file",
        TOP / "python/pyproject.toml",
    ]
    command = [sys.executable, "-m", "mypy", *options, HERE]
    run = subprocess.run(command, capture_output=True, text=True)
    assert run.returncode == 0, run.stdout
