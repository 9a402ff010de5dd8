"""backend.py [CPU [OUT]]: the wheel for a processor (that at hand), into OUT (target/python).

It is the build backend too, so `pip install ./python` works where a C compiler is. The archive
comes from tools/archive, which makes it of the proved module, or of c/cinorbis.c where there is no
rt, and says which. A C compiler links it with native/rows.c into the one shared object: cc, or for
another processor CPU-linux-gnu-gcc, or what CC names. ARCHIVE names an archive that is made
already. Of the standard library alone, and the same bytes each time.
"""

import base64
import hashlib
import os
import platform
import shutil
import subprocess
import sys
import tempfile
import zipfile
from pathlib import Path
from typing import Any, Optional

HERE = Path(__file__).resolve().parent
TOP = HERE.parent
sys.path.insert(0, str(TOP / "tools"))
import header  # noqa: E402

# the oldest C library that pip knows for each processor; of it memcpy and memset are asked for
TAGS = {
    "x86_64": "manylinux_2_17_x86_64",
    "aarch64": "manylinux_2_17_aarch64",
    "riscv64": "manylinux_2_31_riscv64",
}
METADATA = """Metadata-Version: 2.1
Name: cinorbis
Version: {version}
Summary: A proved decoder of Reed-Muller codes, over NumPy arrays
Requires-Python: >=3.9
Requires-Dist: numpy (>=1.21)
Provides-Extra: plot
Requires-Dist: matplotlib ; extra == 'plot'
Description-Content-Type: text/markdown

{readme}"""
SCRIPTS = "[console_scripts]\ncinorbis-capture = cinorbis.__main__:run\n"
WHEEL = "Wheel-Version: 1.0\nGenerator: cinorbis\nRoot-Is-Purelib: false\nTag: py3-none-{tag}\n"


def shared_object(cpu: str, name: str) -> bytes:
    """The archive and native/rows.c as one shared object.

    No C library is named: memcpy and memset are those of the Python that loads it.
    """
    kit = shutil.which("rt")
    # what is made of the C is kept apart from what is made of the proved module
    kept = TOP / "target" / "python" / ("" if kit else "c") / cpu / "libcinorbis.a"
    archive = Path(os.environ.get("ARCHIVE") or kept).absolute()
    if not os.environ.get("ARCHIVE"):
        made_first = [TOP / "tools" / "archive", cpu, archive]
        if subprocess.run(made_first, cwd=TOP, stdout=sys.stderr).returncode:
            raise SystemExit(f"wheel: there is no archive for {cpu}")  # it has said why
    own = "cc" if cpu == platform.machine() else f"{cpu}-linux-gnu-gcc"
    compiler = os.environ.get("CC", own).split()
    flags = "-std=c99 -O2 -Wall -Wextra -fPIC -shared -nostdlib -s".split()
    if kit:  # a user's compiler may warn of what none here does
        flags.append("-Werror")
    linked = ["-Bsymbolic", "-z,noexecstack", "--build-id=none", f"-soname,{name}"]
    whole = ["-Wl,--whole-archive", archive, "-Wl,--no-whole-archive"]
    command = [*compiler, *flags, *(f"-Wl,{one}" for one in linked), "-I", TOP / "include"]
    with tempfile.TemporaryDirectory() as room:
        made = Path(room) / name
        try:
            subprocess.run([*command, "-o", made, HERE / "native" / "rows.c", *whole], check=True)
        except FileNotFoundError:
            raise SystemExit(f"wheel: {compiler[0]} is missing; CC names another") from None
        return made.read_bytes()


def files(cpu: str) -> tuple[str, dict[str, bytes]]:
    """The wheel's name, and its files."""
    if cpu not in TAGS:
        raise SystemExit(f"wheel: {cpu} is not one of {', '.join(TAGS)}")
    read = header.read()
    number = read.constants["VERSION"]
    release = (TOP / "RELEASE").read_text().strip()
    version, info = f"{number}.{release}", f"cinorbis-{number}.{release}.dist-info"
    package = {"_header.py": header.python(read).encode()}
    package["_release.py"] = f'"""Made from the file RELEASE."""\n\nRELEASE = {release}\n'.encode()
    for path in sorted((HERE / "src" / "cinorbis").iterdir()):
        if path.suffix in (".py", ".typed"):
            package[path.name] = path.read_bytes()
    name = f"libcinorbis.so.{number}"
    package[name] = shared_object(cpu, name)
    out = {f"cinorbis/{name}": data for name, data in sorted(package.items())}
    readme = (HERE / "README.md").read_text(encoding="utf-8")
    out[f"{info}/METADATA"] = METADATA.format(version=version, readme=readme).encode()
    out[f"{info}/WHEEL"] = WHEEL.format(tag=TAGS[cpu]).encode()
    out[f"{info}/entry_points.txt"] = SCRIPTS.encode()
    record = ""
    for name, data in out.items():
        digest = base64.urlsafe_b64encode(hashlib.sha256(data).digest()).rstrip(b"=").decode()
        record += f"{name},sha256={digest},{len(data)}\n"
    out[f"{info}/RECORD"] = f"{record}{info}/RECORD,,\n".encode()
    return f"cinorbis-{version}-py3-none-{TAGS[cpu]}.whl", out


def wheel(cpu: str, folder: Path) -> str:
    """Writes the wheel into a folder: its name."""
    name, contents = files(cpu)
    folder.mkdir(parents=True, exist_ok=True)
    with zipfile.ZipFile(folder / name, "w") as out:
        for path, data in contents.items():
            entry = zipfile.ZipInfo(path, (1980, 1, 1, 0, 0, 0))
            entry.external_attr = (0o755 if ".so." in path else 0o644) << 16
            entry.compress_type = zipfile.ZIP_DEFLATED
            out.writestr(entry, data)
    return name


def build_wheel(
    wheel_directory: str,
    config_settings: Optional[Any] = None,
    metadata_directory: Optional[str] = None,
) -> str:
    """What pip calls (PEP 517)."""
    return wheel(platform.machine(), Path(wheel_directory))


def build_sdist(sdist_directory: str, config_settings: Optional[Any] = None) -> str:
    """What pip calls (PEP 517)."""
    raise SystemExit("there is no source distribution: the repository's own tools make the library")


if __name__ == "__main__":
    if len(sys.argv) > 3 or any(one.startswith("-") for one in sys.argv[1:]):
        sys.exit("usage: wheel [CPU [OUT]]: a wheel for x86_64, aarch64 or riscv64")
    asked = sys.argv[1] if len(sys.argv) > 1 else platform.machine()
    into = Path(sys.argv[2]) if len(sys.argv) > 2 else TOP / "target" / "python"
    try:
        print(into / wheel(asked, into))
    except subprocess.CalledProcessError as error:  # it has said why
        sys.exit(f"wheel: {Path(error.cmd[0]).name} has failed")
