"""The build backend of pyproject.toml: packs a wheel with the standard library alone, so that pip needs no network.

    make python && python3 -m pip install ./python

As a program it compiles the extensions, which `make python` asks for.
"""

from __future__ import annotations

import base64
import hashlib
import subprocess
import sysconfig
import tomllib
import zipfile
from pathlib import Path

HERE = Path(__file__).resolve().parent
# Each is compiled from the file of its name; the package works without them.
EXTENSIONS = "_calls", "_system"


def compiled(name: str) -> Path:
    """Where an extension is when it is compiled: one file for every Python from 3.11 on."""
    return HERE / "palhavento" / f"{name}.abi3.so"


def compile_extensions() -> str:
    """Compile the extensions, and say what came of it."""
    # What an earlier run has left must not stay if this one fails.
    for name in EXTENSIONS:
        compiled(name).unlink(missing_ok=True)
    include = Path(sysconfig.get_path("include"))
    if not (include / "Python.h").exists():
        return "no extensions, for Python.h is not here (Debian has it in python3-dev); ctypes takes their place"
    flags = ["-shared", "-fPIC", "-O2", "-std=gnu11", "-Wall", "-Wextra", "-Wno-unused-parameter", "-Werror"]
    for name in EXTENSIONS:
        source = HERE / "palhavento" / f"{name}.c"
        command = ["gcc", *flags, f"-I{include}", f"-I{HERE.parent / 'include'}", source, "-o", compiled(name)]
        try:
            ran = subprocess.run(command, capture_output=True, text=True)
        except FileNotFoundError:
            return "no extensions, for gcc is not here; ctypes takes their place"
        if ran.returncode:
            return f"no extension {name}; ctypes takes its place:\n{ran.stderr}"
    return f"compiled {', '.join(EXTENSIONS)}"


def build_wheel(wheel_directory: str, config_settings: object = None, metadata_directory: object = None) -> str:
    """What pip calls: writes the wheel into a folder and gives its name. It is the library's, so of one platform."""
    return _wheel(wheel_directory, _package())


def build_editable(wheel_directory: str, config_settings: object = None, metadata_directory: object = None) -> str:
    """What `pip install -e` calls: a wheel that leads Python to this folder, where the package stays."""
    _package()
    return _wheel(wheel_directory, {"palhavento.pth": f"{HERE}\n".encode()})


def _package() -> dict[str, bytes]:
    files = {f"palhavento/{path.name}": path.read_bytes() for path in (HERE / "palhavento").iterdir() if path.is_file()}
    if "palhavento/libpalhavento.so" not in files:
        raise FileNotFoundError("the library is not built yet: run `make python` in the repository, then pip again")
    return files


def _beside(data: str) -> dict[str, bytes]:
    """What is installed beside the package: the script, which pip gives its own Python, the man page, the completion."""
    script = (HERE / "bin/palhavento").read_bytes()
    return {
        f"{data}/scripts/palhavento": b"#!python\n" + script.partition(b"\n")[2],
        f"{data}/data/share/man/man1/palhavento.1": (HERE / "man/palhavento.1").read_bytes(),
        f"{data}/data/share/bash-completion/completions/palhavento": (HERE / "completion/palhavento.bash").read_bytes(),
    }


def _wheel(folder: str, files: dict[str, bytes]) -> str:
    project = tomllib.loads((HERE / "pyproject.toml").read_text(encoding="utf-8"))["project"]
    release = f"{project['name']}-{project['version']}"
    tag = f"py3-none-{sysconfig.get_platform().replace('-', '_').replace('.', '_')}"
    about = {
        "METADATA": ["Metadata-Version: 2.1", f"Name: {project['name']}", f"Version: {project['version']}",
                     f"Summary: {project['description']}", f"Requires-Python: {project['requires-python']}"],
        "WHEEL": ["Wheel-Version: 1.0", "Generator: palhavento", "Root-Is-Purelib: false", f"Tag: {tag}"],
    }
    files |= _beside(f"{release}.data")
    files |= {f"{release}.dist-info/{name}": "\n".join([*lines, ""]).encode() for name, lines in about.items()}
    record = f"{release}.dist-info/RECORD"
    files[record] = "".join(f"{name},{_sum(content)},{len(content)}\n" for name, content in files.items()).encode()
    files[record] += f"{record},,\n".encode()
    with zipfile.ZipFile(Path(folder) / f"{release}-{tag}.whl", "w") as wheel:
        for name, content in files.items():
            member = zipfile.ZipInfo(name)
            member.compress_type = zipfile.ZIP_DEFLATED
            # Only so does pip install a script that can be run.
            member.external_attr = (0o100755 if "/scripts/" in name else 0o100644) << 16
            wheel.writestr(member, content)
    return f"{release}-{tag}.whl"


def _sum(content: bytes) -> str:
    return "sha256=" + base64.urlsafe_b64encode(hashlib.sha256(content).digest()).rstrip(b"=").decode()


if __name__ == "__main__":
    print(f"palhavento: {compile_extensions()}")
