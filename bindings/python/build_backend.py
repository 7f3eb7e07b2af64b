"""Builds this package for pip, with the Python of the machine and a C compiler alone: pip fetches nothing.

The assembly of the folder native, where there is one for this system and processor, becomes a shared library in the package.
The wheel is then for these, and whoever installs it needs no compiler. Without one the package calls an installed library.
pip finds these functions by pyproject.toml (PEP 517).
"""

import base64
import hashlib
import os
import platform
import re
import shutil
import subprocess
import sys
import sysconfig
import tarfile
import tempfile
import zipfile
from pathlib import Path

HERE = Path(__file__).resolve().parent
NATIVE = HERE / "native"
# The assembly by system and processor, as Python names them, and the name of the library there.
ASSEMBLY = {
    ("linux", "x86_64"): "x86_64-elf.s",
    ("linux", "aarch64"): "aarch64-elf.s",
    ("linux", "riscv64"): "riscv64-elf.s",
    ("darwin", "x86_64"): "x86_64-macho.s",
    ("darwin", "arm64"): "aarch64-macho.s",
}
LIBRARY = "libh3_qpack.so.0"
# What archives say of the time when a file changed, so that two builds are the same.
LONG_AGO = (1980, 1, 1, 0, 0, 0)


def get_requires_for_build_wheel(config_settings=None):
    return []


def get_requires_for_build_sdist(config_settings=None):
    return []


def build_wheel(wheel_directory, config_settings=None, metadata_directory=None):
    """Writes the wheel, and returns the name of its file."""
    about = read_project()
    name, version = about["name"], about["version"]
    text = find_assembly()
    tag = f"py3-none-{platform_tag()}" if text else "py3-none-any"
    info = f"{name}-{version}.dist-info"
    files = {f"{name}/{it.name}": it.read_bytes() for it in sorted((HERE / name).glob("*")) if it.is_file()}
    if text:
        files[f"{name}/{LIBRARY}"] = build_library(text)
    files[f"{info}/METADATA"] = metadata(about).encode()
    files[f"{info}/WHEEL"] = f"Wheel-Version: 1.0\nGenerator: h3_qpack\nRoot-Is-Purelib: {pure(tag)}\nTag: {tag}\n".encode()
    files[f"{info}/LICENSE"] = (HERE / "LICENSE").read_bytes()
    record = "".join(f"{path},sha256={digest(text)},{len(text)}\n" for path, text in files.items())
    files[f"{info}/RECORD"] = f"{record}{info}/RECORD,,\n".encode()
    wheel = f"{name}-{version}-{tag}.whl"
    with zipfile.ZipFile(Path(wheel_directory, wheel), "w", zipfile.ZIP_DEFLATED) as archive:
        for path, text in files.items():
            archive.writestr(zipfile.ZipInfo(path, LONG_AGO), text, zipfile.ZIP_DEFLATED)
    return wheel


def build_sdist(sdist_directory, config_settings=None):
    """Writes an archive of the sources, and returns the name of its file."""
    about = read_project()
    top = f"{about['name']}-{about['version']}"
    with tarfile.open(Path(sdist_directory, f"{top}.tar.gz"), "w:gz", format=tarfile.PAX_FORMAT) as archive:
        for path in sorted(HERE.rglob("*")):
            if path.is_file() and "__pycache__" not in path.parts:
                archive.add(path, f"{top}/{path.relative_to(HERE)}")
        with tempfile.TemporaryDirectory() as room:
            Path(room, "PKG-INFO").write_text(metadata(about), encoding="utf-8")
            archive.add(Path(room, "PKG-INFO"), f"{top}/PKG-INFO")
    return f"{top}.tar.gz"


def read_project():
    """Returns the words of pyproject.toml that are needed here. tomllib came with Python 3.11 only."""
    text = (HERE / "pyproject.toml").read_text(encoding="utf-8")
    found = dict(re.findall(r'^([\w-]+) = "(.*)"$', text, re.M))
    for key in ("classifiers", "dependencies"):
        line = re.search(rf"^{key} = \[(.*)\]$", text, re.M)
        found[key] = re.findall(r'"([^"]*)"', line[1]) if line else []
    return found


def metadata(about):
    """Returns the text of METADATA."""
    lines = [
        "Metadata-Version: 2.1",
        f"Name: {about['name']}",
        f"Version: {about['version']}",
        f"Summary: {about['description']}",
        f"Requires-Python: {about['requires-python']}",
        "License-File: LICENSE",
        *(f"Classifier: {it}" for it in about["classifiers"]),
        *(f"Requires-Dist: {it}" for it in about["dependencies"]),
    ]
    return "\n".join(lines) + "\n"


def pure(tag):
    return "true" if tag.endswith("-any") else "false"


def digest(text):
    """Returns the sum of a file as RECORD has it."""
    return base64.urlsafe_b64encode(hashlib.sha256(text).digest()).rstrip(b"=").decode()


def platform_tag():
    """Returns the name of this system and processor in the name of a wheel."""
    return re.sub(r"[^\w]", "_", sysconfig.get_platform())


def find_assembly():
    """Returns the name of the assembly for this system and processor, or none."""
    return ASSEMBLY.get((sys.platform, platform.machine())) if NATIVE.is_dir() else None


def build_library(text):
    """Returns the bytes of the shared library, which the C compiler makes of the assembly."""
    compiler = (os.environ.get("CC") or "cc").split()
    if not shutil.which(compiler[0]):
        sys.exit(f"h3_qpack: the C compiler {compiler[0]} is not there: install one, or set CC to its name")
    with tempfile.TemporaryDirectory() as room:
        made = Path(room, LIBRARY)
        kind = (
            ["-dynamiclib"]
            if sys.platform == "darwin"
            else [
                "-shared",
                f"-Wl,-soname,{LIBRARY}",
                "-Wl,--version-script,h3_qpack.map",
                "-Wl,-z,noexecstack",
                "-Wl,-s",
            ]
        )
        words = [*compiler, "-O2", "-g0", "-fPIC", "-fno-lto", *kind, "-I.", text, "h3_qpack.c", "heap.c", "-o", str(made)]
        ran = subprocess.run(words, cwd=NATIVE, stdin=subprocess.DEVNULL, capture_output=True, text=True, check=False)
        if ran.returncode:
            sys.exit(f"h3_qpack: the library can't be built: {ran.stderr.strip()}")
        return made.read_bytes()
