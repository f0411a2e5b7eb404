# SPDX-License-Identifier: MIT OR Apache-2.0
"""Builds the wheel and the sdist, with Python's standard library only, so that `pip install` needs no network (PEP 517, PEP 660).

Both have the package and the C library: that of BPFTAP_LIBRARY, else the one of an sdist, else the one that `./build bpftap_c` makes in
out/lib. What `pip install -e` installs names this folder, and takes the library from out/lib.
"""
import ast
import base64
import gzip
import hashlib
import io
import os
import pathlib
import platform
import re
import tarfile
import zipfile

HERE = pathlib.Path(__file__).resolve().parent
NAME, LIBRARY = "bpftap", "libbpftap.so.1"
# The library names no C library, so that one wheel serves glibc and musl: of each, the platforms. Old versions of pip know one name of the first.
SYSTEMS = ["manylinux_2_17", "manylinux2014", "musllinux_1_1"]
# The machine that a library is for, as its file has it at this byte.
MACHINES, MACHINE_AT = {62: "x86_64", 183: "aarch64"}, 18
# The same sources make the same files, byte for byte: all are dated to 2020.
DATE = (2020, 1, 1, 0, 0, 0)
SECONDS = 1577836800


def _field(name):
    """What pyproject.toml has for a field: a text, or a list of texts."""
    text = (HERE / "pyproject.toml").read_text()
    return ast.literal_eval(re.search(rf'^{name} = ("[^"]*"|\[[^\]]*\])$', text, re.M)[1])


def _machine(library):
    """The machine that a library is for."""
    machine = MACHINES.get(int.from_bytes(library[MACHINE_AT:][:2], "little"))
    if library[:4] != b"\x7fELF" or not machine:
        raise SystemExit("the library is for no machine that is known here")
    return machine


def _library():
    """The library that BPFTAP_LIBRARY names, else one for this machine."""
    named = os.environ.get("BPFTAP_LIBRARY")
    paths = [pathlib.Path(named)] if named else [HERE / NAME / LIBRARY, HERE.parents[1] / "out" / "lib" / LIBRARY]
    path = next((path for path in paths if path.is_file()), None)
    if not path:
        raise SystemExit(f"{paths[-1]} is not there: run ./build bpftap_c, or let BPFTAP_LIBRARY name the file")
    library = path.read_bytes()
    if not named and _machine(library) != platform.machine():
        raise SystemExit(f"{path} is for {_machine(library)}, and this is {platform.machine()}: let BPFTAP_LIBRARY name another one")
    return library


def _licences():
    """The licences, of an sdist or of the repository."""
    return {name: (HERE if (HERE / name).is_file() else HERE.parents[1]).joinpath(name).read_bytes() for name in _field("license-files")}


def _package():
    return {f"{NAME}/{path.name}": path.read_bytes() for path in sorted((HERE / NAME).iterdir()) if path.suffix in (".py", ".typed")}


def _metadata():
    # Of 2.1, which each index and Debian's twine take; the licences themselves are beside it.
    rows = [("Metadata-Version", "2.1"), ("Name", NAME), ("Version", _field("version")), ("Summary", _field("description")),
            ("Keywords", ",".join(_field("keywords"))), *(("Classifier", line) for line in _field("classifiers")),
            ("License", _field("license")), ("Requires-Python", _field("requires-python")), ("Description-Content-Type", "text/markdown")]
    page = (HERE / _field("readme")).read_text()
    return ("".join(f"{name}: {value}\n" for name, value in rows) + f"\n{page}").encode()


def _wheel(folder, files, platforms):
    """Writes a wheel of these files, by their paths there, for platforms; returns its name."""
    about = f"{NAME}-{_field('version')}.dist-info"
    tags = "".join(f"Tag: py3-none-{each}\n" for each in platforms)
    files = {**files, f"{about}/METADATA": _metadata(), f"{about}/WHEEL": f"Wheel-Version: 1.0\nGenerator: bpftap\nRoot-Is-Purelib: false\n{tags}".encode()}
    files.update({f"{about}/licenses/{name}": text for name, text in _licences().items()})
    rows = [f"{path},sha256={base64.urlsafe_b64encode(hashlib.sha256(data).digest()).rstrip(b'=').decode()},{len(data)}" for path, data in files.items()]
    files[f"{about}/RECORD"] = "\n".join([*rows, f"{about}/RECORD,,", ""]).encode()
    name = f"{NAME}-{_field('version')}-py3-none-{'.'.join(platforms)}.whl"
    with zipfile.ZipFile(pathlib.Path(folder) / name, "w", zipfile.ZIP_DEFLATED) as wheel:
        for path, data in files.items():
            wheel.writestr(zipfile.ZipInfo(path, DATE), data, zipfile.ZIP_DEFLATED)
    return name


def get_requires_for_build_wheel(config_settings=None):
    return []


def get_requires_for_build_editable(config_settings=None):
    return []


def get_requires_for_build_sdist(config_settings=None):
    return []


def build_wheel(wheel_directory, config_settings=None, metadata_directory=None):
    library = _library()
    return _wheel(wheel_directory, {**_package(), f"{NAME}/{LIBRARY}": library}, [f"{system}_{_machine(library)}" for system in SYSTEMS])


def build_editable(wheel_directory, config_settings=None, metadata_directory=None):
    return _wheel(wheel_directory, {f"{NAME}.pth": f"{HERE}\n".encode()}, ["any"])


def build_sdist(sdist_directory, config_settings=None):
    top = f"{NAME}-{_field('version')}"
    files = {path: (HERE / path).read_bytes() for path in ("README.md", "TESTING.md", "backend.py", "pyproject.toml", "tests/test_bpftap.py")}
    files = {**files, **_package(), **_licences(), f"{NAME}/{LIBRARY}": _library(), "PKG-INFO": _metadata()}
    with gzip.GzipFile(pathlib.Path(sdist_directory) / f"{top}.tar.gz", "wb", mtime=SECONDS) as packed, tarfile.open(
            fileobj=packed, mode="w", format=tarfile.PAX_FORMAT) as archive:
        for path, data in sorted(files.items()):
            member = tarfile.TarInfo(f"{top}/{path}")
            member.size, member.mtime = len(data), SECONDS
            archive.addfile(member, io.BytesIO(data))
    return f"{top}.tar.gz"
