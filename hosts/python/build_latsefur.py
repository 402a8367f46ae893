"""Makes the wheel of the package, with the shared library in it, and its source archive. `pip` and `python -m build` call this (PEP 517).

It needs Python alone, so `pip install hosts/python` asks no registry. The library is that which LATSEFUR_LIBRARY names, or that which lies in
the package, as it does in a source archive; else bin/latsefur-archive of the repository makes it. A file NOTICE beside this one, as bin/release
writes it, goes into both. Both come out bit for bit the same from the same sources and library, in any folder and at any time.
"""
import base64
import gzip
import hashlib
import io
import os
import re
import subprocess
import tarfile
import zipfile
from pathlib import Path

HERE = Path(__file__).resolve().parent
LIBRARY = "latsefur/liblatsefur.so"
# The machine of a library, by its number in the head of the file (ELF, e_machine).
MACHINES = {62: "x86_64", 183: "aarch64"}
KINDS = (".py", ".typed", ".html", ".css", ".js", ".svg")
# The earliest time that an archive can have.
DATE = (1980, 1, 1, 0, 0, 0)


def project():
    """The keys of [project] that are texts, and the version, which is the repository's or lies in the source archive. Before 3.11 Python has no
    reader of TOML of its own."""
    table = (HERE / "pyproject.toml").read_text().partition("[project]")[2].partition("\n[")[0]
    version = next(place for place in (HERE / "VERSION", HERE.parent.parent / "VERSION") if place.is_file())
    return {**dict(re.findall(r'^([\w-]+) = "(.*)"$', table, re.M)), "version": version.read_text().strip()}


def library():
    """The octets of the shared library."""
    named = os.environ.get("LATSEFUR_LIBRARY")
    if named:
        return Path(named).read_bytes()
    if (HERE / LIBRARY).is_file():
        return (HERE / LIBRARY).read_bytes()
    top = HERE.parent.parent
    if not (top / "bin/latsefur-archive").is_file():
        raise SystemExit("latsefur: no library is there; LATSEFUR_LIBRARY may name one")
    subprocess.run([top / "bin/latsefur-archive"], check=True)
    return (top / "out/hosts/liblatsefur.so").read_bytes()


def sources():
    """The files of the package, by their names."""
    there = sorted(path for path in (HERE / "latsefur").rglob("*") if path.suffix in KINDS)
    return {path.relative_to(HERE).as_posix(): path.read_bytes() for path in there}


def notice(folder):
    """The notices that go with the library, by their name in a folder, if they are here."""
    file = HERE / "NOTICE"
    return {f"{folder}{file.name}": file.read_bytes()} if file.is_file() else {}


def metadata():
    words = project()
    lines = [
        "Metadata-Version: 2.1", f"Name: {words['name']}", f"Version: {words['version']}", f"Summary: {words['description']}",
        f"Requires-Python: {words['requires-python']}", "Description-Content-Type: text/markdown", "", (HERE / words["readme"]).read_text(),
    ]
    return "\n".join(lines).encode()


def named():
    return "{name}-{version}".format(**project())


def write_wheel(folder, files, tag):
    """Writes a wheel of these files, and gives its name."""
    info = f"{named()}.dist-info"
    wheel = f"Wheel-Version: 1.0\nGenerator: build_latsefur\nRoot-Is-Purelib: false\nTag: {tag}\n"
    files = {**files, f"{info}/METADATA": metadata(), f"{info}/WHEEL": wheel.encode()}
    record = [f"{name},sha256={digest(octets)},{len(octets)}\n" for name, octets in files.items()]
    files[f"{info}/RECORD"] = "".join([*record, f"{info}/RECORD,,\n"]).encode()
    name = f"{named()}-{tag}.whl"
    with zipfile.ZipFile(Path(folder, name), "w", zipfile.ZIP_DEFLATED) as made:
        for path, octets in files.items():
            entry = zipfile.ZipInfo(path, DATE)
            entry.compress_type, entry.external_attr = zipfile.ZIP_DEFLATED, 0o644 << 16
            made.writestr(entry, octets)
    return name


def digest(octets):
    return base64.urlsafe_b64encode(hashlib.sha256(octets).digest()).decode().rstrip("=")


def build_wheel(wheel_directory, config_settings=None, metadata_directory=None):
    octets = library()
    machine = MACHINES.get(int.from_bytes(octets[18:20], "little"))
    if octets[:4] != b"\x7fELF" or machine is None:
        raise SystemExit("latsefur: the library is for no machine that this package is for")
    files = {**sources(), LIBRARY: octets, **notice(f"{named()}.dist-info/licenses/")}
    return write_wheel(wheel_directory, files, f"py3-none-linux_{machine}")


def build_editable(wheel_directory, config_settings=None, metadata_directory=None):
    """A wheel that only says where the package lies: it looks for the library itself."""
    return write_wheel(wheel_directory, {"latsefur.pth": f"{HERE}\n".encode()}, "py3-none-any")


def build_sdist(sdist_directory, config_settings=None):
    """An archive of the sources with the library, which can't be built without its proofs."""
    own = ("pyproject.toml", "build_latsefur.py", "README.md")
    files = {name: (HERE / name).read_bytes() for name in own} | sources() | {LIBRARY: library(), "PKG-INFO": metadata()}
    files |= notice("")
    files["VERSION"] = f"{project()['version']}\n".encode()
    packed = io.BytesIO()
    with tarfile.open(fileobj=packed, mode="w", format=tarfile.PAX_FORMAT) as made:
        for name, octets in files.items():
            entry = tarfile.TarInfo(f"{named()}/{name}")
            entry.size, entry.mode = len(octets), 0o644
            made.addfile(entry, io.BytesIO(octets))
    name = f"{named()}.tar.gz"
    Path(sdist_directory, name).write_bytes(gzip.compress(packed.getvalue(), mtime=0))
    return name
