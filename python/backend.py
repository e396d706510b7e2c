"""Builds the wheel and the source archive by Python's own modules, so that `pip install .` needs no network.

The wheel has the library as `dnstext/libdnstext.so`, which the C compiler `CC` (cc) links from an archive. It is that
of DNS_TEXT_LIB, an archive or a shared library; else libdnstext.a beside this file, as in the source archive; else
../out/libdnstext.a. One that is built without proofs is an error, unless UNPROVED is set. Two builds of the same files
have the same octets.
"""
import base64
import gzip
import hashlib
import io
import os
import re
import subprocess
import sys
import tarfile
import tempfile
import zipfile
from pathlib import Path

HERE = Path(__file__).resolve().parent
NAME = "dnstext"
# (any x86-64, and libc 2.17 or later)
TAG = "py3-none-manylinux_2_17_x86_64"
METADATA = """Metadata-Version: 2.1
Name: {name}
Version: {version}
Summary: DNS zone files, names and RDATA in presentation format, by a proved C library
License: BSD-3-Clause
Requires-Python: >=3.9
Classifier: Operating System :: POSIX :: Linux
Classifier: Programming Language :: Python :: 3
Classifier: Typing :: Typed
Description-Content-Type: text/markdown

{readme}"""
WHEEL = f"Wheel-Version: 1.0\nGenerator: {NAME}\nRoot-Is-Purelib: false\nTag: {TAG}\n"


def version():
    return re.search(r'^VERSION = "(.*)"$', text("dnstext/_library.py"), re.M)[1]


def text(path):
    return (HERE / path).read_text(encoding="utf-8")


def metadata():
    return METADATA.format(name=NAME, version=version(), readme=text("README.md")).encode()


def licence():
    """Returns the licence, which is beside this file in the source archive, and in a clone one folder above."""
    beside = HERE / "LICENSE"
    return (beside if beside.is_file() else HERE.parent / "LICENSE").read_bytes()


def modules():
    """Returns the files of the package by their paths, without the library."""
    found = sorted(it for it in (HERE / NAME).iterdir() if it.suffix == ".py" or it.name == "py.typed")
    return {f"{NAME}/{it.name}": it.read_bytes() for it in found}


def library():
    """Returns the path of the archive or of the shared library."""
    given = os.environ.get("DNS_TEXT_LIB")
    beside, built = HERE / "libdnstext.a", HERE.parent / "out" / "libdnstext.a"
    path = next((it for it in ([Path(given)] if given else [beside, built]) if it.is_file()), None)
    if path is None:
        named = f"DNS_TEXT_LIB={given}" if given else "DNS_TEXT_LIB is not set"
        sys.exit(f"dnstext: no library: {named}, {beside}, {built}")
    if b"built without proofs" in path.read_bytes() and not os.environ.get("UNPROVED"):
        sys.exit(f"dnstext: {path} is built without proofs: only UNPROVED=1 packs or installs it")
    return path


def link(archive, to):
    """Links an archive into a shared library that exports its calls alone."""
    script = Path(to).with_suffix(".map")
    script.write_text("{ global: dnstext_*; local: *; };\n")
    words = [os.environ.get("CC", "cc"), "-shared", "-s", "-Wl,-z,text", "-Wl,-z,defs", f"-Wl,--version-script={script}",
             "-Wl,--whole-archive", archive, "-Wl,--no-whole-archive", "-o", to]
    subprocess.run(words, check=True)


def shared():
    """Returns the octets of the shared library."""
    path = library()
    if path.suffix != ".a":
        return path.read_bytes()
    with tempfile.TemporaryDirectory() as folder:
        to = Path(folder) / "libdnstext.so"
        link(path, to)
        return to.read_bytes()


def information(files):
    """Returns the files of the folder .dist-info, the last of which has the checksums of all."""
    info = f"{NAME}-{version()}.dist-info"
    ours = {f"{info}/LICENSE": licence(), f"{info}/METADATA": metadata(), f"{info}/WHEEL": WHEEL.encode()}
    lines = []
    for name, octets in {**files, **ours}.items():
        digest = base64.urlsafe_b64encode(hashlib.sha256(octets).digest()).rstrip(b"=").decode()
        lines.append(f"{name},sha256={digest},{len(octets)}\n")
    return {**ours, f"{info}/RECORD": ("".join(lines) + f"{info}/RECORD,,\n").encode()}


def build_wheel(wheel_directory, config_settings=None, metadata_directory=None):
    files = {**modules(), f"{NAME}/libdnstext.so": shared()}
    files.update(information(files))
    out = f"{NAME}-{version()}-{TAG}.whl"
    with zipfile.ZipFile(Path(wheel_directory) / out, "w") as wheel:
        for name, octets in files.items():
            entry = zipfile.ZipInfo(name, (1980, 1, 1, 0, 0, 0))
            entry.create_system, entry.external_attr = 3, 0o100644 << 16
            wheel.writestr(entry, octets, zipfile.ZIP_DEFLATED, 9)
    return out


def build_sdist(sdist_directory, config_settings=None):
    top = f"{NAME}-{version()}"
    path = library()
    if path.suffix != ".a":
        sys.exit(f"dnstext: the source archive has an archive, and {path} is none")
    files = {"PKG-INFO": metadata(), "LICENSE": licence(), "libdnstext.a": path.read_bytes()}
    for name in ("pyproject.toml", "backend.py", "README.md"):
        files[name] = (HERE / name).read_bytes()
    with open(Path(sdist_directory) / f"{top}.tar.gz", "wb") as out, \
            gzip.GzipFile("", "wb", 9, out, mtime=0) as packed, \
            tarfile.open(fileobj=packed, mode="w", format=tarfile.PAX_FORMAT) as archive:
        for name, octets in {**files, **modules()}.items():
            entry = tarfile.TarInfo(f"{top}/{name}")
            entry.size, entry.mode = len(octets), 0o644
            archive.addfile(entry, io.BytesIO(octets))
    return f"{top}.tar.gz"
