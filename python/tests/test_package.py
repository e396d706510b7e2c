"""The wheel and the source archive: their contents, that two builds are the same, and that pip installs both."""
import base64
import csv
import hashlib
import io
import os
import re
import shutil
import subprocess
import sys
import tarfile
import tempfile
import unittest
import zipfile

import support

GIVEN = os.environ["DNS_TEXT_GIVEN"]
with open(f"{support.TOP}/VERSION", encoding="ascii") as source:
    VERSION = source.read().strip()
WHEEL = f"dnstext-{VERSION}-py3-none-manylinux_2_17_x86_64.whl"
ARCHIVE = f"dnstext-{VERSION}.tar.gz"
# Each call of this prints one line.
TRY = ("import dnstext; print(*dnstext.records('a 1 MX 10 b', origin='example.')); "
       "assert 'site-packages' in dnstext.__file__; print(dnstext.__version__)")


def is_unproved():
    with open(GIVEN, "rb") as file:
        return b"built without proofs" in file.read()


def environment(**given):
    """Returns the variables of a build, without those that name a library."""
    kept = {key: it for key, it in os.environ.items() if not key.startswith("DNS_TEXT") and key not in ("UNPROVED", "MAKEFLAGS")}
    return {**kept, **({"UNPROVED": "1"} if is_unproved() else {}), **given}


def make(target, out, **given):
    words = ["make", "-s", "--no-print-directory", "-C", support.PACKAGE, target, f"PYTHON={sys.executable}", f"LIB={GIVEN}", f"OUT={out}"]
    return support.run(words, env=environment(**given)).decode().strip()


def files_here():
    return sorted(os.path.join(folder, it) for folder, _, files in os.walk(support.PACKAGE) for it in files)


def read(path):
    with open(path, "rb") as file:
        return file.read()


@unittest.skipUnless(GIVEN.endswith(".a"), "no archive: nothing is packed")
class Package(unittest.TestCase):
    @classmethod
    def setUpClass(cls):
        cls.folder = tempfile.mkdtemp()
        cls.addClassCleanup(shutil.rmtree, cls.folder)
        before = files_here()
        cls.wheel, cls.archive = (make(it, f"{cls.folder}/one") for it in ("wheel", "sdist"))
        cls.is_clean = before == files_here()

    def test_names(self):
        self.assertEqual((self.wheel, self.archive), (f"{self.folder}/one/{WHEEL}", f"{self.folder}/one/{ARCHIVE}"))
        self.assertTrue(self.is_clean, "a build writes in the clone")
        support.SAID.append(f"python: the wheel has {os.path.getsize(self.wheel)} octets")

    def test_same_octets(self):
        """Two builds have the same octets, also with another umask and at another time."""
        before = os.umask(0o077)
        try:
            for target, path in (("wheel", self.wheel), ("sdist", self.archive)):
                other = make(target, f"{self.folder}/two", TZ="Asia/Tokyo", TMPDIR=self.folder)
                self.assertEqual(read(other), read(path), target)
        finally:
            os.umask(before)

    def test_contents(self):
        with zipfile.ZipFile(self.wheel) as wheel:
            files = {it: wheel.read(it) for it in wheel.namelist()}
            modes = {it.external_attr >> 16 for it in wheel.infolist()}
        info = f"dnstext-{VERSION}.dist-info"
        modules = [f"dnstext/{it}" for it in sorted(os.listdir(f"{support.PACKAGE}/dnstext")) if it.endswith((".py", ".typed"))]
        self.assertEqual(sorted(files), sorted([*modules, "dnstext/libdnstext.so", f"{info}/LICENSE", f"{info}/METADATA",
                                                f"{info}/RECORD", f"{info}/WHEEL"]))
        self.assertEqual(modes, {0o100644})
        rows = list(csv.reader(io.StringIO(files[f"{info}/RECORD"].decode())))
        self.assertEqual(sorted(it[0] for it in rows), sorted(files))
        for name, digest, length in rows:
            octets = base64.urlsafe_b64encode(hashlib.sha256(files[name]).digest()).rstrip(b"=").decode()
            self.assertIn((digest, length), [(f"sha256={octets}", str(len(files[name]))), ("", "")], name)
        self.assertIn(f"\nVersion: {VERSION}\n", files[f"{info}/METADATA"].decode())
        self.assertTrue(files[f"{info}/METADATA"].decode().endswith(read(f"{support.PACKAGE}/README.md").decode()))
        with tarfile.open(self.archive) as archive:
            names = archive.getnames()
        wanted = ["LICENSE", "PKG-INFO", "README.md", "backend.py", "libdnstext.a", "pyproject.toml", *modules]
        self.assertEqual(sorted(names), sorted(f"dnstext-{VERSION}/{it}" for it in wanted))

    def test_library(self):
        """The library exports its calls alone, and needs no later libc than that of manylinux_2_17."""
        if not shutil.which("objdump"):
            self.skipTest("no objdump: what the library exports and needs is not compared")
        with zipfile.ZipFile(self.wheel) as wheel:
            path = wheel.extract("dnstext/libdnstext.so", self.folder)
        symbols = support.run(["objdump", "-T", path]).decode()
        ours = re.findall(r" g .*\.text\S*\s.* (\w+)$", symbols, re.M)
        self.assertTrue(ours and all(it.startswith("dnstext_") for it in ours), ours)
        needed = {tuple(map(int, it.split("."))) for it in re.findall(r"GLIBC_([0-9.]+)", symbols)}
        self.assertLessEqual(max(needed), (2, 17))
        self.assertEqual(re.findall(r"NEEDED\s+(\S+)", support.run(["objdump", "-p", path]).decode()), ["libc.so.6"])

    def test_installed(self):
        """pip installs the folder and the source archive without an index, and removes all of each."""
        python = f"{self.folder}/venv/bin/python"
        made = subprocess.run([sys.executable, "-m", "venv", f"{self.folder}/venv"], stdout=subprocess.PIPE, stderr=subprocess.STDOUT, check=False)
        if made.returncode:
            self.skipTest("no pip: nothing is installed")
        pip = [python, "-m", "pip", "--disable-pip-version-check", "--no-cache-dir"]
        for source, given in ((support.PACKAGE, {"DNS_TEXT_LIB": GIVEN}), (self.archive, {}), (self.wheel, {})):
            support.run([*pip, "install", "--no-index", source], env=environment(**given), cwd=self.folder)
            out = support.run([python, "-c", TRY], env=environment(**given), cwd=self.folder).decode()
            self.assertEqual(out, f"a.example. 1 IN MX 10 b.example.\n{VERSION}\n", source)
            support.run([*pip, "check"], cwd=self.folder)
            support.run([*pip, "uninstall", "-y", "dnstext"], cwd=self.folder)
            left = [it for it, _, _ in os.walk(f"{self.folder}/venv") if "dnstext" in os.path.relpath(it, self.folder)]
            self.assertEqual(left, [])

    def test_no_library(self):
        """Without a library the error names the three places; one that is not proved is refused."""
        copy = f"{self.folder}/copy/python"
        shutil.copytree(support.PACKAGE, copy, ignore=shutil.ignore_patterns("__pycache__"))
        words = [sys.executable, "-B", "-c", "import backend; backend.build_wheel('.')"]
        for given, names in (({}, ["DNS_TEXT_LIB is not set", f"{copy}/libdnstext.a", f"{self.folder}/copy/out/libdnstext.a"]),
                             ({"DNS_TEXT_LIB": "/none"}, ["DNS_TEXT_LIB=/none"])):
            ran = subprocess.run(words, cwd=copy, env=environment(**given), stdout=subprocess.PIPE, stderr=subprocess.STDOUT, check=False)
            said = ran.stdout.decode()
            self.assertEqual((ran.returncode, said.count("\n"), [it for it in names if it not in said]), (1, 1, []), said)
        if is_unproved():
            kept = {key: it for key, it in environment(DNS_TEXT_LIB=GIVEN).items() if key != "UNPROVED"}
            ran = subprocess.run(words, cwd=copy, env=kept, stdout=subprocess.PIPE, stderr=subprocess.STDOUT, check=False)
            self.assertEqual(ran.returncode, 1)
            self.assertIn("is built without proofs", ran.stdout.decode())
        self.assertEqual([it for it in os.listdir(copy) if it.endswith(".whl")], [])


class Import(unittest.TestCase):
    def said(self, library, **given):
        """Returns the last line of an import with a library."""
        env = environment(DNS_TEXT_LIB=library, PYTHONPATH=support.PACKAGE, PYTHONDONTWRITEBYTECODE="1", **given)
        ran = subprocess.run([sys.executable, "-c", "import dnstext; print(dnstext.library_version())"], env=env, cwd="/",
                             stdout=subprocess.PIPE, stderr=subprocess.STDOUT, check=False)
        return ran.stdout.decode().strip().split("\n")[-1]

    def test_versions(self):
        """A library of another major or minor version is an ImportError. Patch releases work together."""
        if not shutil.which("cc"):
            self.skipTest("no cc: no other library is loaded")
        major, minor, patch = map(int, VERSION.split("."))
        with tempfile.TemporaryDirectory() as folder:
            for other in (f"{major + 1}.{minor}.{patch}", f"{major}.{minor + 1}.{patch}", f"{major}.{minor}0.{patch}"):
                with open(f"{folder}/a.c", "w", encoding="ascii") as file:
                    file.write(f'const char *dnstext_version(void) {{ return "{other}"; }}\n')
                support.run(["cc", "-shared", "-fPIC", f"{folder}/a.c", "-o", f"{folder}/a.so"])
                self.assertEqual(self.said(f"{folder}/a.so"), f"ImportError: dnstext: the library {folder}/a.so has version {other}, this package {VERSION}")
            with open(f"{folder}/a.c", "w", encoding="ascii") as file:
                file.write("int other;\n")
            support.run(["cc", "-shared", "-fPIC", f"{folder}/a.c", "-o", f"{folder}/a.so"])
            self.assertRegex(self.said(f"{folder}/a.so"), "^ImportError: dnstext: no library: .*dnstext_version")

    def test_missing(self):
        self.assertRegex(self.said("/nonexistent.so"), "^ImportError: dnstext: no library: /nonexistent.so: .*DNS_TEXT_LIB")
        # (an archive is for the build, and the system has no library)
        if not os.path.exists("/usr/lib/x86_64-linux-gnu/libdnstext.so." + VERSION.rpartition(".")[0]):
            self.assertRegex(self.said("/any/libdnstext.a", LD_LIBRARY_PATH=""), "^ImportError: dnstext: no library: libdnstext.so.")

    def test_other_systems(self):
        """Elsewhere the error says which system has a library."""
        env = environment(DNS_TEXT_LIB="/nonexistent.so", PYTHONPATH=support.PACKAGE, PYTHONDONTWRITEBYTECODE="1")
        code = "import platform; platform.machine = lambda: 'riscv64'; import dnstext"
        ran = subprocess.run([sys.executable, "-c", code], env=env, stdout=subprocess.PIPE, stderr=subprocess.STDOUT, check=False)
        self.assertRegex(ran.stdout.decode(), "\nImportError: dnstext: only x86-64 Linux: ")

    def test_system(self):
        """Without DNS_TEXT_LIB the system's library is loaded, by its name with the minor version."""
        with tempfile.TemporaryDirectory() as folder:
            shutil.copy(os.environ["DNS_TEXT_LIB"], f"{folder}/libdnstext.so." + VERSION.rpartition(".")[0])
            self.assertEqual(self.said("", LD_LIBRARY_PATH=folder).split(".")[:2], VERSION.split(".")[:2])


if __name__ == "__main__":
    unittest.main()
