"""What tools/install puts in place, used from C, C++ and Rust; and the examples of docs/FROM-C.md and
docs/FROM-RUST.md, run as they stand.

    tools/build-library && python3 tests/install.py

Everything happens in a temporary folder, which is the home folder for what is run. The line `tools/build-library`
of a page is left out: it was run before.
"""
import os
import shutil
import subprocess
import tempfile
import unittest

from pages import ROOT, block, blocks

HOME = tempfile.mkdtemp(prefix="vihrolom-")
PREFIX = os.path.join(HOME, ".local")
PKGCONFIG = os.path.join(PREFIX, "lib", "pkgconfig")
with open(os.path.join(ROOT, "VERSION"), encoding="ascii") as file:
    VERSION = file.read().strip()

# what a compiled program has to print
C_OUTPUT, RUST_OUTPUT = block("FROM-C.md", "text"), block("FROM-RUST.md", "text")


def environment(**more):
    """That of the tests, with another home folder and nothing that names a library."""
    kept = {name: value for name, value in os.environ.items() if not name.startswith(("VIHROLOM_", "PKG_CONFIG"))}
    real = os.path.expanduser("~")
    kept.setdefault("CARGO_HOME", os.path.join(real, ".cargo"))
    kept.setdefault("RUSTUP_HOME", os.path.join(real, ".rustup"))
    return {**kept, "HOME": HOME, "CARGO_TARGET_DIR": os.path.join(HOME, "cargo"), **more}


def run(commands, folder=HOME, **variables):
    """What the shell commands print, and the exit status."""
    done = subprocess.run(
        ["bash", "-euo", "pipefail", "-c", commands],
        cwd=folder,
        env=environment(**variables),
        stdin=subprocess.DEVNULL,
        stdout=subprocess.PIPE,
        stderr=subprocess.STDOUT,
        text=True,
        check=False,
    )
    return done.stdout, done.returncode


def setUpModule():
    commands = blocks("FROM-C.md", "sh")[0].replace("tools/build-library\n", "")
    printed, status = run(commands, ROOT)
    assert (printed, status) == (f"vihrolom {VERSION} is in {PREFIX}\n", 0), printed


def tearDownModule():
    shutil.rmtree(HOME)


class Folder(unittest.TestCase):
    """A test with a folder of its own."""

    def setUp(self):
        self.folder = tempfile.mkdtemp(dir=HOME)

    def write(self, name, text):
        path = os.path.join(self.folder, name)
        os.makedirs(os.path.dirname(path), exist_ok=True)
        with open(path, "w", encoding="utf-8") as file:
            file.write(text)

    def prints(self, commands, output, **variables):
        self.assertEqual(run(commands, self.folder, **variables), (output, 0))

    def refuses(self, commands, words, **variables):
        printed, status = run(commands, self.folder, **variables)
        self.assertNotEqual(status, 0, printed)
        self.assertIn(words, printed)


class Installed(Folder):
    def test_files(self):
        lib = os.path.join(PREFIX, "lib")
        real = f"libvihrolom.so.{VERSION}"
        self.assertEqual(
            sorted(os.listdir(lib)),
            sorted(["libvihrolom.a", "libvihrolom.so", "libvihrolom.so.0", real, "pkgconfig"]),
        )
        self.assertEqual(os.listdir(os.path.join(PREFIX, "include")), ["vihrolom.h"])
        self.assertEqual(os.readlink(os.path.join(lib, "libvihrolom.so.0")), real)
        self.assertEqual(os.readlink(os.path.join(lib, "libvihrolom.so")), "libvihrolom.so.0")
        self.prints(f"readelf -d {lib}/libvihrolom.so | grep -o 'soname: .*'", "soname: [libvihrolom.so.0]\n")

    def test_only_calls_are_exported(self):
        commands = f"nm -D --defined-only {PREFIX}/lib/libvihrolom.so | grep -vc ' T vihrolom_' || true"
        self.prints(commands, "0\n")

    def test_version_of_pkg_config(self):
        self.prints("pkg-config --modversion vihrolom", f"{VERSION}\n", PKG_CONFIG_PATH=PKGCONFIG)

    def test_again(self):
        """A second time, into a folder that is told from where one stands."""
        installed = f"vihrolom {VERSION} is in {self.folder}/here\n"
        self.prints(f"{ROOT}/tools/install here && {ROOT}/tools/install here/", 2 * installed)
        self.prints("pkg-config --variable=prefix vihrolom", f"{self.folder}/here\n", PKG_CONFIG_PATH=f"{self.folder}/here/lib/pkgconfig")

    def test_package(self):
        """Files for a package stand below DESTDIR and don't name it."""
        self.prints(f"{ROOT}/tools/install /usr", f"vihrolom {VERSION} is in /usr\n", DESTDIR=self.folder)
        with open(os.path.join(self.folder, "usr/lib/pkgconfig/vihrolom.pc"), encoding="utf-8") as file:
            lines = file.read().splitlines()
        self.assertEqual(lines[0], "prefix=/usr")
        self.assertEqual(lines[-1], "Libs: -L${libdir} -lvihrolom")

    def test_refused(self):
        self.refuses(f"{ROOT}/tools/install", "usage: tools/install PREFIX")
        self.refuses(f"{ROOT}/tools/install --help", "usage: tools/install PREFIX")
        self.refuses(f"{ROOT}/tools/install 'a b'", "can't name the folder")


class FromC(Folder):
    def setUp(self):
        super().setUp()
        self.write("demo.c", block("FROM-C.md", "c"))

    def test_page(self):
        self.prints(blocks("FROM-C.md", "sh")[1], C_OUTPUT)
        self.prints("readelf -d demo | grep -c 'NEEDED.*libvihrolom.so.0'", "1\n")

    def test_page_as_cpp(self):
        commands = "c++ -Wall -Wextra -Werror -x c++ demo.c $(pkg-config --cflags --libs vihrolom) -o demo && ./demo"
        self.prints(commands, C_OUTPUT, PKG_CONFIG_PATH=PKGCONFIG)

    def test_static(self):
        flags = "-std=c99 -pedantic -Wall -Wextra -Werror $(pkg-config --cflags vihrolom)"
        self.prints(f"cc {flags} demo.c ~/.local/lib/libvihrolom.a -o demo && ./demo", C_OUTPUT, PKG_CONFIG_PATH=PKGCONFIG)

    def test_smoke(self):
        """The cases of the reference with the shared library, from C and from C++."""
        for compiler in ("cc", "c++ -x c++"):
            with self.subTest(compiler):
                commands = f"{compiler} {ROOT}/tests/smoke.c $(pkg-config --cflags --libs vihrolom) -o smoke && ./smoke"
                printed, status = run(commands, self.folder, PKG_CONFIG_PATH=PKGCONFIG)
                self.assertEqual(status, 0, printed)
                self.assertRegex(printed, r"smoke: \d+ checks\n$")


@unittest.skipUnless(shutil.which("cargo"), "no cargo")
class FromRust(Folder):
    def test_page(self):
        """Beside the repository, which has the library that tools/build-library made."""
        os.symlink(ROOT, os.path.join(self.folder, "vihrolom"))
        _, new, build = blocks("FROM-RUST.md", "sh")
        self.prints(new, "")
        self.write("trip/src/main.rs", block("FROM-RUST.md", "rust"))
        self.prints(f"cd trip\n{build}", RUST_OUTPUT)

    def test_installed(self):
        """A copy of the crate with no repository around it."""
        crate = os.path.join(self.folder, "vihrolom/bindings/rust")
        shutil.copytree(os.path.join(ROOT, "bindings/rust"), crate, ignore=shutil.ignore_patterns("target"))
        _, new, build = blocks("FROM-RUST.md", "sh")
        self.prints(new, "")
        self.write("trip/src/main.rs", block("FROM-RUST.md", "rust"))
        build = f"cd trip\n{build}"
        self.refuses(build, "run tools/build-library, or name the folder of tools/install in VIHROLOM_PREFIX")
        self.prints(build, RUST_OUTPUT, VIHROLOM_PREFIX=PREFIX)
        self.refuses(build, "see VIHROLOM_PREFIX", VIHROLOM_PREFIX=self.folder)
        self.prints(build, RUST_OUTPUT, PKG_CONFIG_PATH=PKGCONFIG)


if __name__ == "__main__":
    unittest.main()
