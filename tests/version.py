"""The version stands in the file VERSION, and every other place that tells it agrees.

    tools/build-library && python3 tests/version.py

tests/install.py looks at what tools/install writes.
"""
import os
import re
import subprocess
import sys
import tempfile
import unittest

from pages import ROOT

# prints the header's version in its three forms, and the library's number
PROGRAM = """
#include <stdio.h>
#include "vihrolom.h"
int main(void) {
    printf("%s\\n%d.%d.%d\\n", VIHROLOM_VERSION, VIHROLOM_VERSION_MAJOR, VIHROLOM_VERSION_MINOR, VIHROLOM_VERSION_PATCH);
    printf("%u\\n%u\\n", VIHROLOM_VERSION_NUMBER, vihrolom_version());
    return 0;
}
"""


def read(name):
    with open(os.path.join(ROOT, name), encoding="utf-8") as file:
        return file.read()


class Version(unittest.TestCase):
    def setUp(self):
        text = read("VERSION")
        self.assertRegex(text, r"\A\d+\.\d+\.\d+\n\Z", "VERSION has no version like 1.2.3")
        self.version = text.strip()
        major, minor, patch = map(int, self.version.split("."))
        self.assertLess(max(minor, patch), 1000, "VERSION has a part that vihrolom_version has no room for")
        self.number = f"{major * 1000000 + minor * 1000 + patch}"

    def agrees(self, name, told, version):
        self.assertEqual(told, version, f"{name} has the version {told}, and VERSION has {version}")

    def finds(self, name, pattern):
        found = re.search(pattern, read(name), re.MULTILINE)
        self.assertIsNotNone(found, f"{name} tells no version")
        self.agrees(name, found.group(1), self.version)

    def test_header_and_library(self):
        with tempfile.TemporaryDirectory() as folder:
            program = os.path.join(folder, "version")
            compiler = ["gcc", "-x", "c", "-", "-x", "none", "-Iinclude", "target/staticlib/libcapi.a", "-o", program]
            subprocess.run(compiler, input=PROGRAM, text=True, cwd=ROOT, check=True)
            told = subprocess.run([program], capture_output=True, text=True, check=True).stdout.split()
        header, library = "include/vihrolom.h", "crates/capi/src/version.rt (or a library that was built before)"
        files = [header, header, header, library]
        for name, is_now, must_be in zip(files, told, [self.version, self.version, self.number, self.number]):
            with self.subTest(name):
                self.agrees(name, is_now, must_be)

    def test_crate(self):
        self.finds("bindings/rust/Cargo.toml", r'^version = "(.*)"$')
        self.finds("bindings/rust/Cargo.lock", r'^name = "vihrolom"\nversion = "(.*)"$')

    def test_package(self):
        told = [sys.executable, "-c", "import vihrolom; print(vihrolom.__version__)"]
        done = subprocess.run(told, cwd=os.path.join(ROOT, "bindings", "python"), capture_output=True, text=True, check=True)
        self.agrees("bindings/python/vihrolom", done.stdout.strip(), self.version)

    def test_changelog(self):
        self.finds("CHANGELOG.md", r"^## ([0-9.]+)")


if __name__ == "__main__":
    unittest.main()
