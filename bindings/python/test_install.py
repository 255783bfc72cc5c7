"""Installs the package into empty environments, with no repository beside it, and runs its own tests there."""
import importlib.util
import os
import subprocess
import sys
import tempfile
import unittest

import vihrolom

MISSING = [name for name in ("venv", "ensurepip") if importlib.util.find_spec(name) is None]
ROOT = os.path.abspath(os.path.join(os.path.dirname(__file__), "..", ".."))
BUILT = os.path.join(ROOT, "target", "sharedlib", "libvihrolom.so")


@unittest.skipIf(MISSING, f"python3 has no {' and no '.join(MISSING)}")
@unittest.skipUnless(os.path.exists(BUILT), "tools/build-library has not made the library")
class Install(unittest.TestCase):
    def setUp(self):
        folder = tempfile.TemporaryDirectory()
        self.addCleanup(folder.cleanup)
        self.folder = folder.name
        self.python = os.path.join(folder.name, "empty", "bin", "python")
        self.run_command(sys.executable, "-m", "venv", os.path.join(folder.name, "empty"))

    def run_command(self, *command, folder=None):
        """What a command prints; it must succeed. It knows nothing of this repository's package and library."""
        hidden = ("PYTHONPATH", "VIHROLOM_LIBRARY", "PIP_FIND_LINKS", "PIP_CONFIG_FILE")
        environment = {name: value for name, value in os.environ.items() if name not in hidden}
        environment.update(PIP_NO_INDEX="1", PIP_DISABLE_PIP_VERSION_CHECK="1")
        run = subprocess.run(
            command, cwd=folder or self.folder, env=environment, capture_output=True, text=True, timeout=900
        )
        self.assertEqual(run.returncode, 0, f"{command}: {(run.stdout + run.stderr)[-2000:]}")
        return run.stdout + run.stderr

    def installed(self):
        """The package is the installed one, and has the version of the repository."""
        program = "import vihrolom; print(vihrolom.__version__); print(vihrolom.__file__)"
        version, file = self.run_command(self.python, "-c", program).split()
        self.assertEqual(version, vihrolom.__version__)
        self.assertTrue(os.path.realpath(file).startswith(os.path.realpath(self.folder)), file)

    def test_wheel(self):
        wheel = self.run_command(os.path.join(ROOT, "tools", "build-wheel")).strip()
        self.assertIn(f"vihrolom-{vihrolom.__version__}-", wheel)
        self.run_command(self.python, "-m", "pip", "install", os.path.join(ROOT, wheel))
        self.installed()
        said = self.run_command(self.python, "-m", "vihrolom.selftest")
        self.assertRegex(said, r"\A-+\nRan [0-9]{2,} tests in [0-9.]+s\n\nOK( \(skipped=[0-9]+\))?\n\Z")
        self.run_command(self.python, "-m", "pip", "uninstall", "-y", "vihrolom")
        self.assertNotIn("vihrolom", os.listdir(os.path.dirname(self.site())))

    def site(self):
        program = "import sysconfig; print(sysconfig.get_path('purelib'))"
        return os.path.join(self.run_command(self.python, "-c", program).strip(), "vihrolom")

    def test_folder(self):
        self.run_command(self.python, "-m", "pip", "install", "./bindings/python", folder=ROOT)
        self.installed()
        ferry = os.path.join(ROOT, "examples", "ferry.csv")
        text = self.run_command(self.python, "-m", "vihrolom", "roads", ferry)
        self.assertTrue(text.startswith("route Lab > Hill Road > Clinic\n"), text)


if __name__ == "__main__":
    unittest.main()
