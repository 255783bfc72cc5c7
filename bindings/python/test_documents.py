"""Runs the examples and the commands of the documents as they stand there, and holds them to what the pages show.

The pages are README.md, docs/FROM-PYTHON.md and the README beside this file. What installs the package
is run by test_install.py.
"""
import os
import re
import shlex
import subprocess
import sys
import unittest

import vihrolom
from vihrolom.tests import with_package

sys.path.insert(0, os.path.join(os.path.dirname(os.path.abspath(__file__)), "..", "..", "tests"))
from pages import ROOT, block, blocks

# from docs/
README, BINDING, FROM_PYTHON = "../README.md", "../bindings/python/README.md", "FROM-PYTHON.md"


def read(page):
    with open(os.path.join(ROOT, "docs", page), encoding="utf-8") as file:
        return file.read()


def commands(page):
    """The lines of a page that run a command of the package, each with the set-in lines that follow it."""
    lines = read(page).splitlines()
    for at, line in enumerate(lines):
        found = re.match(r"    (?:tools/build-library && )?(python3 (?:bindings/python/|-m vihrolom )[^#]*)", line)
        if found:
            rest = "\n".join(lines[at + 1 :]) + "\n"
            yield found[1], re.match(r"(?:\n|    .*\n)*", rest)[0]


def run(*command):
    """What a process that imports the package writes; it must succeed and complain of nothing."""
    done = subprocess.run(command, cwd=ROOT, env=with_package(), capture_output=True, text=True)
    if done.returncode != 0 or done.stderr:
        raise AssertionError(f"{command} failed: {done.stderr[-2000:]}")
    return done.stdout


def set_in(text):
    """Text as it stands in a page, four spaces to the right."""
    return "".join(f"    {line}\n" if line else "\n" for line in text.splitlines())


class Programs(unittest.TestCase):
    def test_from_python(self):
        program = block(FROM_PYTHON, "python")
        self.assertEqual(run(sys.executable, "-c", program), block(FROM_PYTHON, "text"))

    def holds(self, expression, told, names):
        try:
            given = repr(eval(expression, names))
        except vihrolom.Refusal as refusal:
            given = f"raises Refusal: {refusal}"
        self.assertTrue(told.startswith(given), (expression, given, told))

    def test_readme(self):
        """Behind an expression stands what it gives."""
        names, held = {}, 0
        for line in "".join(blocks(BINDING, "python")).splitlines():
            code, _, told = line.partition("  # ")
            if told:
                self.holds(code.strip(), told.strip(), names)
                held += 1
            else:
                exec(line, names)
        self.assertGreaterEqual(held, 12)


class Commands(unittest.TestCase):
    def test_commands(self):
        """Each works, and what a page shows of its output, up to dots, is how the output begins."""
        count, shown = 0, 0
        for page in (README, BINDING, FROM_PYTHON):
            for command, shows in commands(page):
                output = run(sys.executable, *shlex.split(command)[1:])
                count += 1
                if shows.startswith("\n    "):
                    due = shows.strip("\n").partition("    ...")[0] + "\n"
                    self.assertTrue(set_in(output).startswith(due.rstrip("\n") + "\n"), (command, due))
                    shown += 1
        self.assertGreaterEqual((count, shown), (8, 4))

    def test_output_in_the_binding(self):
        page = read(BINDING)
        self.assertIn(set_in(run(sys.executable, "-m", "vihrolom", "roads", "examples/ferry.csv")), page)
        files = [f"examples/{name}.csv" for name in ("roads", "rooms", "events")]
        output = set_in(run(sys.executable, "-m", "vihrolom", "week", *files))
        self.assertIn(page[page.index("    Monday: ") :], output)

    def test_scripts(self):
        """The scripts beside this file are the commands of the package."""
        files = [f"examples/{name}.csv" for name in ("roads", "rooms", "events")]
        for command, arguments in [("roads", files[:1]), ("week", files)]:
            as_script = run(sys.executable, f"bindings/python/{command}.py", *arguments)
            self.assertEqual(run(sys.executable, "-m", "vihrolom", command, *arguments), as_script)

    def test_unknown_command(self):
        for words in ([], ["fly"]):
            command = [sys.executable, "-m", "vihrolom", *words]
            done = subprocess.run(command, cwd=ROOT, env=with_package(), capture_output=True, text=True)
            self.assertEqual((done.returncode, done.stdout, done.stderr.count("\n")), (2, "", 1))
            self.assertIn("python3 -m vihrolom roads ..", done.stderr)


if __name__ == "__main__":
    unittest.main()
