"""What the tests share."""

import functools
import os
import re
import shutil
import stat
import subprocess
import sys
import tempfile
import unittest

HERE = os.path.dirname(os.path.abspath(__file__))
TOOLS = os.path.dirname(HERE)
TOP = os.path.dirname(TOOLS)
LAB = os.path.join(TOOLS, "lab")
SYSTEM_PYTHON = "/usr/bin/python3"
NO_BROWSER = "Chromium and selenium aren't there: apt-get install chromium-driver python3-selenium"
sys.path[:0] = [HERE, TOOLS]
import victor  # noqa: E402

# What the tools keep to be quicker is kept for the time of the tests.
KEPT = tempfile.TemporaryDirectory(prefix="kept-")
os.environ["XDG_CACHE_HOME"] = KEPT.name


def program():
    """The program to compare with. VICTOR names another than that of this checkout."""
    return victor.find_program()


@functools.cache
def has_browser():
    """There is a browser that the system's Python can steer."""
    words = [SYSTEM_PYTHON, "-c", "import selenium"]
    if not (shutil.which("chromedriver") and os.path.exists(SYSTEM_PYTHON)):
        return False
    return subprocess.run(words, stderr=subprocess.DEVNULL).returncode == 0


def example(*names):
    return os.path.join(TOP, "examples", *names)


def read(path):
    with open(path, encoding="utf-8") as source:
        return source.read()


def write(path, text, is_program=False):
    with open(path, "w", encoding="ascii") as out:
        out.write(text)
    if is_program:
        os.chmod(path, stat.S_IRWXU)
    return str(path)


def shipped_lemmas():
    """How many lemmas the shipped proof of the usual board has, by the table beside it."""
    return int(re.search(r"`accepted win (\d+)`", read(os.path.join(TOP, "proofs", "README.md"))).group(1))


def command_of(name, *words):
    """The words of a subcommand of `lab`, or of the second checker."""
    return [sys.executable, *([os.path.join(TOOLS, name)] if name == "check.py" else [LAB, name]), *words]


def tool(name, *words, text=None, **more):
    """Runs a tool. Its standard input is the text, or empty."""
    run = subprocess.run(
        command_of(name, *words), input=text or "", capture_output=True, encoding="utf-8", timeout=170, **more
    )
    return run.returncode, run.stdout, run.stderr


def heard(pipe, call):
    """What a named pipe that is made here is told while something writes to it, and what the call gives."""
    os.mkfifo(pipe)
    with subprocess.Popen(["cat", pipe], stdout=subprocess.PIPE) as reader:
        given = call()
        return given, reader.stdout.read().decode("ascii")


class ToolTest(unittest.TestCase):
    def folder_for(self, prefix="tools test-"):
        """A folder for the time of the test."""
        folder = tempfile.TemporaryDirectory(prefix=prefix)
        self.addCleanup(folder.cleanup)
        return folder.name

    def refuses(self, name, *words, said="", text=None, **more):
        """Status 2, and one line on standard error that says this."""
        status, out, err = tool(name, *words, text=text, **more)
        self.assertEqual((status, out), (2, ""), err)
        self.assertEqual(err.count("\n"), 1, err)
        self.assertTrue(err.startswith(f"{name if name == 'check.py' else 'lab ' + name}: "), err)
        self.assertIn(said, err)

    def helps(self, name):
        status, out, err = tool(name, "--help")
        self.assertEqual((status, err), (0, ""))
        self.assertIn(f"usage: {name if name == 'check.py' else 'lab ' + name}", out)
