"""Counts cases, shows those that fail, and runs programs, tools in a folder of their own."""
import os
import pathlib
import subprocess
import sys

TOP = pathlib.Path(__file__).resolve().parents[2]
sys.path.insert(0, str(TOP / "tools"))

# Failures that are shown; later ones are only counted.
SHOWN = 20

OLD = b"an older output\n"


class Report:
    def __init__(self):
        self.passed = 0
        self.failed = 0

    def equal(self, what, got, expected):
        """Counts a case."""
        if got == expected:
            self.passed += 1
            return
        self.failed += 1
        if self.failed <= SHOWN:
            print(f"FAILED {what}: got {got!r}, expected {expected!r}")

    def finish(self):
        print(f"{self.passed} passed, {self.failed} failed")
        sys.exit(self.failed != 0)


def run(*command, **options):
    """The exit status, standard output and standard error of a program."""
    done = subprocess.run([str(word) for word in command], capture_output=True, check=False, **options)
    return done.returncode, done.stdout.decode(), done.stderr.decode()


class Folder:
    """A folder with an input and an older output, in which a tool is run."""

    def __init__(self, name):
        self.path = pathlib.Path(name)
        (self.path / "out").write_bytes(OLD)

    def run(self, tool, data, *arguments):
        """The status, the messages, whether the output is as it was, and what files are there."""
        (self.path / "in").write_bytes(data)
        status, said, messages = run(TOP / "tools" / tool, *arguments, cwd=self.path)
        return status, said, messages, (self.path / "out").read_bytes() == OLD, sorted(os.listdir(self.path))
