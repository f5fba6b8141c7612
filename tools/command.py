"""The command line of the tools: one input, one output, and a second way by an option."""
import argparse
import os
import sys
import tempfile
from typing import Callable, NamedTuple

from source import Faulty
from values import Refused

# Exit statuses: the input is refused; a file cannot be read or written, or the usage is wrong; as of a command that is interrupted.
REFUSED, UNUSABLE, INTERRUPTED = 1, 2, 130
# Faults that are shown; the others are counted.
SHOWN = 20


class Unusable(Exception):
    """A file that cannot be read or written, or a program that cannot be run."""


class Other(NamedTuple):
    """The second way of a tool: its option, what that does, and the function from the input's bytes to the output's and a summary."""

    option: str
    help: str
    make: Callable


def back(make):
    """The way from bytes to a text."""
    return Other("--back", "make the text from the bytes", make)


def read_input(path):
    try:
        if path == "-":
            return sys.stdin.buffer.read()
        with open(path, "rb") as file:
            return file.read()
    except OSError as error:
        raise Unusable(f"cannot read {path}: {error.strerror}") from error


def replace_file(path, data):
    """Writes a file as a whole or not at all: a new file beside it takes its name at the end."""
    path = os.path.realpath(path)
    if os.path.exists(path) and not os.path.isfile(path):
        raise OSError(None, "Not a regular file")
    mask = os.umask(0)
    os.umask(mask)
    handle, name = tempfile.mkstemp(prefix=".", suffix=".part", dir=os.path.dirname(path))
    try:
        with open(handle, "wb") as file:
            file.write(data)
        os.chmod(name, 0o666 & ~mask)
        os.replace(name, path)
    except BaseException:
        os.unlink(name)
        raise


def write_output(path, data):
    try:
        if path == "-":
            sys.stdout.buffer.write(data)
            sys.stdout.buffer.flush()
        else:
            replace_file(path, data)
    except OSError as error:
        raise Unusable(f"cannot write {path}: {error.strerror}") from error


def print_faults(path, faults):
    for place, message, excerpt in faults[:SHOWN]:
        where = path if place is None else f"{path}:{place.line}:{place.column}"
        print(f"{where}: {message}", *excerpt, sep="\n", file=sys.stderr)
    if len(faults) > SHOWN:
        print(f"{path}: {len(faults) - SHOWN} more faults", file=sys.stderr)


def run(tool, description, forward, other):
    """Runs a tool. `forward` makes bytes of a text, and gives a summary too."""
    parser = argparse.ArgumentParser(
        prog=f"tools/{tool}", description=description, formatter_class=argparse.RawDescriptionHelpFormatter
    )
    parser.add_argument(other.option, dest="other", action="store_true", help=other.help)
    parser.add_argument("input", metavar="INPUT", help="file to read; - is the standard input")
    to_write = f"file to write; - is the standard output, as is none with {other.option}"
    parser.add_argument("output", metavar="OUTPUT", nargs="?", help=to_write)
    arguments = parser.parse_args()
    source, target = arguments.input, arguments.output or ("-" if arguments.other else None)
    if target is None:
        parser.error("OUTPUT is missing")
    if target != "-" and os.path.exists(target) and os.path.exists(source) and os.path.samefile(source, target):
        parser.error("INPUT and OUTPUT are the same file")
    try:
        made, summary = (other.make if arguments.other else forward)(read_input(source))
        write_output(target, made)
    except Faulty as faulty:
        print_faults(source, faulty.faults)
        return REFUSED
    except Refused as refused:
        print(f"{source}: {refused}", file=sys.stderr)
        return REFUSED
    except Unusable as unusable:
        print(f"tools/{tool}: {unusable}", file=sys.stderr)
        return UNUSABLE
    except KeyboardInterrupt:
        return INTERRUPTED
    if target != "-":
        print(f"{target}: {summary}")
    return 0
