"""The proved reader of typed queries, called through the program of typed.c, which is built with the archive."""
import pathlib
import subprocess
import sys
from typing import NamedTuple

from command import Unusable

TOP = pathlib.Path(__file__).resolve().parents[1]
PROGRAM = "target/tools/typed"


class Answer(NamedTuple):
    """The refusal, 0 and 0 if there is none, and what is made of the text: nothing on refusal 11."""

    number: int
    place: int
    made: bytes


def build():
    """Builds the program; what is done is said on standard error."""
    commands = f"set -euo pipefail; name=tools/typed; . scripts/archive.sh; build_program typed {PROGRAM}"
    if subprocess.run(["bash", "-c", commands], cwd=TOP, stdout=sys.stderr, check=False).returncode != 0:
        raise Unusable("the program that reads typed queries cannot be built")


def call(asked, data):
    done = subprocess.run([TOP / PROGRAM, asked], input=data, stdout=subprocess.PIPE, check=False)
    if done.returncode != 0:
        raise Unusable(f"{PROGRAM} ended with status {done.returncode}")
    return done.stdout


def read_text(asked, data):
    """What the text stands for, as `query` or as `tree`."""
    refusal, _, made = call(asked, data).partition(b"\n")
    number, place = map(int, refusal.split())
    return Answer(number, place, made)


def tokens_after(start):
    """The tokens of which one follows such a start of a text, behind white space, or `end`; none if the start ends inside a token. A
    variable, a term and a number of thousandths stand for all."""
    return call("next", start).decode().split()
