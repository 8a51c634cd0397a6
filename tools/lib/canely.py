"""Calls the program: its command `replay`, for a report, and the words of its command `check`."""
import shlex
import shutil
import subprocess

from . import command
from .lines import Malformed
from .report import read_report

# What `canely check` says of a scenario without a word.
REFUSED_EMPTY = b"refused missing key format in top 0\n"


def words_of(program):
    """The words by which the program is called."""
    try:
        words = shlex.split(program)
    except ValueError as error:
        raise command.Failure(command.WRONG_ARGUMENTS, f"{program!r} is no command: {str(error).lower()}") from None
    if not words or not shutil.which(words[0]):
        raise command.Failure(command.WRONG_ARGUMENTS, f"there is no program {words[0] if words else ''!r} here")
    return words


def called(words, text):
    """How a call on a text ended, with what it wrote and said."""
    try:
        return subprocess.run(words, input=text, stdout=subprocess.PIPE, stderr=subprocess.PIPE)
    except OSError as error:
        raise command.Failure(command.WRONG_ARGUMENTS, f"cannot run {words[0]}: {command.cause(error)}") from None


def said_by(ran):
    """In one line what a call that gave nothing said."""
    return " ".join((ran.stdout[:200] or ran.stderr[:200]).decode(errors="replace").split())


def check_words(program):
    """The words of the program's command `check`. Ends the command where it has none."""
    words = [*words_of(program), "check"]
    ran = called(words, b"")
    if (ran.returncode, ran.stdout) != (command.REFUSED, REFUSED_EMPTY):
        raise command.Failure(command.WRONG_ARGUMENTS, f"{program} has no command check: {said_by(ran)}".rstrip(": "))
    return words


def replayed(program, text):
    """The report of a scenario. What the program refuses ends the command as it ended the program."""
    ran = called([*words_of(program), "replay"], text)
    if ran.returncode:
        status = ran.returncode if ran.returncode > 0 else command.READ_FAILED
        raise command.Failure(status, f"{program} replay: {said_by(ran)}")
    try:
        return read_report(ran.stdout)
    except Malformed as error:
        raise command.Failure(command.REFUSED, f"{program} replay: {error}") from None
