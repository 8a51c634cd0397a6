"""How the commands of this folder take their arguments, read their input, write their output, and end."""
import argparse
import os
import sys

# The exit statuses are those that canely has for the same causes, but for that of a program which could not be built.
NOT_BUILT, WRONG_ARGUMENTS, REFUSED, READ_FAILED, WRITE_FAILED, INTERRUPTED = 1, 2, 3, 4, 5, 130


class Parser(argparse.ArgumentParser):
    """A parser of arguments that complains in one line."""

    def error(self, message):
        self.exit(WRONG_ARGUMENTS, f"{self.prog}: {message}; see {self.prog} --help\n")


def number_between(least, most):
    """Reads an argument that is a number in this range."""

    def read(text):
        if not (text.isascii() and text.isdecimal()) or not least <= int(text) <= most:
            raise argparse.ArgumentTypeError(f"{text!r} is no number from {least} to {most}")
        return int(text)

    return read


class Failure(Exception):
    """What ends a command, as the one line that it says on standard error."""

    def __init__(self, status, line):
        super().__init__(line)
        self.status = status


def cause(error):
    return (error.strerror or str(error)).lower()


def read_bytes(path):
    """All bytes of a file, or of standard input where there is no path or it is "-"."""
    is_file = path not in (None, "-")
    try:
        if not is_file and sys.stdin is None:
            raise OSError("it is closed")
        with open(path, "rb") if is_file else open(sys.stdin.fileno(), "rb", closefd=False) as source:
            return source.read()
    except OSError as error:
        raise Failure(READ_FAILED, f"cannot read {path if is_file else 'standard input'}: {cause(error)}") from None


def write(lines):
    """Writes lines to standard output."""
    write_bytes(line.encode() + b"\n" for line in lines)


def write_bytes(pieces):
    """Writes pieces of bytes to standard output. A reader that has gone, as `head` does, is a failure like a full disk."""
    try:
        if sys.stdout is None:
            raise OSError("it is closed")
        for piece in pieces:
            sys.stdout.buffer.write(piece)
        sys.stdout.buffer.flush()
    except OSError as error:
        if sys.stdout is not None:
            # else the interpreter tries to write the rest at its end, and complains
            os.dup2(os.open(os.devnull, os.O_WRONLY), sys.stdout.fileno())
        raise Failure(WRITE_FAILED, f"cannot write to standard output: {cause(error)}") from None


def run(name, work):
    """The exit status of a command: what its work answers, 0 where that is nothing, or that of the Failure by which it ends."""
    try:
        return work() or 0
    except Failure as failure:
        print(f"{name}: {failure}", file=sys.stderr)
        return failure.status
    except KeyboardInterrupt:
        return INTERRUPTED
