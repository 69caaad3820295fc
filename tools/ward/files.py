"""Files as the sub-commands take them: `-` is standard input or output, what can be read only once is kept, and what can't be opened, read or written is told in one line."""

import contextlib
import os
import shutil
import sys
import tempfile

from ward.ends import CANNOT_WRITE, WRONG_USE, Ended, cannot_read

STANDARD = "-"


def stand_in():
    """Puts what can't be read or written in the place of each closed descriptor of the three, so that no file that is opened later takes its number."""
    for number, (name, mode, other) in enumerate((("stdin", "r", os.O_WRONLY), ("stdout", "w", os.O_RDONLY), ("stderr", "w", os.O_WRONLY))):
        try:
            os.fstat(number)
        except OSError:
            os.open(os.devnull, other)
            setattr(sys, name, open(number, mode, closefd=False))


@contextlib.contextmanager
def readable(path):
    """A path that can be opened as often as is wanted: what can be read only once, as standard input or a pipe, is kept in a file for as long as it lasts."""
    if path != STANDARD and os.path.isfile(path):
        with opened(path):
            yield path
        return
    with opened(path) as once, tempfile.NamedTemporaryFile(prefix="ward-") as kept:
        try:
            shutil.copyfileobj(once, kept)
        except OSError as error:
            raise cannot_read(name_of(path), error.strerror) from None
        kept.flush()
        yield kept.name


def name_of(path):
    return "standard input" if path == STANDARD else path


def opened(path):
    """A file of bytes, to be read."""
    try:
        if os.path.isdir(path):
            raise cannot_read(path, "it is a folder")
        return open(0, "rb", closefd=False) if path == STANDARD else open(path, "rb")
    except OSError as error:
        raise cannot_read(name_of(path), error.strerror) from None


def text_of(path):
    """The text of a file. The mark that some editors put before it is no part of it."""
    with readable(path) as again, opened(again) as file:
        try:
            return file.read().decode("utf-8-sig")
        except UnicodeDecodeError as error:
            raise cannot_read(name_of(path), f"byte {error.start} is no text") from None


def unwritten(path, error):
    """What is raised where nothing can be written: nobody who reads any more is no error to tell of. What is left for standard output goes nowhere."""
    if path is None:
        os.dup2(os.open(os.devnull, os.O_WRONLY), sys.stdout.fileno())
    return error if isinstance(error, BrokenPipeError) else Ended(f"{path or 'standard output'}: {error.strerror}", CANNOT_WRITE)


@contextlib.contextmanager
def writable(path):
    """A file of bytes to be written; without a path standard output, where that is no terminal."""
    path = None if path == STANDARD else path
    if path is None and sys.stdout.isatty():
        raise Ended("this is for a file, and not for a terminal: > FILE, please, or -o FILE", WRONG_USE)
    try:
        with contextlib.nullcontext(sys.stdout.buffer) if path is None else open(path, "wb") as file:
            yield file
            file.flush()
    except OSError as error:
        raise unwritten(path, error) from None


def put(text, flushed=False):
    """Some text on standard output."""
    try:
        sys.stdout.write(text)
        if flushed:
            sys.stdout.flush()
    except OSError as error:
        raise unwritten(None, error) from None


def say(lines):
    """Lines on standard output, up to what ends them."""
    try:
        for line in lines:
            put(f"{line}\n")
    finally:
        put("", True)


def complain(line):
    """A line on standard error, where anybody reads it."""
    with contextlib.suppress(OSError):
        os.write(2, f"{line}\n".encode(errors="surrogateescape"))
