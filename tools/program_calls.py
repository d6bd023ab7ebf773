"""Calls the program `nfp`, with files that it reads and pipes that it writes into. Used by `explain`."""

import contextlib
import fcntl
import os
import pathlib
import subprocess
import tempfile
import threading
import typing

PROGRAM = os.environ.get('NFP_PROGRAM') or str(pathlib.Path(__file__).resolve().parent.parent / 'nfp')

# Statuses of the program after which its files and its line are what it says.
DONE, POLICY, CAPTURE, GRAPH = 0, 2, 3, 8

# Descriptors below this one may be used by a script that leads to the program.
FIRST_DESCRIPTOR = 20

PIPE = object()
CHUNK = 1 << 20  # bytes that are copied at once


class NotEnded(Exception):
    """The program ended in another way, with this message."""


class Ended(typing.NamedTuple):
    status: int
    note: str  # what it printed


def high(descriptor):
    """The same file by a descriptor that no script uses."""
    other = fcntl.fcntl(descriptor, fcntl.F_DUPFD_CLOEXEC, FIRST_DESCRIPTOR)
    os.close(descriptor)
    return other


class File:
    """A file that the program opens by a descriptor of this process. It may have no name, or stand for another file by now."""

    def __init__(self, descriptor):
        self.descriptor = high(descriptor)

    @property
    def name(self):
        return f'/dev/fd/{self.descriptor}'

    def close(self):
        os.close(self.descriptor)

    def __enter__(self):
        return self

    def __exit__(self, *_):
        self.close()


def file_of(content):
    """A file with this content."""
    descriptor = os.memfd_create('nfp')
    with open(descriptor, 'wb', closefd=False) as file:
        file.write(content)
    return File(descriptor)


def fed(file, size):
    """The front of a file, of this many bytes, as a pipe."""
    read, write = os.pipe()

    def feed():
        with open(file.name, 'rb') as source, open(write, 'wb') as pipe, contextlib.suppress(BrokenPipeError):
            left = size
            while left and (piece := source.read(min(left, CHUNK))):
                pipe.write(piece)
                left -= len(piece)

    threading.Thread(target=feed, daemon=True).start()
    return File(read)


class Call:
    """A call of the program. Each PIPE among its words is a pipe, from which `pipes` read in this order. Each word that is a File is its name.
    A call that is left before the program ended ends it."""

    def __init__(self, *words):
        self.pipes, passed, ends = [], [], []
        spelled = []
        for word in words:
            if word is PIPE:
                read, write = os.pipe()
                self.pipes.append(open(read, 'rb'))
                word = File(write)
                ends.append(word)
            if isinstance(word, File):
                passed.append(word.descriptor)
                word = word.name
            spelled.append(str(word))
        self.said, self.complained = tempfile.TemporaryFile(), tempfile.TemporaryFile()
        try:
            self.process = subprocess.Popen(
                [PROGRAM, *spelled], stdin=subprocess.DEVNULL, stdout=self.said, stderr=self.complained, pass_fds=passed,
                env={**os.environ, 'NFP_LINT': '0', 'NFP_PROGRESS': '0'},
            )  # fmt: skip
        finally:
            for end in ends:
                end.close()

    def __enter__(self):
        return self

    def __exit__(self, *_):
        if self.process.poll() is None:
            self.process.terminate()
        for file in (*self.pipes, self.said, self.complained):
            file.close()
        self.process.wait()

    def ended(self, *due):
        """How it ended, if with one of these statuses."""
        status = self.process.wait()
        if status not in (due or (DONE, CAPTURE)):
            complained = (contents(self.complained) or contents(self.said)).strip()
            raise NotEnded(f'the program ended with status {status}{": " if complained else ""}{complained}')
        return Ended(status, contents(self.said))


def contents(file):
    file.seek(0)
    return file.read().decode('utf-8', 'backslashreplace')


def called(*words, due=()):
    """How a call ended that has no pipe."""
    with Call(*words) as call:
        return call.ended(*due)
