"""Runs the proved programs, with a bound on what they print and take."""

import os
import selectors
import shlex
import signal
import subprocess
import tempfile
import time

from .faults import FormulaError
from .lines import shortened

ROOT = os.path.dirname(os.path.dirname(os.path.dirname(
    os.path.abspath(__file__))))
RUN = os.path.join(ROOT, 'tools', 'run')
RUN_SECONDS = 60
CHUNK = 65536
COMPLAINT_BYTES = 4096


def file_of(name):
    """Where a program of the project stands once it is built."""
    return os.path.join(ROOT, 'crates', name, 'out', name)


def built(name):
    """Whether a program of the project is built."""
    return os.path.isfile(file_of(name))


def command_of(name):
    """The command line of a program of the project, if it is built."""
    if not os.path.isdir(os.path.join(ROOT, 'crates', name)):
        raise FormulaError(f'the program `{name}` is not part of this tree')
    if not built(name):
        raise FormulaError(f'the program `{name}` is not built:'
                           ' `rt ci` proves and builds it')
    return [RUN, name]


def words_of(command):
    """The words of a command line that a person wrote as one argument."""
    try:
        words = shlex.split(command)
    except ValueError as fault:
        raise FormulaError(f"can't run {command!r}: {fault}") from None
    if not words:
        raise FormulaError("can't run '': no program is named")
    return words


class Run:
    """What a program printed, what it complained of, and its exit status."""

    def __init__(self, printed, complained, status):
        self.printed = printed.decode('utf-8', 'replace')
        self.complained = complained.decode('utf-8', 'replace')
        self.status = status

    @property
    def lines(self):
        return self.printed.removesuffix('\n').split('\n')


def run(words, given, limit, seconds=RUN_SECONDS):
    """Feeds bytes to a program; no more than `limit` bytes of it are read."""
    with tempfile.TemporaryFile() as form:
        form.write(given)
        form.seek(0)
        try:
            process = subprocess.Popen(
                words, stdin=form, stdout=subprocess.PIPE,
                stderr=subprocess.PIPE, start_new_session=True)
        except (OSError, ValueError) as fault:
            raise FormulaError(
                f"can't run {shlex.join(words)!r}: {fault}") from None
        with process:
            try:
                return _collect(process, words, limit, seconds)
            finally:
                _end(process)


def _collect(process, words, limit, seconds):
    kept = {process.stdout: b'', process.stderr: b''}
    deadline = time.monotonic() + seconds
    for stream, data in _chunks(kept, deadline, words, seconds):
        kept[stream] += data
        if len(kept[process.stdout]) > limit:
            raise FormulaError(
                f'{shlex.join(words)!r} printed more than {limit:,} bytes,'
                ' which no answer to this formula has; it begins with '
                + shortened(kept[process.stdout][:400]
                            .decode('utf-8', 'replace').split('\n')[0]))
        kept[process.stderr] = kept[process.stderr][:COMPLAINT_BYTES]
    try:
        process.wait(max(deadline - time.monotonic(), 0))
    except subprocess.TimeoutExpired:
        raise _too_slow(words, seconds) from None
    return Run(kept[process.stdout], kept[process.stderr], process.returncode)


def _chunks(streams, deadline, words, seconds):
    with selectors.DefaultSelector() as selector:
        for stream in streams:
            selector.register(stream, selectors.EVENT_READ)
        while selector.get_map():
            ready = selector.select(max(deadline - time.monotonic(), 0))
            if not ready:
                raise _too_slow(words, seconds)
            for key, _ in ready:
                data = os.read(key.fd, CHUNK)
                if data:
                    yield key.fileobj, data
                else:
                    selector.unregister(key.fileobj)


def _too_slow(words, seconds):
    return FormulaError(
        f'{shlex.join(words)!r} did not end within {seconds} seconds')


def _end(process):
    # The whole group: a program may have started others that hold the pipe.
    if process.poll() is None:
        try:
            os.killpg(process.pid, signal.SIGKILL)
        except (ProcessLookupError, PermissionError):
            process.kill()
