"""The proved programs: a trace in, its answers out, and the checker of logs (document 02, R-14). Nothing else in tools/ runs them, and no answer has another
source.

The first is the program of ./replay. Both are built where they are missing or older than their sources. WARD_PROGRAM names another command in the place of
the first, such as the simulator's; that is then said on standard error.
"""

import contextlib
import functools
import os
import shlex
import subprocess
import tempfile

from ward.ends import CANNOT_RUN, Ended
from ward.files import complain

ROOT = os.path.dirname(os.path.dirname(os.path.dirname(os.path.abspath(__file__))))
TESTS = os.path.join(ROOT, "tests")


@functools.lru_cache(maxsize=None)
def built(name):
    """The words that run a proved program."""
    if not os.path.exists(os.path.join(ROOT, "crates", name, "out", name)):
        complain(f"the program {name} is proved and built first, which takes some minutes")
    done = subprocess.run([os.path.join(TESTS, "built"), name], stdin=subprocess.DEVNULL, stdout=subprocess.PIPE, check=False)
    if done.returncode:
        raise Ended(f"the proved program {name} could not be built", CANNOT_RUN)
    return [os.path.join(TESTS, "run"), done.stdout.decode().rstrip("\n")]


@functools.lru_cache(maxsize=None)
def command():
    """The words that run the program."""
    other = os.environ.get("WARD_PROGRAM")
    if not other:
        return built("mtredovim")
    complain(f"ward: the answers are those of {other}, not of the proved program")
    return shlex.split(other)


def how_ended(status):
    """In words; a shell tells the signal that ended a program as 128 and more."""
    signal = -status if status < 0 else status - 128
    return f"was ended by signal {signal}" if signal > 0 else f"ended with status {status}"


@contextlib.contextmanager
def running(trace):
    """The answers of the program to a file of records, as a file; those that are not read are passed over. That the program met a damaged record they tell."""
    with tempfile.TemporaryFile() as said:
        try:
            process = subprocess.Popen(command(), stdin=trace, stdout=subprocess.PIPE, stderr=said)
        except OSError as error:
            raise Ended(f"{command()[0]} could not be run: {error.strerror}", CANNOT_RUN) from None
        with process:
            yield process.stdout
            while process.stdout.read(1 << 16):
                pass
        said.seek(0)
        last = said.read().decode(errors="replace").strip().rpartition("\n")[2]
    if process.returncode or last.endswith("failed"):
        raise Ended(f"the program {how_ended(process.returncode)}" + (f": {last}" if last else ""), CANNOT_RUN)


@functools.lru_cache(maxsize=64)
def answers(trace):
    """What the program answers to some bytes; what was asked a moment ago is not asked again."""
    with tempfile.TemporaryFile() as file:
        file.write(trace)
        file.seek(0)
        with running(file) as told:
            return told.read()


def judged(trace_path, log_path):
    """What the proved checker says of a log, on standard output and on standard error. It reads the trace on standard input and the log on descriptor 3."""
    by_shell = ["sh", "-c", 'trace=$1 log=$2; shift 2; exec "$@" <"$trace" 3<"$log"', "sh", trace_path, log_path]
    done = subprocess.run([*by_shell, *built("check_log")], stdout=subprocess.PIPE, stderr=subprocess.PIPE, check=False)
    said, complained = (text.decode(errors="replace").strip() for text in (done.stdout, done.stderr))
    if done.returncode:
        raise Ended(f"the checker {how_ended(done.returncode)}" + (f": {complained}" if complained else ""), CANNOT_RUN)
    return said, complained
