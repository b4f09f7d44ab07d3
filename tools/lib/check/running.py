"""Commands, and programs that are run with streams of the caller's own."""
import collections
import contextlib
import os
import subprocess
import tempfile
import threading
from concurrent.futures import ThreadPoolExecutor
from io import FileIO
from subprocess import DEVNULL, PIPE, STDOUT

Seen = collections.namedtuple("Seen", "status out err")
# Held while a program is written, and while one is started: a process that starts has all files for
# a moment, and none runs that another can write to.
STARTING = threading.Lock()


def call(*command, **how):
    """Runs a command. Returns its status and all that it wrote."""
    ended = subprocess.run(list(map(str, command)), text=True, errors="replace", stdin=DEVNULL,
                           stdout=PIPE, stderr=STDOUT, **how)
    return ended.returncode, ended.stdout


def at_once(function, arguments):
    """The results of a function at each of these, several at once, in order."""
    with ThreadPoolExecutor(os.cpu_count()) as pool:
        yield from pool.map(function, arguments)


def brief(it):
    if isinstance(it, bytes) and len(it) > 200:
        return f"{it[:60]!r} .. {len(it)} bytes"
    return repr(it)


def differences(seen, wanted, *signals):
    """What differs from what is wanted. Where one of the signals ended the program, its status and
    what it wrote to standard error don't count."""
    if seen.status is not None and -seen.status in signals:
        wanted = wanted._replace(status=seen.status, err=b"")
    fields = zip(Seen._fields, seen, wanted)
    return "; ".join(f"{it} {brief(a)}, and not {brief(b)}" for it, a, b in fields if a != b)


@contextlib.contextmanager
def file_of(data=b""):
    with tempfile.TemporaryFile() as file:
        file.write(data)
        file.seek(0)
        yield file


def read_again(file):
    file.seek(0)
    return file.read()


def run_program(program, words=(), give=None, take=FileIO.readall, before=None, env=None,
                seconds=60, **streams):
    """Runs a program for at most so long. `give` feeds its input, and `take` reads its output."""
    pipes = {"stdin": PIPE if give else DEVNULL, "stdout": PIPE, "stderr": PIPE, **streams}
    with STARTING:
        process = subprocess.Popen([program, *words], bufsize=0, env=env or {}, preexec_fn=before,
                                   **pipes)
    alarm = threading.Timer(seconds, process.kill)
    giver = threading.Thread(target=feed, args=(process, give))
    alarm.start()
    giver.start()
    try:
        out = take(process.stdout) if process.stdout else b""
        err = process.stderr.readall() if process.stderr else b""
        return Seen(process.wait(), out, err)
    finally:
        alarm.cancel()
        process.kill()
        giver.join()


def feed(process, give):
    if give:
        with contextlib.suppress(OSError), process.stdin:
            give(process)
