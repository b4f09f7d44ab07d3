"""The program `ga_rows` on streams that are slow, full, closed or of the wrong kind."""
import functools
import os
import resource
import signal
import tempfile
import time
from fcntl import ioctl
from subprocess import DEVNULL
from termios import FIONREAD

from check.running import Seen, differences, file_of, read_again, run_program

PROGRAM = "ga_rows"
# Each mode by its word, and what it writes of the bytes 1 to 8.
MODES = {
    "dec": b"1 2 3 4\n5 6 7 8\n",
    "hex": b"01020304\n05060708\n",
    "back": b"4 3 2 1\n8 7 6 5\n",
    "sum": b"10\n26\n",
    "last": b"5 6 7 8\n1 2 3 4\n",
}
USAGE = f"usage: ga_rows [{'|'.join(MODES)}] [1|2|4|8|16]\n".encode()
NO_MEMORY = b"ga_rows: out of memory\n"
FAULTY, MEANINGLESS = Seen(4, b"", b"ga_rows: read or write fault\n"), Seen(2, b"", USAGE)
# How often these bytes are repeated where the input is long.
MANY = 12_800
SIX = bytes(range(1, 7))


def input_of(count):
    """The bytes 1 to 8 so many times, and a rest."""
    return bytes(range(1, 9)) * count + b"\x09\x0a"


def whole(mode, count):
    """What a run over this input has to come to in which nothing fails."""
    return Seen(1, MODES[mode] * count + b"rest 9 10\n", b"")


def give_byte_by_byte(data):
    """Writes each byte once the one before it is read."""

    def give(process):
        for place in range(len(data)):
            process.stdin.write(data[place : place + 1])
            while process.poll() is None and any(ioctl(process.stdin, FIONREAD, bytes(4))):
                time.sleep(0.0002)

    return give


def give_past_the_memory(process):
    """Gives 100 MB to a program that may have 16 MiB more than it has, by the limit of `ulimit -v`.

    The limit is set once it reads, since a tried program takes most of all addresses at its start.
    """
    process.stdin.write(bytes(2**20))
    with open(f"/proc/{process.pid}/statm") as statm:
        size = int(statm.read().split()[0]) * os.sysconf("SC_PAGE_SIZE") + 2**24
    resource.prlimit(process.pid, resource.RLIMIT_AS, (size, size))
    for _ in range(100):
        process.stdin.write(bytes(10**6))


def run_case(tally, program, name, wanted, words=(), data=b"", signals=(), left=None, **how):
    """A case: the program on these bytes, or on the streams of `how`. `left` reads what counts as
    its output where that is a file."""
    with file_of(data) as given:
        seen = run_program(program, words, **(how if "give" in how else {"stdin": given, **how}))
        if left:
            seen = seen._replace(out=left(given))
    tally.case(name, differences(seen, wanted, *signals))


def run_outputs(case):
    data, text, limit = input_of(MANY), whole("dec", MANY).out, (10_000, 10_000)
    with open("/dev/full", "wb") as full:
        case("a full disk, 6 bytes", FAULTY, data=SIX, stdout=full)
        case("a full disk, 102,402 bytes", FAULTY, data=data, stdout=full)
        case("a full disk and nothing to write", Seen(0, b"", b""), stdout=full)
        case("a usage text that goes nowhere", Seen(2, b"", b""), ["dec", "3"], stderr=full)
    with file_of() as out:
        case("a disk that is full after 10,000 bytes", FAULTY._replace(out=text[:10_000]),
             data=data, signals=[signal.SIGXFSZ], stdout=out, left=lambda given: read_again(out),
             before=lambda: resource.setrlimit(resource.RLIMIT_FSIZE, limit))
    case("a closed output", FAULTY, data=SIX, stdout=DEVNULL, before=functools.partial(os.close, 1))
    case("a reader that leaves after a byte", FAULTY._replace(out=text[:1]), data=data,
         signals=[signal.SIGPIPE], take=lambda pipe: (pipe.read(1), pipe.close())[0])


def run_inputs(case):
    case("a closed input", FAULTY, before=functools.partial(os.close, 0))
    folder = os.open(tempfile.gettempdir(), os.O_RDONLY)
    case("a directory as input", FAULTY, stdin=folder)
    case("meaningless words before either", MEANINGLESS, ["dec", "3"], stdin=folder,
         before=functools.partial(os.close, 1))
    os.close(folder)
    case("meaningless words, and the input is left", MEANINGLESS._replace(out=SIX), ["rows"], SIX,
         left=lambda given: given.read())
    case("more input than there is memory", Seen(3, b"", NO_MEMORY), give=give_past_the_memory)


def run_system_faults(tally, program):
    case = functools.partial(run_case, tally, program)
    for mode in MODES:
        case(f"{mode}: the input comes byte by byte", whole(mode, 5), [mode],
             give=give_byte_by_byte(input_of(5)))
        case(f"{mode}: the output goes byte by byte", whole(mode, MANY), [mode], input_of(MANY),
             take=lambda pipe: b"".join(iter(lambda: pipe.read(1), b"")))
    run_outputs(case)
    run_inputs(case)
