"""Memory that is lost, requested without need, or refused, and a system that fails.

It runs what the parts `tests` and `trials` built, or builds it. `rt try` links the address
sanitizer, which reports at the end of a run how often it requested memory, and whether some was
neither given back nor can be reached. `rt try` doesn't report whether a run came to the request
that it was to refuse: so each test is also run with one more refused than it makes.
"""
import collections
import re
import tempfile

from check import tests, trials
from check.building import SECONDS, copy_refusing, run_all
from check.ga_rows import MANY, MODES, NO_MEMORY, PROGRAM, input_of, run_system_faults, whole
from check.running import Seen, at_once, differences, file_of, read_again, run_program, brief

# The tests in modules of this name pass whether or not one of their requests for memory is refused,
# and print a line 'refused: ..' where one was. Other tests presume that memory is ample.
REFUSED = "refused_memory"
# A leak is an error, and all else ends with counts, in which a block that grows counts too.
SANITIZED = {"ASAN_OPTIONS": "detect_leaks=1:atexit=1:print_stats=1"}
LEAK = re.compile(rb"^SUMMARY: AddressSanitizer: (\d+ byte\(s\) leaked .*)", re.M)
COUNT = re.compile(rb"^Stats: \d+M malloced .* by (\d+) calls$", re.M)
# How often all calls of a test request memory, as it prints.
PRINTED = re.compile(rb"^requests: (\d+)$", re.M)

# A run of a test: how many requests it made, whether it prints that number, whether it says that
# one was refused, and what is wrong with it.
Test = collections.namedtuple("Test", "name requests printed refused wrong")


def run_counted(program, words, data=b""):
    """Runs a tried program, and returns what is seen of it and how often it requests memory."""
    # What the sanitizer says of many leaks fills a pipe, which nobody reads before the output ends.
    with file_of(data) as given, file_of() as err:
        streams = {"stdin": given, "stderr": err, "cwd": tempfile.tempdir}
        seen = run_program(program, words, env=SANITIZED, seconds=SECONDS, **streams)
        seen = seen._replace(err=read_again(err))
    count = COUNT.search(seen.err)
    return seen, int(count[1]) if count else 0


def run_test(program, name, start):
    """Runs a test. A start without a test makes so many requests."""
    seen, count = run_counted(program, [name])
    printed, leak, requests = PRINTED.search(seen.out), LEAK.search(seen.err), count - start
    wrong = ""
    if leak:
        wrong = leak[1].decode()
    elif seen.status or not count:
        wrong = f"status {seen.status}, {brief(seen.out)}, {brief(seen.err)}"
    elif printed and int(printed[1]) != requests:
        wrong = f"{requests} requests, and it prints {int(printed[1])}"
    return Test(name, requests, bool(printed), b"refused: " in seen.out, wrong)


def run_refused(program, test, number, start):
    """Runs a test whose request of this number is refused, or would be if it made one more."""
    again = run_test(program, test.name, start)
    if again.wrong or again.refused == (number <= test.requests):
        return again
    says = "says that one is refused" if again.refused else "doesn't say so"
    return again._replace(wrong=f"{says}, and makes {test.requests} with ample memory")


def run_tests(tally, run):
    """Runs all tests of a crate with ample memory, and those that are there for it with each of
    their requests refused in turn, and one more. What fails at first isn't run again. Returns how
    many are refused memory, and how many print their requests."""
    def case(what, found):
        failures = [f"{it.name}: {it.wrong}" for it in found if it.wrong]
        tally.case(f"{run.name}: {run.kind}, {what}", "; ".join(failures))

    names = re.findall(r"^(\S+): test$", run_program(run.program, ["--list"]).out.decode(), re.M)
    start = run_counted(run.program, [])[1]
    ample = [*at_once(lambda it: run_test(run.program, it, start), names)]
    case("with ample memory", ample)
    right = [it for it in ample if REFUSED in it.name.split("::") and not it.wrong]

    def refuse(number):
        with copy_refusing(run.program, number) as copy:
            reached = [it for it in right if number <= it.requests + 1]
            return [run_refused(copy, it, number, start) for it in reached]

    numbers = range(1, max((it.requests for it in right), default=-1) + 2)
    for number, found in zip(numbers, at_once(refuse, numbers)):
        count = sum(it.refused for it in found)
        case(f"request {number} is refused in {count} of {len(found)}", found)
    return len(right), sum(it.printed for it in ample)


def run_rows(tally, program):
    """Refuses each request of a run in turn, and one more than it makes. Where a smaller one makes
    up for a refused one, as std does for the list of the words, the output has to be whole.

    Runs over no bytes make as many requests as one whose word means nothing, and which doesn't
    read: so none of them is for the bytes.
    """
    words, data = ["hex"], input_of(MANY)
    most = run_counted(program, words, data)[1]
    for number in range(1, most + 2):
        with file_of(data) as given, copy_refusing(program, number) as copy:
            seen = run_program(copy, words, env={"ASAN_OPTIONS": "detect_leaks=1"}, stdin=given)
        is_refused = number == 1 or (number <= most and seen.status == 3)
        wanted = Seen(3, b"", NO_MEMORY) if is_refused else whole("hex", MANY)
        outcome = "refused" if is_refused else "the whole output"
        name = f"{PROGRAM} hex: request {number} of {most}, {outcome}"
        tally.case(name, differences(seen, wanted))
    unread = run_counted(program, ["none"])[1]
    for mode in MODES:
        asked = run_counted(program, [mode])[1]
        wrong = asked != unread and f"{asked} requests, and {unread} of a run that doesn't read"
        tally.case(f"{PROGRAM} {mode}: no bytes ask for no memory", wrong)


def run(tally, words):
    built = [*trials.runs(), *tests.runs()]
    run_all(tally, built, words)
    # A crate with tests in trials/sweeps is run with these alone. What takes longest comes first.
    built = [*{(it.name, type(it)): it for it in reversed(built) if it.seen}.values()][::-1]

    def run_again(it):
        if isinstance(it, tests.Tests):
            return run_tests(tally, it)
        run_rows(tally, it.program)
        run_system_faults(tally, it.program)
        return 0, 0

    counts = [*at_once(run_again, built)]
    if not words:
        refused, printed = map(sum, zip(*counts))
        tally.case(f"{refused} tests are refused memory, {printed} print their requests",
                   "" if refused and printed else "there are none")
