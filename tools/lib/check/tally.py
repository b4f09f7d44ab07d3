"""Cases with a line each, and their count."""
import collections
import threading
import traceback


class Tally:
    """Prints a line for each case, and counts them. Threads may share one."""

    def __init__(self):
        self.count, self.lock = collections.Counter(), threading.Lock()

    def case(self, name, wrong="", lacks=""):
        """A case, with what is wrong, or with what it needs and isn't there."""
        word = "skipped" if lacks else "FAILED" if wrong else "ok"
        with self.lock:
            self.count[word] += 1
            print(": ".join([f"{word:7} {name}", *map(str, filter(None, [lacks or wrong]))]),
                  flush=True)

    def run(self, name, function, *arguments):
        """Runs a function that adds cases. What stops it is a case that fails."""
        try:
            function(*arguments)
        except Exception:
            self.case(f"{name}: it runs to its end", traceback.format_exc())

    def sums(self):
        """The last line, and the exit status."""
        ok, failed, skipped = (self.count[it] for it in ("ok", "FAILED", "skipped"))
        line = f"{ok} passed, {failed} failed" + f", {skipped} skipped" * bool(skipped)
        return line, int(failed > 0)
