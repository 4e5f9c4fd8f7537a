"""Times runs of the program in rounds.

On a shared machine the speed of a core changes from second to second, and by half. So each round times every task once, one right after
the other, and what is compared are the tasks of one round. A ratio is the median of the rounds' ratios.
"""

import os
import resource
import statistics
import subprocess
import sys
import time

HERE = os.path.dirname(os.path.abspath(__file__))


def program():
    """The program that is timed: the first word, or the one that is built."""
    path = sys.argv[1] if len(sys.argv) > 1 else os.path.join(HERE, "..", "crates", "spf", "out", "spf")
    if not os.access(path, os.X_OK):
        sys.exit("the program isn't built: ./spf --build")
    return path


def processor_time():
    """The seconds of processor time that all runs until now took."""
    used = resource.getrusage(resource.RUSAGE_CHILDREN)
    return used.ru_utime + used.ru_stime


def timed(command, data=None):
    """Wall-clock seconds of a run, those of processor time on all its threads, and its output, messages and status."""
    start, used = time.perf_counter(), processor_time()
    done = subprocess.run(command, input=data, capture_output=True)
    return time.perf_counter() - start, processor_time() - used, (done.stdout, done.stderr, done.returncode)


class Rounds:
    """The seconds of each task, round by round."""

    def __init__(self, tasks, count):
        """`tasks` maps names to commands, all of which must give the same answer."""
        self.times = {name: [] for name in tasks}
        self.used = {name: [] for name in tasks}
        wanted = None
        for _ in range(count):
            for name, command in tasks.items():
                took, used, got = timed(command)
                if wanted is not None and got != wanted:
                    sys.exit(f"{' '.join(command)}: another answer")
                wanted = got
                self.times[name].append(took)
                self.used[name].append(used)

    def seconds(self, name):
        return statistics.median(self.times[name])

    def ratio(self, one, other, less=0.0):
        """How many times as long the one task takes as the other, after as many seconds are taken off both."""
        return statistics.median((a - less) / (b - less) for a, b in zip(self.times[one], self.times[other]))

    def processor_ratio(self, one, other):
        """How many times as much processor time the one task takes as the other."""
        return statistics.median(a / b for a, b in zip(self.used[one], self.used[other]))
