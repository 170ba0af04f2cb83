"""Runs the three programs of a job by turns over both of its inputs and prints what each took. Started by
job.sh, which makes the inputs and the C program in work/.

Usage: python3 measure.py JOB SIMIT PYTHON ROUNDS
"""
import os
import resource
import sys
import time

MIB = 2**20
BYTES_PER_CELL = 16
FREE_BYTES = 64 * MIB
CHUNK = 2**16
INPUTS = ["whole", "quarter"]


class Job:
    """What is run: the words before the tables, and the tables of each input with their numbers of columns."""

    def __init__(self, name, words, tables, columns, python):
        self.name = name
        self.words = words
        self.tables = tables
        self.columns = columns
        self.python = python

    def files(self, size):
        return [f"work/{size}-{table}.csv" for table in self.tables]

    def rows(self, size):
        return [count_rows(file) for file in self.files(size)]

    def cells(self, size):
        return sum(rows * columns for rows, columns in zip(self.rows(size), self.columns))


JOBS = {
    "table": Job("table", ["run", "work/four.sim"], ["points"], [2], ["-I", "-S", "table.py"]),
    "springs": Job("springs", ["run", "work/pull.sim"], ["points", "springs"], [2, 3], ["springs.py"]),
    "scales": Job("scales", ["run", "work/decimals.sim"], ["decimal-points", "decimal-springs"], [2, 3], ["-I", "-S", "scales.py"]),
}


class Program:
    def __init__(self, job, name, words):
        self.job = job
        self.name = name
        self.words = words
        self.runs = {size: [] for size in INPUTS}

    def out(self, size):
        return f"work/{size}-{self.job.name}-{self.name}.out"

    def run(self, size):
        """One run with its output in a file. The peak is that of this child alone."""
        if os.path.exists(self.out(size)):
            os.unlink(self.out(size))
        words = self.words + self.job.files(size)
        with open(self.out(size), "xb") as out:
            actions = [(os.POSIX_SPAWN_DUP2, out.fileno(), 1)]
            start = time.perf_counter()
            child = os.posix_spawn(words[0], words, os.environ, file_actions=actions)
            _, ending, usage = os.wait4(child, 0)
            seconds = time.perf_counter() - start
        status = os.waitstatus_to_exitcode(ending)
        if status != 0:
            sys.exit(f"stopped: {self.name} ended with status {status}: {' '.join(words)}")
        return Run(seconds, usage)

    def times(self, size):
        """The best and the median wall time, and the least processor time, in seconds."""
        runs = self.runs[size]
        ordered = sorted(run.seconds for run in runs)
        median = (ordered[(len(ordered) - 1) // 2] + ordered[len(ordered) // 2]) / 2
        return [ordered[0], median, min(run.user + run.system for run in runs)]

    def peak(self, size):
        return max(run.peak for run in self.runs[size])


class Run:
    def __init__(self, seconds, usage):
        self.seconds = seconds
        self.user = usage.ru_utime
        self.system = usage.ru_stime
        self.peak = usage.ru_maxrss * 1024  # told in KiB


def first_difference(left, right):
    """The place of the first byte at which two files differ, or None. Keeps little in memory, since
    a child's peak is never told as less than this runner's own."""
    place = 0
    with open(left, "rb") as one, open(right, "rb") as other:
        while True:
            a, b = one.read(CHUNK), other.read(CHUNK)
            if a != b:
                same = zip(a, b)
                return place + next((i for i, (p, q) in enumerate(same) if p != q), min(len(a), len(b)))
            if not a:
                return None
            place += len(a)


def demand_same_output(programs, size):
    first = programs[0]
    for other in programs[1:]:
        place = first_difference(first.out(size), other.out(size))
        if place is not None:
            sys.exit(
                f"stopped: the outputs of {first.name} and {other.name} differ from byte {place} on;"
                f" they stand in bench/{first.out(size)} and bench/{other.out(size)}"
            )


def measure(programs, rounds):
    """One round that is not timed and then the timed ones. Each round takes both inputs, begins with
    another program, and compares the three outputs."""
    for size in INPUTS:
        for program in programs:
            program.run(size)
        demand_same_output(programs, size)
    for turn in range(rounds):
        first = turn % len(programs)
        for size in INPUTS:
            for program in programs[first:] + programs[:first]:
                program.runs[size].append(program.run(size))
            demand_same_output(programs, size)


def count_rows(name):
    with open(name, "rb") as file:
        return sum(1 for _ in file) - 1


def mib(size):
    return f"{size / MIB:.1f} MiB"


def print_ratios(name, above, below):
    first, second, third = (one / other for one, other in zip(above, below))
    print(f"  {name:14}{first:9.2f}{second:10.2f}{third:9.2f}")


def report(job, programs, size, rounds):
    c, simit, python = programs
    rows = job.rows(size)
    in_bytes = sum(os.path.getsize(file) for file in job.files(size))
    out_bytes = os.path.getsize(simit.out(size))
    named = ", ".join(f"{count:,} {table}" for count, table in zip(rows, job.tables))
    print(f"{named}: input {mib(in_bytes)}, output {mib(out_bytes)}, the same from all three; rounds: {rounds}")
    print(f"  {'':14}{'best s':>9}{'median s':>10}{'cpu s':>9}{'best ns/row':>13}{'peak MiB':>10}")
    for program in programs:
        best, median, processor_time = program.times(size)
        per_row = best / sum(rows) * 1e9
        print(f"  {program.name:14}{best:9.3f}{median:10.3f}{processor_time:9.3f}{per_row:13.1f}{program.peak(size) / MIB:10.1f}")
    print_ratios("simit / C", simit.times(size), c.times(size))
    print_ratios("Python / simit", python.times(size), simit.times(size))
    bound = in_bytes + BYTES_PER_CELL * job.cells(size) + out_bytes + FREE_BYTES
    peak = simit.peak(size)
    verdict = "within" if peak <= bound else "OVER"
    print(f"  simit's peak {mib(peak)} is {verdict} {mib(bound)}: input + {BYTES_PER_CELL} bytes a cell + output + 64 MiB")
    print()


def keep_runs(job, programs):
    with open(f"work/{job.name}-runs.csv", "w") as file:
        print("input,program,round,wall seconds,user seconds,system seconds,peak bytes", file=file)
        for size in INPUTS:
            for program in programs:
                for turn, run in enumerate(program.runs[size]):
                    print(size, program.name, turn, run.seconds, run.user, run.system, run.peak, sep=",", file=file)


def processor():
    with open("/proc/cpuinfo") as lines:
        for line in lines:
            if line.startswith("model name"):
                return line.split(":", 1)[1].strip()
    return os.uname().machine


def main():
    job, simit_path, python_path, rounds = JOBS[sys.argv[1]], sys.argv[2], sys.argv[3], int(sys.argv[4])
    programs = [
        Program(job, "C", [os.path.abspath(f"work/{job.name}")]),
        Program(job, "simit", [simit_path, *job.words]),
        Program(job, "Python", [python_path, *job.python]),
    ]
    system = os.uname()
    print(f"taken on: {processor()}, {system.sysname} {system.release}")
    print(f"simit: {simit_path}")
    print(flush=True)
    measure(programs, rounds)
    keep_runs(job, programs)
    for size in INPUTS:
        report(job, programs, size, rounds)
    print("the whole input over its quarter, 4 where time grows with the rows alone")
    for program in programs:
        print_ratios(program.name, *(program.times(size) for size in INPUTS))
    own_peak = resource.getrusage(resource.RUSAGE_SELF).ru_maxrss * 1024
    print(f"\nno peak is told below the runner's own, {mib(own_peak)}; each run stands in bench/work/{job.name}-runs.csv")


main()
