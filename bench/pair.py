"""Runs two commands by turns, compares their outputs, and prints what each took. Started by gradients.sh.

Usage: python3 pair.py ROUNDS COMMAND COMMAND
"""
import os
import sys
import time

NAMES = ["simit", "Python"]


def run(words, out):
    """One run with its output in a file: wall time, processor time and peak memory of that child alone."""
    with open(out, "wb") as file:
        start = time.perf_counter()
        child = os.posix_spawn(words[0], words, os.environ, file_actions=[(os.POSIX_SPAWN_DUP2, file.fileno(), 1)])
        _, ending, usage = os.wait4(child, 0)
        seconds = time.perf_counter() - start
    status = os.waitstatus_to_exitcode(ending)
    if status != 0:
        sys.exit(f"stopped: {' '.join(words)} ended with status {status}")
    return seconds, usage.ru_utime + usage.ru_stime, usage.ru_maxrss / 1024


def main():
    rounds, commands = int(sys.argv[1]), [command.split() for command in sys.argv[2:]]
    outs = [f"{name}.out" for name in NAMES]
    runs = [[], []]
    for turn in range(rounds + 1):
        for which in (0, 1) if turn % 2 else (1, 0):
            took = run(commands[which], outs[which])
            if turn > 0:
                runs[which].append(took)
        with open(outs[0], "rb") as one, open(outs[1], "rb") as other:
            if one.read() != other.read():
                sys.exit("stopped: the two outputs differ")
    print(f"the same output from both; rounds: {rounds}, after one that isn't timed")
    print(f"  {'':8}{'best s':>9}{'cpu s':>9}{'peak MiB':>10}")
    best = [[min(column) for column in zip(*taken)] for taken in runs]
    for name, (seconds, processor, _), taken in zip(NAMES, best, runs):
        print(f"  {name:8}{seconds:9.3f}{processor:9.3f}{max(peak for _, _, peak in taken):10.1f}")
    print(f"  Python / simit {best[1][0] / best[0][0]:.2f} in wall time, {best[1][1] / best[0][1]:.2f} in processor time")


main()
