#!/usr/bin/env python3
"""python3 check.py COMMAND [DIR.. | -k PREFIX]: runs COMMAND run WORDS.. and COMMAND plain WORDS.. in each program's
folder and compares standard output, standard error and the status with the files there.

    python3 check.py /path/to/simit                     all of work/programs and work/programs-options
    python3 check.py /path/to/simit -k dense_           the names that begin so
    python3 check.py "python3 $PWD/reference.py"        the interpreter itself, which takes no such word
"""
import os
import shlex
import subprocess
import sys

here = os.path.dirname(os.path.abspath(__file__))


def is_as_wanted(words, p):
    """Whether the words end in the program's folder as its files say; what differs is printed."""
    try:
        got = subprocess.run(words, cwd=p, capture_output=True, timeout=120)
    except subprocess.TimeoutExpired:
        print("TIMEOUT", " ".join(words), p)
        return False
    want = [open(p + "/" + f, "rb").read() for f in ("out", "note", "status")]
    have = [got.stdout, got.stderr, b"%d\n" % got.returncode]
    for f, w, h in zip(("out", "note", "status"), want, have):
        if w != h:
            print("DIFFERS %s %s %s: want %r, got %r" % (" ".join(words), p, f, w[:300], h[:300]))
    return want == have


def main():
    command = shlex.split(sys.argv[1])
    rest = sys.argv[2:]
    prefix = ""
    if "-k" in rest:
        i = rest.index("-k")
        prefix = rest[i + 1]
        del rest[i:i + 2]
    dirs = rest or [os.path.join(here, "work", d) for d in ("programs", "programs-options")]
    leads = [[]] if command[-1].endswith("reference.py") else [["run"], ["plain"]]
    bad = n = 0
    for d in dirs:
        for name in sorted(os.listdir(d)):
            p = os.path.join(d, name)
            if not name.startswith(prefix) or not os.path.isfile(p + "/words"):
                continue
            words = open(p + "/words").read().split("\n")[:-1]
            n += 1
            bad += not all([is_as_wanted(command + lead + words, p) for lead in leads])
    print("%d programs, %d differ" % (n, bad))
    sys.exit(1 if bad else 0)


main()
