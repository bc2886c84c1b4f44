#!/usr/bin/env python3
"""Measures pushes of nicklists: what a join costs among some nicks, and what the push of one costs.

Puts the program of bench/pushes/main.txt over the crates that it uses into a folder of its own, and has `rt run` prove
and build it there. For each number of nicks it prints nanoseconds of processor time, the least of some runs: of a join
and of the push of all at once, each per nick, and of one nick that comes or goes with the push of it. It ends with 1
where the last grows more than three times with the number of nicks. The first build takes some minutes, a later one in
the same folder seconds. Linux and Python 3, standard library only. Example:

    bench/pushes.py --folder /tmp/pushes-bench 1000 10000 100000
"""
import argparse
import os
import shutil
import subprocess
import sys

TOP = os.path.join(os.path.dirname(os.path.abspath(__file__)), "..")
CRATES = ("wc_text", "wc_nicklist", "wc_nickdiff", "wc_buffers", "wc_lines", "wc_model", "wc_world")
ROWS = ("a join", "the push of all, per nick", "one nick with its push")
MOST = 3.0


def prepare(folder):
    """Brings the crates and the program into the folder; what `rt` kept there stays."""
    for name in CRATES:
        source, target = os.path.join(TOP, "crates", name), os.path.join(folder, "crates", name)
        for part in ("src", "specs", "proofs"):
            shutil.rmtree(os.path.join(target, part), ignore_errors=True)
            if os.path.isdir(os.path.join(source, part)):
                shutil.copytree(os.path.join(source, part), os.path.join(target, part))
    program = os.path.join(folder, "crates", "push_bench")
    os.makedirs(os.path.join(program, "src"), exist_ok=True)
    shutil.copy(os.path.join(TOP, "bench", "pushes", "main.txt"), os.path.join(program, "src", "main.rt"))
    with open(os.path.join(TOP, "crates.txt")) as file:
        lines = [line for line in file if line.split(":")[0] in CRATES]
    with open(os.path.join(folder, "crates.txt"), "w") as file:
        file.writelines(lines + ["push_bench: anyhow " + " ".join(CRATES) + "\n"])
    return program


def build(program):
    """The path of the program, proved and built."""
    done = subprocess.run(["rt", "run"], cwd=program, stdout=subprocess.PIPE, stderr=subprocess.STDOUT, text=True)
    if done.returncode != 0:
        sys.exit(done.stdout + "the program was not built")
    return os.path.join(program, "out", "push_bench")


def timed(binary, count, pushes):
    """The nanoseconds that the program printed."""
    done = subprocess.run([binary, str(count), str(pushes)], stdout=subprocess.PIPE, text=True)
    if done.returncode != 0:
        sys.exit("the program failed")
    return [int(line) for line in done.stdout.split()]


def main():
    words = argparse.ArgumentParser(description=__doc__, formatter_class=argparse.RawDescriptionHelpFormatter)
    words.add_argument("counts", nargs="*", type=int, default=[1000, 10000, 100000], metavar="nicks", help="numbers of nicks")
    words.add_argument("--folder", default="/tmp/pushes-bench", help="where it is built")
    words.add_argument("--pushes", type=int, default=10000, help="how many pushes of one nick are timed")
    words.add_argument("--runs", type=int, default=5, help="how often each is timed")
    words = words.parse_args()
    binary = build(prepare(words.folder))
    columns = [[min(times) for times in zip(*(timed(binary, count, words.pushes) for _ in range(words.runs)))] for count in words.counts]
    print("%-28s" % "ns" + "".join("%10d" % count for count in words.counts))
    for title, times in zip(ROWS, zip(*columns)):
        print("%-28s" % title + "".join("%10d" % time for time in times))
    last = [column[-1] for column in columns]
    if max(last) > MOST * max(1, min(last)):
        sys.exit("above %.0f: %s" % (MOST, ROWS[-1]))


if __name__ == "__main__":
    main()
