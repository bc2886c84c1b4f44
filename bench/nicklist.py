#!/usr/bin/env python3
"""Measures nicklists: nicks that are added, changed, looked up and removed, groups that come and go, and a pass.

Puts the program of bench/nicklist/main.txt over the crate wc_nicklist into a folder of its own, and has `rt run`
prove and build it there. The program times each act by the clock of the processor time, so that other work on the
machine counts little, and does as many rounds as give each number of nicks about as many acts. It is run for one
number after the other, several times about, and prints the median of the nanoseconds per nick, and the greatest of
these as a multiple of the least; it ends with 1 where such a multiple of an act other than the pass is above 3. What
is freed stays with the process, so that no page that the system hands out anew is counted. The nicks come in no
order, as from a server, and then in the order of their names. The first build takes some minutes, a later one in the
same folder seconds. Linux and Python 3, standard library only. Examples:

    bench/nicklist.py --folder /tmp/nicklist-bench 1000 10000 100000
    bench/nicklist.py --counts 1000 100000

With --counts, valgrind counts instructions and reads and writes that miss a cache of 1 MiB, per nick, in place
of the times: they are the same on a busy machine. There what drops the nicklist at the end counts as part of `add`
and is taken off `remove`, which leaves nothing to drop.
"""
import argparse
import os
import shutil
import statistics
import subprocess
import sys

TOP = os.path.join(os.path.dirname(os.path.abspath(__file__)), "..")
CRATES = "wc_text: thiserror\nwc_nicklist: slab thiserror wc_text\nnick_bench: anyhow wc_text wc_nicklist\n"
ACTS = ("add", "change", "look up", "group", "pass", "remove")
ORDERS = ("in no order", "in order")
NICKS = 200000
MOST = 3.0
KEEPS = {"MALLOC_TRIM_THRESHOLD_": "1000000000", "MALLOC_MMAP_THRESHOLD_": "1000000000"}


def prepare(folder):
    """Brings the crates and the program into the folder; what `rt` kept there stays."""
    for name in ("wc_text", "wc_nicklist"):
        source, target = os.path.join(TOP, "crates", name), os.path.join(folder, "crates", name)
        for part in ("src", "specs", "proofs"):
            shutil.rmtree(os.path.join(target, part), ignore_errors=True)
            if os.path.isdir(os.path.join(source, part)):
                shutil.copytree(os.path.join(source, part), os.path.join(target, part))
    program = os.path.join(folder, "crates", "nick_bench")
    os.makedirs(os.path.join(program, "src"), exist_ok=True)
    shutil.copy(os.path.join(TOP, "bench", "nicklist", "main.txt"), os.path.join(program, "src", "main.rt"))
    with open(os.path.join(folder, "crates.txt"), "w") as file:
        file.write(CRATES)
    return program


def build(program):
    """The path of the program, proved and built."""
    done = subprocess.run(["rt", "run"], cwd=program, stdout=subprocess.PIPE, stderr=subprocess.STDOUT, text=True)
    if done.returncode != 0:
        sys.exit(done.stdout + "the program was not built")
    return os.path.join(program, "out", "nick_bench")


def timed(binary, count, in_order):
    """The nanoseconds of processor time that each act took per nick."""
    rounds = max(1, NICKS // count)
    words = [binary, len(ACTS), count, rounds, in_order]
    done = subprocess.run([str(word) for word in words], stdout=subprocess.PIPE, text=True, env={**os.environ, **KEEPS})
    if done.returncode != 0:
        sys.exit("the program failed")
    return [int(line) / (count * rounds) for line in done.stdout.split()]


def medians(binary, counts, in_order, runs):
    """What each act takes at each number of nicks, where one number is run after the other."""
    taken = [[timed(binary, count, in_order) for count in counts] for _ in range(runs)]
    return [[statistics.median(times) for times in zip(*column)] for column in zip(*taken)]


def counted(words, event):
    """How often an event came as a program ran: instructions, or misses of the cache."""
    tool = ["valgrind", "--tool=cachegrind", "--cache-sim=yes", "--LL=1048576,16,64", "--cachegrind-out-file=/dev/null"]
    done = subprocess.run(tool + [str(word) for word in words], stdout=subprocess.DEVNULL, stderr=subprocess.PIPE, text=True)
    line = [line for line in done.stderr.splitlines() if event in line]
    if done.returncode != 0 or not line:
        sys.exit("valgrind did not count: " + done.stderr)
    return int(line[0].split(":")[1].split("(")[0].strip().replace(",", ""))


def per_nick(event, binary, count, in_order):
    """How often an event comes with each act, per nick: the differences of what one act more gives."""
    rounds = max(1, NICKS // count // 2)
    counts = [counted([binary, acts, count, rounds - 1, in_order], event) for acts in range(len(ACTS) + 1)]
    return [max(0.0, after - before) / (count * rounds) for before, after in zip(counts, counts[1:])]


def show(title, counts, columns):
    """Prints what each act costs, and gives the multiples of the least that the greatest are."""
    print("%-24s" % title + "".join("%10d" % count for count in counts) + "   greatest/least")
    multiples = {}
    for act, costs in zip(ACTS, zip(*columns)):
        multiples[act] = max(costs) / max(1.0, min(costs))
        print("%-24s" % act + "".join("%10.0f" % cost for cost in costs) + "%14.1f" % multiples[act])
    return multiples


def main():
    words = argparse.ArgumentParser(description=__doc__, formatter_class=argparse.RawDescriptionHelpFormatter)
    words.add_argument("counts", nargs="*", type=int, default=[1000, 10000, 100000], metavar="nicks", help="numbers of nicks")
    words.add_argument("--folder", default="/tmp/nicklist-bench", help="where it is built")
    words.add_argument("--runs", type=int, default=7, help="how often each is timed")
    words.add_argument("--counts", action="store_true", dest="by_valgrind", help="count by valgrind in place of times")
    words = words.parse_args()
    binary = build(prepare(words.folder))
    steep = []
    for in_order, order in enumerate(ORDERS):
        if words.by_valgrind:
            for unit, event in (("instructions", "I   refs"), ("misses", "LLd misses")):
                show(order + ", " + unit, words.counts, [per_nick(event, binary, count, in_order) for count in words.counts])
            continue
        multiples = show(order + ", ns", words.counts, medians(binary, words.counts, in_order, words.runs))
        steep += ["%s %s" % (act, order) for act, multiple in multiples.items() if act != "pass" and multiple > MOST]
    if steep:
        sys.exit("above %.0f: %s" % (MOST, ", ".join(steep)))


if __name__ == "__main__":
    main()
