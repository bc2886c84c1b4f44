#!/usr/bin/env python3
"""Measures how fast the dump of a buffer's lines is written as a message of the relay protocol.

Puts the program of bench/dump/main.txt over the crate wc_objects into a folder of its own, has `rt run` prove and
build it there, and prints the processor's seconds per dump and the bytes per second, of the least of some runs. It
ends with 1 where less than 100 MB a second are written. The first run takes some minutes, a later one with the same
folder seconds. Python 3, standard library only. Example:

    bench/dump.py --folder /tmp/dump-bench --lines 4096
"""
import argparse
import os
import shutil
import subprocess
import sys

TOP = os.path.join(os.path.dirname(os.path.abspath(__file__)), "..")
CRATES = """wc_text: thiserror
wc_objects: bytes itoa thiserror wc_text
dump_bench: anyhow bytes wc_text wc_objects
"""
LEAST = 100e6


def prepare(folder):
    """Brings the crates and the program into the folder; what `rt` kept there stays."""
    for name in ("wc_text", "wc_objects"):
        source, target = os.path.join(TOP, "crates", name), os.path.join(folder, "crates", name)
        for part in ("src", "specs", "proofs"):
            shutil.rmtree(os.path.join(target, part), ignore_errors=True)
            if os.path.isdir(os.path.join(source, part)):
                shutil.copytree(os.path.join(source, part), os.path.join(target, part))
    program = os.path.join(folder, "crates", "dump_bench")
    os.makedirs(os.path.join(program, "src"), exist_ok=True)
    shutil.copy(os.path.join(TOP, "bench", "dump", "main.txt"), os.path.join(program, "src", "main.rt"))
    with open(os.path.join(folder, "crates.txt"), "w") as file:
        file.write(CRATES)
    return program


def build(program):
    """The path of the program, proved and built."""
    done = subprocess.run(["rt", "run"], cwd=program, stdout=subprocess.PIPE, stderr=subprocess.STDOUT, text=True)
    if done.returncode != 0:
        sys.exit(done.stdout + "the program was not built")
    return os.path.join(program, "out", "dump_bench")


def run(words):
    """The bytes that a program printed, and the seconds that it took of the processor."""
    child = subprocess.Popen([str(word) for word in words], stdout=subprocess.PIPE, text=True)
    printed = child.stdout.read()
    _, status, usage = os.wait4(child.pid, 0)
    if status != 0:
        sys.exit("the program failed")
    return int(printed), usage.ru_utime + usage.ru_stime


def main():
    words = argparse.ArgumentParser(description=__doc__, formatter_class=argparse.RawDescriptionHelpFormatter)
    words.add_argument("--folder", default="/tmp/dump-bench", help="where it is built")
    words.add_argument("--lines", type=int, default=4096)
    words.add_argument("--times", type=int, default=200)
    words.add_argument("--runs", type=int, default=5)
    words = words.parse_args()
    binary = build(prepare(words.folder))
    once = min(run([binary, 1, words.lines])[1] for _ in range(words.runs))
    size, often = min((run([binary, 1 + words.times, words.lines]) for _ in range(words.runs)), key=lambda done: done[1])
    each = max(1e-9, (often - once) / words.times)
    print("a dump of %d lines: %d bytes, %.3f ms, %.0f MB a second" % (words.lines, size, each * 1e3, size / each / 1e6))
    if size / each < LEAST:
        sys.exit("below %.0f MB a second" % (LEAST / 1e6))


if __name__ == "__main__":
    main()
