#!/usr/bin/env python3
"""Measures what messages of an IRC server cost, and what memory its nicks take.

Puts the program of bench/irc/main.txt over the crates that it uses into a folder of its own, with the stage of the player
of tables, and has `rt run` prove and build it there. It prints nanoseconds of processor time, the least of some runs: of a
line of one of 100 joined channels, of the QUIT of a nick that is on three of them, and of lists of names for 10,000 and
for 100,000 nicks, 40 a line; and the bytes of memory for each nick. It ends with 1 where a line takes 3,000 ns or more, or
the lists 15 ms for each 10,000 nicks or more. The first build takes long, a later one in the same folder seconds. Linux
and Python 3, standard library only. Example:

    bench/irc.py --folder /tmp/irc-bench
"""
import argparse
import os
import shutil
import subprocess
import sys

TOP = os.path.join(os.path.dirname(os.path.abspath(__file__)), "..")
CRATES = ("wc_text", "wc_nicklist", "wc_buffers", "wc_lines", "wc_ircmsg", "wc_options", "wc_objects", "wc_model", "wc_irc_words",
          "wc_irc_texts", "wc_irc_nicks", "wc_irc", "wc_notation")
USED = "wc_text wc_buffers wc_options wc_ircmsg wc_irc wc_notation"
PLAYER = os.path.join(TOP, "crates", "wc_irc_play")
MOST_LINE, MOST_NAMES = 3000, 15000000


def prepare(folder):
    """Brings the crates and the program into the folder; what `rt` kept there stays."""
    for name in CRATES:
        source, target = os.path.join(TOP, "crates", name), os.path.join(folder, "crates", name)
        for part in ("src", "specs", "proofs"):
            shutil.rmtree(os.path.join(target, part), ignore_errors=True)
            if os.path.isdir(os.path.join(source, part)):
                shutil.copytree(os.path.join(source, part), os.path.join(target, part))
    program = os.path.join(folder, "crates", "irc_bench")
    shutil.rmtree(os.path.join(program, "proofs"), ignore_errors=True)
    shutil.copytree(os.path.join(PLAYER, "proofs"), os.path.join(program, "proofs"))
    os.makedirs(os.path.join(program, "src"), exist_ok=True)
    shutil.copy(os.path.join(PLAYER, "src", "stage.rt"), os.path.join(program, "src", "stage.rt"))
    shutil.copy(os.path.join(TOP, "bench", "irc", "main.txt"), os.path.join(program, "src", "main.rt"))
    with open(os.path.join(TOP, "crates.txt")) as file:
        lines = [line for line in file if line.split(":")[0] in CRATES]
    with open(os.path.join(folder, "crates.txt"), "w") as file:
        file.writelines(lines + ["irc_bench: anyhow " + USED + "\n"])
    return program


def build(program):
    """The path of the program, proved and built."""
    done = subprocess.run(["rt", "run"], cwd=program, stdout=subprocess.PIPE, stderr=subprocess.STDOUT, text=True)
    if done.returncode != 0:
        sys.exit(done.stdout + "the program was not built")
    return os.path.join(program, "out", "irc_bench")


def timed(binary, *words):
    """The nanoseconds that the program printed, and the most memory that it held, in bytes."""
    with subprocess.Popen([binary] + [str(word) for word in words], stdout=subprocess.PIPE, text=True) as run:
        text = run.stdout.read()
        _, status, used = os.wait4(run.pid, 0)
        run.returncode = os.waitstatus_to_exitcode(status)
    if run.returncode != 0:
        sys.exit("the program failed")
    return [int(line) for line in text.split()], used.ru_maxrss * 1024


def main():
    words = argparse.ArgumentParser(description=__doc__, formatter_class=argparse.RawDescriptionHelpFormatter)
    words.add_argument("--folder", default="/tmp/irc-bench", help="where it is built")
    words.add_argument("--channels", type=int, default=100, help="how many channels are joined")
    words.add_argument("--messages", type=int, default=20000, help="how many messages are timed")
    words.add_argument("--runs", type=int, default=5, help="how often each is timed")
    words = words.parse_args()
    binary = build(prepare(words.folder))
    runs = {lines: [timed(binary, words.channels, lines, words.messages) for _ in range(words.runs)] for lines in (0, 250, 2500)}
    line, quit_, _ = (min(times) for times in zip(*(times for made in runs.values() for times, _ in made)))
    names = {lines: min(times[2] for times, _ in made) for lines, made in runs.items()}
    held = {lines: min(memory for _, memory in made) for lines, made in runs.items()}
    print("a line of a channel     %12d ns" % line)
    print("a QUIT                  %12d ns" % quit_)
    for lines in (250, 2500):
        print("%7d names           %12d ns, %d bytes a nick" % (lines * 40, names[lines], (held[lines] - held[0]) // (lines * 40)))
    steep = ["a line"] * (line >= MOST_LINE) + ["%d names" % (n * 40) for n in (250, 2500) if names[n] >= MOST_NAMES * n // 250]
    if steep:
        sys.exit("too much: " + ", ".join(steep))


if __name__ == "__main__":
    main()
