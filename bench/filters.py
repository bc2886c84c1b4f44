#!/usr/bin/env python3
"""Measures what filters cost the program, and beside it Debian's WeeChat where that is installed.

Each program is started with a folder of its own. One client follows it, which types lines into a full buffer, without
filters and with ten of them, and toggles a filter that hides every line, of one full buffer and of sixteen. Printed is
the processor time of the program in microseconds: the least of some runs, and of a toggle that of its dearer way, to
hide or to show. WeeChat lacks the buffer that lists the clients of its relay, which it would write anew at each message,
and tells a client of no flags. With --before and another build of the program (one without filters, say) a printed line
is measured in both, in turns. It ends with 1 where a bound is passed. The program wants to be at full speed
(bench/unproved.sh). Linux and Python 3, standard library only; `apt-get install -y weechat-headless weechat-plugins`.
Examples:

    bench/filters.py OUT/wc_headless
    bench/filters.py OUT/wc_headless --before OLD/wc_headless
"""
import argparse
import os
import shutil
import socket
import struct
import subprocess
import sys
import tempfile
import time

from prints import processor_time

PASSWORD, PATIENCE, FULL = "secret", 60, 4096
BATCH, TEXT = 250, "nick\tword word word word word word"
FLAGS = b"_buffer_line_data_changed"
# Of each set of filters: what they are, the filters but for their names, and how many microseconds a line may cost more.
TEN = (
    ("10 filters of other buffers", "irc.net.#%d,irc.other.* * word", 2),
    ("10 filters of other tags", "* irc_join,irc_part+tag_%d word", 2),
    ("10 filters that are searched", "* * wor%d$", 50),
)
# Of each toggle: what it is, the filter, how many buffers are full, and how many microseconds it may take.
TOGGLES = (
    ("toggle, 4,096 flags", "* talk *", 1, 1500),
    ("toggle, 4,096 flags by a pattern", "* * wor[d]", 1, None),
    ("toggle, 16 full buffers", "* talk *", 16, 25000),
    ("toggle, 16 full buffers by a pattern", "* * wor[d]", 16, None),
)


def free_port():
    with socket.create_server(("127.0.0.1", 0)) as free:
        return free.getsockname()[1]


class Program:
    """A program that runs, and a client that follows it."""

    def __init__(self):
        self.folder, self.port, self.bytes = tempfile.mkdtemp(), free_port(), b""
        self.configure()
        self.run = subprocess.Popen(self.words(), stdout=subprocess.DEVNULL, stderr=subprocess.STDOUT)
        end = time.time() + PATIENCE
        while True:
            try:
                self.link = socket.create_connection(("127.0.0.1", self.port), timeout=PATIENCE)
                break
            except OSError:
                if time.time() > end:
                    sys.exit("the program does not listen")
                time.sleep(0.1)
        self.send(["init compression=off,password=" + PASSWORD, "sync"])
        self.type(["/set weechat.history.max_buffer_lines_number %d" % FULL])
        self.settle()

    def write(self, name, text):
        with open(os.path.join(self.folder, name), "w") as file:
            file.write(text)

    def send(self, lines):
        self.link.sendall("".join(line + "\n" for line in lines).encode())

    def type(self, texts):
        self.send(["input core.weechat " + text for text in texts])

    def message(self):
        """The id of the next message."""
        while len(self.bytes) < 4 or len(self.bytes) < struct.unpack(">I", self.bytes[:4])[0]:
            more = self.link.recv(1 << 20)
            if not more:
                sys.exit("the program closed the connection")
            self.bytes += more
        length = struct.unpack(">I", self.bytes[:4])[0]
        body, self.bytes = self.bytes[5:length], self.bytes[length:]
        return body[4 : 4 + struct.unpack(">I", body[:4])[0]]

    def until(self, id, count=1):
        """Reads so many messages of an id, and gives how many others came that tell of flags."""
        flags = 0
        while count:
            found = self.message()
            count -= found == id
            flags += found == FLAGS
        return flags

    def settle(self):
        """Waits until what was typed is done, and gives how many messages told of flags."""
        self.send(["ping"])
        return self.until(b"_pong")

    def spent(self):
        return processor_time(self.run.pid) * 1e6

    def print(self, count, buffer="core.weechat"):
        for done in range(0, count, BATCH):
            batch = min(BATCH, count - done)
            self.type(["/print -buffer %s -tags talk %s" % (buffer, TEXT)] * batch)
            self.until(b"_buffer_line_added", batch)

    def line_cost(self, count):
        start = self.spent()
        self.print(count)
        return (self.spent() - start) / count

    def toggle_cost(self):
        """The processor time of a toggle, and how many events it has."""
        start = self.spent()
        self.type(["/filter toggle f"])
        return self.settle(), self.spent() - start

    def stop(self):
        self.run.kill()
        self.run.wait()
        shutil.rmtree(self.folder, ignore_errors=True)


class Ours(Program):
    def __init__(self, binary):
        self.binary = os.path.abspath(binary)
        super().__init__()

    def configure(self):
        self.write("weechat.conf", "relay.network.password = %s\nrelay.port.weechat = %d\n" % (PASSWORD, self.port))

    def words(self):
        return [self.binary, "-d", self.folder]


class WeeChat(Program):
    def configure(self):
        self.write("relay.conf", '[look]\nauto_open_buffer = off\n[network]\npassword = "%s"\nbind_address = "127.0.0.1"\n'
                   'ipv6 = off\n[port]\nweechat = %d\n' % (PASSWORD, self.port))

    def words(self):
        return ["weechat-headless", "-d", self.folder, "-P", "relay"]

    def settle(self):
        """It runs a moment later what is typed."""
        time.sleep(0.5)
        return super().settle()


def least(measure, runs):
    return min(measure() for _ in range(runs))


class Bounds:
    def __init__(self):
        self.good = True

    def show(self, what, ours, theirs, most=None):
        passed = most is not None and ours > most
        self.good = self.good and not passed
        print("%-38s %9.2f us%s%s%s" % (
            what, ours, "" if theirs is None else ", WeeChat %9.2f us" % theirs,
            "" if most is None else ", at most %.2f" % most, "  PASSED" if passed else ""), flush=True)


def without_filters(programs, before, words, bounds):
    """The cost of a line in each program, and in another build in turns with the first."""
    for program in programs + before:
        program.print(FULL)
    others = [least(lambda: program.line_cost(words.lines), words.runs) for program in programs[1:]]
    costs = [[], []]
    for _ in range(words.runs):
        for place, program in enumerate(programs[:1] + before):
            costs[place].append(program.line_cost(words.lines))
    if before:
        print("%-38s %9.2f us" % ("a line, the build before", min(costs[1])))
    bounds.show("a line, no filters", min(costs[0]), *(others or [None]), most=1.1 * min(costs[1]) if before else None)


def with_ten(programs, what, filter, more, words, bounds):
    """The cost of a line with ten filters, and in turns without them, so that both have the same machine."""
    plain, costs = [[] for _ in programs], [[] for _ in programs]
    for place, program in enumerate(programs):
        for _ in range(words.runs):
            plain[place].append(program.line_cost(words.lines))
            program.type(["/filter add f%d %s" % (n, filter % n if "%d" in filter else filter) for n in range(10)])
            program.settle()
            costs[place].append(program.line_cost(words.lines))
            program.type(["/filter del f%d" % n for n in range(10)])
            program.settle()
    bounds.show(what, *([min(cost) for cost in costs] + [None])[:2], most=min(plain[0]) + more)


def toggles(programs, what, filter, buffers, most, words, bounds):
    costs = []
    for program in programs:
        program.type(["/filter add f %s" % filter])
        program.settle()
        # One after another shows the lines and hides them.
        found = [program.toggle_cost() for _ in range(2 * words.runs)]
        if isinstance(program, Ours) and {events for events, _ in found} != {buffers}:
            sys.exit("a toggle has %s events" % sorted({events for events, _ in found}))
        costs.append(max(min(cost for _, cost in found[way::2]) for way in (0, 1)))
        program.type(["/filter del f"])
        program.settle()
    bounds.show(what, *(costs + [None])[:2], most=most)


def measure(programs, before, words):
    bounds = Bounds()
    without_filters(programs, before, words, bounds)
    for what, filter, more in TEN:
        with_ten(programs, what, filter, more, words, bounds)
    filled = 1
    for what, filter, buffers, most in TOGGLES:
        for number in range(filled, buffers):
            for program in programs:
                program.type(["/buffer add b%d" % number])
                program.print(FULL, "core.b%d" % number)
        filled = max(filled, buffers)
        toggles(programs, what, filter, buffers, most, words, bounds)
    return bounds.good


def main():
    words = argparse.ArgumentParser(description=__doc__, formatter_class=argparse.RawDescriptionHelpFormatter)
    words.add_argument("program", help="the program")
    words.add_argument("--before", help="another build of the program, for a line without filters")
    words.add_argument("--lines", type=int, default=4000, help="lines that are printed at a time")
    words.add_argument("--runs", type=int, default=5)
    words = words.parse_args()
    programs, before = [Ours(words.program)], []
    try:
        before += [Ours(words.before)] if words.before else []
        programs += [WeeChat()] if shutil.which("weechat-headless") else []
        good = measure(programs, before, words)
    finally:
        for program in programs + before:
            program.stop()
    sys.exit(0 if good else 1)


if __name__ == "__main__":
    main()
