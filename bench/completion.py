#!/usr/bin/env python3
"""Measures what the hotlist and completions cost the program, and beside it Debian's WeeChat where that is installed.

Each program is started with a folder of its own, and connected to an IRC server that this script is, with many nicks on a
channel. Printed is the processor time of the program for a request, in microseconds: the least of some runs, of many
requests in one piece. WeeChat lacks the buffer that lists the clients of its relay, which it would write anew at each
message. With --instructions, and valgrind, instructions are counted too; with --before and another build of the program
(one without the hotlist, say) those of a printed line in both. It ends with 1 where a bound is passed. The program wants to be at full speed
(bench/unproved.sh). Linux and Python 3, standard library only; `apt-get install -y weechat-headless weechat-plugins`.
Examples:

    bench/completion.py OUT/wc_headless
    bench/completion.py OUT/wc_headless --before OLD/wc_headless
"""
import argparse
import os
import re
import shutil
import socket
import subprocess
import sys
import tempfile
import time

from mirror_irc import Server
from prints import processor_time

PASSWORD, PATIENCE, BUFFERS = "secret", 120, 64
# A completion with fewer bytes is the null hdata.
EMPTY = 40
HOTLIST = "hdata hotlist:gui_hotlist(*)"
# Of each request: what it is, the request, how many make a run, and the bounds in microseconds and in parts of WeeChat's.
SMALL = (
    ("ping", "ping", 2000, None, None),
    ("hotlist of 64 buffers", HOTLIST + " priority,buffer,count", 400, None, 0.2),
    ("hotlist of 64 buffers, all keys", HOTLIST, 400, None, 0.2),
    ("a command, /bu", "completion core.weechat -1 /bu", 2000, 10, None),
    ("a command, /", "completion core.weechat -1 /", 1000, None, None),
    ("a nick of 1", "completion irc.net.#b -1 hi m", 2000, None, None),
)
LARGE = (
    ("a nick of %d, hi u1234", "completion irc.net.#a -1 hi u1234", 40, 2000, 0.2),
    ("a nick of %d, hi u1", "completion irc.net.#a -1 hi u1", 20, 2000, 0.2),
    ("the empty word of %d", "completion irc.net.#a -1 ", 10, None, None),
)
# Of each line: what it is, how many buffers are in the hotlist before, what is sent before, and what is printed.
PRINTS = (
    ("not counted", 0, (), "-tags notify_none some words of a line"),
    ("counted", 0, (), "-tags notify_message some words of a line"),
    ("counted, a client follows", 0, ("sync",), "-tags notify_message some words of a line"),
    ("in the last of 64 rows", 64, (), "-buffer core.b63 -tags notify_message some words of a line"),
    ("in the last of 255 rows", 255, (), "-buffer core.b254 -tags notify_message some words of a line"),
)
VALGRIND = ("valgrind", "--tool=callgrind", "--callgrind-out-file=/dev/null", "--trace-children=yes")


def free_port():
    with socket.create_server(("127.0.0.1", 0)) as free:
        return free.getsockname()[1]


class Client:
    """A client that logs in, and reads what comes without a look at it."""

    def __init__(self, port):
        end = time.time() + PATIENCE
        while True:
            try:
                self.link = socket.create_connection(("127.0.0.1", port), timeout=PATIENCE)
                break
            except OSError:
                if time.time() > end:
                    sys.exit("the program does not listen")
                time.sleep(0.1)
        self.ask(["init compression=off,password=" + PASSWORD])

    def ask(self, lines):
        """Sends lines, and gives all that came up to the reply of a ping after them."""
        self.link.sendall("".join(line + "\n" for line in lines + ["ping end of it"]).encode())
        pieces, end = [], b"_pongstr\0\0\0\tend of it"
        while not (b"".join(pieces[-2:])).endswith(end):
            piece = self.link.recv(1 << 20)
            if not piece:
                sys.exit("the program closed the connection")
            pieces.append(piece)
        return b"".join(pieces)


class Program:
    """A program that runs, and is connected to a server with so many nicks on one channel, where that is asked for."""

    def __init__(self, crowd, wrap=()):
        self.folder, self.port = tempfile.mkdtemp(), free_port()
        self.server = crowd and Server(crowd)
        self.configure()
        self.run = subprocess.Popen(
            list(wrap) + self.words(), stdout=open(os.path.join(self.folder, "printed"), "w"), stderr=subprocess.STDOUT)
        self.client = Client(self.port)
        if crowd:
            self.connect()
            self.server.accept()
            self.server.settle()

    def write(self, name, text):
        with open(os.path.join(self.folder, name), "w") as file:
            file.write(text)

    def buffers(self, count):
        """Buffers that have a line each. WeeChat runs a moment later what is typed."""
        for number in range(count):
            self.client.ask(["input core.weechat /buffer add b%d" % number])
        time.sleep(1)
        for number in range(count):
            self.client.ask(["input core.weechat /print -buffer core.b%d -tags notify_message text" % number])
        time.sleep(1)

    def cost(self, line, count, runs):
        """The least processor time of a request, in microseconds, and how many bytes its reply has."""
        costs, end = [], len(self.client.ask([]))
        for _ in range(runs):
            start = processor_time(self.run.pid)
            size = len(self.client.ask([line] * count)) - end
            costs.append((processor_time(self.run.pid) - start) / count * 1e6)
        return min(costs), size // count

    def stop(self):
        """Ends it, and gives what it printed."""
        self.client.link.sendall(b"input core.weechat /quit\n")
        try:
            self.run.wait(PATIENCE)
        except subprocess.TimeoutExpired:
            self.run.kill()
            self.run.wait()
        with open(os.path.join(self.folder, "printed"), errors="replace") as file:
            text = file.read()
        shutil.rmtree(self.folder, ignore_errors=True)
        return text


class Ours(Program):
    binary = None

    def configure(self):
        self.write("weechat.conf", "relay.network.password = %s\nrelay.port.weechat = %d\n" % (PASSWORD, self.port))

    def words(self):
        return [os.path.abspath(self.binary), "-d", self.folder]

    def connect(self):
        address = "127.0.0.1/%d" % self.server.port
        self.client.ask(["input core.weechat /server add net %s -notls" % address, "input core.weechat /connect net"])


class WeeChat(Program):
    """WeeChat with its plugins for IRC and the relay alone."""

    def configure(self):
        self.write("relay.conf", '[look]\nauto_open_buffer = off\n[network]\npassword = "%s"\nbind_address = "127.0.0.1"\nipv6 = off\n'
                   "[port]\nweechat = %d\n" % (PASSWORD, self.port))
        if self.server:
            self.write("irc.conf", '[server]\nnet.addresses = "127.0.0.1/%d"\nnet.nicks = "me"\nnet.ipv6 = off\nnet.ssl = off\n'
                       % self.server.port)

    def words(self):
        return ["weechat-headless", "-d", self.folder, "-P", "irc,relay"]

    def connect(self):
        self.client.ask(["input core.weechat /connect net"])


def costs(kind, crowd, requests, runs):
    """Of each request what it costs a program of this kind."""
    program = kind(crowd)
    try:
        program.buffers(BUFFERS)
        return [program.cost(line, count, runs) for _, line, count, _, _ in requests]
    finally:
        program.stop()


def is_beyond(own, other, most, part):
    return (most is not None and own > most) or (part is not None and other is not None and own > part * other)


def compare(crowd, beside, runs):
    """Prints a line for each request, and gives those that cost too much."""
    requests = LARGE if crowd > 10000 else SMALL + LARGE
    ours = costs(Ours, crowd, requests, runs)
    theirs = costs(WeeChat, crowd, requests, runs) if beside else [(None, 0)] * len(ours)
    steep = []
    for (name, line, _, most, part), (own, size), (other, other_size) in zip(requests, ours, theirs):
        # What is bound for 10,000 nicks is bound ten times higher for ten times as many.
        most = most and most * (crowd / 10000 if "irc.net.#a" in line else 1)
        text = "%-32s %10.2f us, %7d bytes" % (name % crowd if "%d" in name else name, own, size)
        if other is not None and "completion" in line and other_size < EMPTY:
            text += "   WeeChat completes no empty word"
        elif other is not None:
            text += "   WeeChat %10.2f us, %7d bytes, %5.1f times" % (other, other_size, other / own)
        beyond = is_beyond(own, other, most, part)
        print(text + "   TOO MUCH" * beyond, flush=True)
        steep += [text[:32].strip()] * beyond
    return steep


def instructions(kind, buffers, line, count, before=()):
    """The instructions of a line that a client sends after others: those of three times as many, less those of so many."""
    totals = []
    for times in (count, 3 * count):
        program = kind(0, VALGRIND)
        program.buffers(buffers)
        program.client.ask(list(before) + [line] * times)
        time.sleep(1)
        totals.append(int(re.findall(r"Collected : ([0-9]+)", program.stop())[-1]))
    return (totals[1] - totals[0]) / (2 * count)


def count_requests():
    """Prints the instructions of requests, which depend less on what else the machine does."""
    for name, line, count, _, _ in SMALL[:-1]:
        own, other = (instructions(kind, BUFFERS, line, count) for kind in (Ours, WeeChat))
        print("%-32s %10.0f instructions   WeeChat %10.0f, %5.1f times" % (name, own, other, other / own), flush=True)


def compare_prints(now, before):
    """Prints the instructions of printed lines with two builds, and gives those that cost too much."""
    steep = []
    for name, buffers, first, words in PRINTS:
        counts = []
        for Ours.binary in (now, before):
            counts.append(instructions(Ours, buffers, "input core.weechat /print " + words, 2000, first))
        new, old = counts
        print("a line, %-30s %8.0f instructions, before %8.0f: %+.2f percent%s" % (
            name, new, old, (new / old - 1) * 100, "   TOO MUCH" * (new > 1.01 * old)), flush=True)
        steep += ["a line, " + name] * (new > 1.01 * old)
    return steep


def main():
    words = argparse.ArgumentParser(description=__doc__, formatter_class=argparse.RawDescriptionHelpFormatter)
    words.add_argument("program", help="the program")
    words.add_argument("--before", help="another build, whose printed lines are compared")
    words.add_argument("--runs", type=int, default=5, help="how often each is timed")
    words.add_argument("--alone", action="store_true", help="without WeeChat")
    words.add_argument("--instructions", action="store_true", help="count the instructions of requests too, by valgrind")
    words = words.parse_args()
    Ours.binary = words.program
    beside = not words.alone and shutil.which("weechat-headless") is not None
    steep = compare(10000, beside, words.runs) + compare(100000, False, words.runs)
    if words.instructions and beside:
        count_requests()
    if words.before:
        steep += compare_prints(words.program, words.before)
    if steep:
        sys.exit("too much: " + ", ".join(steep))


if __name__ == "__main__":
    main()
