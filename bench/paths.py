#!/usr/bin/env python3
"""Measures data paths over the WeeChat relay protocol, the hostile ones too.

Fills buffers with lines, and then measures the requests for the last lines, the dump of all lines,
the same lines with their keys in another order, `info` beside `ping`, and paths that give as many
pointers as they can. With `--pid` it says the processor time of the program and how far its
resident memory grew. Python 3, standard library only. Example, with a fresh program:

    bench/paths.py --port 9000 --password x --pid 4711 --buffers 64 --lines 4096
"""
import argparse
import os
import struct
import time

from ping import log_in, receive

KEYS = (
    "buffer,id,date,date_usec,date_printed,date_usec_printed,displayed,notify_level,highlight,"
    "tags_array,prefix,message"
)
OTHERS = ",".join(reversed(KEYS.split(",")))
LINES = "buffer:gui_buffers(*)/own_lines/first_line(*)/data"


class Program:
    """What the system tells of the program, where its number is given."""

    def __init__(self, pid):
        self.pid = pid

    def seconds(self):
        """The processor time of all threads."""
        if self.pid is None:
            return time.perf_counter()
        total = 0
        for thread in os.listdir("/proc/%d/task" % self.pid):
            with open("/proc/%d/task/%s/schedstat" % (self.pid, thread)) as file:
                total += int(file.read().split()[0])
        return total / 1e9

    def kilobytes(self, name):
        """A line of its status: `VmRSS` is what stands, `VmHWM` the peak."""
        if self.pid is None:
            return 0
        with open("/proc/%d/status" % self.pid) as file:
            for line in file:
                if line.startswith(name + ":"):
                    return int(line.split()[1])
        return 0

    def forget_peak(self):
        if self.pid is not None:
            with open("/proc/%d/clear_refs" % self.pid, "w") as file:
                file.write("5")


def answer(link, request):
    """The message that answers a request."""
    link.sendall(request.encode() + b"\n")
    size = struct.unpack(">I", receive(link, 4))[0]
    return receive(link, size - 4)


def fill(link, buffers, lines, text):
    """Opens buffers, and prints lines into each of them and the core buffer."""
    names = ["core.weechat"] + ["core.b%d" % number for number in range(1, buffers)]
    for name in names[1:]:
        link.sendall(("input core.weechat /buffer add %s\n" % name[5:]).encode())
    for name in names:
        for start in range(0, lines, 256):
            count = min(256, lines - start)
            link.sendall(("input %s /print %s\n" % (name, text)).encode() * count)
            answer(link, "ping on")
    return names


def measure(link, program, name, request, rounds):
    """Prints what a request takes, and the length of its answer."""
    program.forget_peak()
    stood, start, clock = program.kilobytes("VmRSS"), program.seconds(), time.perf_counter()
    for _ in range(rounds):
        size = len(answer(link, request))
    cpu, wall = program.seconds() - start, time.perf_counter() - clock
    grown = program.kilobytes("VmHWM") - stood
    print("%-44s %10.3f ms of processor, %10.3f ms by the clock, %9d bytes, %8d KB more at the peak"
          % (name, 1e3 * cpu / rounds, 1e3 * wall / rounds, size, grown))


def ordinary(link, program, names):
    """What clients ask for."""
    for rounds, request in ((2000, "ping on"), (2000, "info version"), (200, "infolist buffer")):
        measure(link, program, request, request, rounds)
    last = "(l) hdata buffer:%s(*)/own_lines/last_line(-100)/data message,prefix,date"
    measure(link, program, "the last 100 lines of each buffer", last % "gui_buffers", 20)
    one = "(o) hdata buffer:0x1/own_lines/last_line(-50)/data message,prefix,date"
    measure(link, program, "the last 50 lines of one buffer", one, 500)
    measure(link, program, "the dump of all lines", "(d) hdata %s %s" % (LINES, KEYS), 5)
    measure(link, program, "the same, keys in another order", "(k) hdata %s %s" % (LINES, OTHERS), 5)


def hostile(link, program):
    """What costs as much as it can."""
    round_trip = "/own_lines/first_line(*)/data/buffer"
    measure(link, program, "too many pointers", "(t) hdata buffer:0x1%s%s message" % (round_trip, round_trip[:-7]), 3)
    one = "/own_lines/first_line/data/buffer"
    measure(link, program, "7,001 elements", "(e) hdata buffer:0x1%s number" % (one * 1750), 3)
    wide = "(w) hdata buffer:0x1%s(*)/own_lines/first_line(*) data" % (one * 1749)
    measure(link, program, "7,000 elements, wide at the end", wide, 3)
    measure(link, program, "many numbers", "(n) hdata buffer:0x1(*)%s" % ("/lines/first_line(*)/data/buffer" * 3), 3)


def merged(link, program, names, count):
    """Merges buffers, and asks for lists of their lines for each line."""
    for name in names[1:count]:
        link.sendall(("input %s /buffer merge core.weechat\n" % name).encode())
    answer(link, "ping on")
    path = "(m) hdata buffer:0x1/lines/first_line(*)/data/buffer/lines lines_count"
    measure(link, program, "%d merged buffers, a count for each line" % count, path, 1)
    last = "(o) hdata buffer:0x1/lines/last_line(-50)/data message,prefix,date"
    measure(link, program, "%d merged buffers, the last 50 lines" % count, last, 5)


def main():
    parser = argparse.ArgumentParser(description=__doc__.split("\n")[0])
    parser.add_argument("--host", default="127.0.0.1")
    parser.add_argument("--port", type=int, required=True)
    parser.add_argument("--password", required=True)
    parser.add_argument("--pid", type=int)
    parser.add_argument("--buffers", type=int, default=64)
    parser.add_argument("--lines", type=int, default=4096)
    parser.add_argument("--merged", type=int, default=200)
    given = parser.parse_args()
    program = Program(given.pid)
    with log_in(given.host, given.port, given.password) as link:
        names = fill(link, max(given.buffers, given.merged), given.lines, "x" * 60)
        ordinary(link, program, names)
        hostile(link, program)
        merged(link, program, names, 2)
        merged(link, program, names, given.merged)


if __name__ == "__main__":
    main()
