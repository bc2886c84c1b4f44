#!/usr/bin/env python3
"""Measures what a line costs that is printed into a buffer of a running program: with one buffer and with many, into an
empty buffer and into one that holds as many lines as it may.

A client types `/print` into the core buffer, many at a time, and reads the processor time that the program took from
/proc. The program has to have no other clients, and is left with the buffers that were added. Linux and Python 3,
standard library only. Example:

    bench/prints.py --password secret --process "$(pgrep wc_headless)"
"""
import argparse
import socket

BATCH = 500


class Client:
    def __init__(self, port, password):
        self.link = socket.create_connection(("127.0.0.1", port))
        self.send("init password=" + password)

    def send(self, line):
        self.link.sendall(line.encode() + b"\n")

    def settle(self):
        """Waits until all that was sent before is done."""
        self.send("ping")
        left = 4 + 1 + 4 + 5 + 3 + 4
        while left:
            left -= len(self.link.recv(left))

    def prints(self, count):
        for done in range(0, count, BATCH):
            self.send("\n".join("input core.weechat /print nick\tword word word word word word" for _ in range(min(BATCH, count - done))))
            self.settle()


def processor_time(process):
    """The seconds of processor time that a process took."""
    with open("/proc/%d/schedstat" % process) as file:
        return int(file.read().split()[0]) / 1e9


def measure(words, client, title):
    costs = []
    for _ in range(words.runs):
        start = processor_time(words.process)
        client.prints(words.lines)
        costs.append((processor_time(words.process) - start) / words.lines * 1e6)
    print("%-40s %6.2f us a line" % (title, min(costs)))


def main():
    words = argparse.ArgumentParser(description=__doc__, formatter_class=argparse.RawDescriptionHelpFormatter)
    words.add_argument("--port", type=int, default=9000)
    words.add_argument("--password", required=True)
    words.add_argument("--process", type=int, required=True, help="the process of the program")
    words.add_argument("--buffers", type=int, default=256)
    words.add_argument("--lines", type=int, default=4000, help="lines that are printed at a time")
    words.add_argument("--runs", type=int, default=5)
    words = words.parse_args()
    client = Client(words.port, words.password)
    client.settle()
    client.send("input core.weechat /buffer clear")
    start = processor_time(words.process)
    client.prints(words.lines)
    print("%-40s %6.2f us a line" % ("1 buffer, empty at first", (processor_time(words.process) - start) / words.lines * 1e6))
    client.prints(5000)
    measure(words, client, "1 buffer, full")
    for number in range(words.buffers - 1):
        client.send("input core.weechat /buffer add p%d" % number)
    client.settle()
    measure(words, client, "%d buffers, full" % words.buffers)


if __name__ == "__main__":
    main()
