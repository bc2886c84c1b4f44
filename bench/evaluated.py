#!/usr/bin/env python3
"""Measures evaluated texts: what an `/eval` costs beyond a `/print`, and the longest texts that can be typed.

The first figures are the processor time of the program in microseconds a command. The others are of one command each, of
nearly 65,536 bytes: processor time, and by how much the program's memory was above what it had before, at its peak.
Python 3, standard library only. Example:

    bench/evaluated.py --pid $(pgrep wc_headless) --port 9000 --password secret
"""
import argparse
import socket

from ping import pong, receive
from websocket import processor_time

ORDINARY = [
    ("/print", "/print == [21]"),
    ("an expression", "/eval -n ${calc:(5+2)*3}"),
    ("a condition with a pattern", "/eval -n -c abc =~ B"),
    ("a buffer's name that is printed", "/eval /print ${buffer.full_name}"),
]

LONG = [
    ("16,000 times ||", "/eval -n -c " + "||" * 16000),
    ("16,000 conditions", "/eval -n -c " + "||".join(["0"] * 16000)),
    ("13,000 times ${raw:}", "/eval -n " + "${raw:}" * 9300),
    ("one ${repeat:} at the limit", "/eval -n ${repeat:65536,x}"),
    ("${repeat:} of a long text", "/eval -n ${repeat:2," + "x" * 32000 + "}"),
    ("32 times ${eval:}", "/eval -n " + "${eval:" * 32 + "x" * 60000 + "}" * 32),
    ("${ without an end", "/eval -n " + "${" * 32000),
    ("open parentheses", "/eval -n ${calc:" + "(" * 60000 + "}"),
    ("a sum", "/eval -n ${calc:" + "+".join(["1"] * 30000) + "}"),
    ("a long pattern", "/eval -n -c abc =~ " + "x" * 60000),
    ("a pattern that is refused", "/eval -n -c abc =~ " + "(" * 60000),
    ("a pattern of many alternatives", "/eval -n -c abc =~ " + "|".join(["ab"] * 20000)),
    ("a mask of stars", "/eval -n -c " + "a" * 30000 + " =* " + "*a" * 15000 + "b"),
]


def settle(link):
    link.sendall(b"ping in\n")
    receive(link, len(pong(b"in")))


def memory(pid, name):
    with open("/proc/%d/status" % pid) as file:
        return next(int(line.split()[1]) for line in file if line.startswith(name))


def main():
    words = argparse.ArgumentParser(description=__doc__, formatter_class=argparse.RawDescriptionHelpFormatter)
    words.add_argument("--pid", type=int, required=True, help="the program's process")
    words.add_argument("--port", type=int, default=9000)
    words.add_argument("--password", required=True)
    words.add_argument("--count", type=int, default=20000)
    words.add_argument("--times", type=int, default=3)
    words = words.parse_args()
    link = socket.create_connection(("127.0.0.1", words.port), timeout=300)
    link.sendall(b"init password=%s\n" % words.password.encode())
    for _ in range(words.times):
        for name, line in ORDINARY:
            data = ("input core.weechat %s\n" % line).encode() * words.count
            start = processor_time(words.pid)
            link.sendall(data)
            settle(link)
            print("%s: %.2f us" % (name, (processor_time(words.pid) - start) / words.count))
    for name, line in LONG:
        with open("/proc/%d/clear_refs" % words.pid, "w") as file:
            file.write("5")
        held, start = memory(words.pid, "VmRSS"), processor_time(words.pid)
        link.sendall(("input core.weechat %s\n" % line[:65500]).encode())
        settle(link)
        spent = (processor_time(words.pid) - start) / 1e3
        print("%s: %.2f ms, %d KB" % (name, spent, memory(words.pid, "VmHWM") - held))


if __name__ == "__main__":
    main()
