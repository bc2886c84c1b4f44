#!/usr/bin/env python3
"""Measures what a client over WebSocket costs the program beside a plain one, in one run.

For each of both it gives the processor time of the program, in microseconds an operation, for pings that are sent as fast
as they are taken (one line a message), for the event of a printed line that the client follows, and for a dump of the
lines of all buffers. Python 3, standard library only. The program has to be fresh. Example:

    bench/websocket.py --pid $(pgrep wc_headless) --port 9000 --password secret
"""
import argparse
import base64
import os
import selectors
import socket
import struct
import sys
import time

LINES = (
    "hdata buffer:gui_buffers(*)/own_lines/first_line(*)/data "
    "buffer,id,date,date_usec,date_printed,date_usec_printed,displayed,notify_level,highlight,"
    "tags_array,prefix,message"
)


def processor_time(pid):
    """Microseconds of processor that a process has had."""
    with open("/proc/%d/schedstat" % pid) as file:
        return int(file.read().split()[0]) / 1e3


def masked(payload):
    """A text message of a client, in one frame, whose mask is zeros."""
    if len(payload) < 126:
        return struct.pack(">BB", 0x81, 0x80 | len(payload)) + bytes(4) + payload
    return struct.pack(">BBH", 0x81, 0x80 | 126, len(payload)) + bytes(4) + payload


class Link:
    """A client that logged in, over TCP or over WebSocket, and counts the messages that come."""

    def __init__(self, words, websocket):
        self.socket = socket.create_connection(("127.0.0.1", words.port), timeout=60)
        self.socket.setsockopt(socket.IPPROTO_TCP, socket.TCP_NODELAY, 1)
        self.websocket, self.held = websocket, b""
        if websocket:
            key = base64.b64encode(os.urandom(16)).decode()
            self.socket.sendall((
                "GET /weechat HTTP/1.1\r\nHost: localhost\r\nUpgrade: websocket\r\nConnection: Upgrade\r\n"
                "Sec-WebSocket-Key: %s\r\nSec-WebSocket-Version: 13\r\n\r\n" % key).encode())
            while b"\r\n\r\n" not in self.held:
                self.held += self.socket.recv(4096)
            self.held = self.held.partition(b"\r\n\r\n")[2]
        self.send("init password=" + words.password)

    def spelled(self, line):
        data = line.encode() + b"\n"
        return masked(data) if self.websocket else data

    def send(self, line):
        self.socket.sendall(self.spelled(line))

    def size_of_first(self):
        """The size of the first whole message with its frame, or 0 where more bytes are wanted to know it."""
        held, head = self.held, 0
        if self.websocket:
            if len(held) < 2:
                return 0
            head = {126: 4, 127: 10}.get(held[1], 2)
        if len(held) < head + 4:
            return 0
        return head + struct.unpack_from(">I", held, head)[0]

    def take(self, count, data=b""):
        """Sends bytes, and takes so many messages meanwhile."""
        self.socket.setblocking(False)
        waits = selectors.DefaultSelector()
        waits.register(self.socket, selectors.EVENT_READ | (selectors.EVENT_WRITE if data else 0))
        sent = 0
        while count:
            for _, ready in waits.select(60):
                if ready & selectors.EVENT_WRITE:
                    sent += self.socket.send(data[sent : sent + 65536])
                    if sent == len(data):
                        waits.modify(self.socket, selectors.EVENT_READ)
                if ready & selectors.EVENT_READ:
                    count -= self.taken(self.socket.recv(1 << 20))
        waits.close()
        self.socket.setblocking(True)

    def taken(self, more):
        """How many messages end in the bytes that came."""
        if not more:
            sys.exit("the program closed the connection")
        self.held += more
        count = 0
        while 0 < (size := self.size_of_first()) <= len(self.held):
            self.held = self.held[size:]
            count += 1
        return count

    def settle(self):
        self.send("ping")
        self.take(1)


def pings(words, link):
    data = link.spelled("ping 1480802456789") * words.pings
    start = processor_time(words.pid)
    link.take(words.pings, data)
    return (processor_time(words.pid) - start) / words.pings


def events(words, link, typist):
    link.send("sync")
    link.settle()
    line = typist.spelled("input core.weechat /print -tags a,b nick\t" + "word " * 41)
    start = processor_time(words.pid)
    for _ in range(words.prints // 200):
        typist.socket.sendall(line * 200)
        link.take(200)
    spent = (processor_time(words.pid) - start) / words.prints
    link.send("desync")
    link.settle()
    return spent


def fill(words, typist):
    for number in range(words.buffers - 1):
        typist.send("input core.weechat /buffer add m%d" % number)
    names = ["core.weechat"] + ["core.m%d" % number for number in range(words.buffers - 1)]
    for number in range(words.lines):
        typist.socket.sendall(b"".join(
            typist.spelled("input %s /print nick%d\t%s" % (name, number % 50, "word " * 12)) for name in names))
        typist.settle()


def dump(words, link):
    start, before = processor_time(words.pid), time.perf_counter()
    link.send("(l) " + LINES)
    parts, size = [link.held], len(link.held)
    while size < 14:
        parts.append(link.socket.recv(1 << 20))
        size += len(parts[-1])
    link.held = b"".join(parts)
    wanted, link.held = link.size_of_first(), b""
    while size < wanted:
        size += len(link.socket.recv(1 << 20))
    return processor_time(words.pid) - start, wanted, time.perf_counter() - before


def main():
    words = argparse.ArgumentParser(description=__doc__, formatter_class=argparse.RawDescriptionHelpFormatter)
    words.add_argument("--pid", type=int, required=True, help="the program's process")
    words.add_argument("--port", type=int, default=9000)
    words.add_argument("--password", required=True)
    words.add_argument("--pings", type=int, default=50000)
    words.add_argument("--prints", type=int, default=20000)
    words.add_argument("--buffers", type=int, default=64)
    words.add_argument("--lines", type=int, default=4096)
    words.add_argument("--times", type=int, default=3)
    words = words.parse_args()
    kinds = [("plain", Link(words, False)), ("WebSocket", Link(words, True))]
    typist = Link(words, False)
    for _ in range(words.times):
        for name, link in kinds:
            print("%s: %.2f us a ping" % (name, pings(words, link)))
    for _ in range(words.times):
        for name, link in kinds:
            print("%s: %.2f us a printed line with its event" % (name, events(words, link, typist)))
    fill(words, typist)
    for _ in range(words.times):
        for name, link in kinds:
            spent, size, seconds = dump(words, link)
            print("%s: a dump of %d bytes, %.0f ms of processor, %.0f ms" % (name, size, spent / 1e3, seconds * 1e3))


if __name__ == "__main__":
    main()
