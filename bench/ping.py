#!/usr/bin/env python3
"""Measures pings over the WeeChat relay protocol.

Logs in with `init password=..`, and then measures
 - single pings, each sent once the answer to the one before has come,
 - pipelined pings, sent as fast as the peer takes them.

Each answer is compared with the message that is due, byte for byte. Python 3,
standard library only. Example:

    bench/ping.py --port 9000 --password x --single 2000 --pipelined 100000
"""
import argparse
import selectors
import socket
import statistics
import struct
import sys
import time

TEXT = b"1480802456789"
TIMEOUT = 60.0


def string(value):
    """A string of the protocol: its length in four bytes, and its bytes."""
    return struct.pack(">i", len(value)) + value


def pong(text):
    """The message that answers `ping text`: without compression, with the identifier `_pong`."""
    body = b"\x00" + string(b"_pong") + b"str" + string(text)
    return struct.pack(">I", len(body) + 4) + body


def receive(link, size):
    """Exactly `size` bytes of a link."""
    parts = []
    while size > 0:
        part = link.recv(min(size, 1 << 20))
        if not part:
            raise EOFError("the peer closed the link")
        parts.append(part)
        size -= len(part)
    return b"".join(parts)


def log_in(host, port, password):
    """A link that is logged in; the first pong shows that it is."""
    link = socket.create_connection((host, port), timeout=TIMEOUT)
    link.setsockopt(socket.IPPROTO_TCP, socket.TCP_NODELAY, 1)
    escaped = password.replace(",", "\\,")
    link.sendall(("init password=%s\n" % escaped).encode() + b"ping in\n")
    wanted = pong(b"in")
    if receive(link, len(wanted)) != wanted:
        raise ValueError("the first answer is not the pong that is due")
    return link


def single(link, count):
    """The seconds of each of `count` round trips."""
    request, wanted, times = b"ping " + TEXT + b"\n", pong(TEXT), []
    for _ in range(count):
        start = time.perf_counter()
        link.sendall(request)
        answer = receive(link, len(wanted))
        times.append(time.perf_counter() - start)
        if answer != wanted:
            raise ValueError("an answer is not the pong that is due")
    return times


def pipelined(link, count):
    """The seconds from the first byte sent to the last byte of `count` answers."""
    requests = memoryview((b"ping " + TEXT + b"\n") * count)
    wanted = memoryview(pong(TEXT) * count)
    sent = taken = 0
    selector = selectors.DefaultSelector()
    selector.register(link, selectors.EVENT_READ | selectors.EVENT_WRITE)
    link.setblocking(False)
    start = time.perf_counter()
    try:
        while taken < len(wanted):
            ready = selector.select(TIMEOUT)
            if not ready:
                raise TimeoutError("no answer came for %d seconds" % TIMEOUT)
            events = ready[0][1]
            if events & selectors.EVENT_WRITE:
                sent += link.send(requests[sent:sent + 65536])
                if sent == len(requests):
                    selector.modify(link, selectors.EVENT_READ)
            if events & selectors.EVENT_READ:
                part = link.recv(1 << 20)
                if not part:
                    raise EOFError("the peer closed the link")
                if part != wanted[taken:taken + len(part)]:
                    raise ValueError("an answer is not the pong that is due")
                taken += len(part)
        return time.perf_counter() - start
    finally:
        selector.close()
        link.setblocking(True)
        link.settimeout(TIMEOUT)


def main():
    parser = argparse.ArgumentParser(description=__doc__, formatter_class=argparse.RawDescriptionHelpFormatter)
    parser.add_argument("--host", default="127.0.0.1")
    parser.add_argument("--port", type=int, default=9000)
    parser.add_argument("--password", default="x")
    parser.add_argument("--single", type=int, default=2000, metavar="COUNT")
    parser.add_argument("--pipelined", type=int, default=100000, metavar="COUNT")
    chosen = parser.parse_args()
    with log_in(chosen.host, chosen.port, chosen.password) as link:
        if chosen.single > 0:
            times = sorted(single(link, chosen.single))
            print("%d single pings: median %.1f us, 99th percentile %.1f us, longest %.1f us" % (
                len(times), statistics.median(times) * 1e6, times[len(times) * 99 // 100] * 1e6, times[-1] * 1e6))
        if chosen.pipelined > 0:
            seconds = pipelined(link, chosen.pipelined)
            print("%d pipelined pings: %.3f s, %.0f each second" % (
                chosen.pipelined, seconds, chosen.pipelined / seconds))


if __name__ == "__main__":
    try:
        main()
    except (OSError, ValueError, EOFError) as error:
        sys.exit("ping.py: %s" % error)
