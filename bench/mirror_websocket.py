#!/usr/bin/env python3
"""Compares the copy of a client over WebSocket with that of a plain one, for each way to log in.

The client over WebSocket is the library `websockets` (Debian: python3-websockets). For each algorithm it logs in, asks for
all events and takes the three dumps, as a plain client does. Then both type commands at random, from a seed; the first
sends its lines in text messages, in binary messages, and cut over two messages in turn. After that both copies are
compared with fresh dumps, taken by each. It ends with 1 where they differ. The program has to have no other clients.

    /usr/bin/python3 bench/mirror_websocket.py --password secret --commands 200
"""
import argparse
import asyncio
import random
import sys

import websockets

from login import ALGORITHMS, hashed, plain
from mirror import Client, command


class Link:
    """A WebSocket link with the calls of a socket, as far as the clients use them."""

    def __init__(self, port):
        self.loop, self.held, self.sent = asyncio.new_event_loop(), b"", 0
        self.socket = self.wait(self.connect("ws://127.0.0.1:%d/weechat" % port))

    def wait(self, call):
        return self.loop.run_until_complete(call)

    async def connect(self, address):
        return await websockets.connect(address, max_size=None)

    def sendall(self, data):
        """Sends bytes as a text message, as a binary one, or as two messages that cut a line, in turn."""
        self.sent += 1
        if self.sent % 3 == 0:
            return self.wait(self.socket.send(data))
        if self.sent % 3 == 1:
            return self.wait(self.socket.send(data.decode()))
        self.wait(self.socket.send(data[: len(data) // 2]))
        return self.wait(self.socket.send(data[len(data) // 2 :]))

    def recv(self, count):
        while not self.held:
            self.held = self.wait(self.socket.recv())
            if not isinstance(self.held, bytes):
                sys.exit("a message of the program is no binary message")
        taken, self.held = self.held[:count], self.held[count:]
        return taken

    def close(self):
        self.wait(self.socket.close())


def compare(words, algorithm):
    link = Link(words.port)
    way = plain if algorithm == "plain" else hashed
    clients = [
        Client(link, way(link, algorithm, words.password), words.limit),
        Client.plain(words.port, words.password, words.limit),
    ]
    dice, names = random.Random(words.seed), ["n%d" % n for n in range(12)]
    for number in range(words.commands):
        typist = clients[number % 2]
        typist.send("input %s %s" % command(dice, typist, names))
        if number % 8 == 7:
            for client in clients + clients:
                client.settle()
    for client in clients + clients:
        client.settle()
    dumps = [client.dumps() for client in clients]
    if any(client.copy() != dump for client in clients for dump in dumps):
        sys.exit("%s: a copy differs from fresh dumps" % algorithm)
    buffers = sum(len(group) for group in clients[0].groups)
    print("%s: after %d commands both copies equal fresh dumps; %d buffers" % (algorithm, words.commands, buffers))
    for client in clients:
        client.link.close()


def main():
    words = argparse.ArgumentParser(description=__doc__, formatter_class=argparse.RawDescriptionHelpFormatter)
    words.add_argument("--port", type=int, default=9000)
    words.add_argument("--password", required=True)
    words.add_argument("--limit", type=int, default=4096, help="lines that a buffer holds, as the program has it")
    words.add_argument("--commands", type=int, default=200)
    words.add_argument("--seed", type=int, default=1)
    words = words.parse_args()
    for algorithm in ALGORITHMS:
        compare(words, algorithm)


if __name__ == "__main__":
    main()
