#!/usr/bin/env python3
"""Measures logins over the WeeChat relay protocol.

Makes connections one after another, for each algorithm. Each logs in, waits for the answer to a first ping, and is
closed again. A plain login is one line; a login with a hash asks for the nonce by `handshake`,
and sends the hash of a salt that begins with it. Python 3, standard library only. Example:

    bench/login.py --port 9000 --password x --count 500
"""
import argparse
import hashlib
import os
import socket
import struct
import sys
import time

from ping import TIMEOUT, pong, receive

ALGORITHMS = ("plain", "sha256", "sha512", "pbkdf2+sha256", "pbkdf2+sha512")


def message(link):
    """The bytes of one whole message, without its length."""
    size = struct.unpack(">I", receive(link, 4))[0]
    return receive(link, size - 4)


def pairs(body):
    """The pairs of the one table of texts that a message has after its id."""
    place = 1
    texts = []

    def text():
        nonlocal place
        size = struct.unpack(">i", body[place:place + 4])[0]
        place += 4
        value = body[place:place + size]
        place += size
        return value

    text()
    if body[place:place + 9] != b"htbstrstr":
        raise ValueError("the answer to the handshake is no table of texts")
    place += 9
    count = struct.unpack(">i", body[place:place + 4])[0]
    place += 4
    for _ in range(2 * count):
        texts.append(text())
    return dict(zip(texts[::2], texts[1::2]))


def hashed(link, algorithm, password):
    """The line that logs in by a hash, with a salt of the client's own after the nonce."""
    link.sendall(b"handshake password_hash_algo=%s\n" % algorithm.encode())
    answer = pairs(message(link))
    if answer[b"password_hash_algo"] != algorithm.encode():
        raise ValueError("the algorithm %s was not chosen" % algorithm)
    salt = bytes.fromhex(answer[b"nonce"].decode()) + os.urandom(16)
    return "init password_hash=%s:%s\n" % (algorithm, digest(algorithm, salt, password.encode(), answer))


def digest(algorithm, salt, password, answer):
    """The salt, the rounds where there are any, and the hash."""
    if not algorithm.startswith("pbkdf2+"):
        return "%s:%s" % (salt.hex(), hashlib.new(algorithm, salt + password).hexdigest())
    rounds = int(answer[b"password_hash_iterations"])
    spelled = hashlib.pbkdf2_hmac(algorithm.removeprefix("pbkdf2+"), password, salt, rounds).hex()
    return "%s:%d:%s" % (salt.hex(), rounds, spelled)


def plain(link, algorithm, password):
    """The line that logs in by the password as it stands."""
    return "init password=%s\n" % password.replace(",", "\\,")


def log_in(host, port, way, algorithm, password):
    """One connection, which is closed after the answer to its first ping."""
    with socket.create_connection((host, port), timeout=TIMEOUT) as link:
        link.setsockopt(socket.IPPROTO_TCP, socket.TCP_NODELAY, 1)
        link.sendall(way(link, algorithm, password).encode() + b"ping in\n")
        wanted = pong(b"in")
        if receive(link, len(wanted)) != wanted:
            raise ValueError("the first answer is not the pong that is due")


def main():
    parser = argparse.ArgumentParser(description=__doc__, formatter_class=argparse.RawDescriptionHelpFormatter)
    parser.add_argument("--host", default="127.0.0.1")
    parser.add_argument("--port", type=int, default=9000)
    parser.add_argument("--password", default="x")
    parser.add_argument("--count", type=int, default=500)
    chosen = parser.parse_args()
    for name in ALGORITHMS:
        way = plain if name == "plain" else hashed
        # a hash of many rounds takes so much longer that a fiftieth of the logins will do
        count = max(1, chosen.count // 50) if name.startswith("pbkdf2+") else chosen.count
        start = time.perf_counter()
        for _ in range(count):
            log_in(chosen.host, chosen.port, way, name, chosen.password)
        seconds = time.perf_counter() - start
        print("%d logins, %s: %.1f us each, %.0f each second" % (
            count, name, seconds / count * 1e6, count / seconds))


if __name__ == "__main__":
    try:
        main()
    except (OSError, ValueError, EOFError, KeyError) as error:
        sys.exit("login.py: %s" % error)
