#!/usr/bin/env python3
"""Shows that the program goes on where the system has no file left for a client.

Starts the program with a small limit of files, and has more clients come than there are files for. Those that were let
in are answered, the others wait, and the program rests meanwhile. Once a client goes, one of those that wait is let in.
Then the program is started on a folder that is not there, which has to end with status 3. Python 3, standard library
only. Example:

    bench/files.py --program ./wc_headless --port 9300
"""
import argparse
import os
import resource
import select
import socket
import subprocess
import sys
import tempfile
import time

from ping import pong

CLIENTS = 30
LOGIN = b"init password=x\nping in\n"


def start(program, folder, files):
    """The program on this folder, which may have so many files open."""
    limits = (files, resource.getrlimit(resource.RLIMIT_NOFILE)[1])
    return subprocess.Popen([program, "-d", folder], stdout=subprocess.PIPE, stderr=subprocess.STDOUT,
                            preexec_fn=lambda: resource.setrlimit(resource.RLIMIT_NOFILE, limits))


def configure(folder, port):
    lines = ["relay.network.password = x", "relay.network.max_clients = 64", "relay.port.weechat = %d" % port]
    with open(os.path.join(folder, "weechat.conf"), "w", encoding="utf-8") as file:
        file.write("\n".join(lines) + "\n")


def come(port):
    """A client that has said its password and waits for the answer to a ping."""
    for _ in range(200):
        try:
            client = socket.create_connection(("127.0.0.1", port), timeout=60)
            break
        except ConnectionRefusedError:
            time.sleep(0.1)
    client.sendall(LOGIN)
    return client


def answer(client):
    """What a client is sent; nothing where its link is cut off."""
    try:
        return client.recv(100)
    except ConnectionResetError:
        return b""


def answered(clients, seconds):
    """Those of the clients that get their answer within so many seconds."""
    found = []
    left = list(clients)
    until = time.monotonic() + seconds
    while time.monotonic() < until:
        for client in select.select(left, [], [], 0.1)[0]:
            left.remove(client)
            if answer(client) == pong(b"in"):
                found.append(client)
    return found


def processor(process):
    """The seconds of a processor that a process has taken."""
    with open("/proc/%d/stat" % process.pid, encoding="utf-8") as file:
        fields = file.read().rpartition(")")[2].split()
    return (int(fields[11]) + int(fields[12])) / os.sysconf("SC_CLK_TCK")


def play(process, port):
    clients = [come(port) for _ in range(CLIENTS)]
    let_in = answered(clients, 3)
    waiting = [client for client in clients if client not in let_in]
    print("%d of %d clients are let in" % (len(let_in), CLIENTS))
    before = processor(process)
    time.sleep(3)
    busy = (processor(process) - before) / 3
    print("running: %s, of a processor: %.3f" % (process.poll() is None, busy))
    for client in let_in[:3]:
        client.close()
    later = answered(waiting, 3)
    print("3 go, and %d that waited are let in" % len(later))
    return process.poll() is None and 0 < len(let_in) < CLIENTS and busy < 0.2 and len(later) == 3


def main():
    parser = argparse.ArgumentParser(description=__doc__.splitlines()[0])
    parser.add_argument("--program", default="./wc_headless")
    parser.add_argument("--port", type=int, default=9300)
    parser.add_argument("--files", type=int, default=16)
    words = parser.parse_args()
    with tempfile.TemporaryDirectory() as folder:
        configure(folder, words.port)
        process = start(words.program, folder, words.files)
        try:
            is_well = play(process, words.port)
        finally:
            process.terminate()
        print("printed: %r, status %s" % (process.communicate()[0], process.returncode))
        nowhere = start(words.program, os.path.join(folder, "nowhere"), 64)
        printed = nowhere.communicate(timeout=60)[0]
        print("a folder that is not there: %r, status %d" % (printed, nowhere.returncode))
    return 0 if is_well and nowhere.returncode == 3 else 1


if __name__ == "__main__":
    sys.exit(main())
