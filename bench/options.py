#!/usr/bin/env python3
"""Measures options over the WeeChat relay protocol.

Measures a ping, a ping after a `/set`, and a ping after a `/set` that is refused; then arrivals
with a login, before and after all values of 64 servers are set. With `--pid` it says the processor
time of the program, else that of the clock. Python 3, standard library only. Example, with a fresh
program whose options are the defaults but for the password:

    bench/options.py --port 9000 --password x --pid 4711
"""
import argparse

from login import log_in as arrive, plain
from paths import Program, answer
from ping import log_in

SERVERS = 64
VALUES = (("addresses", "127.0.0.1/6667"), ("nicks", "a,b,c"), ("username", "user"), ("realname", "A Name"),
          ("password", "secret"), ("autojoin", "#a,#b key"), ("autoconnect", "off"), ("tls", "off"))
SET = "relay.network.password_hash_algo"


def measure(program, name, rounds, what):
    """What one of many rounds takes, in microseconds, which is printed."""
    start = program.seconds()
    for number in range(rounds):
        what(number)
    each = (program.seconds() - start) / rounds * 1e6
    print("%-36s %8.2f us" % (name, each))
    return each


def set_servers(link):
    """Sets all values of as many servers as there may be."""
    for server in range(SERVERS):
        for option, value in VALUES:
            link.sendall(("input core.weechat /set irc.server.s%d.%s %s\n" % (server, option, value)).encode())
    answer(link, "ping on")


def main():
    parser = argparse.ArgumentParser(description=__doc__.split("\n")[0])
    parser.add_argument("--host", default="127.0.0.1")
    parser.add_argument("--port", type=int, required=True)
    parser.add_argument("--password", required=True)
    parser.add_argument("--pid", type=int)
    parser.add_argument("--rounds", type=int, default=2000)
    given = parser.parse_args()
    program = Program(given.pid)

    def one_login(_):
        arrive(given.host, given.port, plain, "plain", given.password)

    with log_in(given.host, given.port, given.password) as link:
        def after(request):
            def both(number):
                link.sendall((request % number).encode())
                answer(link, "ping on")
            return both

        ping = measure(program, "a ping", given.rounds, lambda _: answer(link, "ping on"))
        accepted = measure(program, "a ping after a /set", given.rounds,
                           after("input core.weechat /set " + SET + " *,%d\n"))
        refused = measure(program, "a ping after a refused /set", given.rounds,
                          after("input core.weechat /set relay.network.max_clients 0%d\n"))
        print("a /set costs %.2f us, one that is refused %.2f us" % (accepted - ping, refused - ping))
        before = measure(program, "an arrival and a login", given.rounds // 4, one_login)
        set_servers(link)
        later = measure(program, "the same with all values of %d servers" % SERVERS, given.rounds // 4, one_login)
        print("%.2f times as much" % (later / before))


if __name__ == "__main__":
    main()
