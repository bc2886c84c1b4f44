#!/usr/bin/env python3
"""Checks copies of a running program's state while an IRC server says lines at random, over real sockets.

It is the server: the program is told by a client to connect to it. The server's lines are drawn from a seed: joins, leaves,
kicks, renames, modes, lists of names, talk, and now and then the own nick is kicked and joins again. A client follows from
the start, another one from the middle on, and a third one asks for all events and never reads. After each round, which ends
with a tick, the copies of the first two are compared with the dumps that a fresh client gets, and its nicklists with the server's. It
ends with 1 where they differ. The program has to have no other clients. Python 3, standard library only. Examples:

    bench/mirror_irc.py --password secret --rounds 60 --lines 50
    bench/mirror_irc.py --password secret --rounds 120 --crowd 10000
"""
import argparse
import random
import socket
import sys
import time

from mirror import Client

NICKS = ["al", "bo", "cy", "di", "ed", "flo", "gus", "hal", "ida", "jo", "[k]", "l_", "m-m", "Nat"]
CHANNELS = ["#a", "#b", "#c"]
TICK = 0.1


class Follower(Client):
    """A client whose copy of a nicklist has, by its handle, each row with that of its group."""

    def dumps(self):
        groups, lines, nicks = super().dumps()
        return groups, lines, {buffer: rows_of(rows) for buffer, rows in nicks.items()}

    def fold(self, message):
        if message.id == "_nicklist":
            told = {}
            for (buffer, item), values in message.items:
                told.setdefault(buffer, []).append((item, values))
            for buffer, rows in told.items():
                self.nicks[buffer] = rows_of([row for row in rows if row[1]["name"] != "root"])
        elif message.id == "_nicklist_diff":
            self.fold_diff(message.items)
        else:
            super().fold(message)
            for buffer, rows in self.nicks.items():
                if rows == []:
                    self.nicks[buffer] = {}

    def fold_diff(self, items):
        group = 0
        for (buffer, item), values in items:
            rows, sign = self.nicks.setdefault(buffer, {}), chr(values.pop("_diff"))
            if sign == "^":
                group = item
            elif sign == "-":
                del rows[item]
            else:
                if sign == "*":
                    # A nick that left and came again within a tick is told as changed, under its new handle.
                    del rows[next(old for old, row in rows.items() if key_of(row[1]) == key_of(shown(values)))]
                rows[item] = (group, shown(values))


def shown(values):
    """A row without its level, which a diff may leave out."""
    return tuple(sorted((key, value) for key, value in values.items() if key != "level"))


def key_of(row):
    """What no two rows of a nicklist share."""
    return dict(row)["group"], dict(row)["name"]


def rows_of(rows):
    """The rows of a list by their handles, each with the handle of the group before it."""
    found, group = {}, 0
    for item, values in rows:
        found[item] = (0 if values["group"] else group, shown(values))
        group = item if values["group"] else group
    return found


class Server:
    """One IRC server, and who is on its channels."""

    def __init__(self, crowd):
        self.listener = socket.create_server(("127.0.0.1", 0))
        self.port = self.listener.getsockname()[1]
        self.on = {channel: set() for channel in CHANNELS}
        self.on[CHANNELS[0]] = {"u%d" % n for n in range(crowd)}
        self.said = 0

    def accept(self):
        self.link = self.listener.accept()[0]
        self.link.setsockopt(socket.IPPROTO_TCP, socket.TCP_NODELAY, 1)
        self.heard = self.link.makefile("rb")
        self.nick = self.wait(b"NICK ").split()[1].decode()
        self.wait(b"USER ")
        self.say(":srv 001 %s :hi" % self.nick)
        self.say(":srv 005 %s PREFIX=(ov)@+ CHANTYPES=# CHANMODES=b,k,l,imnst :are supported" % self.nick)
        for channel in CHANNELS:
            self.join(channel)

    def say(self, line):
        self.link.sendall(line.encode() + b"\r\n")
        self.said += 1

    def wait(self, begin):
        for line in self.heard:
            if line.startswith(begin):
                return line
        sys.exit("the program closed its connection")

    def settle(self):
        """Waits till all lines were taken in, and a tick more."""
        self.say("PING :%d" % self.said)
        self.wait(b"PONG ")
        time.sleep(2 * TICK)

    def join(self, channel):
        self.say(":%s!u@h JOIN %s" % (self.nick, channel))
        self.names(channel)

    def names(self, channel):
        names = ["@" + self.nick] + sorted(self.on[channel])
        for place in range(0, len(names), 40):
            self.say(":srv 353 %s = %s :%s" % (self.nick, channel, " ".join(names[place : place + 40])))
        self.say(":srv 366 %s %s :end" % (self.nick, channel))

    def names_told(self, channel):
        return sorted(self.on[channel] | {self.nick})

    def rename(self, nick, dice):
        free = [n for n in NICKS if all(n not in on for on in self.on.values())]
        new = dice.choice(free or [nick])
        self.say(":%s!u@h NICK %s" % (nick, new))
        for on in self.on.values():
            if nick in on:
                on.remove(nick)
                on.add(new)

    def leave(self, nick, channel, line):
        self.say(line)
        for on in self.on.values() if channel is None else [self.on[channel]]:
            on.discard(nick)

    def draw(self, dice):
        """A line at random, of those that fit who is on which channel."""
        channel, nick = dice.choice(CHANNELS), dice.choice(NICKS)
        who, there = ":%s!u@h" % nick, nick in self.on[channel]
        kind = dice.randrange(12)
        if not there and kind < 6:
            self.say("%s JOIN %s" % (who, channel))
            self.on[channel].add(nick)
        elif there and kind == 0:
            self.leave(nick, channel, "%s PART %s :bye" % (who, channel))
        elif there and kind == 1:
            self.leave(nick, channel, ":%s!u@h KICK %s %s :out" % (self.nick, channel, nick))
        elif there and kind == 2:
            self.leave(nick, None, "%s QUIT :gone" % who)
        elif there and kind == 3:
            self.rename(nick, dice)
        elif there and kind < 7:
            self.say(":srv MODE %s %s%s %s" % (channel, dice.choice("+-"), dice.choice("ov"), nick))
        elif kind == 7 and dice.randrange(8) == 0:
            self.say("%s KICK %s %s :you" % (who, channel, self.nick))
            self.join(channel)
        elif kind == 8:
            self.names(channel)
        elif kind == 9:
            self.say("%s PRIVMSG %s :hello %d" % (who, self.nick, self.said))
        else:
            self.say("%s PRIVMSG %s :word %d" % (who, channel, self.said))


def connected(words, server):
    """A client that follows, and has had the program connect to the server."""
    client = Follower.plain(words.port, words.password, words.limit)
    client.send("input core.weechat /server add random 127.0.0.1/%d -notls" % server.port)
    client.send("input core.weechat /connect random")
    server.accept()
    return client


def silent(words):
    """A client that asks for all events and reads none."""
    link = socket.create_connection(("127.0.0.1", words.port))
    link.sendall(("init password=%s\nsync\n" % words.password).encode())
    return link


def names_on(client, channel):
    """The nicks of a channel's buffer, as a client has them."""
    buffer = next(b["handle"] for group in client.groups for b in group if b["full_name"] == "irc.random." + channel)
    rows = [dict(row) for _, row in client.nicks[buffer].values()]
    return sorted(row["name"] for row in rows if not row["group"])


def compare(words, clients, server, round):
    fresh = Follower.plain(words.port, words.password, words.limit)
    for channel in CHANNELS:
        if names_on(fresh, channel) != server.names_told(channel):
            sys.exit("round %d: the nicks of %s are not the server's" % (round, channel))
    for client in clients:
        client.settle()
        if client.copy() != fresh.copy():
            parts = [name for name, a, b in zip(("buffers", "lines", "nicks"), client.copy(), fresh.copy()) if a != b]
            sys.exit("round %d: the %s of a copy differ from fresh dumps" % (round, " and the ".join(parts)))
    fresh.send("quit")
    fresh.link.close()
    return fresh


def main():
    words = argparse.ArgumentParser(description=__doc__, formatter_class=argparse.RawDescriptionHelpFormatter)
    words.add_argument("--port", type=int, default=9000)
    words.add_argument("--password", required=True)
    words.add_argument("--limit", type=int, default=4096, help="lines that a buffer holds, as the program has it")
    words.add_argument("--rounds", type=int, default=60)
    words.add_argument("--lines", type=int, default=50, help="lines of the server in a round")
    words.add_argument("--crowd", type=int, default=0, help="nicks beside that are on the first channel")
    words.add_argument("--seed", type=int, default=1)
    words = words.parse_args()
    dice, server = random.Random(words.seed), Server(words.crowd)
    clients = [connected(words, server)]
    deaf = silent(words)
    for round in range(words.rounds):
        if round == words.rounds // 2:
            clients.append(Follower.plain(words.port, words.password, words.limit))
        for _ in range(words.lines):
            server.draw(dice)
        server.settle()
        fresh = compare(words, clients, server, round)
    deaf.close()
    rows = {buffer: len(rows) for buffer, rows in fresh.nicks.items() if rows}
    print("%d lines of the server in %d rounds: each copy equals fresh dumps after each; rows of nicks %s" % (server.said, words.rounds, sorted(rows.values())))


if __name__ == "__main__":
    main()
