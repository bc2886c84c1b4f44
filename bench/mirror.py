#!/usr/bin/env python3
"""Checks and measures copies of a running program's buffers, lines and nicklists, over real sockets.

Two clients log in, ask for all events and take the three dumps. Then each types commands at random, from a seed: buffers
that are added, merged, moved, hidden, renamed and closed, variables, titles, lines, filters. Each client folds the
events into its copy, and after every round the copies are compared with those of fresh dumps. It ends with 1 where they
differ.
One client keeps the program's limit of lines, the other asks for trims and is told which lines go. With --limits both
ask for trims, and the limit of lines is changed too.
With --lines it prints so many lines into so many buffers instead, and measures the dump of all lines. The program has
to have no other clients. Python 3, standard library only. Examples:

    bench/mirror.py --password secret --rounds 200
    bench/mirror.py --password secret --lines 4096 --buffers 64
"""
import argparse
import random
import socket
import struct
import sys
import time

BUFFERS = "hdata buffer:gui_buffers(*) number,full_name,short_name,hidden,title,local_variables"
LINES = (
    "hdata buffer:gui_buffers(*)/own_lines/first_line(*)/data "
    "buffer,id,date,date_usec,date_printed,date_usec_printed,displayed,notify_level,highlight,"
    "tags_array,prefix,message"
)


class Message:
    """A message of the relay protocol, as far as hdata and plain values go."""

    def __init__(self, body):
        self.body, self.at = body, 1
        self.id = self.text()
        kind = self.take(3) if self.at < len(body) else b""
        self.path, self.items = (self.hdata() if kind == b"hda" else (None, []))

    def take(self, count):
        self.at += count
        return self.body[self.at - count : self.at]

    def number(self):
        return struct.unpack(">i", self.take(4))[0]

    def text(self):
        length = self.number()
        return None if length < 0 else self.take(length).decode()

    def short(self):
        return self.take(self.take(1)[0]).decode()

    def value(self, kind):
        if kind == "int":
            return self.number()
        if kind == "chr":
            return struct.unpack(">b", self.take(1))[0]
        if kind == "str":
            return self.text()
        if kind == "ptr":
            return int(self.short(), 16)
        if kind == "tim":
            return int(self.short())
        if kind == "arr":
            inner = self.take(3).decode()
            return [self.value(inner) for _ in range(self.number())]
        if kind == "htb":
            key, inner = self.take(3).decode(), self.take(3).decode()
            return [(self.value(key), self.value(inner)) for _ in range(self.number())]
        raise ValueError(kind)

    def hdata(self):
        path, keys = self.text(), self.text()
        count = self.number()
        if path is None:
            return None, []
        names = [key.split(":") for key in keys.split(",")]
        items = []
        for _ in range(count):
            pointers = [int(self.short(), 16) for _ in path.split("/")]
            items.append((pointers, {name: self.value(kind) for name, kind in names}))
        return path, items


class Client:
    """A connection, and a copy of the buffers in groups, of their lines and of their nicklists."""

    def __init__(self, link, login, limit):
        self.link = link
        self.bytes, self.limit, self.groups, self.lines, self.nicks = b"", limit, [], {}, {}
        self.send(login.rstrip("\n"))
        self.send("sync" if limit else "sync * buffers,buffer,nicklist,trims")
        self.groups, self.lines, self.nicks = self.dumps()

    @classmethod
    def plain(cls, port, password, limit):
        """A client over TCP that logs in by the password as it is, and asks for trims where it keeps no limit of lines."""
        link = socket.create_connection(("127.0.0.1", port))
        link.setsockopt(socket.IPPROTO_TCP, socket.TCP_NODELAY, 1)
        return cls(link, "init password=" + password, limit)

    def send(self, line):
        self.link.sendall(line.encode() + b"\n")

    def message(self):
        while len(self.bytes) < 4 or len(self.bytes) < struct.unpack(">I", self.bytes[:4])[0]:
            more = self.link.recv(1 << 20)
            if not more:
                sys.exit("the program closed the connection")
            self.bytes += more
        length = struct.unpack(">I", self.bytes[:4])[0]
        found, self.bytes = Message(self.bytes[4:length]), self.bytes[length:]
        return found

    def until(self, id):
        """Folds events up to the reply under this id."""
        while True:
            message = self.message()
            if message.id == id:
                return message
            self.fold(message)

    def settle(self):
        self.send("ping")
        self.until("_pong")

    def dumps(self):
        self.send("(b) " + BUFFERS)
        groups, number = [], 0
        for (handle,), values in self.until("b").items:
            if values["number"] != number:
                groups.append([])
                number = values["number"]
            groups[-1].append(dict(handle=handle, **{k: v for k, v in values.items() if k != "number"}))
        self.send("(l) " + LINES)
        lines = {}
        for pointers, values in self.until("l").items:
            lines.setdefault(pointers[0], []).append((pointers[-1], values))
        self.send("(n) nicklist")
        nicks = {}
        for (buffer, item), values in self.until("n").items:
            rows = nicks.setdefault(buffer, [])
            if values["name"] != "root":
                rows.append((item, values))
        return groups, lines, nicks

    def copy(self):
        return self.groups, self.lines, self.nicks

    def place(self, handle):
        return next((g, b) for g, group in enumerate(self.groups) for b, x in enumerate(group) if x["handle"] == handle)

    def take_out(self, handle):
        group, place = self.place(handle)
        buffer = self.groups[group].pop(place)
        if not self.groups[group]:
            self.groups.pop(group)
        return buffer

    def fold_flags(self, items):
        """Sets the flags of lines, each by its pointer; one that is not held is passed over."""
        for (line,), values in items:
            for handle, held in self.lines.get(values["buffer"], []):
                if handle == line:
                    held["displayed"] = values["displayed"]

    def fold(self, message):
        if message.id == "_buffer_line_data_changed":
            return self.fold_flags(message.items)
        (pointers, values), event = message.items[0], message.id.removeprefix("_buffer_")
        handle = pointers[0]
        if event == "line_added":
            kept = self.lines.setdefault(values["buffer"], [])
            kept.append((handle, values))
            if self.limit:
                del kept[: max(0, len(kept) - self.limit)]
        elif event == "lines_trimmed":
            del self.lines[values["buffer"]][: values["count"]]
        elif event == "opened":
            new = {k: v for k, v in values.items() if k not in ("number", "prev_buffer", "next_buffer")}
            self.groups.append([dict(handle=handle, **new)])
            self.nicks[handle] = []
        elif event == "closing":
            self.take_out(handle)
            self.lines.pop(handle, None)
            self.nicks.pop(handle, None)
        elif event == "cleared":
            self.lines.pop(handle, None)
        elif event == "moved":
            group = self.groups.pop(self.place(handle)[0])
            self.groups.insert(values["number"] - 1, group)
        elif event == "merged":
            buffer = self.take_out(handle)
            group, place = self.place(values["prev_buffer"])
            self.groups[group].insert(place + 1, buffer)
        elif event == "unmerged":
            group, place = self.place(handle)
            self.groups.insert(group + 1, [self.groups[group].pop(place)])
        else:
            group, place = self.place(handle)
            told = {k: v for k, v in values.items() if k in ("full_name", "short_name", "title", "local_variables")}
            self.groups[group][place].update(told)
            if event in ("hidden", "unhidden"):
                self.groups[group][place]["hidden"] = int(event == "hidden")


def filter_command(dice, names):
    """A change of filters at random, of few names, so that most are of filters that are there."""
    name, word, other = "f%d" % dice.randint(0, 3), dice.choice(names), dice.choice(names)
    buffers = dice.choice(["*", "core." + word, "core.n1*", "!core." + word, "*,!core.%s,!*weechat" % word])
    tags = dice.choice(["*", "a", "!a", word, "a+!%s,%s" % (word, other)])
    pattern = dice.choice(["*", "text", "!text", word, "^%s$\\t" % word, "!%s\\t%s" % (word, other), "("])
    return dice.choice(
        ["/filter add %s %s %s %s" % (name, buffers, tags, pattern)] * 3
        + ["/filter del " + name] * 2
        + ["/filter " + word for word in ("enable", "disable", "toggle")]
        + ["/filter %s %s" % (word, name) for word in ("enable", "disable", "toggle")]
    )


def command(dice, client, names, limits):
    """A command at random, and the buffer into which it is typed."""
    buffers = [b["full_name"] for g in client.groups for b in g]
    here, there = dice.choice(buffers), dice.choice(buffers)
    word = dice.choice(names)
    return here, dice.choice(
        [
            "/buffer add " + word,
            "/buffer close",
            "/buffer close " + there,
            "/buffer merge " + there,
            "/buffer move %d" % dice.randint(0, len(client.groups) + 1),
            "/buffer unmerge",
            "/buffer hide",
            "/buffer unhide",
            "/buffer clear",
            "/buffer set name " + word,
            "/buffer set short_name " + word,
            "/buffer set title %s %s" % (word, word),
            "/buffer set localvar_set_%s %s" % (dice.choice("abc"), word),
            "/buffer set localvar_del_%s" % dice.choice("abc"),
            "/print %s\t%s" % (word, word),
            "/print -buffer %s -tags a,%s text" % (there, word),
            "/print -tags no_filter,%s text" % word,
            filter_command(dice, names),
            filter_command(dice, names),
            filter_command(dice, names),
            "no command",
        ]
        + ["/set weechat.history.max_buffer_lines_number %d" % dice.choice([1, 2, 3, 5, 8, 4096])] * limits
        + ["/unset weechat.history.max_buffer_lines_number"] * limits
    )


def check(words):
    limits = [None, None] if words.limits else [words.limit, None]
    clients = [Client.plain(words.port, words.password, limit) for limit in limits]
    dice, names = random.Random(words.seed), ["n%d" % n for n in range(12)]
    for round in range(words.rounds):
        for client in clients:
            for _ in range(8):
                client.send("input %s %s" % command(dice, client, names, int(words.limits)))
        for client in clients + clients:
            client.settle()
        fresh = clients[round % 2].dumps()
        for client in clients:
            client.settle()
            if client.copy() != fresh:
                sys.exit("round %d: a copy differs from fresh dumps" % round)
    buffers = sum(len(group) for group in clients[0].groups)
    print("%d rounds of 16 commands: both copies equal fresh dumps; %d buffers at the end" % (words.rounds, buffers))


def measure(words):
    client = Client.plain(words.port, words.password, words.limit)
    for n in range(words.buffers - 1):
        client.send("input core.weechat /buffer add m%d" % n)
    client.settle()
    buffers = [b["full_name"] for g in client.groups for b in g][: words.buffers]
    client.send("desync *")
    for n in range(words.lines):
        client.send("\n".join("input %s /print nick%d\t%s" % (b, n % 50, "word " * 12) for b in buffers))
        client.settle()
    for _ in range(words.times):
        start = time.perf_counter()
        client.send("(l) " + LINES)
        size = 0
        first = client.link.recv(4)
        left = struct.unpack(">I", first)[0] - 4
        while size < left:
            size += len(client.link.recv(min(1 << 20, left - size)))
        spent = time.perf_counter() - start
        print("a dump of %d buffers of %d lines: %d bytes in %.0f ms, %.0f MB a second" % (len(buffers), words.lines, size + 4, spent * 1e3, size / spent / 1e6))


def main():
    words = argparse.ArgumentParser(description=__doc__, formatter_class=argparse.RawDescriptionHelpFormatter)
    words.add_argument("--port", type=int, default=9000)
    words.add_argument("--password", required=True)
    words.add_argument("--limit", type=int, default=4096, help="lines that a buffer holds, as the program has it")
    words.add_argument("--limits", action="store_true", help="change the limit of lines too")
    words.add_argument("--rounds", type=int, default=100)
    words.add_argument("--seed", type=int, default=1)
    words.add_argument("--lines", type=int, default=0)
    words.add_argument("--buffers", type=int, default=64)
    words.add_argument("--times", type=int, default=5)
    words = words.parse_args()
    measure(words) if words.lines else check(words)


if __name__ == "__main__":
    main()
