#!/usr/bin/env python3
"""5,000 random messages that one IRC server is told, and what follows of them by the model of irc_model.py.

It makes a table for wc_irc_play, whose lines are drawn by a fixed seed, and what that has to print: for most messages one
short line, of how many lines `hear` and `lists` would write and the FNV-1a number of their bytes, and for each fiftieth
all of them. What an act opened, renamed or set is put into the stage by lines of the table, at random not always. Where a
number differs, `--full` makes the same table with `hear` and `lists` in place of each `mark`, so that a `diff` shows what
differs.

    bench/irc_random.py                     writes random.table, and its part of stdout
    bench/irc_random.py --check             ends with 1 where these are others than the model makes
    bench/irc_random.py --full --out FILE   writes FILE.table and FILE.stdout
"""
import argparse
import os
import random
import sys

from irc_model import Scene, Server, mark, typed, word

PLAY = os.path.join(os.path.dirname(os.path.abspath(__file__)), "..", "crates", "wc_irc_play")
NAME = "random.table"
MESSAGES = 5000
WHOLE = 50
SEED = 20260711


# ---- the messages

NICKS = [b"me", b"al", b"AL", b"bo", b"cy[", b"cy{", b"CY]", b"dd~", b"DD^", b"eve", b"f-g", "zoë".encode(), b"n" * 64, b"me_", b"Me"]
NO_NICKS = [b"@op", b"+v", b"n" * 65, b"a@b", b"", b"~tilde", b"s.example.org"]
CHANNELS = [b"#a", b"#A", b"#b[", b"#B{", b"&c", b"#" + "ü".encode(), b"#long" + b"g" * 100]
NO_CHANNELS = [b"rust", b"+d", b"#a,b", b"@#a", b"me"]
TEXTS = [b"hello", b"hi me", b"hi me_", b"ME: so", b"\x02me\x02, there", b"\x0304,12red\x03 me", b"x-me", b"two  blanks", b"", b":colon",
         "grüße, zoë".encode(), b"\x033,4\x1dal\x1f!", b"me" * 30, b"back\\slash", b"\x035,x", b"  me"]
TOKENS = [b"PREFIX=(ov)@+", b"PREFIX=(qaohv)~&@%+", b"PREFIX=(o)@+", b"PREFIX=(oo)@+", b"PREFIX=", "PREFIX=(yo)é@".encode(), b"CHANTYPES=#",
          b"CHANTYPES=#&+", b"CHANTYPES=", b"CASEMAPPING=ascii", b"CASEMAPPING=strict-rfc1459", b"CASEMAPPING=rfc1459", b"CASEMAPPING=odd",
          b"CHANMODES=eIb,k,jl,imn", b"CHANMODES=b,k,l", b"-PREFIX", b"NETWORK=x", b"MODES=4"]
MODES = [b"+o", b"-o", b"+v", b"-v", b"+ov", b"-o+v", b"+b-o", b"+lk", b"+mn", b"-k+o", b"+qa", b"-h+vv", b"o-o"]
ROWS = {"JOIN": 16, "PART": 8, "QUIT": 4, "KICK": 5, "NICK": 9, "MODE": 12, "TOPIC": 3, "332": 2, "353": 9, "366": 2, "324": 2,
        "PRIVMSG": 14, "NOTICE": 4, "PING": 2, "ERROR": 1, "001": 1, "005": 2, "433": 1, "372": 1, "INVITE": 1, "privmsg": 1}


class Draw:
    """Random messages for a scene."""

    def __init__(self, scene, seed):
        self.scene, self.random = scene, random.Random(seed)

    def often(self, chance):
        return self.random.random() < chance

    def nick(self):
        joined = [seat[0] for channel in self.scene.server.channels for seat in channel["seats"]]
        if joined and self.often(0.4):
            return self.random.choice(joined)
        if self.often(0.25):
            return self.scene.server.nick
        return self.random.choice(NO_NICKS if self.often(0.04) else NICKS)

    def channel(self):
        return self.random.choice(NO_CHANNELS if self.often(0.04) else CHANNELS)

    def text(self):
        if self.often(0.15):
            return b"\1" + self.random.choice([b"ACTION waves", b"ACTION me", b"ACTION", b"VERSION", b"PING 12 3", b""]) + b"\1" * self.often(0.9)
        return self.random.choice(TEXTS)

    def listed(self):
        signs = self.scene.server.signs
        names = []
        for _ in range(self.random.randint(0, 6)):
            front = self.random.sample(signs, self.random.randint(0, min(2, len(signs)))) if self.often(0.5) else []
            names.append(b"".join(front) + (self.nick() or b"x"))
        return b" ".join(names)

    def params(self, command):
        c, r, me = self.channel, self.random, self.scene.server.nick
        reason = [self.text()] if self.often(0.5) else []
        made = {"JOIN": lambda: [c()], "PART": lambda: [c()] + reason, "QUIT": lambda: reason, "KICK": lambda: [c(), self.nick()] + reason,
                "NICK": lambda: [self.nick()], "TOPIC": lambda: [c(), self.text()], "332": lambda: [me, c(), self.text()],
                "MODE": lambda: [c(), r.choice(MODES)] + [self.nick() for _ in range(r.randint(0, 3))],
                "353": lambda: [me, b"=", c(), self.listed()], "366": lambda: [me, c(), b"End of names"],
                "324": lambda: [me, c(), r.choice(MODES)] + reason, "PRIVMSG": lambda: [c() if self.often(0.6) else me, self.text()],
                "NOTICE": lambda: [c() if self.often(0.6) else me, self.text()], "PING": lambda: [r.choice([b"x", b"a b", b"", b"a\rb\0c"])],
                "ERROR": lambda: [b"Closing link"], "001": lambda: [me, b"Welcome"], "433": lambda: [b"*", b"in use"],
                "005": lambda: [me] + r.sample(TOKENS, r.randint(0, 4)) + [b"are supported"], "372": lambda: [me, b"- " + self.text()],
                "INVITE": lambda: [me, c()], "privmsg": lambda: [c(), self.text()]}
        params = made[command]()
        if self.often(0.03) and params and command != "001":
            params.pop()
        return params

    def message(self, command=None, nick=None):
        command = command or self.random.choices(list(ROWS), list(ROWS.values()))[0]
        nick = self.nick() if nick is None else nick
        if command in ("001", "005", "332", "353", "366", "324", "433", "372", "ERROR"):
            return {"nick": b"s.example", "user": b"", "host": b"", "command": command.encode(), "params": self.params(command)}
        if not nick or b"@" in nick:
            return {"nick": b"", "user": b"", "host": b"", "command": command.encode(), "params": self.params(command)}
        user, host = (b"", b"") if self.often(0.03) else (b"u" + nick[:2].lower(), self.random.choice([b"h", b"example.org", b"::1"]))
        return {"nick": nick, "user": user, "host": host, "command": command.encode(), "params": self.params(command)}


def safe(m):
    """Whether a line can write the parameters: all but the last are words."""
    return all(param and b" " not in param and param[:1] != b":" for param in m["params"][:-1])


def written(m, colon):
    """The line of a message."""
    source = m["nick"] + (b"!" + m["user"] + b"@" + m["host"] if m["host"] else b"")
    parts = ([b":" + source] if source else []) + [m["command"]] + m["params"][:-1]
    if m["params"]:
        last = m["params"][-1]
        parts.append(b":" + last if colon or not last or b" " in last or last[:1] == b":" else last)
    return b" ".join(parts)


# ---- the table, and what is wanted of it

class Story:
    def __init__(self, full):
        self.full, self.table, self.wanted, self.scene = full, [], [], Scene()
        self.draw, self.heard = Draw(self.scene, SEED), 0

    def line(self, line, answer="\n"):
        self.table.append(line + "\n")
        self.wanted.append("> " + line + "\n" + answer)

    def stage(self, change):
        """Puts a change into the buffers."""
        kind, name = change[0], change[1]
        buffers = self.scene.buffers
        at = next((place for place, buffer in enumerate(buffers) if buffer[0] == name), None)
        if kind == "buffer":
            buffers.append((name, {}))
        elif at is None:
            return
        elif kind == "var":
            buffers[at][1][change[2]] = change[3]
        elif kind == "rename":
            buffers[at] = (change[2], buffers[at][1])
        elif kind == "gone":
            buffers.pop(at)
        self.line(" ".join([kind] + [word(part) for part in change[1:]]))

    def follow(self):
        """What acts made of the buffers, at random not of each."""
        for _, changes in list(self.scene.acts):
            if changes and self.draw.often(0.92):
                for change in changes:
                    self.stage(change)

    def hear(self, m):
        self.heard += 1
        line, scene = typed(written(m, self.draw.often(0.3))), self.scene
        scene.hear(m)
        whole, lists = scene.answer() + scene.now(), scene.lists()
        if self.full or self.heard % WHOLE == 0:
            self.line("hear " + line, whole)
            self.line("lists", lists)
        else:
            self.line("mark " + line, mark(whole + lists))
        if self.heard % WHOLE == 0:
            self.line("told", scene.told())
        self.follow()

    def begin(self, number):
        r, scene = self.draw.random, self.scene
        options = {"nicks": r.choice([b"me", b"me,al", b"@x,,me,bo", b"al,me,bo,eve,cy["]), "autojoin": r.choice([b"#a", b"#a,#b k1", b":x,#a ,k"]),
                   "password": r.choice([b"secret", b"two words"]), "username": r.choice([b"weechat", b"ada"]),
                   "realname": r.choice([b"weechat", b"Ada L"])}
        for name, value in options.items():
            self.line("set irc.server.net.%s %s" % (name, typed(value)))
        scene.server = Server(b"net", options)
        self.line("begin net", scene.now())
        scene.link()
        self.line("link", scene.answer() + "\n")
        for _ in range(number % 7):
            self.hear(self.draw.message("433"))
        for _ in range(number % 3):
            self.hear(self.draw.message("005"))
        self.hear(self.draw.message("001"))
        for name in r.sample(CHANNELS, 3):
            self.hear({**self.draw.message("JOIN", scene.server.nick), "params": [name]})

    def lose(self):
        self.scene.lose()
        self.line("lose", self.scene.answer() + "\n")

    def turn(self):
        m = self.draw.message()
        while not safe(m):
            m = self.draw.message()
        if m["command"] == b"005" and self.scene.server.channels and self.draw.often(0.5):
            m = self.draw.message("PRIVMSG", b"al")
        self.hear(m)
        if self.draw.often(0.02) and len(self.scene.buffers) > 3:
            self.stage(("gone", self.draw.random.choice(self.scene.buffers[3:])[0]))

    def tell(self):
        self.line("set irc.server.net.addresses 10.0.0.1/6667")
        self.line("set irc.server.net.tls off")
        self.table.insert(0, "# Random messages, which bench/irc_random.py draws.\n")
        self.line("buffer core.weechat")
        for change in (("buffer", b"irc.server.net"), ("var", b"irc.server.net", b"server", b"net"), ("buffer", b"irc.other.#a"),
                       ("var", b"irc.other.#a", b"server", b"other")):
            self.stage(change)
        link = 0
        while self.heard < MESSAGES:
            self.begin(link)
            for _ in range(min(self.draw.random.randint(150, 450), MESSAGES - self.heard)):
                self.turn()
            self.lose()
            link += 1


def main():
    words = argparse.ArgumentParser(description=__doc__, formatter_class=argparse.RawDescriptionHelpFormatter)
    words.add_argument("--check", action="store_true", help="compare the files with what the model makes")
    words.add_argument("--full", action="store_true", help="write what follows of each message in full")
    words.add_argument("--out", metavar="FILE", help="write FILE.table and FILE.stdout in place of the player's files")
    words = words.parse_args()
    story = Story(words.full)
    story.tell()
    table, wanted = "".join(story.table), "== %s\n" % NAME + "".join(story.wanted)
    place, whole = os.path.join(PLAY, "data", NAME), os.path.join(PLAY, "stdout")
    if words.out:
        place, whole, before = words.out + ".table", words.out + ".stdout", ""
    else:
        before = open(whole).read().partition("== %s\n" % NAME)[0]
    files = {place: table, whole: before + wanted}
    if words.check:
        sys.exit(any(open(name).read() != text for name, text in files.items()))
    for name, text in files.items():
        with open(name, "w") as file:
            file.write(text)


if __name__ == "__main__":
    main()
