#!/usr/bin/env python3
"""What a server may cost at most, as a table for wc_irc_play: so many channels, and a MODE of so many letters.

What the player has to print is what the model of irc_model.py makes.

    bench/irc_limits.py             writes limits.table, and its part of stdout
    bench/irc_limits.py --check     ends with 1 where these are others than the model makes
"""
import os
import sys

from irc_model import MOST_CHANNELS, Scene, Server, mark, word

PLAY = os.path.join(os.path.dirname(os.path.abspath(__file__)), "..", "crates", "wc_irc_play")
NAME, NEXT = "limits.table", "random.table"
OPTIONS = {"nicks": b"me", "autojoin": b"", "password": b"", "username": b"weechat", "realname": b"weechat"}


def message(line):
    """The parts of a line of a server: its words, and behind ` :` the last one."""
    head, colon, last = line.partition(" :")
    source, command, *params = head.split(" ")
    nick, _, address = source[1:].partition("!")
    user, _, host = address.partition("@")
    texts = [nick, user, host, command] + params + [last] * bool(colon)
    nick, user, host, command, *params = [text.encode() for text in texts]
    return {"nick": nick, "user": user, "host": host, "command": command, "params": params}


class Story:
    def __init__(self):
        self.table, self.wanted, self.scene = [], [], Scene()

    def note(self, text):
        self.table.append("# " + text + "\n")

    def line(self, line, answer="\n"):
        self.table.append(line + "\n")
        self.wanted.append("> " + line + "\n" + answer)

    def heard(self, line):
        self.scene.hear(message(line))
        return self.scene.answer() + self.scene.now()

    def hear(self, *lines):
        for line in lines:
            self.line("hear " + line, self.heard(line))

    def mark(self, line):
        whole = self.heard(line)
        self.line("mark " + line, mark(whole + self.scene.lists()))

    def each(self, count, line):
        whole = "".join(self.heard(line + str(number)) for number in range(count))
        self.line("each %d hear %s" % (count, line), mark(whole))

    def buffer(self, name):
        self.scene.buffers.append((name.encode(), {}))
        self.line("buffer " + word(name.encode()))

    def begin(self):
        for name, value in (("addresses", "10.0.0.1/6667"), ("tls", "off"), ("nicks", "me")):
            self.line("set irc.server.net.%s %s" % (name, value))
        self.scene.server = Server(b"net", OPTIONS)
        self.line("begin net", self.scene.now())
        self.hear(":s 001 me :Welcome")

    def channels(self):
        self.note("So many channels are joined, and the own JOIN of one more is a line, as its names are.")
        self.each(MOST_CHANNELS - 1, ":me!u@h JOIN #c")
        self.hear(":me!u@h JOIN #last", ":me!u@h JOIN #more", ":s 353 me = #more :me @al", ":al!x@y JOIN #more")
        self.note("One that is joined is the same as before.")
        self.hear(":me!u@h JOIN #LAST", ":s 353 me = #last :@me al", ":al!x@y PART #last")
        self.note("When one is left there is room for another one.")
        self.hear(":me!u@h PART #c7")
        self.mark(":me!u@h JOIN #more")
        self.hear(":me!u@h JOIN #c7")

    def modes(self):
        self.note("A MODE has as many letters as a line holds, over lists of as many modes.")
        count = 2000
        filled = "x" * count
        self.hear(":s 005 me PREFIX=(ohv)@%%+ CHANMODES=b%s,k%s,l%s,%s :are supported" % (filled, filled, filled, filled))
        self.buffer("irc.net.#a")
        self.hear(":me!u@h JOIN #a", ":al!x@y JOIN #a")
        self.hear(":s MODE #a +%so me al" % ("n" * count), ":s MODE #a +l-l%s+v 1 al" % ("n" * count), ":s MODE #a +xh-x 1 al 2")
        self.line("lists", self.scene.lists())

    def tell(self):
        self.begin()
        self.channels()
        self.begin()
        self.modes()


def main():
    story = Story()
    story.tell()
    place, whole = os.path.join(PLAY, "data", NAME), os.path.join(PLAY, "stdout")
    before, _, after = open(whole).read().partition("== %s\n" % NEXT)
    before = before.partition("== %s\n" % NAME)[0]
    wanted = before + "== %s\n" % NAME + "".join(story.wanted) + "== %s\n" % NEXT + after
    files = {place: "".join(story.table), whole: wanted}
    if sys.argv[1:] == ["--check"]:
        sys.exit(any(open(name).read() != text for name, text in files.items()))
    for name, text in files.items():
        with open(name, "w") as file:
            file.write(text)


if __name__ == "__main__":
    main()
