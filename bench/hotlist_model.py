#!/usr/bin/env python3
"""Checks the hotlist of the program with scripts that are typed at random, from fixed seeds, over a link of the relay.

Each run starts the program with a folder of its own, adds buffers, and types lines of all levels into them, takes rows
out, closes buffers and adds others, and types what is refused, which is told by a line of the core buffer. What has to
be in the hotlist is counted here, from what was typed; after every 20 inputs it is compared with the answer of the
program: handles, priorities and counts, in their order. It ends with 1 where they differ. Linux and Python 3, standard
library only. Example:

    bench/hotlist_model.py OUT/wc_headless
"""
import argparse
import os
import random
import shutil
import sys
import tempfile

from browser import Program
from completion_tables import Hotlist

BATCH = 20
TAGS = (
    ("-tags notify_none ", -1), ("", 0), ("-tags other ", 0), ("-tags notify_message ", 1), ("-tags x,notify_message,y ", 1),
    ("-tags notify_private ", 2), ("-tags notify_highlight ", 3),
)
# What is typed, and how often: `print` by far the most.
KINDS = ("print",) * 40 + ("close", "add", "remove", "remove", "set", "set", "other value", "quiet", "refused", "cleared lines")
REFUSED = ("/hotlist", "/hotlist add", "/hotlist clear now", "/buffer set hotlist", "/hotlistt", "/print")


class Script:
    """What is typed into the buffers of a program, and the hotlist that it has to leave."""

    def __init__(self, seed, client, buffers):
        self.dice, self.client, self.hotlist = random.Random(seed), client, Hotlist()
        self.made, self.most = 0, buffers
        for _ in range(buffers):
            self.add()
        client.settle()

    def handles(self):
        return {buffer["full_name"]: buffer["handle"] for group in self.client.groups for buffer in group}

    def type(self, name, text):
        self.client.send("input %s %s" % (name, text))

    def add(self):
        self.made += 1
        self.type("core.weechat", "/buffer add b%d" % self.made)

    def type_one(self, kind):
        handles = self.handles()
        name = self.dice.choice(sorted(handles))
        if kind == "print":
            self.print(name, handles)
        elif kind == "close" and name != "core.weechat":
            self.type(name, "/buffer close")
            self.hotlist.remove(handles[name])
            self.client.settle()
        elif kind == "add" and len(handles) <= self.most:
            self.add()
            self.client.settle()
        elif kind in ("remove", "set"):
            self.type(name, "/hotlist remove" if kind == "remove" else "/buffer set hotlist -1")
            self.hotlist.remove(handles[name])
        elif kind == "refused":
            self.type(name, self.dice.choice(REFUSED))
            self.hotlist.line(handles["core.weechat"], 0)
        else:
            self.type(name, {"other value": "/buffer set hotlist 0", "cleared lines": "/buffer clear"}.get(
                kind, "/input set_unread_current_buffer"))

    def print(self, name, handles):
        tags, level = self.dice.choice(TAGS)
        other = self.dice.choice(sorted(handles))
        if self.dice.random() < 0.5:
            self.type(name, "/print %stext" % tags)
            other = name
        else:
            self.type(name, "/print -buffer %s %stext" % (other, tags))
        self.hotlist.line(handles[other], level)

    def clear(self):
        self.type("core.weechat", self.dice.choice(("/hotlist clear", "/input hotlist_clear")))
        self.hotlist.clear()

    def answer(self):
        """The rows that the program tells of: of each the buffer, the priority and the counts."""
        self.client.send("(h) hdata hotlist:gui_hotlist(*)")
        items = self.client.until("h").items
        if any(pointers != [values["buffer"]] for pointers, values in items):
            return None
        return [(values["buffer"], values["priority"], values["count"]) for _, values in items]

    def batch(self):
        """Types some lines, and gives what the hotlist is and what it has to be."""
        if self.dice.random() < 0.1:
            self.clear()
        for _ in range(BATCH):
            self.type_one(self.dice.choice(KINDS))
        return self.answer(), [(buffer, priority, count) for buffer, priority, count in self.hotlist.rows()]


def run(program, seed, buffers, batches):
    """Whether the program agrees after each batch, and the most rows that there were."""
    most, script = 0, Script(seed, program.client(), buffers)
    for number in range(batches):
        found, wanted = script.batch()
        most = max(most, len(wanted))
        if found != wanted:
            print("run %d, batch %d: the program has %s instead of %s" % (seed, number, found, wanted))
            return False, most
    return True, most


def main():
    words = argparse.ArgumentParser(description=__doc__, formatter_class=argparse.RawDescriptionHelpFormatter)
    words.add_argument("program", help="the program")
    words.add_argument("--runs", type=int, default=30)
    words.add_argument("--batches", type=int, default=50, help="how often a run is compared")
    words = words.parse_args()
    good = True
    for seed in range(1, words.runs + 1):
        # Each fifth run has as many buffers as there may be.
        buffers = 255 if seed % 5 == 0 else 1 + seed % 12
        folder = tempfile.mkdtemp()
        program = Program(os.path.abspath(words.program), folder)
        try:
            agrees, most = run(program, seed, buffers, words.batches)
        finally:
            program.stop()
            shutil.rmtree(folder, ignore_errors=True)
        print("run %2d, %3d buffers, %3d rows at most: %s" % (seed, buffers, most, "ok" if agrees else "FAILED"), flush=True)
        good = good and agrees
    sys.exit(0 if good else 1)


if __name__ == "__main__":
    main()
