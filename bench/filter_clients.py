#!/usr/bin/env python3
"""Checks what clients are told of filters, over real sockets.

Two clients log in and ask for all events. The first types two lines and a filter that hides one of them; the other has to
be told of that one's flag by one event, and by another one as the filter is disabled. It ends with 1 where it is told
anything else. The program has to have no other clients and no filters. Python 3, standard library only. Example:

    bench/filter_clients.py --password secret
"""
import argparse
import sys

from mirror import Client


class Watcher(Client):
    """A client that keeps each event with its path and its items."""

    def __init__(self, *words):
        self.events = []
        super().__init__(*words)

    def fold(self, message):
        self.events.append((message.id, message.path, message.items))
        super().fold(message)

    def told(self):
        """What was told since the last look, once all that was typed before is done."""
        self.settle()
        told, self.events = self.events, []
        return told


def wanted_flag(line, buffer, displayed):
    return [("_buffer_line_data_changed", "line_data", [([line], {"buffer": buffer, "displayed": displayed})])]


def typed(first, second, text):
    """What the second client is told of what the first one types."""
    first.send("input core.weechat " + text)
    first.settle()
    return second.told()


def check(first, second):
    """What is told otherwise than it has to be: what was typed, what was told, and what has to be."""
    [(_, _, [([line], values)])] = typed(first, second, "/print spam 1")
    shown = values["displayed"]
    typed(first, second, "/print ok")
    steps = (
        ("/filter add f * * spam", wanted_flag(line, values["buffer"], 0)),
        ("/filter disable f", wanted_flag(line, values["buffer"], 1)),
        ("/filter del f", []),
    )
    wrong = [] if shown == 1 else [("/print spam 1", shown, 1)]
    for text, wanted in steps:
        found = typed(first, second, text)
        wrong += [] if found == wanted else [(text, found, wanted)]
    return wrong + ([] if second.copy() == second.dumps() else [("dumps", "the copy", "equal to it")])


def main():
    words = argparse.ArgumentParser(description=__doc__, formatter_class=argparse.RawDescriptionHelpFormatter)
    words.add_argument("--port", type=int, default=9000)
    words.add_argument("--password", required=True)
    words.add_argument("--limit", type=int, default=4096, help="lines that a buffer holds, as the program has it")
    words = words.parse_args()
    clients = [Watcher.plain(words.port, words.password, words.limit) for _ in range(2)]
    wrong = check(*clients)
    for text, found, wanted in wrong:
        print("%s: told %s instead of %s" % (text, found, wanted))
    if wrong:
        sys.exit(1)
    print("the second client was told of one flag as the filter came, and of one as it was disabled")


if __name__ == "__main__":
    main()
