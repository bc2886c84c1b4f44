#!/usr/bin/env python3
"""Says what the tables of crates/wc_complete_play have to print, by a model of completion and of the hotlist.

The model keeps what the rules speak of, and no more: each line that the hotlist was told of, and names in sets. Nothing
is taken from what the program prints. With --random it writes a table of random nicks, commands and texts instead.
Linux and Python 3, standard library only. From the top of the repository:

    bench/completion_tables.py --random 20 > crates/wc_complete_play/data/random.table
    bench/completion_tables.py > crates/wc_complete_play/stdout
"""
import argparse
import os
import random
import re

FOLDER = os.path.join(os.path.dirname(os.path.abspath(__file__)), "..", "crates", "wc_complete_play")
ESCAPES = {"n": "\n", "r": "\r", "s": " ", "0": "\0", "\\": "\\", ".": ""}
SHOWN, MOST_ROWS = 6, 256
# Of these random names and texts are made.
SIGNS = ("a", "A", "b", "B", "c", "z", "0", "_", "[", "]", "{", "\\", "~", "|", "^", "`", "-", "é", "É", "€", "😀")


def meant(word):
    """The bytes that a word of a table writes."""
    def one(match):
        return bytes.fromhex(match[1]).decode("latin-1") if match[1] else ESCAPES[match[2]]
    text = word.encode().decode("latin-1")
    return re.sub(r"\\(?:x([0-9a-f]{2})|(.))", one, text).encode("latin-1")


def quoted(text):
    names = {"\n": "\\n", "\r": "\\r", "\0": "\\0", "\\": "\\\\"}
    def shown(sign):
        return names.get(sign) or (sign if " " <= sign <= "~" else "\\x%02x" % ord(sign))
    return "<%s>" % "".join(map(shown, text.decode("latin-1")))


def characters(text):
    """The bytes of each character; bytes that continue none are with the one before them."""
    return re.findall(rb"[\x80-\xbf]+|[^\x80-\xbf][\x80-\xbf]*", text, re.DOTALL)


def lower(text):
    """Python folds ASCII letters of bytes alone."""
    return text.lower()


class Names:
    """The commands, and the nicks of each buffer by its handle."""

    def __init__(self):
        self.commands, self.nicks, self.next = [], {1: set()}, 5

    def add(self, call, rest):
        buffer, _, name = rest.split(" ", 2)
        name = meant(name)
        if call.endswith("group"):
            return "done"
        if name in self.nicks[int(buffer)]:
            return "refused"
        self.nicks[int(buffer)].add(name)
        return "done"

    def complete(self, rest):
        buffer, position, text = rest.split(" ", 2)
        buffer, position, text = int(buffer), int(position), meant(text)
        if buffer not in self.nicks or position < -1:
            return "none"
        front = characters(text)
        # What continues a character at the begin of the text is of none.
        lost = front.pop(0) if front and 0x80 <= front[0][0] <= 0xBF else b""
        front = front if position == -1 else front[:position]
        start = max([place + 1 for place, sign in enumerate(front) if sign == b" "], default=0)
        word = (b"" if start else lost) + b"".join(front[start:])
        is_command = start == 0 and word.startswith(b"/")
        candidates = {b"/" + name for name in self.commands} if is_command else self.nicks[buffer]
        found = sorted((it for it in candidates if lower(it).startswith(lower(word))), key=lambda it: (lower(it), it))
        context = "command" if is_command else "auto"
        return "%s %s %d %d:%s" % (context, quoted(word), start, len(front), "".join(" " + quoted(it) for it in found))


class Hotlist:
    """The lines that count, as buffers and levels in the order of printing."""

    def __init__(self):
        self.clear()

    def clear(self):
        self.lines, self.buffers = [], set()

    def remove(self, buffer):
        self.lines = [line for line in self.lines if line[0] != buffer]
        self.buffers.discard(buffer)

    def line(self, buffer, level, shown=True):
        if shown and 0 <= level <= 3 and (buffer in self.buffers or len(self.buffers) < MOST_ROWS):
            self.lines.append((buffer, level))
            self.buffers.add(buffer)

    def rows(self):
        """Buffers with priorities and counts: the greatest priority first, and of one the earliest first line of it."""
        counts, firsts = {}, {}
        for place, (buffer, level) in enumerate(self.lines):
            counts.setdefault(buffer, [0] * 4)[level] += 1
            firsts.setdefault((buffer, level), place)
        rows = [(buffer, max(level for level in range(4) if count[level]), count) for buffer, count in counts.items()]
        return sorted(rows, key=lambda row: (-row[1], firsts[row[:2]]))


def count(hotlist, call, words):
    if call == "line":
        hotlist.line(int(words[0]), int(words[1]), words[2] == "shown")
    elif call == "many":
        for _ in range(int(words[0])):
            hotlist.line(int(words[1]), int(words[2]))
    elif call == "each":
        for buffer in range(int(words[0]), int(words[1]) + 1):
            hotlist.line(buffer, int(words[2]))
    elif call == "remove":
        hotlist.remove(int(words[0]))
    elif call == "clear":
        hotlist.clear()


def counted(hotlist, call, words):
    """The answer to a call of the hotlist."""
    count(hotlist, call, words)
    rows = [" %d:%d(%s)" % (*row, ",".join(map(str, counts))) for *row, counts in hotlist.rows()]
    if call == "place":
        return rows[int(words[0])] if int(words[0]) < len(rows) else "none"
    return "%d:%s" % (len(rows), "".join(rows[:SHOWN]))


def answers(lines):
    names, hotlist = Names(), Hotlist()
    for line in lines:
        if not line or line.startswith("#"):
            continue
        print("> " + line)
        call, _, rest = line.partition(" ")
        if call == "commands":
            names.commands = [meant(word) for word in rest.split()]
            print()
        elif call == "buffer":
            names.nicks[names.next] = set()
            print("done")
        elif call in ("group", "hidden_group", "nick", "hidden_nick"):
            print(names.add(call, rest))
        elif call == "complete":
            print(names.complete(rest))
        else:
            print(counted(hotlist, call, rest.split()))


def written(text):
    """How a table writes a text."""
    return text.replace("\\", "\\\\").replace(" ", "\\s") or "\\."


def random_name(chance):
    return "".join(chance.choices(SIGNS[:6] + tuple(chance.sample(SIGNS, 3)), k=chance.randint(1, 4)))


def random_table(seed):
    """Some names, then texts that end in what names begin with, and positions in and about them."""
    chance = random.Random(seed)
    print("# Of `bench/completion_tables.py --random %d`." % seed)
    print("commands " + " ".join(written(random_name(chance)) for _ in range(40)))
    for name in sorted({random_name(chance) for _ in range(120)}):
        print("%s 1 root %s" % (chance.choice(("nick", "nick", "hidden_nick")), written(name)))
    for _ in range(200):
        begin = chance.choice(("", "", " ", "é ", "a ", "/", "/", "/a ", "//", "  "))
        text = begin + random_name(chance)[:chance.randint(0, 2)] + chance.choice(("", "", "b", " ", " a"))
        position = chance.choice((-1, -1, -1, chance.randint(-2, len(text) + 1)))
        print("complete 1 %d %s" % (position, written(text)))


def main():
    words = argparse.ArgumentParser(description=__doc__, formatter_class=argparse.RawDescriptionHelpFormatter)
    words.add_argument("--random", type=int, metavar="SEED", help="write a random table")
    words = words.parse_args()
    if words.random is not None:
        return random_table(words.random)
    with open(os.path.join(FOLDER, "args")) as file:
        tables = file.read().split()
    for table in tables:
        print("== " + table)
        with open(os.path.join(FOLDER, "data", table), encoding="utf-8") as file:
            answers(file.read().split("\n"))


if __name__ == "__main__":
    main()
