"""A model of one IRC server in flat lists, for bench/irc_random.py.

It follows the rules of docs/DECISIONS.md and the table of messages, over other forms than the crates have. Names, lists of
nicks and buffers are plain lists that are gone through; what follows of a message is a list of acts, as the player
wc_irc_play shows them.
"""

FORMATS = (0x02, 0x04, 0x0F, 0x11, 0x16, 0x19, 0x1A, 0x1B, 0x1C, 0x1D, 0x1F)
DIGITS = b"0123456789"
MOST_CHANNELS = 1024


# ---- texts

def escaped(text):
    """A text as tables show it."""
    named = {10: "\\n", 13: "\\r", 0: "\\0", 92: "\\\\"}
    return "".join(named.get(b) or (chr(b) if 32 <= b <= 126 else "\\x%02x" % b) for b in text)


def shown(text):
    return "<" + escaped(text) + ">"


def typed(text):
    """A text as a line of a table writes it."""
    for byte, name in ((b"\\", b"\\\\"), (b"\n", b"\\n"), (b"\r", b"\\r"), (b"\0", b"\\0")):
        text = text.replace(byte, name)
    return "".join(c if ord(c) >= 32 else "\\x%02x" % ord(c) for c in text.decode())


def word(text):
    return typed(text).replace(" ", "\\s") or "\\."


def plain(text):
    """Without formatting bytes."""
    out, i = bytearray(), 0
    while i < len(text):
        byte, i = text[i], i + 1
        if byte == 0x03:
            for colour in (0, 1):
                start = i + colour
                if colour and not (text[i:i + 1] == b"," and text[start:start + 1].isdigit()):
                    break
                end = start
                while end < len(text) and end - start < 2 and text[end] in DIGITS:
                    end += 1
                if end == start:
                    break
                i = end
        elif byte not in FORMATS:
            out.append(byte)
    return bytes(out)


def chars(text):
    """The characters of a text, each as its bytes."""
    return [c.encode() for c in text.decode()]


def folded(case_map, text):
    pairs = {"ascii": (b"", b""), "strict-rfc1459": (b"[]\\", b"{}|"), "rfc1459": (b"[]\\~", b"{}|^")}[case_map]
    return text.lower().translate(bytes.maketrans(*pairs))


def calls(nick, text):
    """Whether a text has the nick with no byte of a word beside it."""
    nick, text = nick.lower(), text.lower()
    inside = lambda at: 0 <= at < len(text) and (text[at:at + 1].isalnum() or text[at] in b"_-")
    return any(text[at:].startswith(nick) and not inside(at - 1) and not inside(at + len(nick)) for at in range(len(text)))


def bare(text, others):
    return not any(byte <= 32 or byte == 127 or byte in others for byte in text)


# ---- a server, as lists

class Server:
    def __init__(self, name, options):
        self.name, self.options = name, options
        valid = [nick for nick in options["nicks"].split(b",") if self.new_nick(nick)]
        self.left = valid[1:] or []
        self.nick = valid[0] if valid else b"weechat"
        self.taken, self.registered, self.channels = 0, False, []

    modes, signs, types, case_map, lists = b"ov", [b"@", b"+"], [b"#", b"&"], "rfc1459", [b"beI", b"k", b"l", b""]
    status = None

    def new_nick(self, nick):
        return self.is_nick(nick) and len(nick) <= 60

    def is_nick(self, text):
        return 0 < len(text) <= 64 and bare(text, b"!@") and not any(text.startswith(sign) for sign in self.signs + [b":"])

    def is_channel(self, text):
        begins = any(text.startswith(kind) for kind in self.types) and not text.startswith(b":")
        return begins and len(text) <= 200 and bare(text, b",")

    def aimed(self, target):
        """The sign before a channel, and the channel, or else no sign and the target."""
        signs = b"".join(self.signs) if self.status is None else self.status
        if not self.is_channel(target) and target[:1] and target[:1] in signs and self.is_channel(target[1:]):
            return target[:1], target[1:]
        return b"", target

    def same(self, a, b):
        return folded(self.case_map, a) == folded(self.case_map, b)

    def own(self, nick):
        return self.same(nick, self.nick)

    def channel(self, name):
        return next((channel for channel in self.channels if self.same(channel["name"], name)), None)

    def is_beyond(self, name):
        """Whether a channel is one too many: it is not joined, and so many others are."""
        return len(self.channels) >= MOST_CHANNELS and self.channel(name) is None

    def seat(self, channel, nick):
        return channel and next((seat for seat in channel["seats"] if self.same(seat[0], nick)), None)

    def highest(self, modes):
        return min(modes) if modes else None

    def sign(self, modes):
        return b" " if not modes else self.signs[min(modes)]

    def group(self, modes):
        place = self.highest(modes)
        return b"999|..." if place is None else b"%03d|%c" % (place, self.modes[place])

    def takes(self, adds, letter):
        """Whether a mode takes a parameter."""
        return letter in self.modes + self.lists[0] + self.lists[1] or (adds and letter in self.lists[2])

    def tell(self, token):
        """One token of a 005."""
        name, is_there, value = token.partition(b"=")
        if not is_there:
            return
        if name == b"PREFIX":
            modes, closed, signs = value[1:].partition(b")")
            signs = chars(signs)
            whole = value[:1] == b"(" and closed and modes and modes.isalpha() and modes.isascii()
            if whole and len(modes) == len(signs) and len(set(modes)) == len(modes) and len(set(signs)) == len(signs):
                self.modes, self.signs = modes, signs
        elif name == b"CHANTYPES":
            self.types = chars(value)
        elif name == b"CASEMAPPING" and value in (b"ascii", b"rfc1459", b"strict-rfc1459"):
            self.case_map = value.decode()
        elif name == b"CHANMODES" and value.count(b",") == 3:
            self.lists = value.split(b",")
        elif name == b"STATUSMSG":
            self.status = value

    def kind(self, message):
        """The row of a message, by its command and what it has."""
        need = {"001": 1, "005": 0, "JOIN": 1, "PART": 1, "QUIT": 0, "KICK": 2, "NICK": 1, "MODE": 2, "TOPIC": 2, "332": 3, "353": 4,
                "366": 2, "324": 3, "PRIVMSG": 2, "NOTICE": 2, "PING": 1, "433": 0, "ERROR": 1}
        at = {"JOIN": 0, "PART": 0, "KICK": 0, "MODE": 0, "TOPIC": 0, "332": 1, "366": 1, "324": 1}
        command, params = message["command"].decode(), message["params"]
        if command not in need or len(params) < need[command] or (command == "433" and self.registered):
            return "other"
        if command in at and not self.is_channel(params[at[command]]):
            return "other"
        if command == "JOIN" and self.own(message["nick"]) and self.is_beyond(params[0]):
            return "other"
        if command == "353" and self.is_beyond(params[2]):
            return "other"
        return command


# ---- what follows of messages: acts as the player shows them, and what they make of the stage

class Scene:
    """The buffers, as (full name, variables) in order, the server, and the acts of one call."""

    def __init__(self):
        self.buffers, self.server, self.acts = [(b"core.weechat", {})], None, []

    def full(self, name):
        return b"irc." + self.server.name + b"." + name

    def home(self):
        return b"irc.server." + self.server.name

    def found(self, name):
        """The full name of a channel's or a nick's buffer."""
        names, full = [buffer[0] for buffer in self.buffers], self.full(name)
        if full in names:
            return full
        return next((other for other in names if self.server.same(full, other)), None)

    def act(self, text, *texts):
        self.acts.append((text + "".join(" " + shown(part) for part in texts), None))

    def change(self, text, *then):
        """An act, and the lines that put it into the stage."""
        self.acts.append((text, then))

    def line(self, buffer, tags, prefix, text, called=False):
        notify = next((n for tag, n in ((b"notify_none", -1), (b"notify_message", 1), (b"notify_private", 2)) if tag in tags), 0)
        shown_tags = "".join(" " + shown(tag) for tag in tags)
        end = " notify 3 highlight" if called else " notify %d" % notify
        self.act("on %s prints %s %s tags %d%s%s" % (shown(buffer), shown(plain(prefix)), shown(plain(text)), len(tags), shown_tags, end))

    def set_var(self, buffer, name, value):
        self.change("on %s has %s %s" % (shown(buffer), shown(name), shown(value)), ("var", buffer, name, value))

    def add_nick(self, buffer, nick, modes):
        s = self.server
        self.act("on %s gets a nick %s %s sign %s" % (shown(buffer), shown(s.group(modes)), shown(nick), shown(s.sign(modes))))

    def remove_nick(self, buffer, nick):
        self.act("on %s loses a nick %s" % (shown(buffer), shown(nick)))

    def open(self, kind, name):
        full, pairs = self.full(name), ((b"type", kind), (b"server", self.server.name), (b"channel", name), (b"nick", self.server.nick))
        text = "opens %s %s title <>" % (shown(full), shown(name)) + "".join(" has %s %s" % (shown(n), shown(v)) for n, v in pairs)
        self.change(text, ("buffer", full), *[("var", full, n, v) for n, v in pairs])
        return full

    def sent(self, command, text):
        text = bytes(b for b in text if b not in (0, 10, 13))
        colon = b":" if not text or b" " in text or text[:1] == b":" else b""
        self.act("sends", command + b" " + colon + text)

    def other(self, m):
        self.line(self.home(), [b"irc_" + m["command"].lower()], b"--", b" ".join(m["params"][1:]))

    # -- each row

    def hear(self, m):
        self.acts, kind = [], self.server.kind(m)
        rows = {"001": self.welcome, "005": self.tokens, "433": self.in_use, "JOIN": self.join, "PART": self.part, "QUIT": self.quit,
                "KICK": self.kick, "NICK": self.rename, "MODE": self.mode, "TOPIC": self.topic, "332": self.topic_reply,
                "353": self.names, "366": self.names_end, "324": self.mode_reply, "PRIVMSG": self.privmsg, "NOTICE": self.notice,
                "PING": self.ping, "ERROR": self.error, "other": self.other}
        rows[kind](m)
        return self.acts

    def welcome(self, m):
        s, first = self.server, not self.server.registered
        if first:
            s.registered = True
            s.nick = m["params"][0] if s.is_nick(m["params"][0]) else s.nick
            for full, held in self.buffers:
                if held.get(b"server") == s.name and held.get(b"nick") != s.nick:
                    self.set_var(full, b"nick", s.nick)
        self.line(self.home(), [b"irc_001"], b"--", m["params"][-1])
        if first:
            self.act("raises", b"irc_server_connected", s.name)
            names, _, keys = s.options["autojoin"].strip().partition(b" ")
            keys = keys.split(b" ")[0].split(b",") + [b""] * 20
            for name, key in zip(names.split(b","), keys):
                if name and not name.startswith(b":"):
                    self.act("sends", b"JOIN " + name + (b" " + key if key else b""))

    def tokens(self, m):
        if not self.server.channels:
            for token in m["params"][1:-1]:
                self.server.tell(token)
        self.other(m)

    def in_use(self, m):
        s = self.server
        if s.taken >= 4:
            return self.act("leaves: NickTaken")
        s.nick = s.left.pop(0) if s.left else s.nick + b"_"
        s.taken += 1
        self.sent(b"NICK", s.nick)

    def who(self, m):
        return m["nick"] + b" (" + m["user"] + b"@" + m["host"] + b")"

    def tags(self, tag, m, host):
        return [tag, b"nick_" + m["nick"]] + ([b"host_" + m["user"] + b"@" + m["host"]] if host else [])

    def reason(self, m, place):
        reason = m["params"][place] if len(m["params"]) > place else b""
        return b" (" + reason + b")" if reason else b""

    def join(self, m):
        s, name, own = self.server, m["params"][0], self.server.own(m["nick"])
        channel, buffer = s.channel(name), self.found(name)
        comes = s.is_nick(m["nick"]) and not s.seat(channel, m["nick"]) and (channel is not None or own)
        if own and buffer is None:
            buffer = self.open(b"channel", name)
        if own:
            for place, letter in enumerate(s.modes):
                self.act("on %s gets a group <root> <%03d|%c> sign <>" % (shown(buffer), place, letter))
            self.act("on %s gets a group <root> <999|...> sign <>" % shown(buffer))
            if channel is None:
                channel = {"name": name, "seats": []}
                s.channels.append(channel)
        if comes:
            channel["seats"].append([m["nick"], frozenset()])
        if buffer is not None:
            if comes:
                self.add_nick(buffer, m["nick"], ())
            self.line(buffer, self.tags(b"irc_join", m, True), b"-->", self.who(m) + b" has joined " + name)

    def leave(self, name, nick, buffer):
        s, channel = self.server, self.server.channel(name)
        gone = [] if channel is None else channel["seats"] if s.own(nick) else [seat for seat in channel["seats"] if s.same(seat[0], nick)]
        for seat in gone if buffer is not None else []:
            self.remove_nick(buffer, seat[0])
        if channel is not None and s.own(nick):
            s.channels = [other for other in s.channels if other is not channel]
        elif channel is not None:
            channel["seats"] = [seat for seat in channel["seats"] if seat not in gone]

    def part(self, m):
        buffer = self.found(m["params"][0])
        self.leave(m["params"][0], m["nick"], buffer)
        if buffer is not None:
            text = self.who(m) + b" has left " + m["params"][0] + self.reason(m, 1)
            self.line(buffer, self.tags(b"irc_part", m, True), b"<--", text)

    def kick(self, m):
        buffer = self.found(m["params"][0])
        self.leave(m["params"][0], m["params"][1], buffer)
        if buffer is not None:
            text = m["nick"] + b" has kicked " + m["params"][1] + self.reason(m, 2)
            self.line(buffer, self.tags(b"irc_kick", m, False), b"<--", text)

    def quit(self, m):
        for channel in self.server.channels:
            seat, buffer = self.server.seat(channel, m["nick"]), self.found(channel["name"])
            if seat and buffer is not None:
                self.remove_nick(buffer, seat[0])
                self.line(buffer, self.tags(b"irc_quit", m, True), b"<--", self.who(m) + b" has quit" + self.reason(m, 0))
            channel["seats"] = [other for other in channel["seats"] if other is not seat]

    def rename(self, m):
        s, old, new = self.server, m["nick"], m["params"][0]
        for channel in s.channels:
            self.rename_in(m, channel, s.seat(channel, old), self.found(channel["name"]))
        before, full = self.found(old), self.full(new)
        is_private = before is not None and dict(self.buffers)[before].get(b"type") == b"private"
        if not is_private or (full != before and full in dict(self.buffers)):
            before = None
        if before is not None:
            self.change("on %s is called %s" % (shown(before), shown(full)), ("rename", before, full))
            self.act("on %s is short %s" % (shown(full), shown(new)))
            self.set_var(full, b"channel", new)
        if s.own(old) and s.is_nick(new):
            for name, held in self.buffers:
                if held.get(b"server") == s.name:
                    self.set_var(full if name == before else name, b"nick", new)
            s.nick = new

    def rename_in(self, m, channel, seat, buffer):
        """A nick of one channel gets its other name, or goes where it may not have that."""
        if not seat:
            return
        s, new = self.server, m["params"][0]
        other = s.seat(channel, new)
        may = s.is_nick(new) and (not other or other is seat)
        if buffer is not None:
            self.remove_nick(buffer, seat[0])
            if may:
                self.add_nick(buffer, new, seat[1])
            self.line(buffer, self.tags(b"irc_nick", m, False), b"--", m["nick"] + b" is now known as " + new)
        if may:
            seat[0] = new
        else:
            channel["seats"].remove(seat)

    def give(self, buffer, seat, modes):
        """Other modes of a nick, which moves where its highest one is another."""
        if buffer is not None and self.server.highest(seat[1]) != self.server.highest(modes):
            self.remove_nick(buffer, seat[0])
            self.add_nick(buffer, seat[0], modes)
        seat[1] = modes

    def mode(self, m):
        s, name, buffer, params, adds = self.server, m["params"][0], self.found(m["params"][0]), list(m["params"][2:]), True
        for letter in m["params"][1]:
            if letter in b"+-":
                adds = letter == 43
            elif s.takes(adds, letter) and params:
                nick, place = params.pop(0), s.modes.find(letter)
                seat = s.seat(s.channel(name), nick)
                if place >= 0 and seat:
                    self.give(buffer, seat, seat[1] | {place} if adds else seat[1] - {place})
        if buffer is not None:
            text = b"Mode " + name + b" [" + b" ".join(m["params"][1:]) + b"] by " + m["nick"]
            self.line(buffer, self.tags(b"irc_mode", m, False), b"--", text)

    def names(self, m):
        s, buffer, channel = self.server, self.found(m["params"][2]), self.server.channel(m["params"][2])
        for listed in m["params"][3].split(b" ") if channel else []:
            modes = set()
            while any(listed.startswith(sign) for sign in s.signs):
                sign = next(sign for sign in s.signs if listed.startswith(sign))
                modes.add(s.signs.index(sign))
                listed = listed[len(sign):]
            seat, modes = s.seat(channel, listed), frozenset(modes)
            if not s.is_nick(listed):
                continue
            if seat:
                self.give(buffer, seat, modes)
                continue
            channel["seats"].append([listed, modes])
            if buffer is not None:
                self.add_nick(buffer, listed, modes)

    def title(self, buffer, tags, topic, text):
        if buffer is not None:
            self.act("on %s title %s" % (shown(buffer), shown(plain(topic))))
            self.line(buffer, tags, b"--", text)

    def topic(self, m):
        text = m["nick"] + b" has changed topic for " + m["params"][0] + b' to "' + m["params"][1] + b'"'
        self.title(self.found(m["params"][0]), self.tags(b"irc_topic", m, False), m["params"][1], text)

    def topic_reply(self, m):
        text = b"Topic for " + m["params"][1] + b' is "' + m["params"][2] + b'"'
        self.title(self.found(m["params"][1]), [b"irc_332"], m["params"][2], text)

    def on_channel(self, name, tag, text):
        buffer = self.found(name)
        if buffer is not None:
            self.line(buffer, [tag], b"--", text)

    def names_end(self, m):
        name = m["params"][1]
        channel = self.server.channel(name)
        self.on_channel(name, b"irc_366", b"Channel " + name + b": %d nicks" % (len(channel["seats"]) if channel else 0))

    def mode_reply(self, m):
        name = m["params"][1]
        self.on_channel(name, b"irc_324", b"Mode " + name + b" [" + b" ".join(m["params"][2:]) + b"]")

    def privmsg(self, m):
        s, target, text, does = self.server, m["params"][0], m["params"][1], False
        asked = text[1:].partition(b"\1") if text[:1] == b"\1" else (b"", b"", b"")
        request, after = asked[0].partition(b" ")[::2]
        if asked[1] and request and request != b"ACTION":
            return self.line(self.home(), [b"irc_ctcp"], b"--", b"CTCP " + request + b" from " + m["nick"])
        if asked[1] and request:
            does, text = True, after
        status, whole = s.aimed(target)
        size = 7 + sum(len(part) for part in (m["nick"], m["user"], m["host"], m["command"], target, text))
        if not asked[1] and size >= 400 and text.startswith(b"\1ACTION "):
            does, text = True, text[8:]
        on_channel = s.is_channel(whole)
        buffer = self.found(whole if on_channel else m["nick"])
        if buffer is None and on_channel:
            return
        if buffer is None:
            buffer = self.open(b"private", m["nick"])
        tags = [b"irc_privmsg"] + [b"irc_action"] * does + [b"notify_message" if on_channel else b"notify_private"]
        tags += [b"nick_" + m["nick"], b"host_" + m["user"] + b"@" + m["host"]]
        seat = s.seat(s.channel(target), m["nick"])
        sign = status or (s.sign(seat[1]) if seat and seat[1] else b"")
        called = calls(s.nick, plain(text))
        if does:
            self.line(buffer, tags, b" *", m["nick"] + b" " + text, called)
        else:
            self.line(buffer, tags, sign + m["nick"], text, called)

    def notice(self, m):
        target = self.server.aimed(m["params"][0])[1]
        buffer = self.found(target) if self.server.is_channel(target) else self.home()
        if buffer is not None:
            said = m["params"][1].replace(b"\1", b"")
            self.line(buffer, self.tags(b"irc_notice", m, False), b"--", b"Notice(" + m["nick"] + b"): " + said)

    def ping(self, m):
        self.sent(b"PONG", m["params"][-1])

    def error(self, m):
        self.line(self.home(), [b"irc_error"], b"=!=", m["params"][-1])

    # -- the link

    def link(self):
        s, self.acts = self.server, []
        if s.options["password"]:
            self.sent(b"PASS", s.options["password"])
        self.sent(b"NICK", s.nick)
        self.sent(b"USER " + s.options["username"] + b" 0 *", s.options["realname"])

    def lose(self):
        self.acts = []
        for channel in self.server.channels:
            buffer = self.found(channel["name"])
            for seat in channel["seats"] if buffer is not None else []:
                self.remove_nick(buffer, seat[0])
        self.line(self.home(), [], b"--", b"disconnected")
        self.act("raises", b"irc_server_disconnected", self.server.name)
        self.server.channels, self.server.registered = [], False

    # -- what the player shows

    def now(self):
        return "now %s %s\n" % (shown(self.server.nick), "registered" if self.server.registered else "not registered")

    def answer(self):
        return "".join(text + "\n" for text, _ in self.acts)

    def lists(self):
        def seat(nick, modes):
            places = "".join(str(place) for place in sorted(modes))
            return " %s%s%s" % (shown(nick), places, " highest %d" % min(modes) if modes else "")
        rows = ("on %s %d%s\n" % (shown(c["name"]), len(c["seats"]), "".join(seat(*s) for s in c["seats"])) for c in self.server.channels)
        return "".join(rows) + "\n"

    def told(self):
        s, ip = self.server, 0x0A000001
        texts = (s.modes, b"".join(s.signs), b"".join(s.types), b",".join(s.lists))
        return "server %s at %08x/6667 modes %s signs %s types %s lists %s names %s\n" % (shown(s.name), ip, *map(shown, texts), s.case_map)


def mark(text):
    """How many lines a text has, and its FNV-1a number."""
    number = 0xCBF29CE484222325
    for byte in text.encode():
        number = (number ^ byte) * 0x100000001B3 % 2 ** 64
    return "%d %016x\n" % (text.count("\n"), number)
