#!/usr/bin/env python3
"""Checks the program against real IRC servers: everyday commands, long texts, capabilities, logins by SASL.

Starts ngircd, ircd-hybrid, InspIRCd, and InspIRCd with Atheme's services (see bench/irc_servers.py for the packages), one
after another, and the program with a folder of its own. A plain user of its own is on the same channel. It prints a line for
each check and ends with 1 where one failed. Linux and Python 3, standard library only. Example:

    bench/real_irc.py crates/wc_headless/out/wc_headless
    bench/real_irc.py PROGRAM ngircd
"""
import os
import re
import socket
import subprocess
import sys
import tempfile
import time

sys.path.insert(0, os.path.dirname(os.path.abspath(__file__)))
from irc_servers import Server
from mirror import Client

PASSWORD, PATIENCE = "secret", 6
LETTER = "\u20ac"


class User:
    """A plain user of a server, and the lines that came."""

    def __init__(self, port, nick):
        self.nick, self.rest, self.lines = nick, b"", []
        self.link = socket.create_connection(("127.0.0.1", port))
        self.link.settimeout(0.1)
        self.say("NICK " + nick)
        self.say("USER %s 0 * :%s" % (nick, nick))
        self.until(" 001 ", 20)

    def say(self, line):
        self.link.sendall(line.encode() + b"\r\n")

    def read(self):
        try:
            self.rest += self.link.recv(1 << 16)
        except OSError:
            return
        *lines, self.rest = self.rest.split(b"\n")
        for line in lines:
            line = line.rstrip(b"\r")
            if line.startswith(b"PING"):
                self.link.sendall(b"PONG" + line[4:] + b"\r\n")
            self.lines.append(line)

    def until(self, pattern, patience=PATIENCE):
        """The first line with this pattern that came, also before."""
        end = time.time() + patience
        while True:
            found = next((line for line in self.lines if re.search(pattern.encode(), line)), None)
            if found or time.time() > end:
                return found
            self.read()


    def nicks(self, channel):
        """The nicks of a channel with their highest sign, as the server tells them."""
        self.read()
        self.lines.clear()
        self.say("NAMES " + channel)
        self.until(" 366 ")
        rows = [line.decode().split(" :", 1)[1] for line in self.lines if b" 353 " in line]
        return sorted(" ".join(rows).split())


def eventually(holds, patience=PATIENCE):
    """Whether this holds, now or soon."""
    end = time.time() + patience
    while time.time() < end:
        if holds():
            return True
        time.sleep(0.1)
    return False


class Program:
    """The program with one server, and a client of it."""

    def __init__(self, binary, server, port, options=""):
        self.folder = tempfile.mkdtemp()
        with open(os.path.join(self.folder, "weechat.conf"), "w") as file:
            file.write("relay.network.password = %s\nrelay.port.weechat = %d\n" % (PASSWORD, port))
            file.write("irc.server.x.addresses = 127.0.0.1/%d\nirc.server.x.nicks = ours\n" % server.port)
            file.write("irc.server.x.tls = off\nirc.server.x.autojoin = #t\n" + options)
        self.run = subprocess.Popen([binary, "-d", self.folder], stdout=subprocess.DEVNULL, stderr=subprocess.STDOUT)
        for _ in range(100):
            try:
                self.client = Client.plain(port, PASSWORD, 4096)
                break
            except OSError:
                time.sleep(0.1)
        # Nothing happens while the client takes its dumps.
        self.type("core.weechat", "/connect x")

    def type(self, buffer, text):
        self.client.send("input %s %s" % (buffer, text))

    def texts(self):
        self.client.settle()
        return [(values["prefix"] or "") + "\t" + (values["message"] or "") for lines in self.client.lines.values() for _, values in lines]

    def buffers(self):
        self.client.settle()
        return [buffer["full_name"] for group in self.client.groups for buffer in group]

    def count(self, pattern):
        return sum(bool(re.search(pattern, text)) for text in self.texts())

    def sees(self, pattern, patience=PATIENCE, known=0):
        """Whether more lines than those known have this pattern."""
        return eventually(lambda: self.count(pattern) > known, patience)

    def comes_first(self, one, other):
        """Whether a line with a pattern is before each with the other."""
        texts = self.texts()
        places = [[n for n, text in enumerate(texts) if re.search(pattern, text)] for pattern in (one, other)]
        return all(places) and min(places[0]) < min(places[1])

    def has(self, name, patience=PATIENCE):
        return eventually(lambda: name in self.buffers(), patience)

    def nicks(self, channel):
        """The nicks of a channel with their signs, as its nicklist has them."""
        self.client.send("(n) nicklist irc.x." + channel)
        rows = [values for _, values in self.client.until("n").items]
        return sorted(row["prefix"].strip() + row["name"] for row in rows if not row["group"])

    def stop(self):
        self.run.kill()
        self.run.wait()


# What is typed on the channel, and what then comes: a line to the other user ("peer", "guest"), or a text in a buffer ("ours").
COMMANDS = (
    ("/whois peer", "ours", r"(?i)end of.*whois"),
    ("/whowas nobody", "ours", r"(?i)whowas|no such nick|nobody"),
    ("/who #t", "ours", r"(?i)end of.*who"),
    ("/w #t", "ours", r"(?i)end of.*who"),
    ("/names", "ours", r"Channel #t: \d+ nicks"),
    ("/n", "ours", r"Channel #t: \d+ nicks"),
    ("/ping irc.test.local", "ours", r"(?i)pong|irc\.test\.local"),
    ("/help", "ours", r"core: print .*; IRC: join "),
    ("/help WHOIS", "ours", r"^\t/whois \[SERVER\] NICKS$"),
    ("/help /topic", "ours", r"^\t/topic TEXT\|-delete$"),
    ("/help nothing", "ours", r"^=!=\tunknown command: /nothing$"),
    ("/list", "ours", r"(?i)end of.*list"),
    ("/away gone fishing", "ours", r"(?i)marked as being away"),
    ("/away", "ours", r"(?i)no longer marked"),
    ("/op peer", "peer", r"MODE #t \+o :?peer"),
    ("/deop peer", "peer", r"MODE #t -o :?peer"),
    ("/voice peer", "peer", r"MODE #t \+v :?peer"),
    ("/devoice peer", "peer", r"MODE #t -v :?peer"),
    ("/halfop peer", "peer", r"MODE #t \+h :?peer"),
    ("/dehalfop peer", "peer", r"MODE #t -h :?peer"),
    ("/ban foo!*@*", "peer", r"MODE #t \+b :?foo!\*@\*"),
    ("/unban foo!*@*", "peer", r"MODE #t -b :?foo!\*@\*"),
    ("/ctcp peer VERSION", "peer", r"PRIVMSG peer :\x01VERSION\x01"),
    ("/motd", "ours", r"(?i)motd|hello"),
    ("/time", "ours", r"(?i)2\d\d\d"),
    ("/version", "ours", r"(?i)ngircd|hybrid|inspircd"),
    ("/stats u", "ours", r"(?i)stats|up "),
    ("/topic news", "peer", r"TOPIC #t :news"),
    ("/topic -delete", "peer", r"TOPIC #t :$"),
    ("/mode +m", "peer", r"MODE #t :?\+m"),
    ("/m peer hello", "peer", r"PRIVMSG peer :hello"),
    ("/q peer hi there", "peer", r"PRIVMSG peer :hi there"),
    ("/notice peer well", "peer", r"NOTICE peer :well"),
    ("/me waves", "peer", r"PRIVMSG #t :\x01ACTION waves\x01"),
    ("/k guest out", "guest", r"KICK #t guest :out"),
    ("/kickban third go", "third", r"KICK #t third :go"),
    ("/cycle back soon", "peer", r":ours!\S+ PART #t"),
    ("/oper op secret", "ours", r"(?i)operator|you are now"),
)
# What some servers do not offer.
LACKS = {"inspircd": (), "ircd-hybrid": (), "ngircd": (), "inspircd+atheme": ()}


class Checks:
    """What failed by now."""

    def __init__(self, kind):
        self.kind, self.failed = kind, 0

    def note(self, what, good):
        print("%s: %s: %s" % (self.kind, what, "ok" if good else "FAILED"), flush=True)
        self.failed += not good


def check_commands(checks, program, users):
    for typed, where, pattern in COMMANDS:
        if typed.split()[0] in LACKS[checks.kind]:
            continue
        known = program.count(pattern) if where == "ours" else 0
        program.type("irc.x.#t", typed)
        good = program.sees(pattern, known=known) if where == "ours" else bool(users[where].until(pattern))
        checks.note(typed, good)
        if typed.startswith("/mode"):
            program.type("irc.x.#t", "/mode -m")
    program.type("irc.x.#t", "/msg NickServ identify secretword")
    time.sleep(0.5)
    shown = [text for text in program.texts() if "secretword" in text]
    checks.note("a password is not shown", not shown)


def check_channels(checks, program, peer):
    """Channels that are joined, left by each of two commands, and knocked at."""
    for channel in ("#two", "#three"):
        program.type("irc.x.#t", "/j " + channel)
        checks.note("/j " + channel, program.has("irc.x." + channel))
        peer.say("JOIN " + channel)
        peer.until("JOIN :?" + channel)
    program.type("irc.x.#two", "/part see you")
    checks.note("/part with a reason", bool(peer.until(r"PART #two :?.*see you")))
    program.type("irc.x.#three", "/close")
    checks.note("/close leaves the channel", bool(peer.until(r":ours!\S+ PART :?#three")))
    checks.note("/close closes its buffer", eventually(lambda: "irc.x.#three" not in program.buffers()))
    peer.say("JOIN #locked")
    peer.say("MODE #locked +i")
    peer.until(r"MODE #locked :?\+i")
    program.type("irc.x.#t", "/knock #locked let me in")
    checks.note("/knock", program.sees(r"(?i)knock"))


WISHED_OPTION = (
    "irc.server.x.capabilities = multi-prefix userhost-in-names extended-join server-time away-notify account-notify chghost setname"
    " invite-notify message-tags\n"
)


def check_capabilities(checks, program, server):
    """The nicklist is what the server tells, after each of what nicks do, where all capabilities are asked for."""
    program.type("irc.x.#t", "/quote CAP LIST")
    program.sees("multi-prefix", 3)
    print("%s: %s" % (checks.kind, [text for text in program.texts() if "multi-prefix" in text]), flush=True)
    program.type("irc.x.#t", "/j #caps")
    checks.note("/j #caps", program.has("irc.x.#caps"))
    users = {nick: User(server.port, nick) for nick in ("one", "two", "six", "eye")}
    ours, (one, two, six, eye) = lambda text: program.type("irc.x.#caps", text), [user.say for user in users.values()]
    steps = (
        ("joins", lambda: [say("JOIN #caps") for say in (one, two, six, eye)], "@ours eye one six two"),
        ("signs", lambda: (ours("/op one"), ours("/voice one two"), ours("/halfop two")), "%two @one @ours eye six"),
        ("a sign goes", lambda: ours("/deop one"), "%two +one @ours eye six"),
        ("names that are asked for", lambda: ours("/names"), "%two +one @ours eye six"),
        ("a part", lambda: two("PART #caps :bye"), "+one @ours eye six"),
        ("a join again", lambda: two("JOIN #caps"), "+one @ours eye six two"),
        ("renames", lambda: (two("NICK deux"), one("NICK ONE"), ours("/nick nos")), "+ONE @nos deux eye six"),
        ("away, and back", lambda: (one("AWAY :gone"), six("AWAY :too"), one("AWAY")), "+ONE @nos deux eye six"),
        ("a real name", lambda: one("SETNAME :The One"), "+ONE @nos deux eye six"),
        ("another host", lambda: (one("OPER op secret"), one("CHGHOST ONE other.host")), "+ONE @nos deux eye six"),
        ("an account", lambda: one("PRIVMSG NickServ :IDENTIFY account goodword"), "+ONE @nos deux eye six"),
        ("a kick", lambda: ours("/kick six out"), "+ONE @nos deux eye"),
        ("another operator", lambda: ours("/op eye"), "+ONE @eye @nos deux"),
        ("an invitation", lambda: eye("INVITE six #caps"), "+ONE @eye @nos deux"),
        ("a quit", lambda: one("QUIT :bye"), "@eye @nos deux"),
    )
    for name, act, wanted in steps:
        act()
        seen = []
        same = eventually(lambda: are_nicks(wanted.split(), users["eye"], program, seen), 15)
        checks.note("nicks after " + name, same)
        if not same:
            print("    wanted %s, the server's %s, ours %s" % (wanted, *seen))


def are_nicks(wanted, user, program, seen):
    """Whether the server and the nicklist have these nicks; both are left in `seen`."""
    seen[:] = [user.nicks("#caps"), program.nicks("#caps")]
    return seen == [wanted, wanted]


def words_of(count):
    text = ""
    while len(text) < count:
        text += "word%d " % len(text)
    return text[:count].rstrip()


def check_long(checks, program, peer):
    """Each text comes whole: what the lines of it say, put together with a blank or nothing at each seam."""
    texts = {
        "a text of 1,500 bytes": ("%s", words_of(1500), r" PRIVMSG #t :(.*)"),
        "900 bytes of letters of three": ("%s", LETTER * 300, r" PRIVMSG #t :(.*)"),
        "an action of 1,200 bytes": ("/me %s", words_of(1200), r" PRIVMSG #t :\x01ACTION (.*)\x01"),
        "a private text of 1,500 bytes": ("/msg peer %s", words_of(1500), r" PRIVMSG peer :(.*)"),
        "a notice of 900 bytes": ("/notice peer %s", words_of(900), r" NOTICE peer :(.*)"),
    }
    for name, (form, text, pattern) in texts.items():
        peer.read()
        peer.lines.clear()
        program.type("irc.x.#t", form % text)
        end, whole = time.time() + PATIENCE, False
        while time.time() < end and not whole:
            peer.read()
            parts = [m.group(1).decode(errors="replace") for m in (re.search(pattern.encode(), line) for line in peer.lines) if m]
            whole = "".join(parts).replace(" ", "") == text.replace(" ", "")
        short = all(len(line) <= 510 for line in peer.lines)
        checks.note(name, whole and short)
    program.type("irc.x.#t", "/quote TOPIC #t :" + words_of(900))
    checks.note("a line of 900 bytes is refused", program.sees("irc: too long: TOPIC", 3))
    checks.note("the link stands", not any("disconnected" in text for text in program.texts()))


def check_server(binary, kind, port, folder):
    checks = Checks(kind)
    server = Server(kind, port, folder)
    if server.why:
        print("%s: not run: %s" % (kind, server.why))
        return 0
    program = Program(binary, server, port + 100)
    try:
        checks.note("joins", program.has("irc.x.#t", 20))
        users = {nick: User(server.port, nick) for nick in ("peer", "third", "guest")}
        for nick in ("peer", "third"):
            users[nick].say("JOIN #t")
            users[nick].until("JOIN :?#t")
        check_long(checks, program, users["peer"])
        check_guest(checks, program, users)
        check_channels(checks, program, users["peer"])
        check_commands(checks, program, users)
        program.stop()
        time.sleep(1)
        program = Program(binary, server, port + 101, WISHED_OPTION)
        checks.note("joins with capabilities", program.has("irc.x.#t", 20))
        check_capabilities(checks, program, server)
    finally:
        program.stop()
        server.stop()
    return checks.failed


def check_guest(checks, program, users):
    """The guest is invited before it comes, so that it can be thrown out after it."""
    program.type("irc.x.#t", "/invite guest")
    checks.note("/invite before a join", bool(users["guest"].until(r" INVITE guest :?#t")))
    users["guest"].lines.clear()
    program.type("irc.x.#t", "/invite guest")
    users["guest"].until(r" INVITE guest :?#t")
    users["guest"].say("JOIN #t")


SASL = "irc.server.x.sasl_username = %s\nirc.server.x.sasl_password = %s\n"


def check_sasl(binary, port, folder):
    """Logins by SASL PLAIN: with the right password before 001, and with a wrong one as `sasl_fail` says."""
    kind = "inspircd+atheme"
    checks = Checks(kind)
    server = Server(kind, port, folder)
    if server.why:
        print("%s: not run: %s" % (kind, server.why))
        return 0
    account = User(server.port, "account")
    account.say("PRIVMSG NickServ :REGISTER goodword a@b.test")
    checks.note("an account is registered", bool(account.until("registered")))
    cases = (
        ("SASL logs in before 001", SASL % ("account", "goodword"), r"(?i)logged in as", True),
        ("a wrong password goes on", SASL % ("account", "badword"), None, True),
        ("a wrong password disconnects", SASL % ("account", "badword") + "irc.server.x.sasl_fail = disconnect\n", None, False),
    )
    for number, (name, options, pattern, joins) in enumerate(cases):
        program = Program(binary, server, port + 101 + number, options)
        good = program.has("irc.x.#t", 10 if joins else 4) == joins
        good = good and (pattern is None or program.sees(pattern, 2) and program.comes_first(pattern, r"(?i)welcome"))
        checks.note(name, good)
        program.stop()
        time.sleep(1)
    program = Program(binary, server, port + 104, SASL % ("account", "goodword") + WISHED_OPTION)
    checks.note("joins with capabilities and SASL", program.has("irc.x.#t", 20))
    check_capabilities(checks, program, server)
    program.stop()
    server.stop()
    return checks.failed


def main():
    if len(sys.argv) < 2:
        sys.exit(__doc__)
    binary, kinds = os.path.abspath(sys.argv[1]), sys.argv[2:] or ["ngircd", "ircd-hybrid", "inspircd", "sasl"]
    folder, failed = tempfile.mkdtemp(), 0
    for number, kind in enumerate(kinds):
        port = 6710 + number * 200
        failed += check_sasl(binary, port, folder) if kind == "sasl" else check_server(binary, kind, port, folder)
    sys.exit(1 if failed else 0)


if __name__ == "__main__":
    main()
