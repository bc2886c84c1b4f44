#!/usr/bin/env python3
"""Checks the program with a real client in a real browser: Glowing Bear in chromium, over WebSocket.

Starts the program with a folder of its own. While no page is connected a plain client has lines printed in two buffers.
Then the page logs in, and has to show the counts of both; a click on one of them in its list takes it out of the hotlist,
as another plain client sees; TAB in its input line completes a command, and ENTER runs it. The keys and the clicks are
those of the browser, and the answers are what the page shows. It prints a line for each check and ends with 1
where one failed. Linux and Python 3, standard library only; wants `apt-get install -y glowing-bear chromium`. Examples:

    bench/browser.py crates/wc_headless/out/wc_headless
    bench/browser.py PROGRAM --sent lines.txt
"""
import argparse
import functools
import http.server
import json
import os
import shutil
import socket
import struct
import subprocess
import sys
import tempfile
import threading
import time
import urllib.request

sys.path.insert(0, os.path.dirname(os.path.abspath(__file__)))
from mirror import Client
from websocket import masked

CLIENT = "/usr/share/glowing-bear"
CHROMIUM = (
    "chromium", "--headless=new", "--window-size=1280,800", "--no-sandbox", "--disable-gpu", "--disable-dev-shm-usage",
    "--disable-background-networking", "--no-first-run", "--renderer-process-limit=1", "--remote-debugging-port=0",
)
PASSWORD, PATIENCE = "secret", 30
TAB, ENTER = ("Tab", 9, ""), ("Enter", 13, "\r")
# What is printed before the page comes: a buffer, the tag, and how many lines.
LINES = (
    ("one", "notify_none", 1),
    ("one", "", 1),
    ("one", "notify_message", 3),
    ("one", "notify_highlight", 2),
    ("two", "notify_message", 4),
)
# The counts of a buffer by priority: low, message, private, highlight.
HOTLIST = {"core.one": [1, 3, 0, 2], "core.two": [0, 4, 0, 0]}
# What the page shows beside a buffer: its highlights in red, else its messages.
BADGES = {"core.weechat": ["", False], "core.one": ["2", True], "core.two": ["4", False]}
ITEM = 'document.querySelector(\'li.buffer a[title="%s"]\')'
BADGE_TABLE = """Object.fromEntries(Array.from(document.querySelectorAll("li.buffer a"), a => {
    const badge = a.querySelector(".badge");
    return [a.title, [badge.offsetParent ? badge.innerText.trim() : "", badge.classList.contains("danger")]];
}))"""
TEXTS = 'Array.from(document.querySelectorAll("tr.bufferline td.message"), e => e.innerText.trim())'
INPUT = 'document.getElementById("sendMessage")'
PLACE = """(element => {
    element.scrollIntoView({block: "nearest"});
    const box = element.getBoundingClientRect();
    return {x: box.x + box.width / 2, y: box.y + box.height / 2};
})(%s)"""
FIELD = """(field => {
    field.value = "%s";
    return field.dispatchEvent(new Event("input", {bubbles: true}));
})(document.getElementById("%s"))"""


class Site(http.server.SimpleHTTPRequestHandler):
    """The files of the client, told about to nobody."""

    def log_message(self, *_):
        pass


class Page:
    """The one tab of a browser, which is driven by its DevTools, and the lines that it sent over WebSocket."""

    def __init__(self, folder):
        self.folder, self.calls, self.sent = folder, 0, []
        self.run = subprocess.Popen(
            CHROMIUM + ("--user-data-dir=" + folder, "about:blank"), stdout=subprocess.DEVNULL, stderr=subprocess.STDOUT)

    def address(self):
        """Where the tab is: the port, which the browser chose and wrote down, and the path."""
        end = time.time() + PATIENCE
        while time.time() < end:
            time.sleep(0.2)
            try:
                with open(os.path.join(self.folder, "DevToolsActivePort")) as file:
                    port = int(file.readline())
                with urllib.request.urlopen("http://127.0.0.1:%d/json/list" % port, timeout=PATIENCE) as answer:
                    return port, next("/devtools/page/" + tab["id"] for tab in json.load(answer) if tab["type"] == "page")
            except (OSError, ValueError, StopIteration):
                continue
        sys.exit("chromium did not start")

    def connect(self):
        port, path = self.address()
        self.link = socket.create_connection(("127.0.0.1", port), timeout=PATIENCE)
        self.link.sendall((
            "GET %s HTTP/1.1\r\nHost: 127.0.0.1:%d\r\nUpgrade: websocket\r\nConnection: Upgrade\r\n"
            "Sec-WebSocket-Key: AAAAAAAAAAAAAAAAAAAAAA==\r\nSec-WebSocket-Version: 13\r\n\r\n" % (path, port)).encode())
        self.stream = self.link.makefile("rb")
        if b" 101 " not in self.stream.readline():
            sys.exit("chromium refuses its DevTools")
        while self.stream.readline().strip():
            pass
        self.call("Network.enable")
        self.call("Emulation.setFocusEmulationEnabled", enabled=True)

    def message(self):
        """A message of the browser, which may come in some frames."""
        text, first = b"", 0
        while first < 0x80:
            first, size = self.stream.read(2)
            if size > 125:
                kind = ">H" if size == 126 else ">Q"
                size = struct.unpack(kind, self.stream.read(struct.calcsize(kind)))[0]
            text += self.stream.read(size)
        return json.loads(text)

    def call(self, method, **values):
        """The answer to a call; what the page sends meanwhile is noted."""
        self.calls += 1
        self.link.sendall(masked(json.dumps({"id": self.calls, "method": method, "params": values}).encode()))
        while True:
            message = self.message()
            if message.get("method") == "Network.webSocketFrameSent" and message["params"]["response"]["opcode"] == 1:
                self.sent += message["params"]["response"]["payloadData"].splitlines()
            if message.get("id") == self.calls:
                if "error" in message:
                    sys.exit("%s: %s" % (method, message["error"]["message"]))
                return message["result"]

    def value(self, script):
        """What a script of the page gives, or nothing where it fails."""
        return self.call("Runtime.evaluate", expression=script, returnByValue=True)["result"].get("value")

    def has(self, script, wanted=True):
        """Whether a script of the page comes to give this value in a while."""
        end = time.time() + PATIENCE
        while (value := self.value(script)) != wanted and time.time() < end:
            time.sleep(0.2)
        if value != wanted:
            print("    the page has %s instead of %s" % (json.dumps(value), json.dumps(wanted)))
        return value == wanted

    def click(self, element):
        place = self.value(PLACE % element)
        if not place:
            sys.exit("the page lacks " + element)
        for kind in ("mousePressed", "mouseReleased"):
            self.call("Input.dispatchMouseEvent", type=kind, button="left", clickCount=1, **place)

    def press(self, name, code, text):
        words = {"key": name, "windowsVirtualKeyCode": code}
        self.call("Input.dispatchKeyEvent", type="keyDown", text=text, **words)
        self.call("Input.dispatchKeyEvent", type="keyUp", **words)

    def type(self, text):
        for letter in text:
            self.press(letter, 0, letter)

    def stop(self):
        self.run.terminate()
        self.run.wait()


class Program:
    """The program with a folder of its own."""

    def __init__(self, binary, folder):
        with socket.create_server(("127.0.0.1", 0)) as free:
            self.port = free.getsockname()[1]
        with open(os.path.join(folder, "weechat.conf"), "w") as file:
            file.write("relay.network.password = %s\nrelay.port.weechat = %d\n" % (PASSWORD, self.port))
        self.run = subprocess.Popen([binary, "-d", folder], stdout=subprocess.DEVNULL, stderr=subprocess.STDOUT)

    def client(self):
        """A new plain client, with what it sees now."""
        end = time.time() + PATIENCE
        while True:
            try:
                return Client.plain(self.port, PASSWORD, 4096)
            except OSError:
                if time.time() > end:
                    sys.exit("the program does not listen")
                time.sleep(0.1)

    def hotlist(self):
        """The names of the buffers in the hotlist with their counts, as a new plain client sees them."""
        client = self.client()
        names = {buffer["handle"]: buffer["full_name"] for group in client.groups for buffer in group}
        client.send("(h) hdata hotlist:gui_hotlist(*)")
        found = {names[values["buffer"]]: values["count"] for _, values in client.until("h").items}
        client.link.close()
        return found

    def stop(self):
        self.run.kill()
        self.run.wait()


class Checks(list):
    """What came of each check by now."""

    def note(self, what, good):
        print("%s: %s" % (what, "ok" if good else "FAILED"), flush=True)
        self.append(good)


def type_lines(program, lines):
    """A plain client that comes, types lines, and goes."""
    client = program.client()
    for line in lines:
        client.send("input core.weechat " + line)
    client.settle()
    client.link.close()


def printing(name, tag, count):
    """The lines to type for so many lines with a tag in a buffer."""
    return ["/print -buffer core.%s%s text %d" % (name, tag and " -tags " + tag, number) for number in range(count)]


def log_in(page, address, port):
    page.call("Page.navigate", url=address)
    page.has('document.readyState == "complete" && !!document.getElementById("password")')
    for field, text in (("host", "127.0.0.1"), ("port", port), ("password", PASSWORD)):
        page.has(FIELD % (text, field))
    page.click('document.querySelector(".form-signin button")')


def check_page(checks, program, page):
    checks.note("the page shows the counts of both buffers", page.has(BADGE_TABLE, BADGES))
    checks.note("both are still in the hotlist", program.hotlist() == HOTLIST)
    page.click(ITEM % "core.one")
    texts = ["text %d" % number for name, _, count in LINES for number in range(count) if name == "one"]
    checks.note("a click shows the lines of a buffer", page.has(TEXTS, texts))
    badges = dict(BADGES, **{"core.one": ["", False]})
    checks.note("and takes away its count", page.has(BADGE_TABLE, badges))
    end = time.time() + PATIENCE
    while "core.one" in (hotlist := program.hotlist()) and time.time() < end:
        time.sleep(0.2)
    checks.note("and takes it out of the hotlist", hotlist == {"core.two": [0, 4, 0, 0]})
    type_lines(program, printing("two", "notify_message", 1))
    badges["core.two"] = ["5", False]
    checks.note("a new line in the other buffer is counted", page.has(BADGE_TABLE, badges))
    checks.note("in the hotlist too", program.hotlist() == {"core.two": [0, 5, 0, 0]})


def check_input(checks, page):
    page.click(INPUT)
    page.type("/bu")
    page.press(*TAB)
    checks.note("TAB after /bu gives /buffer", page.has(INPUT + ".value", "/buffer"))
    requests = [line for line in page.sent if "completion " in line]
    checks.note("the page asks the program for it", len(requests) == 1 and requests[0].endswith(" 3 /bu"))
    page.type(" add three")
    page.press(*ENTER)
    checks.note("ENTER runs the line", page.has("!!" + ITEM % "core.three"))
    page.click(ITEM % "core.weechat")
    checks.note("nothing that the page typed is refused", page.has(TEXTS, []))


def main():
    words = argparse.ArgumentParser(description=__doc__, formatter_class=argparse.RawDescriptionHelpFormatter)
    words.add_argument("program", help="the program")
    words.add_argument("--sent", help="a file for the lines of the relay protocol that the page sends")
    words = words.parse_args()
    if not shutil.which(CHROMIUM[0]) or not os.path.isdir(CLIENT):
        sys.exit("apt-get install -y glowing-bear chromium")
    checks, folder = Checks(), tempfile.mkdtemp()
    site = http.server.ThreadingHTTPServer(("127.0.0.1", 0), functools.partial(Site, directory=CLIENT))
    threading.Thread(target=site.serve_forever, daemon=True).start()
    program = Program(os.path.abspath(words.program), folder)
    try:
        type_lines(program, ["/buffer add one", "/buffer add two"])
        type_lines(program, sum((printing(*line) for line in LINES), []))
        page = Page(tempfile.mkdtemp(dir=folder))
        try:
            page.connect()
            log_in(page, "http://127.0.0.1:%d/index.html" % site.server_port, program.port)
            check_page(checks, program, page)
            check_input(checks, page)
            if words.sent:
                with open(words.sent, "w") as file:
                    file.writelines(line + "\n" for line in page.sent)
        finally:
            page.stop()
    finally:
        program.stop()
        shutil.rmtree(folder, ignore_errors=True)
    sys.exit(0 if all(checks) else 1)


if __name__ == "__main__":
    main()
