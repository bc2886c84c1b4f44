"""Starts real IRC servers from Debian's packages, each with a configuration of its own in a folder, on 127.0.0.1.

Packages: ngircd or its unpacked binary by the variable NGIRCD, ircd-hybrid, inspircd, atheme-services. Linux and Python 3,
standard library only. Used by bench/real_irc.py.
"""
import os
import shutil
import socket
import subprocess
import time

NAME, SERVICES = "irc.test.local", "services.test.local"

NGIRCD = """[Global]
Name = {name}
Info = test
Listen = 127.0.0.1
Ports = {port}
[Limits]
MaxConnectionsIP = 0
[Options]
DNS = no
Ident = no
PAM = no
[Operator]
Name = op
Password = secret
"""

HYBRID = """serverinfo {{ name = "{name}"; sid = "0HY"; description = "test"; network_name = "test"; hub = no; default_max_clients = 100; }};
admin {{ name = "a"; description = "b"; email = "<c@d>"; }};
class {{ name = "users"; ping_time = 90 seconds; number_per_ip_local = 50; number_per_ip_global = 50; max_number = 100;
  sendq = 1 megabyte; recvq = 8000 bytes; }};
class {{ name = "opers"; ping_time = 90 seconds; max_number = 50; sendq = 1 megabyte; recvq = 8000 bytes; }};
listen {{ host = "127.0.0.1"; port = {port}; }};
auth {{ user = "*@*"; class = "users"; }};
operator {{ name = "op"; user = "*@*"; password = "secret"; encrypted = no; class = "opers"; }};
general {{ default_floodcount = 0; throttle_count = 100; throttle_time = 1 second; pace_wait = 0; pace_wait_simple = 0;
  disable_auth = yes; anti_nick_flood = no; anti_spam_exit_message_time = 0; caller_id_wait = 0; knock_client_count = 10;
  no_oper_flood = yes; default_floodtime = 0; }};
channel {{ invite_client_count = 100; invite_client_time = 1; knock_client_count = 100; knock_client_time = 1;
  default_join_flood_count = 0; max_channels = 20; }};
"""

INSPIRCD = """<server name="{name}" description="test" network="test" id="97K">
<admin name="a" nick="b" email="c@d">
<bind address="127.0.0.1" port="{port}" type="clients">
<bind address="127.0.0.1" port="{link}" type="servers">
<connect name="main" allow="*" timeout="20" pingfreq="120" hardsendq="1048576" softsendq="262144" recvq="65536" threshold="10000"
 commandrate="1000000" fakelag="no" localmax="50" globalmax="50" resolvehostnames="no">
<class name="all" commands="*" privs="*" usermodes="*" chanmodes="*">
<type name="all" classes="all">
<oper name="op" password="secret" host="*@*" type="all">
<options prefixquit="" splitwhois="no">
<security hidesplits="no" userstats="Pu">
<performance somaxconn="128">
<files motd="{folder}/motd" rules="{folder}/motd">
<pid file="{folder}/pid">
<path datadir="{folder}" logdir="{folder}" runtimedir="{folder}">
<log method="file" type="* -USERINPUT -USEROUTPUT" level="default" target="{folder}/log">
<module name="cap"><module name="sasl"><module name="services_account"><module name="spanningtree"><module name="knock">
<module name="ircv3"><module name="ircv3_capnotify"><module name="namesx"><module name="uhnames">
<module name="ircv3_servertime"><module name="ircv3_invitenotify"><module name="ircv3_chghost"><module name="ircv3_ctctags">
<module name="setname"><module name="chghost"><module name="hidechans"><module name="customprefix">
<customprefix name="halfop" letter="h" prefix="%" rank="20000" ranktoset="30000">
<sasl target="{services}" requiressl="no">
<link name="{services}" ipaddr="127.0.0.1" port="{link}" allowmask="127.0.0.0/8" timeout="30" ssl="" sendpass="link" recvpass="link">
<uline server="{services}" silent="yes">
"""

ATHEME = """loadmodule "modules/protocol/inspircd";
loadmodule "modules/backend/opensex";
loadmodule "modules/nickserv/main";
loadmodule "modules/nickserv/identify";
loadmodule "modules/nickserv/register";
loadmodule "modules/saslserv/main";
loadmodule "modules/saslserv/plain";
serverinfo {{ name = "{services}"; desc = "services"; numeric = "00A"; recontime = 2; netname = "test"; hidehostsuffix = "users.test";
  adminname = "a"; adminemail = "a@test.local"; registeremail = "a@test.local"; auth = none; maxlogins = 50; maxusers = 0;
  maxnicks = 5; mdlimit = 30; emaillimit = 10; emailtime = 300; casemapping = rfc1459; loglevel = {{ error; info; admin; network; wallops; }}; }};
uplink "{name}" {{ host = "127.0.0.1"; send_password = "link"; receive_password = "link"; port = {link}; }};
nickserv {{ nick = "NickServ"; user = "NickServ"; host = "services.test"; real = "Nicks"; maxnicks = 5; }};
saslserv {{ nick = "SaslServ"; user = "SaslServ"; host = "services.test"; real = "Login"; }};
database {{ }};
general {{ helpchan = "#help"; commit_interval = 5; uflags = {{ hidemail; }}; ratelimit_uses = 1000; ratelimit_period = 1; }};
"""


def find(*names):
    """The first of these programs that is there."""
    for name in names:
        path = shutil.which(name, path=os.environ["PATH"] + ":/usr/sbin:/usr/bin")
        if path:
            return path
    return None


class Server:
    """A server that runs until `stop`; `why` says what is to be installed where it does not."""

    def __init__(self, kind, port, folder):
        self.kind, self.port, self.folder, self.runs = kind, port, os.path.join(folder, kind), []
        os.makedirs(self.folder, exist_ok=True)
        os.chmod(folder, 0o755)
        with open(os.path.join(self.folder, "motd"), "w") as file:
            file.write("hello\n")
        self.why = getattr(self, kind.replace("+", "_").replace("-", "_"))()

    def write(self, name, text, **values):
        path = os.path.join(self.folder, name)
        with open(path, "w") as file:
            file.write(text.format(name=NAME, services=SERVICES, port=self.port, link=self.port + 50, folder=self.folder, **values))
        os.chmod(path, 0o644)
        return path

    def run(self, *words, user=None):
        if user and os.getuid() == 0:
            subprocess.run(["chown", "-R", user, self.folder], check=True)
            words = ("setpriv", "--reuid=" + user, "--regid=nogroup", "--clear-groups") + words
        log = open(os.path.join(self.folder, "output"), "a")
        self.runs.append(subprocess.Popen(words, stdout=log, stderr=log, cwd=self.folder, stdin=subprocess.DEVNULL))

    def ngircd(self):
        binary = os.environ.get("NGIRCD") or find("ngircd")
        if not binary:
            return "ngircd is not installed"
        self.run(binary, "-n", "-f", self.write("ngircd.conf", NGIRCD), user="nobody")
        return self.wait()

    def ircd_hybrid(self):
        binary = find("ircd-hybrid")
        if not binary:
            return "ircd-hybrid is not installed"
        config = self.write("ircd.conf", HYBRID)
        self.run(binary, "-foreground", "-configfile", config, "-logfile", self.folder + "/log", "-pidfile", self.folder + "/pid", user="nobody")
        return self.wait()

    def inspircd(self):
        binary = find("inspircd")
        if not binary:
            return "inspircd is not installed"
        self.run(binary, "--nofork", "--config=" + self.write("inspircd.conf", INSPIRCD), user="nobody")
        return self.wait()

    def inspircd_atheme(self):
        binary = find("atheme-services")
        why = self.inspircd()
        if why or not binary:
            return why or "atheme-services is not installed"
        config = self.write("atheme.conf", ATHEME)
        self.run(binary, "-n", "-c", config, "-D", self.folder, "-l", self.folder + "/services.log", "-p", self.folder + "/services.pid", user="nobody")
        time.sleep(4)
        return None if self.runs[-1].poll() is None else "atheme-services ended: " + self.folder + "/output"

    def wait(self):
        for _ in range(100):
            try:
                socket.create_connection(("127.0.0.1", self.port), 1).close()
                return None
            except OSError:
                time.sleep(0.1)
        return self.kind + " does not listen: " + self.folder + "/output"

    def stop(self):
        for run in self.runs:
            run.kill()
            run.wait()
