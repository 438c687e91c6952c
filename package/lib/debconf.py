"""dckit's library for package scripts in Python.

`Debconf()` speaks to the frontend that serves this program, and has a method of the name of each command, which answers the text of the reply
and raises DebconfError for a code other than 0. `runFrontEnd()` makes sure that a frontend serves it.
"""
import os
import re
import subprocess
import sys

LOW, MEDIUM, HIGH, CRITICAL = "low", "medium", "high", "critical"
FRONTEND = "/usr/share/debconf/frontend"
COMMANDS = """capb set reset title input beginblock endblock go get register unregister subst previous_module fset fget purge metaget exist version
    settitle info progress data clear visible x_loadtemplatefile x_save""".split()
TURNED = {"true": "false", "false": "true"}


class DebconfError(Exception):
    """The code and the text of a reply that refuses."""


def unescaped(text):
    """The text that was escaped."""
    return re.sub(r"\\(.)", lambda found: "\n" if found[1] == "n" else found[1], text)


class Debconf:
    """A talk with a frontend: on standard input and output, or by the two files that are given."""

    def __init__(self, title=None, read=None, write=None, run_frontend=False):
        if run_frontend:
            runFrontEnd()
        self.read, self.write = read or sys.stdin, write or sys.stdout
        if write is None:
            if os.environ.get("DEBCONF_REDIR"):  # in a program of a script that had commands put there
                self.write = os.fdopen(3, "w", closefd=False)
            sys.stdout = sys.stderr
        self.setUp(title)

    def setUp(self, title):
        self.version = self.command("VERSION", "2")
        if not self.version.startswith("2."):
            raise DebconfError(256, f"wrong version: {self.version}")
        self.capabilities = self.command("CAPB").split()
        if title:
            self.command("TITLE", title)

    def command(self, command, *words):
        """The text of the reply to a command."""
        words = [str(word) for word in words]
        turned = command.upper() in ("FGET", "FSET") and words[1:2] == ["isdefault"]
        if turned:  # by this flag scripts ask whether a question has its default: the reverse of `seen`
            words[1:] = ["seen", *(TURNED.get(word, word) for word in words[2:])]
        self.write.write(" ".join([command.upper(), *words]) + "\n")
        self.write.flush()
        line = self.read.readline()
        if not line:
            raise DebconfError(1, "nobody answers")
        code, _, text = line.rstrip("\n").partition(" ")
        if code == "1":
            return unescaped(text)
        if code != "0":
            raise DebconfError(int(code) if code.isdigit() else 1, text)
        return TURNED.get(text, text) if turned else text

    def stop(self):
        """STOP has no reply."""
        self.write.write("STOP\n")
        self.write.flush()

    def forceInput(self, priority, question):
        """Whether the question will be asked: 1 or 0."""
        try:
            self.command("INPUT", priority, question)
        except DebconfError as error:
            if error.args[0] != 30:
                raise
            return 0
        return 1

    def getBoolean(self, question):
        return self.command("GET", question) == "true"

    def getString(self, question):
        return self.command("GET", question)


def _method(name):
    return lambda self, *words: self.command(name, *words)


for _name in COMMANDS:
    setattr(Debconf, _name, _method(_name))


class DebconfCommunicator(Debconf):
    """A talk with a debconf-communicate of its own, without a user."""

    def __init__(self, owner, title=None, cloexec=False):
        self.process = subprocess.Popen(["debconf-communicate", "-fnoninteractive", owner], stdin=subprocess.PIPE, stdout=subprocess.PIPE,
                                        close_fds=True, universal_newlines=True)
        for end in (self.process.stdin, self.process.stdout):
            os.set_inheritable(end.fileno(), not cloexec)
        Debconf.__init__(self, title=title, read=self.process.stdout, write=self.process.stdin)

    def shutdown(self):
        """Ends the talk, and answers the status of debconf-communicate."""
        if self.process is None:
            return None
        self.process.stdin.close()
        self.process.stdout.close()
        status, self.process = self.process.wait(), None
        return status


def runFrontEnd():
    """Where no frontend serves this program, one is started with it, in its place."""
    if not os.environ.get("DEBIAN_HAS_FRONTEND"):
        os.execv(FRONTEND, [FRONTEND] + sys.argv)
