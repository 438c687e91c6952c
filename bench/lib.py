"""What several benches share: the program that is tried, this machine's databases, sessions that write, C's debconf, and counts of instructions."""
import glob
import os
import re
import shutil
import stat
import subprocess
import sys

TOP = os.path.dirname(os.path.dirname(os.path.abspath(__file__)))
BUILT = f"{TOP}/crates/dckit/out/dckit"
# this machine's configuration, and where it keeps its databases
SYSTEM = "/etc/debconf.conf"
FOLDER = "/var/cache/debconf"
FILES = ["config.dat", "passwords.dat", "templates.dat"]
# what is needed to run C's debconf where it isn't installed
LIBRARIES = ["cdebconf", "libdebian-installer4", "libtextwrap1", "libnewt0.52", "libslang2", "libreadline8"]
FIXED = b"/etc/cdebconf.conf"  # where C's debconf looks for its configuration


def program(word=None):
    """The path of the program that is tried: the word, or else the bench's first one, or else the built program."""
    path = word or (sys.argv[1] if len(sys.argv) > 1 else BUILT)
    if not os.access(path, os.X_OK):
        sys.exit(f"{path} is no program; ./build builds one, and examples/look makes one without its proofs")
    return os.path.abspath(path)


def put(path, text):
    with open(path, "w", encoding="utf-8") as file:
        file.write(text)


# ---- databases

def two_files(questions, templates):
    """The text of a configuration with a file of questions and one of templates."""
    return f"Config: q\nTemplates: t\n\nName: q\nDriver: File\nFilename: {questions}\n\nName: t\nDriver: File\nFilename: {templates}\n"


def normal(line):
    """A line of a record as both programs print it: keys in lower case, lists in order, no whitespace behind an empty value."""
    if line.startswith(b" "):
        return line.rstrip()
    key, value = line.split(b":", 1)
    if key.lower() in (b"owners", b"flags"):
        value = b" " + b", ".join(sorted(it.strip() for it in value.split(b",")))
    return key.lower() + b":" + value.rstrip()


def records(path, read=normal):
    """The records of a database file, by name, each as the sorted list of its lines, as they are read."""
    if not os.path.exists(path):
        return {}
    with open(path, "rb") as file:
        groups = [[line for line in group.split(b"\n") if line.strip()] for group in file.read().split(b"\n\n")]
    return {lines[0].split(b":", 1)[1].strip(): sorted(read(line) for line in lines[1:]) for lines in groups if lines}


def configure_as_here(folder):
    """Makes the folder, with this machine's configuration, whose databases stand in the folder."""
    os.makedirs(folder)
    with open(SYSTEM, encoding="utf-8") as file:
        put(f"{folder}/debconf.conf", file.read().replace(FOLDER, folder))


def copy_databases(folder):
    """Copies this machine's databases to the folder."""
    for name in FILES:
        if os.path.exists(f"{FOLDER}/{name}"):
            shutil.copy(f"{FOLDER}/{name}", f"{folder}/{name}")


# ---- sessions that write to a database of each sort

ONE = two_files("{0}/q.dat", "{0}/t.dat")
TWO = ("Config: s\nTemplates: t\n\nName: q\nDriver: File\nMode: 644\nReject-Type: password\nFilename: {0}/q.dat\n\nName: p\nDriver: File\n"
       "Backup: false\nAccept-Type: password\nFilename: {0}/p.dat\n\nName: s\nDriver: Stack\nStack: q, p\n\nName: t\nDriver: File\nFilename: {0}/t.dat\n")
IN_FOLDER = "Config: q\nTemplates: t\n\nName: q\nDriver: {1}\nDirectory: {0}/{2}\n\nName: t\nDriver: File\nFilename: {0}/t.dat\n"


def question(name):
    return f"Name: {name}\nTemplate: a/b\nValue: old\nOwners: p\n\n"


STORED = {
    "q.dat": question("a/b"),
    "p.dat": "Name: a/secret\nTemplate: a/secret\nOwners: p\n\n",
    "t.dat": "Name: a/b\nType: string\nOwners: a/b, a/c, c/d\n\nName: a/secret\nType: password\nOwners: a/secret\n\n",
    "tree/a/b.dat": question("a/b"),
    "tree/a/c.dat": question("a/c"),
    "tree/c/d.dat": question("c/d"),
    "pack/a.dat": question("a/b") + question("a/c"),
    "pack/c.dat": question("c/d"),
    "other": "not a database\n",
}
SESSIONS = {
    "one database": (ONE, "SET a/b new\nFSET a/b seen true\n"),
    "two databases": (TWO, "SET a/b new\nSET a/secret hush\nSUBST a/b k v\n"),
    "a file for each item": (IN_FOLDER.format("{0}", "DirTree", "tree"), "SET a/c new\nUNREGISTER c/d\nSET a/b new\nREGISTER a/b e/f/g\n"),
    "a file for each prefix": (IN_FOLDER.format("{0}", "PackageDir", "pack"), "SET a/c new\nUNREGISTER c/d\nSET a/b new\nREGISTER a/b e/f/g\n"),
}
# what the next session asks, and what it may be answered
NEXT = "GET a/b\nSET a/b later\nGET a/b\n"
ANSWERS = (b"0 old\n0 value set\n0 later\n", b"0 new\n0 value set\n0 later\n")


def store(folder, conf):
    """The databases before a session, with this configuration."""
    for name, text in {**STORED, "conf": conf.format(folder)}.items():
        os.makedirs(os.path.dirname(f"{folder}/{name}"), exist_ok=True)
        put(f"{folder}/{name}", text)
        os.chmod(f"{folder}/{name}", 0o600)


def stored(folder):
    """What each file holds, and its mode."""
    found = {}
    for top, _, names in os.walk(folder):
        for name in names:
            with open(f"{top}/{name}", "rb") as file:
                found[os.path.relpath(f"{top}/{name}", folder)] = file.read(), stat.S_IMODE(os.fstat(file.fileno()).st_mode)
    return found


# ---- programs beside it

class Program:
    """One of the programs that are compared: its words, where it looks for its configuration, and what that is for a folder."""

    def __init__(self, name, words, environment, configure):
        self.name, self.words, self.environment, self.configure = name, words, environment, configure

    def command(self, script):
        return [*self.words, "-o", "p", "-f", self.frontend(), "/bin/sh", script]

    def frontend(self):
        return "text" if self.name == "C" else "teletype"


def records_conf(folder):
    return two_files(f"{folder}/config.dat", f"{folder}/templates.dat")


def ours(path):
    return Program("dckit", [path, "run"], "DEBCONF_SYSTEMRC", records_conf)


def c_conf(modules):
    def text(folder):
        return (f'global {{ module_path {{ frontend "{modules}/frontend"; database "{modules}/db"; }}; default {{ frontend "f"; template "t"; config "c"; }}; }};\n'
                f'frontend {{ instance "f" {{ driver "text"; }}; }};\n'
                f'template {{ instance "t" {{ driver "rfc822db"; path "{folder}/templates.dat"; }}; }};\n'
                f'config {{ instance "c" {{ driver "rfc822db"; path "{folder}/config.dat"; }}; }};\n')
    return text


def find_c(root):
    """C's debconf: a copy of the machine's own, or of one that is unpacked, that finds its configuration in the folder that it runs in."""
    base = ""
    if not os.path.exists("/usr/lib/cdebconf/debconf"):
        base = f"{root}/c"
        os.makedirs(base)
        for name in LIBRARIES:
            subprocess.run(["apt-get", "download", "-q", name], cwd=base, stdout=subprocess.DEVNULL, stderr=subprocess.DEVNULL, check=False)
        for archive in glob.glob(f"{base}/*.deb"):
            subprocess.run(["dpkg-deb", "-x", archive, base], check=True)
        if not os.path.exists(f"{base}/usr/lib/cdebconf/debconf"):
            return None
    modules = f"{base}/usr/lib/cdebconf"
    os.makedirs(f"{root}/patched")
    for name in ("debconf", "debconf-loadtemplate", "debconf-show", "debconf-copydb", "debconf-set-selections"):
        with open(f"{modules}/{name}", "rb") as file:
            binary = file.read()
        with open(f"{root}/patched/{name}", "wb") as file:
            file.write(binary.replace(FIXED, b"conf".ljust(len(FIXED), b"\0")))
        os.chmod(f"{root}/patched/{name}", 0o755)
    places = ":".join([modules, *glob.glob(f"{base}/usr/lib/*-linux-gnu"), *glob.glob(f"{base}/lib/*-linux-gnu")])
    loader = glob.glob("/lib64/ld-linux*")
    words = [loader[0], "--library-path", places, f"{root}/patched/debconf"] if base and loader else [f"{root}/patched/debconf"]
    return Program("C", words, "CDEBCONF", c_conf(modules))


# ---- instructions

def counted(words, folder, **how):
    """A run under valgrind, whose notes go to the folder, and how many instructions it counted, or none where it told none."""
    ran = subprocess.run(["valgrind", "--tool=callgrind", f"--callgrind-out-file={folder}/counts", *words], stderr=subprocess.PIPE, check=False, **how)
    if not os.path.exists(f"{folder}/counts"):
        return ran, None
    with open(f"{folder}/counts", encoding="ascii", errors="replace") as file:
        found = re.search(r"^(?:summary|totals): (\d+)", file.read(), re.MULTILINE)
    os.remove(f"{folder}/counts")
    return ran, int(found[1]) if found else None
