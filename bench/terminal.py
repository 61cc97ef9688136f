"""People at a terminal who use two servers of the built program, and what befalls their clients, for the scripts that run
the lines of pages."""

import os
import shutil
import signal
import subprocess
import tempfile
import threading

import cutting
import processes

SIZES = processes.Sizes(width=64, boxes=16, lanes=4, window=8)  # those of examples/
MOST_SECONDS = 3600  # for a block of lines, before it counts as one that hangs
WRAPPER = """#!/usr/bin/env bash
echo $$ >"$HOME/pid"
if [[ -e $HOME/limit ]]; then
    trap '' XFSZ
    ulimit -f "$(<"$HOME/limit")"
fi
exec '{}' "$@"
"""


class Lost(Exception):
    """A message is lost, or something else isn't as the pages say."""


def want(what, found, wanted):
    if found != wanted:
        raise Lost(f"{what}: {str(found)[:300]} in place of {str(wanted)[:300]}")


def padded(text):
    """A message as digits."""
    return text.encode().ljust(SIZES.width, b"\0").hex()


class Fate:
    """What befalls clients: the process that runs when the n-th connection from now is made is killed, with the first byte
    `up` to the server, before it has its frame, or `down` from it, when all is done there."""

    def __init__(self, home):
        self.home, self.lock = home, threading.Lock()
        self.left, self.way, self.dials = None, None, 0

    def set(self, connection, way):
        with self.lock:
            self.left, self.way, self.dials = connection, way, 0

    def plan(self):
        with self.lock:
            self.dials += 1
            if self.left is None or self.dials != self.left:
                return cutting.Plan()
            self.left = None
            return cutting.Plan(**{self.way: 1}, at_cut=self.kill)

    def kill(self):
        with open(os.path.join(self.home, "pid")) as file:
            os.kill(int(file.read()), signal.SIGKILL)

    def has_come(self):
        want("how many clients are still to be killed", self.left, None)


class Room:
    """A folder with both servers, and a terminal of people who use them."""

    def __init__(self, path, folder):
        self.path, self.folder, self.home = path, folder, os.path.join(folder, "home")
        self.top = os.path.join(folder, "top")
        self.lay_out()
        ports = processes.lasting_ports(2)
        self.servers = {}
        for role, port in zip(("helper", "leader"), ports):
            os.mkdir(os.path.join(folder, role))
            self.servers[role] = processes.Server(path, role, port, ports[0], SIZES, 1000000, os.path.join(folder, role))
        self.fate = Fate(self.home)
        self.helper, self.leader = (cutting.Proxy(port, self.fate.plan).port for port in ports)
        self.terminal = None

    def lay_out(self):
        """What the lines find at the top of the sources, with a program that something may befall."""
        os.makedirs(self.home)
        os.makedirs(os.path.join(self.top, "bin"))
        shutil.copytree(os.path.join(processes.TOP, "examples"), os.path.join(self.top, "examples"))
        with open(os.path.join(self.top, "bin", "express"), "w") as file:
            file.write(WRAPPER.format(self.path))
        os.chmod(file.name, 0o755)

    def __enter__(self):
        for server in self.servers.values():
            server.start()
        self.terminal = subprocess.Popen(["bash", "--norc"], cwd=self.top, env={**os.environ, "HOME": self.home},
                                         stdin=subprocess.PIPE, stdout=subprocess.PIPE, stderr=subprocess.STDOUT, text=True)
        return self

    def __exit__(self, *_):
        self.terminal.kill()
        self.terminal.wait()
        for server in self.servers.values():
            server.stop()

    def type(self, lines):
        """Types lines in the terminal, with the ports of this room in them, and gives what is shown."""
        lines = lines.replace("127.0.0.1:7001", f"127.0.0.1:{self.leader}")
        lines = lines.replace("127.0.0.1:7000", f"127.0.0.1:{self.helper}")
        watch = threading.Timer(MOST_SECONDS, self.terminal.kill)
        watch.start()
        self.terminal.stdin.write(lines + "\necho; echo typed-$?\n")
        self.terminal.stdin.flush()
        shown = []
        for line in self.terminal.stdout:
            if line.startswith("typed-"):
                watch.cancel()
                return shown[:-1]
            shown.append(line.rstrip("\n"))
        raise Lost(f"the terminal ended at {lines!r} and showed {shown}")

    def place(self, name):
        return os.path.join(self.home, "mine", name)

    def may_write(self, kilobytes=None):
        """How much clients may write to a file from now on; at first as much as they want."""
        place = os.path.join(self.home, "limit")
        if kilobytes is not None:
            with open(place, "w") as file:
                file.write(str(kilobytes))
        elif os.path.exists(place):
            os.remove(place)

    def read(self, name):
        """The whole lines of a file that people made."""
        with open(self.place(name), encoding="ascii") as file:
            return [line[:-1] for line in file if line.endswith("\n")]

    def write(self, name, text):
        os.makedirs(self.place(""), 0o700, exist_ok=True)
        with open(self.place(name), "w", encoding="ascii") as file:
            file.write(text)

    def settings(self, lane, serial, owned, requests):
        seed = f"{lane + 1:064x}"
        return processes.client_settings(self.leader, self.helper, SIZES, lane, seed, serial, owned, requests)

    def client(self, lane, serial, owned, requests):
        """What a client prints of requests, with nothing that befalls it."""
        return processes.Client(self.path, self.settings(lane, serial, owned, requests)).lines()[0]


def in_room(path, work):
    """Does work in a room of its own."""
    with tempfile.TemporaryDirectory() as folder, Room(path, folder) as room:
        work(room)
