"""Servers and clients of the built program as processes on loopback, for the scripts in bench/ and examples/."""

import os
import random
import socket
import subprocess
import sys
import threading

TOP = os.path.dirname(os.path.dirname(os.path.abspath(__file__)))
PROGRAM = os.path.join(TOP, "crates/express/out/express")
LASTING = range(20000, 32000)  # ports that the system gives to no outgoing connection
PATIENCE = 3600  # seconds for a process to listen, or to come to its end, before it counts as one that hangs


class Sizes:
    """What servers and clients agree on."""

    def __init__(self, width, boxes, lanes, window):
        self.width, self.boxes, self.lanes, self.window = width, boxes, lanes, window


def explain(words, what):
    """What a script is, where that is asked for."""
    if "--help" in words:
        print(what)
        sys.exit(0)


def program(words):
    """The program that the words name, or the one that .ci/run left."""
    path = os.path.abspath(words[0]) if words else PROGRAM
    if not os.access(path, os.X_OK):
        sys.exit(f"there is no program {path}: .ci/run leaves the proved one, or name another")
    return path


def number(word, least, most):
    """The number that a word spells, or the end of the script where it spells none between these two."""
    if not (word.isascii() and word.isdecimal() and least <= int(word) <= most):
        sys.exit(f"{word} is no number from {least} to {most}")
    return int(word)


def free_port():
    with socket.socket() as door:
        door.bind(("127.0.0.1", 0))
        return door.getsockname()[1]


def is_free(port):
    with socket.socket() as door:
        try:
            door.bind(("127.0.0.1", port))
        except OSError:
            return False
    return True


def port_row(count):
    """The first of so many free ports one behind the other, of those below."""
    ports = random.sample(range(20000, 32000 - count), 1000)
    return next(port for port in ports if all(is_free(port + place) for place in range(count)))


def lasting_ports(count):
    """Free ports that the system gives to no outgoing connection, also while nobody listens there."""
    return [port for port in random.sample(LASTING, 1000) if is_free(port)][:count]


def digits(count):
    """Random bytes as hexadecimal digits, the same in each run of a script that seeds `random`."""
    return random.getrandbits(8 * count).to_bytes(count, "big").hex()


class NoServer(SystemExit):
    """A server doesn't listen: what it wrote in place of that, and its status."""

    def __init__(self, role, line, status):
        super().__init__(f"the {role} says {line!r} in place of that it listens, and ended with status {status}")
        self.line, self.status = line, status


class Server:
    """A server as a process. With a folder it is one with a journal, which stands there."""

    def __init__(self, path, role, port, peer, sizes, connections, folder=None):
        self.settings = f"""role = "{role}"
listen = "127.0.0.1:{port}"
peer = "127.0.0.1:{peer}"
width = {sizes.width}
boxes = {sizes.boxes}
lanes = {sizes.lanes}
window = {sizes.window}
connections = {connections}
"""
        self.command = [path, "keep" if folder else "serve"]
        self.role, self.port, self.folder, self.sizes, self.process = role, port, folder, sizes, None

    def start(self):
        """Starts it, and gives it back once it listens."""
        self.begin()
        self.wait_until_listens()
        return self

    def begin(self):
        """Starts the process, and hands it its settings."""
        self.process = subprocess.Popen(self.command, cwd=self.folder, stdin=subprocess.PIPE, stdout=subprocess.PIPE,
                                        text=True)
        self.process.stdin.write(self.settings)
        self.process.stdin.close()

    def wait_until_listens(self):
        """Raises NoServer where it says something else, or is killed since it takes too long."""
        watch = threading.Timer(PATIENCE, self.process.kill)
        watch.start()
        line = self.process.stdout.readline()
        status = None if line == "listening\n" else self.process.wait()
        watch.cancel()
        if status is not None:
            self.process.stdout.close()
            raise NoServer(self.role, line, status)

    def resident(self):
        """The KiB that it has in memory now, and the most that it had."""
        with open(f"/proc/{self.process.pid}/status") as status:
            lines = dict(line.split(":", 1) for line in status)
        return [int(lines[name].split()[0]) for name in ("VmRSS", "VmHWM")]

    def runs(self):
        return self.process is not None and self.process.poll() is None

    def last_line(self):
        """What it prints when a connection without a frame has ended it."""
        socket.create_connection(("127.0.0.1", self.port)).close()
        line = self.process.stdout.readline()
        self.process.wait(timeout=PATIENCE)
        return line

    def stop(self):
        """Kills it where it still runs."""
        if self.process is not None:
            self.process.kill()
            self.process.wait()
            self.process.stdout.close()


def client_settings(leader, helper, sizes, lane, seed, serial, owned, requests):
    """The text of a client's settings. A request is a list of pairs of key and value."""
    text = f"""lane = {lane}
leader = "127.0.0.1:{leader}"
helper = "127.0.0.1:{helper}"
width = {sizes.width}
boxes = {sizes.boxes}
serial = {serial}
seed = "{seed}"
"""
    for box, box_serial in owned:
        text += f"\n[[owned]]\nbox = {box}\nserial = {box_serial}\n"
    for request in requests:
        text += "\n[[request]]\n"
        for key, value in request:
            text += f'{key} = "{value}"\n' if isinstance(value, str) else f"{key} = {value}\n"
    return text


def register(address):
    return [("kind", "register"), ("address", address)]


def write(address, message):
    return [("kind", "write"), ("address", address), ("message", message)]


def read(own, kind="read"):
    return [("kind", kind), ("own", own)]


class Client:
    """A client as a process, with its settings on its standard input."""

    def __init__(self, path, settings):
        self.process = subprocess.Popen([path, "client"], stdin=subprocess.PIPE, stdout=subprocess.PIPE, text=True)
        self.process.stdin.write(settings)
        self.process.stdin.close()

    def lines(self):
        """The lines that it wrote until its end, and its status. It is killed where it takes too long."""
        watch = threading.Timer(PATIENCE, self.process.kill)
        watch.start()
        lines = self.process.stdout.read().splitlines()
        self.process.stdout.close()
        status = self.process.wait()
        watch.cancel()
        return lines, status
