"""Many clients at once, by bench/load.c, which is built first; and pairs of servers for them, of `serve`, of
`keep` and of `express-server`, whose boxes an owner registers and reads."""

import contextlib
import os
import subprocess

import plain
import processes
import ticketed
from operators import ROLES

FLAGS = ("-std=gnu11", "-O3", "-Wall", "-pthread")
OWNER = 0
CONNECTIONS = 1000000  # of a server without tickets, until it ends
READ = 64  # boxes that are written to, and read at last


def build(room):
    """The program, built in a folder of the caller's."""
    path = os.path.join(room, "load")
    source = os.path.join(processes.TOP, "bench/load.c")
    try:
        subprocess.run([os.environ.get("CC", "cc"), *FLAGS, "-o", path, source], check=True)
    except (OSError, subprocess.CalledProcessError) as fault:
        raise plain.Differs(f"no program is made of bench/load.c: {fault}") from fault
    return path


class Told:
    """What a run of clients told."""

    def __init__(self, text):
        self.accepted, self.unknown, self.sums, self.times, self.counts = [], [], {}, {}, {}
        for line in text.splitlines():
            name, *words = line.split()
            if name == "accepted":
                self.accepted.append(tuple(map(int, words)))
            elif name == "unknown":
                self.unknown.append((*map(int, words[:3]), *words[3:]))
            elif name == "sum":
                self.sums[int(words[0])] = int(words[1], 16)
            elif len(words) == 4:
                self.times[name] = [int(words[0]), *(int(word) / 1000 for word in words[1:])]
            else:
                self.counts[name] = int(words[0])

    def rate(self):
        """Writes a second."""
        return 1000 * len(self.accepted) / self.counts["milliseconds"]

    def ended(self):
        """What didn't go as it should, in words; nothing where all went well."""
        fates = sorted({fate for *_, fate, _ in self.unknown})
        return ", ".join(f"{count} {what}" for count, what in (
            (self.counts["failed"], "leases failed"),
            (len(self.unknown), f"writes ended with {' '.join(fates)}")) if count)


class Clients:
    """Clients of one pair, whose boxes have these addresses."""

    def __init__(self, program, wire, ports, width, addresses):
        self.program, self.wire, self.addresses = program, wire, addresses
        self.words, self.width = [str(ports["leader"]), str(ports["helper"]), str(width)], width
        self.seed, self.lane = processes.digits(32), OWNER + 1

    def command(self, what, *words, wire=None):
        return [self.program, what, wire or self.wire, *self.words, *map(str, words)]

    def register(self, keys):
        """An owner registers each address, so that box and place in the list are one."""
        digits = "".join(keys[role].hex() for role in ROLES) if keys else "00" * 32
        self.run(self.command("register", OWNER, digits, self.seed, 0), self.addresses)

    def start(self, count, milliseconds, patience=0, pause=0, wire=None):
        """So many clients, that write for so long, each with a rest of `pause` milliseconds between two
        writes. Where lanes aren't leased, each has one of its own."""
        command = self.command("write", count, milliseconds, patience, pause, self.lane, wire=wire)
        self.lane += count
        process = subprocess.Popen(command, stdin=subprocess.PIPE, stdout=subprocess.PIPE, text=True)
        process.stdin.write("\n".join(self.addresses[:READ]) + "\n")
        process.stdin.close()
        return process

    def write(self, *words, **others):
        return told_of(self.start(*words, **others))

    @staticmethod
    def run(command, addresses):
        done = subprocess.run(command, input="\n".join(addresses) + "\n", stdout=subprocess.PIPE, text=True,
                              check=False)
        if done.returncode != 0:
            raise plain.Differs(f"{command[1]} ended with status {done.returncode}")
        return done.stdout

    def owned(self):
        """Boxes and serials that the owner's client reads by."""
        return [(box, box + 1) for box in range(len(self.addresses[:READ]))]


def told_of(process):
    text = process.stdout.read()
    process.stdout.close()
    if process.wait() != 0:
        raise plain.Differs(f"the clients ended with status {process.returncode}")
    return Told(text)


class Plain:
    """A pair of `serve` or `keep`, each on a connection a frame."""

    wire = "plain"

    def __init__(self, word, path, room, sizes):
        self.ports = dict(zip(ROLES, processes.lasting_ports(2)))
        self.path, self.sizes, self.servers = path, sizes, {}
        for role in ROLES:
            folder = os.path.join(room, role)
            os.mkdir(folder)
            self.servers[role] = processes.Server(path, role, self.ports[role], self.ports["helper"], sizes,
                                                  CONNECTIONS, folder if word == "keep" else None)
        self.keys = None

    def start(self):
        for role in reversed(ROLES):
            self.servers[role].start()

    def stop(self):
        for server in self.servers.values():
            server.stop()

    def pids(self):
        return {role: server.process.pid for role, server in self.servers.items()}

    def read(self, clients, serial):
        """What the owner's own program is told of each box, in order."""
        owned = clients.owned()
        requests = [processes.read(place) for place in range(len(owned))]
        settings = processes.client_settings(self.ports["leader"], self.ports["helper"], self.sizes, OWNER,
                                             clients.seed, serial, owned, requests)
        lines, _ = processes.Client(self.path, settings).lines()
        return [line.split(" ", 2)[2] for line in lines[:-1]]


class Ticketed:
    """A pair of `express-server`."""

    wire = "kept"

    def __init__(self, server, path, room, sizes, **others):
        self.pair, self.path = ticketed.Pair(server, room, sizes, 1, **others), path
        self.ports, self.keys = self.pair.ports, self.pair.keys

    def start(self):
        self.pair.start()

    def stop(self):
        self.pair.kill()

    def pids(self):
        return {role: process.pid for role, process in self.pair.running.items()}

    def read(self, clients, serial):
        owner = ticketed.Client(self.path, self.keys, OWNER)
        owner.seed = clients.seed
        requests = [processes.read(place) for place in range(len(clients.owned()))]
        return ticketed.outcomes(owner, self.pair, serial, requests, clients.owned())


@contextlib.contextmanager
def running(pair):
    try:
        pair.start()
        yield pair
    finally:
        pair.stop()


def registered(program, pair, sizes, boxes=None):
    """Clients of a pair that runs, whose owner has registered all boxes."""
    addresses = [processes.digits(16) for _ in range(boxes or sizes.boxes)]
    clients = Clients(program, pair.wire, pair.ports, sizes.width, addresses)
    clients.register(pair.keys)
    return clients


def differences(clients, pair, told):
    """The boxes that don't have what was accepted there, by the owner's own program."""
    read = pair.read(clients, len(clients.addresses) + 1)
    sums = [0] * len(read)
    for run in told:
        sums = [total ^ run.sums.get(box, 0) for box, total in enumerate(sums)]
    return [box for box, total in enumerate(sums) if read[box] != f"message {total:0{2 * clients.width}x}"]
