"""A pair of `express-server` on loopback, and clients of the built program at it: a bridge speaks HTTP and puts each client's
tickets to its frames."""

import hashlib
import http.client
import os
import random
import re
import socket
import struct
import subprocess
import threading
import time

import journals
import plain
import processes
import scheduled
from operators import HEADER, PROOF, ROLES, WRITE, frame_from

SERVER = os.path.join(processes.TOP, "crates/express_server/out/express_server")
LOG = "express-server.log"
OWNER = 0  # the lane of an owner, which has a key at each server
CHALLENGE = 7
STATUS = (r"serving (?P<seconds>\d+) seconds, link (?P<link>up|down), links (?P<links>\d+), clients (?P<clients>\d+), "
          r"dropped (?P<dropped>\d+), closed (?P<closed>\d+), frames (?P<frames>\d+), rounds (?P<rounds>\d+), "
          r"batches (?P<batches>\d+), largest (?P<largest>\d+), log (?P<log>\d+) bytes, boxes (?P<boxes>\d+), "
          r"lanes (?P<lanes>\d+), leases (?P<leases>\d+), outstanding (?P<outstanding>\d+)\n")
OCTETS = {"Content-Type": "application/octet-stream"}
PATIENCE = 600  # seconds for an answer before it counts as one that never comes


class Refused(Exception):
    """A server answered with another status than 200."""


def post(port, path, body, patience=PATIENCE):
    """The status and the body of an answer."""
    door = http.client.HTTPConnection("127.0.0.1", port, timeout=patience)
    try:
        door.request("POST", path, body, OCTETS)
        answer = door.getresponse()
        return answer.status, answer.read()
    finally:
        door.close()


class Pair:
    """Two servers in folders of their own, with the keys of an owner's lane. The leader dials its helper, or whoever stands
    between. `front` has the words by role that a server's own are put behind when it starts. With a seed, the servers have
    those of its schedules, and else draw theirs."""

    def __init__(self, path, room, sizes, owners, between=None, places=1024, seed=None):
        self.path, self.room, self.sizes, self.owners, self.places = path, room, sizes, owners, places
        *doors, self.link = processes.lasting_ports(5)
        self.ports = dict(zip(ROLES, doors))
        self.statuses = dict(zip(ROLES, doors[len(ROLES):]))
        self.dialled = between(self.link) if between else self.link
        self.running, self.keys, self.front = {}, {}, {}
        for role in ROLES:
            os.mkdir(os.path.join(room, role))
            with open(self.settings(role), "w", encoding="ascii") as file:
                file.write(self.text(role))
            if seed is not None:
                scheduled.begin_log(os.path.join(room, role, LOG), role, sizes, owners, seed)
            line = self.says("owner", self.settings(role), str(OWNER))
            self.keys[role] = bytes.fromhex(line.split()[-1])

    def settings(self, role):
        return os.path.join(self.room, role + ".toml")

    def text(self, role):
        return f"""role = "{role}"
width = {self.sizes.width}
boxes = {self.sizes.boxes}
owners = {self.owners}
strangers = {self.sizes.lanes - self.owners}
window = {self.sizes.window}
clients = "127.0.0.1:{self.ports[role]}"
link = "127.0.0.1:{self.dialled if role == "leader" else self.link}"
status = "127.0.0.1:{self.statuses[role]}"
folder = "{os.path.join(self.room, role)}"
places = {self.places}
"""

    def says(self, *words):
        """What the program prints for these words, where it ends well."""
        run = subprocess.run([self.path, *words], capture_output=True, text=True, timeout=PATIENCE)
        if run.returncode != 0:
            raise plain.Differs(f"{words} ended with status {run.returncode} and {run.stdout!r}")
        return run.stdout

    def start(self, roles=tuple(reversed(ROLES))):
        for role in roles:
            self.begin(role)
        for role in roles:
            self.wait_until_started(role)

    def begin(self, role):
        """Starts a server's process."""
        command = [*self.front.get(role, ()), self.path, "run", self.settings(role)]
        self.running[role] = subprocess.Popen(command, stdout=subprocess.PIPE, text=True)

    def wait_until_started(self, role):
        line = self.running[role].stdout.readline()
        if not line.startswith(f"started as {role}"):
            raise plain.Differs(f"the {role} says {line!r}")

    def kill(self, roles=ROLES):
        for run in [self.running.pop(role) for role in roles if role in self.running]:
            run.kill()
            run.wait()
            run.stdout.close()

    def ended(self, role):
        """What a server that ends by itself says at last, and its status."""
        run = self.running.pop(role)
        line = run.stdout.read().strip().rpartition("\n")[2]
        run.stdout.close()
        return line, run.wait(timeout=PATIENCE)

    def stands(self, role):
        """A server's line, by the program's own word: its figures by their names, and whether the link stands. None where
        no server is there."""
        run = subprocess.run([self.path, "status", self.settings(role)], capture_output=True, text=True, timeout=PATIENCE)
        if run.returncode == 8:
            return None
        line = re.fullmatch(STATUS, run.stdout)
        if run.returncode or not line:
            raise plain.Differs(f"the {role}'s status ended with {run.returncode} and {run.stdout!r}")
        return {name: int(value) if value.isdigit() else value for name, value in line.groupdict().items()}


class Bridge:
    """A client's two tickets, and doors for its program: what comes there goes to the servers with them."""

    def __init__(self, pair, tickets):
        self.pair, self.tickets, self.part, self.key = pair, tickets, b"", b""
        self.doors = {role: socket.create_server(("127.0.0.1", 0), backlog=16) for role in ROLES}
        for role in ROLES:
            threading.Thread(target=self.serve, args=(role,), daemon=True).start()

    def port(self, role):
        return self.doors[role].getsockname()[1]

    def close(self):
        for door in self.doors.values():
            door.close()

    def serve(self, role):
        while True:
            try:
                door, _ = self.doors[role].accept()
            except OSError:
                return
            threading.Thread(target=self.hand_on, args=(role, door), daemon=True).start()

    def hand_on(self, role, door):
        with door, door.makefile("rb") as reader:
            while frame := frame_from(reader):
                try:
                    door.sendall(self.answer(role, frame))
                except (OSError, http.client.HTTPException, Refused):
                    return  # the program at the door sees a connection that ended

    def answer(self, role, frame):
        if frame.kind == WRITE:
            self.part = frame.body[16:]
        path, body = "/frame", self.tickets[role]
        if frame.kind == PROOF:
            path, body = "/proof", body + hashlib.sha256(self.key + self.part).digest()
        status, reply = post(self.pair.ports[role], path, body + frame.content)
        if status != 200:
            raise Refused(status)
        if reply[5] == CHALLENGE:
            self.key = reply[HEADER:]
        return reply


class Client:
    """A client's program, its seed, its tickets at both servers, and its lane."""

    def __init__(self, express, tickets, lane):
        self.express, self.tickets, self.lane, self.seed = express, tickets, lane, processes.digits(32)


def begin(client, bridge, serial, requests, owned=()):
    """A client's process."""
    settings = processes.client_settings(bridge.port("leader"), bridge.port("helper"), bridge.pair.sizes, client.lane,
                                         client.seed, serial, owned, requests)
    return processes.Client(client.express, settings)


def was_accepted(pair, lane, serial):
    """Whether the leader's log says that a write was accepted. Where its answer was lost with a server that was killed, each
    process that repeats it is stopped for an answer."""
    return any((frame.lane, frame.serial) == (lane, serial) and frame.body[0] == journals.ACCEPTED
               for frame in journals.frames(os.path.join(pair.room, ROLES[0]), LOG)
               if not frame.is_clients and frame.kind == journals.REPLY)


def outcomes(client, pair, serial, requests, owned=()):
    """What becomes of a client's requests. One whose connection ended is sent again by a new process."""
    told = []
    bridge = Bridge(pair, client.tickets)
    for place, request in enumerate(requests):
        for _ in range(100):
            lines = begin(client, bridge, serial + place, [request], owned).lines()
            outcome = plain.outcome_of(*lines)
            if plain.stop_of(*lines) == "answer" and was_accepted(pair, client.lane, serial + place):
                outcome = "accepted"
            if outcome is not None:
                break
            time.sleep(0.2)
        told.append(outcome)
    bridge.close()
    return told


def lease(pair):
    """A stranger's tickets, and the lane and serial of its lease."""
    tickets = {role: random.randbytes(16) for role in ROLES}
    for _ in range(600):
        try:
            status, body = post(pair.ports["leader"], "/lease",
                                tickets["leader"] + hashlib.sha256(tickets["helper"]).digest())
        except (OSError, http.client.HTTPException):
            status, body = None, b""
        if status == 200:
            return tickets, *struct.unpack(">HI", body)
        time.sleep(0.2)
    raise plain.Differs("no lane is leased")
