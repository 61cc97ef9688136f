"""An operator of one server of a built pair of `express-server`, beside people with the built program: what it has of its
own log and its end of the link, where frames go in packets, and an accomplice who has no ticket of the writer's."""

import hashlib
import os
import random
import socket
import struct
import threading

import audit
import journals
import operators
import plain
import processes
import ticketed
from operators import OWNER, ROLES, SIZES, TEXT, Frame

FRAME = 2  # the tag of a frame's packet
NOT_YOURS = 409
STRANGERS = 6
PAIR_SIZES = processes.Sizes(SIZES.width, SIZES.boxes, 1 + STRANGERS, SIZES.window)


class PacketTap:
    """The operator's own end of the link, as operators.Tap: what goes on in place of a frame; other packets go on as they
    are."""

    def __init__(self, helper_port, change, answer):
        self.helper_port, self.change, self.answer = helper_port, change, answer
        self.commands, self.replies = [], []
        self.door = socket.create_server(("127.0.0.1", 0), backlog=64)
        self.port = self.door.getsockname()[1]
        threading.Thread(target=self.serve, daemon=True).start()

    def serve(self):
        while True:
            near, _ = self.door.accept()
            try:
                far = socket.create_connection(("127.0.0.1", self.helper_port))
            except OSError:
                near.close()
                continue
            for source, target, kept, take in ((near, far, self.commands, self.change),
                                               (far, near, self.replies, self.answer)):
                threading.Thread(target=self.hand_on, args=(source, target, kept, take), daemon=True).start()

    def hand_on(self, source, target, kept, take):
        try:
            with source.makefile("rb") as reader:
                while record := record_from(reader):
                    for other in self.changed(record, kept, take):
                        target.sendall(struct.pack(">H", len(other)) + other)
            target.shutdown(socket.SHUT_WR)
        except OSError:
            pass  # whoever is at the other end sees that the connection is gone

    def changed(self, record, kept, take):
        if record[0] != FRAME:
            return [record]
        frame = Frame(record[1:])
        kept.append(frame)
        return [bytes([FRAME]) + other.content for other in take(frame)]


def record_from(reader):
    """The record of the next packet, or None at the end."""
    head = reader.read(2)
    if len(head) < 2:
        return None
    return reader.read(struct.unpack(">H", head)[0])


class TicketedRun(operators.Run):
    """A fresh pair with registered boxes, and one write under a lease to one of them."""

    def __init__(self, programs, room, viewer, attack):
        self.express, self.viewer, self.room, self.tap = programs[0], viewer, room, None
        self.attack = attack
        self.pair = ticketed.Pair(programs[1], room, PAIR_SIZES, 1, self.between)
        self.ports, self.owner = self.pair.ports, ticketed.Client(programs[0], self.pair.keys, OWNER)
        self.addresses = [processes.digits(16) for _ in range(SIZES.boxes)]
        self.target = random.choice(self.addresses)
        self.sent, self.second, self.writer = None, None, None
        self.lines, self.wrote = [], threading.Event()
        self.statuses = []  # what the accomplice's frames were answered with

    def between(self, link):
        """The tap's port, in front of the helper's door for its leader."""
        self.tap = PacketTap(link, lambda frame: self.attack.change(self, frame),
                             lambda frame: self.attack.answer(self, frame))
        return self.tap.port

    def start(self):
        self.pair.start()

    def register(self):
        requests = [processes.register(address) for address in self.addresses]
        told = ticketed.outcomes(self.owner, self.pair, 1, requests)
        if not all(outcome and outcome.startswith("registered ") for outcome in told):
            raise plain.Differs(f"the owner's registers: {told}")

    def write(self, patience=5):
        """The writer's client, which may wait in vain for an answer."""
        tickets, self.writer, serial = ticketed.lease(self.pair)
        bridge = ticketed.Bridge(self.pair, tickets)
        client = ticketed.begin(ticketed.Client(self.express, tickets, self.writer), bridge, serial,
                                [processes.write(self.target, TEXT.hex())])
        watch = threading.Timer(patience, client.process.kill)
        watch.start()
        self.lines, _ = client.lines()
        watch.cancel()
        bridge.close()
        self.wrote.set()

    def stop(self):
        self.pair.kill()

    # -- what the operator has

    def journal(self):
        return journals.frames(os.path.join(self.room, self.role()), ticketed.LOG)

    def ask(self, role, content):
        """An accomplice has the frame, and may know the statement of a proof, but not the ticket."""
        path, body = "/frame", random.randbytes(16)
        if content[5] == operators.PROOF:
            path, body = "/proof", body + self.statement()
        self.statuses.append(ticketed.post(self.ports[role], path, body + content)[0])
        return None

    def check(self):
        """Raises Differs where a frame was taken without its ticket, or an accomplice came in the way of a write."""
        if self.attack.accomplice is None:
            return
        if set(self.statuses) != {NOT_YOURS}:
            raise plain.Differs(f"the accomplice's frames were answered with {self.statuses}")
        if self.told() != "accepted":
            raise plain.Differs(f"beside the accomplice's frames the writer is told {self.told()}")

    def statement(self):
        """The hash of what a proof of the write is a proof of, where the operator has both halves of the key already."""
        begin = self.command(operators.LINK_BEGIN)
        begun = begin and self.reply_to(begin.number)
        if not begun:
            return random.randbytes(32)
        key = audit.xor(begin.body[: operators.DRAW], begun.body[4:36])
        return hashlib.sha256(key + begin.body[operators.DRAW :]).digest()
