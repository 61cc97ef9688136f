"""What stands in the journals of a pair of servers (docs/FRAMES.md): the requests of clients by lane and serial, and what
befell the boxes, which takes both journals."""

import collections
import os
import struct

import plain
import points

CLIENT, SERVER = 1, 2  # the tags of records: a client's frame, and one of the other server
LANE, SERIAL, NUMBER, BODY = 6, 8, 12, 20  # offsets in a frame
ROOT = 16  # bytes of a root
DEPOSIT, WRITE, LINK_REGISTER, LINK_BEGIN, LINK_SETTLE, LINK_READ, LINK_RETIRE = 1, 3, 10, 11, 13, 14, 17
REPLY, BEGUN = 15, 18  # the kinds of replies to the leader's commands
REGISTERED, ACCEPTED, MASKED = 1, 4, 6  # tags of a reply
OF_WRITE = 2  # the tag of a deposit
# The kinds of frames that begin a request at a server: what a lane's serial stands for.
BEGINNINGS = {"leader": (2, 3, 4, 16), "helper": (1,)}


class Frame:
    """A frame of a journal, and where its record begins."""

    def __init__(self, at, tag, content):
        self.at, self.is_clients, self.content, self.kind = at, tag == CLIENT, content, content[5]
        self.lane, = struct.unpack_from(">H", content, LANE)
        self.serial, = struct.unpack_from(">I", content, SERIAL)
        self.number, = struct.unpack_from(">Q", content, NUMBER)
        self.body = content[BODY:]


def path_of(folder, name="express.journal"):
    return os.path.join(folder, name)


def records(folder, name="express.journal"):
    """The records of the journal of this name in a folder, up to the first closed gate, each with its place."""
    with open(path_of(folder, name), "rb") as file:
        content = file.read()
    at = 0
    while at < len(content) and content[at] == 1:
        length, = struct.unpack_from(">I", content, at + 1)
        yield at, content[at + 5 : at + 5 + length]
        at += 5 + length


def frames(folder, name="express.journal"):
    """The frames among these records."""
    for at, record in records(folder, name):
        if record[0] in (CLIENT, SERVER):
            yield Frame(at, record[0], record[1:])


def requests(folder, role, name="express.journal"):
    """By lane and serial, the different frames that began a request there."""
    found = collections.defaultdict(set)
    for frame in frames(folder, name):
        if frame.is_clients and frame.kind in BEGINNINGS[role]:
            found[frame.lane, frame.serial].add(frame.content)
    return found


def used_twice(folder, role):
    """The lanes and serials that stand for two requests in the journal of this folder, and how many there are in all."""
    found = requests(folder, role)
    return [place for place, contents in found.items() if len(contents) > 1], len(found)


# -- what befell the boxes

class Write:
    """A write that was accepted: what it adds to the boxes that it changes, by their numbers."""

    def __init__(self, lane, serial, added):
        self.lane, self.serial, self.added = lane, serial, added


class Reading:
    """A box was read or retired: where the helper's journal has it, the writes since the last time, and what the box held,
    which is the sum of both servers' shares."""

    def __init__(self, box, at, writes, held):
        self.box, self.at, self.writes, self.held = box, at, writes, held


class Boxes:
    """The boxes of a pair of servers: their addresses by number, and in order the writes and readings. `inside` has what
    lies in each box behind the last of them."""

    def __init__(self):
        self.addresses, self.retired, self.writes, self.readings = [], set(), [], []
        self.inside = collections.defaultdict(list)
        self.rows, self.begun = {}, {}

    def register(self, command):
        self.addresses.append(int.from_bytes(command.body, "big"))

    def deposit(self, frame):
        """The helper's row has the first deposit of its lane's greatest serial."""
        if frame.lane not in self.rows or self.rows[frame.lane].serial < frame.serial:
            self.rows[frame.lane] = frame

    def begin(self, command, reply, submissions):
        """A write begins: which boxes it may change, its public part and its roots."""
        count, = struct.unpack_from(">I", reply.body)
        part, deposit = command.body[32:], self.rows[command.lane]
        root = submissions.get((command.lane, command.serial, part))
        if root is not None and deposit.serial == command.serial and deposit.body[0] == OF_WRITE:
            roots = [int.from_bytes(bytes_, "little") for bytes_ in (root, deposit.body[1 : 1 + ROOT])]
            self.begun[command.lane] = command.serial, count, part, roots

    def accept(self, command):
        """A write is accepted, and added to each live box that stood when it began."""
        serial, count, part, roots = self.begun.pop(command.lane, (None, 0, b"", []))
        if serial != command.serial:
            raise plain.Differs(f"lane {command.lane} settles serial {command.serial}, and {serial} began")
        sums = {box: points.sum_at(part, roots, self.addresses[box]) for box in range(count) if box not in self.retired}
        write = Write(command.lane, serial, {box: total for box, total in sums.items() if any(total)})
        self.writes.append(write)
        for box in write.added:
            self.inside[box].append(write)

    def read(self, command):
        box, = struct.unpack_from(">I", command.body)
        writes = self.inside.pop(box, [])
        self.readings.append(Reading(box, command.at, writes, self.sum_of(box, writes)))
        if command.kind == LINK_RETIRE:
            self.retired.add(box)

    @staticmethod
    def sum_of(box, writes):
        total = 0
        for write in writes:
            total ^= int.from_bytes(write.added[box], "big")
        return total.to_bytes(len(writes[0].added[box]) if writes else 0, "big")


def submissions(leader):
    """The leader's root of each write that was submitted, by lane, serial and public part."""
    return {(frame.lane, frame.serial, frame.body[ROOT:]): frame.body[:ROOT]
            for frame in frames(leader) if frame.is_clients and frame.kind == WRITE}


def replies(leader):
    """The first reply to each command, by its number."""
    found = {}
    for frame in frames(leader):
        if not frame.is_clients and frame.kind in (REPLY, BEGUN):
            found.setdefault(frame.number, frame)
    return found


def carry_out(boxes, command, reply, submitted):
    """A command that the helper carried out, and that came to this reply."""
    if command.kind == LINK_BEGIN and reply.kind == BEGUN:
        boxes.begin(command, reply, submitted)
    elif reply.kind != REPLY:
        return
    elif command.kind == LINK_REGISTER and reply.body[0] == REGISTERED:
        boxes.register(command)
    elif command.kind == LINK_SETTLE and reply.body[0] == ACCEPTED:
        boxes.accept(command)
    elif command.kind in (LINK_READ, LINK_RETIRE) and reply.body[0] == MASKED:
        boxes.read(command)


def boxes_of(leader, helper):
    """What befell the boxes, by the journals in both servers' folders. The helper carries commands out in the order of their
    numbers, each once. One whose reply hasn't come to the leader has changed nothing there."""
    boxes, answered, submitted, carried = Boxes(), replies(leader), submissions(leader), 0
    for frame in frames(helper):
        if frame.is_clients and frame.kind == DEPOSIT:
            boxes.deposit(frame)
        elif not frame.is_clients and frame.number == carried + 1:
            carried += 1
            if carried in answered:
                carry_out(boxes, frame, answered[carried], submitted)
    return boxes
