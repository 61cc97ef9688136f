"""The schedule that the logs of a pair of `express-server` are: which of their records a gate hands to its core,
in one order in which each frame of the link was written before it came, and at which place of a schedule's pool
it stands. What is written here follows docs/PROTOCOL.md and docs/FRAMES.md, without the frames' content; whether
it is right, `express replay` says. A schedule's servers have seeds that come of its own, so a log that is to be
replayed is begun with one of these."""

import collections
import os
import struct
import subprocess

import audit
import journals
import plain
from journals import BEGUN, CLIENT, LINK_BEGIN, LINK_READ, LINK_REGISTER, LINK_RETIRE, REPLY, SERVER

ROLES = ("leader", "helper")
OPENING = struct.Struct(">BBIIHB32sBHH")  # of a server and then of its gate, each behind its tag
SERVER_TAG, GATE_TAG = 0, 16
KEY, LEASE, ASK = 17, 19, 20  # tags of a gate's records
SEEDS = {"leader": 0, "helper": 257}  # which draw of a schedule's seed is the seed of a server
REGISTER, WRITE, READ, PROOF, RETIRE = 2, 3, 4, 5, 16  # kinds of frames
LINK_AUDIT, LINK_SETTLE = 12, 13
COMMANDS = (LINK_REGISTER, LINK_BEGIN, LINK_AUDIT, LINK_SETTLE, LINK_READ, LINK_RETIRE)
COMMAND_OF = {REGISTER: LINK_REGISTER, WRITE: LINK_BEGIN, READ: LINK_READ, RETIRE: LINK_RETIRE, PROOF: LINK_AUDIT}
WANTED = {REGISTER: "register", WRITE: "write", READ: "read", RETIRE: "read"}
AUDITED = 3  # the tag of a reply
DRAW, ROOT, WORD = 32, 16, 16  # bytes
LAST_SERIAL = 2**32 - 1
MOST_LINES = 20000  # of a schedule, behind its first


def server_seed(seed, role):
    return audit.stream_bytes(seed, SEEDS[role], 0, 32)


def begin_log(path, role, sizes, owners, seed):
    """Writes a log with nothing but its opening, for a server as a schedule of this seed has it."""
    record = OPENING.pack(SERVER_TAG, ROLES.index(role), sizes.width, sizes.boxes, sizes.lanes, sizes.window,
                          server_seed(seed, role), GATE_TAG, owners, sizes.lanes - owners)
    with open(path, "xb", opener=lambda name, flags: os.open(name, flags, 0o600)) as file:
        file.write(struct.pack(">BI", 1, len(record)) + record + b"\0")


class Opening:
    """A log's first record."""

    def __init__(self, record):
        if len(record) != OPENING.size:
            raise plain.Differs("a log doesn't begin with the opening of a server behind its gate")
        _, role, *self.sizes, self.seed, _, self.owners, _ = OPENING.unpack(record)
        self.role, (self.width, _, self.lanes, self.window) = ROLES[role], self.sizes


# -- the gates

class Gate:
    """Of which lanes and serials somebody may send frames."""

    def __init__(self, opening):
        self.keys, self.given = set(), 0
        # the last serial of a strangers' lane, and which of all leases it was
        self.strangers = {lane: (0, 0) for lane in range(opening.owners, opening.lanes)}

    def is_open(self, frame):
        serial, number = self.strangers.get(frame.lane, (0, 0))
        return frame.lane in self.keys or (number > 0 and frame.serial == serial)

    def lease(self, lane, serial):
        if lane in self.strangers and serial > self.strangers[lane][0]:
            self.given += 1
            self.strangers[lane] = serial, self.given

    def longest_rested(self):
        """The strangers' lane with a serial left that was leased longest ago, and its next serial."""
        left = [(number, lane) for lane, (serial, number) in self.strangers.items() if serial < LAST_SERIAL]
        return (min(left)[1], self.strangers[min(left)[1]][0] + 1) if left else None

    @staticmethod
    def passes_link(frame):
        """A command, but no audit at the point 1 or 2."""
        point = int.from_bytes(frame.body[:WORD], "little")
        return frame.kind in COMMANDS and not (frame.kind == LINK_AUDIT and point in (1, 2))


# -- the leader's rows and its link, without content

IDLE, WAITING, CHALLENGED, AUDITING, DONE = range(5)  # stages of a row
REPLIES, ISSUES, WAITS, IGNORES = range(4)  # what a frame comes to: a reply, a command, or nothing


class Row:
    def __init__(self, serial=0, wants=None, stage=IDLE):
        self.serial, self.wants, self.stage = serial, wants, stage

    def is_busy(self):
        return self.stage in (WAITING, AUDITING)


class Leader:
    """What frames come to at the leader. `carried` are the commands that the helper's log has, by number: so it is
    known which of the frames were issued and which refused for their content."""

    def __init__(self, opening, carried):
        self.opening, self.carried = opening, carried
        self.rows, self.outstanding, self.issued = collections.defaultdict(Row), collections.deque(), 0

    def issue(self, frame):
        self.issued += 1
        self.outstanding.append((self.issued, frame.lane, frame.serial))

    def is_issued(self, frame):
        if len(self.outstanding) >= self.opening.window:
            return False
        command = self.carried.get(self.issued + 1)
        return command is None or is_command_of(command, frame)

    def hear(self, frame):
        """What a client's frame comes to."""
        row, wants = self.rows[frame.lane], WANTED.get(frame.kind)
        if frame.kind == PROOF:
            return self.prove(row, frame)
        if wants is None or (frame.kind == WRITE and len(frame.body) != 2080 + self.opening.width):
            return REPLIES
        if (frame.serial, wants) == (row.serial, row.wants):
            return WAITS if row.is_busy() else REPLIES
        if frame.serial <= row.serial or row.is_busy() or not self.is_issued(frame):
            return REPLIES
        self.rows[frame.lane] = Row(frame.serial, wants, WAITING)
        self.issue(frame)
        return ISSUES

    def prove(self, row, frame):
        if (frame.serial, "write") != (row.serial, row.wants):
            return REPLIES
        if row.stage == CHALLENGED and self.is_issued(frame):
            row.stage = AUDITING
            self.issue(frame)
            return ISSUES
        return WAITS if row.stage == AUDITING else REPLIES

    def acknowledge(self, frame):
        """What a frame of the helper comes to."""
        if not self.outstanding or self.outstanding[0] != (frame.number, frame.lane, frame.serial):
            return IGNORES
        self.outstanding.popleft()
        if frame.kind == REPLY and frame.body[0] == AUDITED:
            self.issue(frame)
            return ISSUES
        self.rows[frame.lane].stage = CHALLENGED if frame.kind == BEGUN else DONE
        return REPLIES


def is_command_of(command, frame):
    """Whether the leader issues this command at this frame of a client."""
    if (command.lane, command.serial, command.kind) != (frame.lane, frame.serial, COMMAND_OF[frame.kind]):
        return False
    if frame.kind == WRITE:
        return command.body[DRAW:] == frame.body[ROOT:]
    return frame.kind == PROOF or frame.body.startswith(command.body)


# -- the schedule

class Schedule:
    """Events of a schedule, and how many frames its pool has."""

    def __init__(self):
        self.lines, self.pooled = [], 0

    def put(self):
        """The place of a frame that a server writes."""
        self.pooled += 1
        return self.pooled - 1

    def deliver(self, place):
        self.lines.append(f"deliver {place}")

    def inject(self, role, frame):
        """A client's frame comes to a server."""
        self.lines.append(f"inject {'AB'[ROLES.index(role)]} {frame.content.hex()}")
        self.deliver(self.put())


class Answer:
    """A client's frame, and the place in the pool of what it is answered; None where no answer has come."""

    def __init__(self, frame):
        self.frame, self.place = frame, None


class Reading:
    """Two logs, read in one order, and the schedule that they are. `linked` has each frame of the link as a log has
    it, with its place in the pool; `answers` those of clients by server; `leases` each ask for a lease by both
    hashes, with lane and serial of what was leased."""

    def __init__(self, folders, name):
        records = {role: collections.deque(record for _, record in journals.records(folders[role], name))
                   for role in ROLES}
        self.openings = {role: Opening(records[role].popleft()) for role in ROLES}
        if [self.openings[role].role for role in ROLES] != list(ROLES):
            raise plain.Differs("these aren't the logs of a leader and of a helper")
        self.records, self.schedule = records, Schedule()
        self.gates = {role: Gate(self.openings[role]) for role in ROLES}
        self.leader = Leader(self.openings["leader"], commands_in(records["helper"]))
        self.window, self.carried = self.openings["helper"].window, 0
        self.written = {role: {} for role in ROLES}  # the places of frames of the link, by number, and who wrote them
        self.waiting = collections.defaultdict(list)  # answers that a lane still waits for
        self.linked, self.leases, self.answers = [], [], {role: [] for role in ROLES}
        self.read()

    def header(self, seed):
        """The first line of the schedule, if the servers' seeds come of this one."""
        for role in ROLES:
            if self.openings[role].seed != server_seed(seed, role):
                raise plain.Differs(f"the {role}'s seed isn't that of a schedule of this seed")
        if self.openings["leader"].sizes != self.openings["helper"].sizes:
            raise plain.Differs("the servers have other sizes")
        return " ".join(map(str, ("express 1", *self.openings["leader"].sizes, seed.hex())))

    # -- the order

    def read(self):
        """Each record is taken once the other server had written it."""
        left = None
        while left != (left := sum(map(len, self.records.values()))):
            for role in reversed(ROLES):
                while self.records[role] and self.has_come(role, self.records[role][0]):
                    self.take(role, self.records[role].popleft())
        if left:
            raise plain.Differs(f"{left} records are left, whose frames of the link the other server hasn't written")

    def has_come(self, role, record):
        frame = frame_of(record)
        if frame is None or frame.is_clients or not self.is_passed(role, frame):
            return True
        return frame.number in self.written[ROLES[1 - ROLES.index(role)]]

    @staticmethod
    def is_passed(role, frame):
        return role == "leader" or Gate.passes_link(frame)

    def take(self, role, record):
        frame, gate = frame_of(record), self.gates[role]
        if frame is None:
            self.take_note(role, record)
        elif frame.is_clients:
            if gate.is_open(frame):
                self.schedule.inject(role, frame)
                self.hear(role, frame)
        elif self.is_passed(role, frame):
            place = self.written[ROLES[1 - ROLES.index(role)]][frame.number]
            self.linked.append((role, place, frame))
            self.schedule.deliver(place)
            self.acknowledge(frame) if role == "leader" else self.carry_out(frame)

    # -- what gates take

    def take_note(self, role, record):
        tag, lane = record[0], int.from_bytes(record[1:3], "big")
        if tag == KEY:
            self.gates[role].keys.add(lane)
        elif tag == LEASE:
            self.gates[role].lease(lane, int.from_bytes(record[3:7], "big"))
        elif tag == ASK:
            self.lease(record[1:])

    def lease(self, hashes):
        """The leader leases the lane that has rested longest, if nothing of it is under way."""
        found = self.gates["leader"].longest_rested()
        if found and not self.leader.rows[found[0]].is_busy():
            self.gates["leader"].lease(*found)
            self.leases.append((hashes, found))

    # -- what cores take

    def hear(self, role, frame):
        answer = Answer(frame)
        self.answers[role].append(answer)
        came_to = self.leader.hear(frame) if role == "leader" else REPLIES
        if came_to == REPLIES:
            answer.place = self.schedule.put()
        else:
            self.waiting[frame.lane].append(answer)
        if came_to == ISSUES:
            self.written["leader"][self.leader.issued] = self.schedule.put()

    def acknowledge(self, frame):
        """The helper's frame comes to the leader: whoever waits for the lane is answered."""
        came_to = self.leader.acknowledge(frame)
        if came_to == ISSUES:
            self.written["leader"][self.leader.issued] = self.schedule.put()
        elif came_to == REPLIES:
            place = self.schedule.put()
            for answer in self.waiting.pop(frame.lane, []):
                answer.place = place

    def carry_out(self, command):
        """The helper carries the next command out; one of those before gets its reply again, which is the same."""
        if command.number == self.carried + 1:
            self.carried += 1
            self.written["helper"][command.number] = self.schedule.put()
        elif self.carried - self.window < command.number <= self.carried:
            self.schedule.put()


def frame_of(record):
    """The frame of a record; None where it has none."""
    return journals.Frame(0, record[0], record[1:]) if record[0] in (CLIENT, SERVER) else None


def commands_in(records):
    """The leader's commands of the helper's records, by number."""
    found = {}
    for frame in map(frame_of, records):
        if frame is not None and not frame.is_clients:
            found.setdefault(frame.number, frame)
    return found


# -- what express replays of it

class Replayed:
    """What `express replay` prints of two logs: the frames of the pool that are asked for, by place; each box's
    address and both shares; lanes and serials of the writes that were accepted, in order."""

    def __init__(self, program, reading, seed, places=()):
        self.frames, self.lines = {}, None
        header, places = reading.header(seed), sorted(set(places))
        room = MOST_LINES - len(reading.schedule.lines)
        if room < min(len(places), 1):
            raise plain.Differs(f"a schedule of {len(reading.schedule.lines)} lines, where {MOST_LINES} are the most")
        for start in range(0, max(len(places), 1), max(room, 1)):
            shows = [f"show {place}" for place in places[start:start + room]]
            self.replay(program, "\n".join([header, *reading.schedule.lines, *shows]) + "\n")
        self.shares = [line.split()[1:] for line in self.lines if line.startswith("share ")]
        self.accepted = [tuple(map(int, line.split()[1:3])) for line in self.lines if " settle accepted " in line]

    def replay(self, program, schedule):
        done = subprocess.run([program, "replay"], input=schedule, stdout=subprocess.PIPE, text=True, check=False)
        *lines, end = done.stdout.splitlines() or [""]
        if done.returncode != 0 or end != "end":
            raise plain.Differs(f"a replay ended with status {done.returncode} and {end!r}")
        shown = [line.split() for line in lines if line.startswith("frame ")]
        self.frames.update((int(place), bytes.fromhex(digits)) for _, place, digits in shown)
        lines = [line for line in lines if not line.startswith("frame ")]
        if self.lines not in (None, lines):
            raise plain.Differs("two replays of one schedule aren't the same")
        self.lines = lines


def read_logs(room, name):
    """The reading of the logs in the folders `leader` and `helper`."""
    return Reading({role: os.path.join(room, role) for role in ROLES}, name)
